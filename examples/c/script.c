/* script: describes a script, analyses it, and lists it: each instruction with what its local (L0) and the stack hold
 * before it. docs/FORMATS.md explains the listing. The script counts until another chunk says that it is enough:
 *
 *     i = 0                      enough(i):
 *     loop                           return i >= 10
 *         if enough(i): break
 *         i = i + 1
 *     return i
 *
 * Ends with 0 where the script is accepted, 1 where it is refused, 2 where there is no room or no memory. */
#include "facts.h"
#include "facts_describe.h"
#include "facts_report.h"

#include <stdio.h>
#include <stdlib.h>

enum { ROOM = 1024, LIMIT = 1000000, MORE_WORDS = 1000 };

/* What the program ends with. */
enum { ACCEPTED, REFUSED, FAILED };

/* ---- The script ---- */

typedef struct {
    uint8_t number;
    const char *name;
    uint8_t taken, given;
    uint32_t a;
} Instruction;

typedef struct {
    const Instruction *instructions;
    size_t count;
} Code;

/* The instruction behind the Loop, and the one behind the EndLoop. */
enum { INSIDE = 3, BEHIND = 12 };

/* The chunk that says when it is enough, and the one local that both chunks have. */
enum { ENOUGH = 1, I = 0 };

static const Instruction counting[] = {
    {FACTS_OP_PUSH_IMMEDIATE, "PushImmediate", 0, 1, FACTS_IMMEDIATE_WORD + 0},
    {FACTS_OP_SET_LOCAL, "SetLocal", 1, 0, I},
    {FACTS_OP_LOOP, "Loop", 0, 0, BEHIND},
    {FACTS_OP_GET_LOCAL, "GetLocal", 0, 1, I},
    {FACTS_OP_CALL, "Call", 1, 1, ENOUGH},
    {FACTS_OP_BREAK_IF, "BreakIf", 1, 0, BEHIND},
    {FACTS_OP_GET_LOCAL, "GetLocal", 0, 1, I},
    {FACTS_OP_PUSH_IMMEDIATE, "PushImmediate", 0, 1, FACTS_IMMEDIATE_WORD + 1},
    {FACTS_OP_CHECKED_ADD, "CheckedAdd", 2, 3, 0},
    {FACTS_OP_POP_N, "PopN", 2, 0, 0},
    {FACTS_OP_SET_LOCAL, "SetLocal", 1, 0, I},
    {FACTS_OP_END_LOOP, "EndLoop", 0, 0, INSIDE},
    {FACTS_OP_GET_LOCAL, "GetLocal", 0, 1, I},
    {FACTS_OP_RETURN, "Return", 0, 0, 0},
};

static const Instruction enough[] = {
    {FACTS_OP_GET_LOCAL, "GetLocal", 0, 1, I},
    {FACTS_OP_PUSH_IMMEDIATE, "PushImmediate", 0, 1, FACTS_IMMEDIATE_WORD + 10},
    {FACTS_OP_CMP_GE, "CmpGe", 2, 1, 0},
    {FACTS_OP_RETURN, "Return", 0, 0, 0},
};

enum { CHUNKS = 2 };
static const Code chunks[CHUNKS] = {
    {counting, sizeof counting / sizeof *counting},
    {enough, sizeof enough / sizeof *enough},
};

static void describe_code(facts_description *script, const Code *code) {
    for (size_t number = 0; number < code->count; number++) {
        const Instruction *one = &code->instructions[number];
        facts_describe_op(script, one->number, one->taken, one->given, one->a);
    }
}

/* The length of the description, 0 where there is no room for it. */
static size_t describe(uint8_t *bytes, size_t room) {
    const uint8_t types[] = {FACTS_TYPE_WORD};
    const facts_shape word = facts_shape_scalar(FACTS_SCALAR_WORD, 8);
    const facts_chunk entry = {.reachable = 1, .block = FACTS_BLOCK_FUNC, .locals = 1, .deepest = 3};
    const facts_chunk callee = {.reachable = 1, .block = FACTS_BLOCK_FUNC, .locals = 1, .deepest = 2,
                                .parameters = 1, .types = types, .shapes = &word};
    facts_description script;
    facts_describe_begin(&script, bytes, room);
    facts_describe_chunk(&script, &entry, word);
    describe_code(&script, &chunks[0]);
    facts_describe_chunk(&script, &callee, facts_shape_scalar(FACTS_SCALAR_BOOL, 1));
    describe_code(&script, &chunks[ENOUGH]);
    return facts_describe_end(&script);
}

/* ---- The listing ---- */

/* A cell in words: its kinds, its bytes where they are known, and the local that it is a copy of. */
static void print_cell(const facts_cell *cell) {
    char text[FACTS_MASK_TEXT];
    facts_mask_text(text, sizeof text, cell->mask);
    printf("  %s", text);
    if (cell->width != FACTS_WIDTH_UNKNOWN)
        printf(":%u", (unsigned)cell->size);
    if (cell->origin != FACTS_NOWHERE)
        printf(" =L%u", cell->origin);
}

static void print_signature(const facts_signature *signature) {
    facts_cell cell;
    printf("chunk %u: inputs", signature->chunk);
    if (signature->inputs == 0)
        printf("  -");
    for (size_t number = 0; facts_input_at(signature, number, &cell); number++)
        print_cell(&cell);
    printf("  result");
    if (facts_result_of(signature, &cell))
        print_cell(&cell);
    printf("\n");
}

static void print_instruction(const facts_record *record) {
    const Instruction *one = &chunks[record->chunk].instructions[record->instruction];
    printf("%5u  %6u  %-13s  %5u  %5u  %2u", record->chunk, record->instruction, one->name, one->taken, one->given,
           (unsigned)one->a);
}

static void print_record(const facts_record *record) {
    facts_cell cell;
    if (record->chunk >= CHUNKS || record->instruction >= chunks[record->chunk].count)
        return;
    print_instruction(record);
    if (facts_local_at(record, I, &cell))
        print_cell(&cell);
    if (record->stack == 0)
        printf("  -");
    for (size_t number = 0; facts_stack_at(record, number, &cell); number++)
        print_cell(&cell);
    printf("\n");
}

static void print_signatures(const uint8_t *report, size_t length) {
    facts_walk walk;
    facts_field field;
    facts_signature signature;
    facts_begin(&walk, report, length);
    while (facts_next(&walk, &field) == FACTS_FIELD)
        if (facts_get_signature(&field, &signature))
            print_signature(&signature);
}

static void print_records(const uint8_t *report, size_t length) {
    facts_walk walk;
    facts_field field;
    facts_record record;
    printf("chunk  number  instruction    taken  given   a  L0      stack\n");
    facts_begin(&walk, report, length);
    while (facts_next(&walk, &field) == FACTS_FIELD)
        if (facts_get_record(&field, &record))
            print_record(&record);
}

/* ---- The calls ---- */

/* The memory of a call. */
typedef struct {
    uint32_t *workspace;
    uint8_t *report;
    size_t words, bytes;
} Lent;

/* A workspace of so many words instead of the one that is lent. */
static int lend_words(Lent *lent, size_t words) {
    free(lent->workspace);
    lent->words = words;
    lent->workspace = malloc(words * sizeof *lent->workspace);
    return lent->workspace != NULL;
}

/* Twice as much after a refusal for too little; whether there is more now. */
static int allow_more(Lent *lent, uint32_t *limit, uint32_t number) {
    if (number == FACTS_QUEUE_FULL)
        return lend_words(lent, 2 * lent->words);
    if (number != FACTS_LIMIT_USED_UP || *limit > UINT32_MAX / 2)
        return 0;
    *limit *= 2;
    return 1;
}

/* Analyses the description, again and again where more can be had of what was too little. */
static void analyse(const uint8_t *description, size_t length, Lent *lent, uint32_t answer[FACTS_ANSWER]) {
    uint32_t limit = LIMIT;
    int again;
    do {
        facts_check(description, length, lent->workspace, lent->words, lent->report, lent->bytes, limit, answer);
        again = allow_more(lent, &limit, answer[FACTS_NUMBER]);
    } while (again);
}

static int print_answer(const uint8_t *report, const uint32_t answer[FACTS_ANSWER]) {
    if (answer[FACTS_NUMBER] != FACTS_ACCEPTED) {
        printf("refused %u, chunk %u, instruction %u: %s\n", (unsigned)answer[FACTS_NUMBER],
               (unsigned)answer[FACTS_CHUNK], (unsigned)answer[FACTS_INSTRUCTION],
               facts_meaning(answer[FACTS_NUMBER]));
        return REFUSED;
    }
    printf("accepted, %u steps, report of %u bytes\n", (unsigned)answer[FACTS_STEPS], (unsigned)answer[FACTS_LENGTH]);
    print_signatures(report, answer[FACTS_LENGTH]);
    print_records(report, answer[FACTS_LENGTH]);
    return ACCEPTED;
}

static int lend_and_analyse(const uint8_t *description, size_t length, const uint64_t sizes[FACTS_SIZES]) {
    uint32_t answer[FACTS_ANSWER];
    Lent lent = {NULL, malloc(sizes[FACTS_REPORT_BYTES]), 0, sizes[FACTS_REPORT_BYTES]};
    int status = FAILED;
    if (lent.report != NULL && lend_words(&lent, sizes[FACTS_WORDS] + MORE_WORDS)) {
        analyse(description, length, &lent, answer);
        status = print_answer(lent.report, answer);
    } else {
        fputs("no memory\n", stderr);
    }
    free(lent.workspace);
    free(lent.report);
    return status;
}

int main(void) {
    uint8_t description[ROOM];
    uint64_t sizes[FACTS_SIZES];
    const size_t length = describe(description, sizeof description);
    if (length == 0) {
        fputs("no room for the description\n", stderr);
        return FAILED;
    }
    const uint32_t number = facts_sizes(description, length, sizes);
    if (number != FACTS_ACCEPTED) {
        printf("no good form, %u: %s\n", (unsigned)number, facts_meaning(number));
        return REFUSED;
    }
    printf("%u bytes, least workspace %u words, at most %u bytes of report\n", (unsigned)length,
           (unsigned)sizes[FACTS_WORDS], (unsigned)sizes[FACTS_REPORT_BYTES]);
    return lend_and_analyse(description, length, sizes);
}
