/* facts FILE: the facts of a description, the record of one instruction, also
 * through an index, and two refusals. All memory is the program's own. Ends
 * with 0 where the description is accepted, 1 where it is refused, 2 where the
 * file can't be read or there is no memory. */
#include "facts.h"
#include "facts_report.h"

#include <stdio.h>
#include <stdlib.h>

enum { LIMIT = 1000000, MORE_WORDS = 1000 };

/* What the program ends with. */
enum { ACCEPTED, REFUSED, FAILED };

/* The memory of a call. */
typedef struct {
    uint32_t *workspace;
    uint8_t *report, *index;
    size_t words, bytes; /* of the workspace; of report and index each */
} Lent;

/* Room for some more entries in the queue than the least; no report of the description is longer, and no index is
 * longer than its report. */
static int lend(Lent *lent, const uint64_t sizes[FACTS_SIZES]) {
    lent->words = sizes[FACTS_WORDS] + MORE_WORDS;
    lent->bytes = sizes[FACTS_REPORT_BYTES];
    lent->workspace = malloc(lent->words * sizeof *lent->workspace);
    lent->report = malloc(lent->bytes);
    lent->index = malloc(lent->bytes);
    return lent->workspace != NULL && lent->report != NULL && lent->index != NULL;
}

static void take_back(Lent *lent) {
    free(lent->workspace);
    free(lent->report);
    free(lent->index);
}

static void print_mask(const char *before, uint16_t mask) {
    char text[FACTS_MASK_TEXT];
    facts_mask_text(text, sizeof text, mask);
    printf("%s%s", before, text);
}

/* A cell in words: its kinds and, where it is known, how many bytes it has. */
static void print_cell(const facts_cell *cell) {
    print_mask(" ", cell->mask);
    if (cell->width != FACTS_WIDTH_UNKNOWN)
        printf(":%u", (unsigned)cell->size);
}

/* How one gets at the cells of a record. */
typedef int (*Cells)(const facts_record *record, size_t number, facts_cell *cell);

static void print_cells(const char *name, const facts_record *record, Cells cells) {
    facts_cell cell;
    printf(" %s", name);
    if (!cells(record, 0, &cell))
        printf(" -");
    for (size_t number = 0; cells(record, number, &cell); number++)
        print_cell(&cell);
}

static void print_outputs(const facts_record *record) {
    facts_output output;
    printf(" gives");
    if (record->outputs == 0)
        printf(" -");
    for (size_t number = 0; facts_output_at(record, number, &output); number++)
        print_cell(&output.cell);
}

static void print_guards(const facts_record *record) {
    facts_guard guard;
    for (size_t number = 0; facts_guard_at(record, number, &guard); number++) {
        printf(", test that stack place %u is", guard.place);
        print_mask(" ", guard.mask);
    }
}

static void print_record(const facts_record *record) {
    printf("%u %u", record->chunk, record->instruction);
    print_cells("stack", record, facts_stack_at);
    print_cells("locals", record, facts_local_at);
    print_outputs(record);
    print_guards(record);
    printf("\n");
}

static void print_signature(const facts_signature *signature) {
    facts_cell cell;
    printf("chunk %u inputs", signature->chunk);
    if (signature->inputs == 0)
        printf(" -");
    for (size_t number = 0; facts_input_at(signature, number, &cell); number++)
        print_cell(&cell);
    printf(" result");
    if (facts_result_of(signature, &cell))
        print_cell(&cell);
    printf("\n");
}

static void print_slot(const facts_cell *cell) {
    printf("slot");
    print_cell(cell);
    printf("\n");
}

static void print_field(const facts_field *field) {
    uint32_t maximum;
    facts_signature signature;
    facts_cell cell;
    facts_record record;
    facts_inspection inspection;
    facts_branch branch;
    if (facts_get_reply(field, &maximum))
        printf("reply maximum %u\n", (unsigned)maximum);
    else if (facts_get_signature(field, &signature))
        print_signature(&signature);
    else if (facts_get_slot(field, &cell))
        print_slot(&cell);
    else if (facts_get_record(field, &record))
        print_record(&record);
    else if (facts_get_inspection(field, &inspection))
        printf("%u %u never finds what it looks for\n", inspection.chunk, inspection.instruction);
    else if (facts_get_branch(field, &branch))
        printf("%u %u is always %s\n", branch.chunk, branch.instruction, branch.value ? "true" : "false");
}

static void print_report(const uint8_t *report, size_t length) {
    facts_walk walk;
    facts_field field;
    facts_begin(&walk, report, length);
    while (facts_next(&walk, &field) == FACTS_FIELD)
        print_field(&field);
}

/* What a lookup answered: 1, 0 or a refusal. */
static void print_sought(const char *how, uint16_t chunk, uint16_t instruction, uint32_t number,
                         const uint64_t part[2]) {
    printf("%s of %u %u: ", how, chunk, instruction);
    if (number == 1)
        printf("%u bytes from byte %u\n", (unsigned)part[1], (unsigned)part[0]);
    else if (number == 0)
        printf("none\n");
    else
        printf("refused %u: %s\n", (unsigned)number, facts_meaning(number));
}

static void look_up(const uint8_t *report, size_t length, uint16_t chunk, uint16_t instruction) {
    uint64_t part[2];
    uint32_t number = facts_lookup(report, length, chunk, instruction, part);
    print_sought("record", chunk, instruction, number, part);
}

static void print_index(const uint8_t *index, size_t length) {
    facts_entry entry;
    printf("index of %u bytes\n", (unsigned)length);
    for (size_t number = 0; facts_entry_at(index, length, number, &entry); number++)
        printf("entry %u %u: %u bytes from byte %u\n", entry.chunk, entry.instruction, (unsigned)entry.length,
               (unsigned)entry.first);
}

static void look_up_indexed(const char *how, const Lent *lent, const uint32_t answer[FACTS_INDEXED_ANSWER],
                            uint16_t instruction) {
    uint64_t part[2];
    uint32_t number = facts_lookup_indexed(lent->report, answer[FACTS_LENGTH], lent->index,
                                           answer[FACTS_INDEX_LENGTH], 0, instruction, part);
    print_sought(how, 0, instruction, number, part);
}

/* Analyses the description once more, with an index, and looks records up through it. */
static void analyse_indexed(const uint8_t *description, size_t length, Lent *lent) {
    uint32_t answer[FACTS_INDEXED_ANSWER];
    if (facts_check_indexed(description, length, lent->workspace, lent->words, lent->report, lent->bytes, lent->index,
                            lent->bytes, LIMIT, answer) != FACTS_ACCEPTED)
        return;
    print_index(lent->index, answer[FACTS_INDEX_LENGTH]);
    look_up_indexed("through the index, record", lent, answer, 2);
    look_up_indexed("through the index, record", lent, answer, 9);
    /* An index that isn't the report's own is refused for every record: its first entry names another byte. */
    lent->index[FACTS_ENTRY_FIRST] ^= 1;
    look_up_indexed("through a damaged index, record", lent, answer, 2);
}

static void print_refusal(const uint32_t answer[FACTS_ANSWER]) {
    printf("refused %u, chunk %u, instruction %u, %u steps: %s\n", (unsigned)answer[FACTS_NUMBER],
           (unsigned)answer[FACTS_CHUNK], (unsigned)answer[FACTS_INSTRUCTION], (unsigned)answer[FACTS_STEPS],
           facts_meaning(answer[FACTS_NUMBER]));
}

static void print_accepted(const uint8_t *report, const uint32_t answer[FACTS_ANSWER]) {
    printf("accepted, %u steps, report of %u bytes\n", (unsigned)answer[FACTS_STEPS], (unsigned)answer[FACTS_LENGTH]);
    print_report(report, answer[FACTS_LENGTH]);
    look_up(report, answer[FACTS_LENGTH], 0, 2);
    look_up(report, answer[FACTS_LENGTH], 0, 9);
}

/* Analyses the description in lent memory, and prints what comes of it. */
static int analyse(const uint8_t *description, size_t length, Lent *lent) {
    uint32_t answer[FACTS_ANSWER];
    uint32_t number = facts_check(description, length, lent->workspace, lent->words, lent->report, lent->bytes, LIMIT,
                                  answer);
    if (number == FACTS_ACCEPTED) {
        print_accepted(lent->report, answer);
        analyse_indexed(description, length, lent);
        /* Where no chunk is reachable there is no step to be short of. */
        if (answer[FACTS_STEPS] == 0)
            return ACCEPTED;
        /* One step too few is refused. */
        facts_check(description, length, lent->workspace, lent->words, lent->report, lent->bytes,
                    answer[FACTS_STEPS] - 1, answer);
    }
    print_refusal(answer);
    return number == FACTS_ACCEPTED ? ACCEPTED : REFUSED;
}

/* Asks what the description wants, lends it, and analyses it. */
static int lend_and_analyse(const uint8_t *description, size_t length) {
    uint64_t sizes[FACTS_SIZES];
    Lent lent;
    int status = FAILED;
    uint32_t number = facts_sizes(description, length, sizes);
    if (number != FACTS_ACCEPTED) {
        printf("no good form, %u: %s\n", (unsigned)number, facts_meaning(number));
        return REFUSED;
    }
    printf("%u bytes, least workspace %u words, at most %u bytes of report\n", (unsigned)length,
           (unsigned)sizes[FACTS_WORDS], (unsigned)sizes[FACTS_REPORT_BYTES]);
    if (lend(&lent, sizes))
        status = analyse(description, length, &lent);
    else
        fputs("no memory\n", stderr);
    take_back(&lent);
    return status;
}

/* Reads the file into so many bytes: how many it has, or as many as there is room for. Whether it could be read. */
static int read_file(const char *path, uint8_t *bytes, size_t room, size_t *length) {
    FILE *file = fopen(path, "rb");
    if (file == NULL) {
        perror(path);
        return 0;
    }
    *length = fread(bytes, 1, room, file);
    int fine = !ferror(file);
    if (!fine)
        perror(path);
    fclose(file);
    return fine;
}

int main(int count, char **args) {
    /* One byte more than the largest is enough to see that a description is too long. */
    enum { ROOM = FACTS_MOST_BYTES + 1 };
    size_t length;
    int status = FAILED;
    if (count != 2) {
        fputs("facts FILE\n", stderr);
        return FAILED;
    }
    uint8_t *description = malloc(ROOM);
    if (description == NULL)
        fputs("no memory\n", stderr);
    else if (read_file(args[1], description, ROOM, &length))
        status = lend_and_analyse(description, length);
    free(description);
    return status;
}
