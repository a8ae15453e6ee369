/* SPDX-License-Identifier: 0BSD
 *
 * test WORKED LIST: tests of include/facts.h, include/facts_report.h and include/facts_describe.h. WORKED is
 * examples/worked.bin, LIST the stored list of crates/replay. C and C++ both compile it; every report is read and every
 * description written in a buffer of exactly its length, so that a sanitizer sees each byte that is read or written
 * outside. The last line counts the groups of checks. */
#include "facts.h"
#include "facts_describe.h"
#include "facts_report.h"

#include <stdio.h>
#include <stdlib.h>
#include <string.h>

enum { LIMIT = 1000000, MORE_WORDS = 1000, MOST_LIST = 16777216, MOST_REPORT = 65536 };

/* Where the numbers of an entry of the list stand (oracle/src/replaylist.rs); then come description and report. */
enum { LIST_NUMBER = 16, LIST_LENGTH = 25, LIST_HEAD = 29 };

static unsigned long passed, failed, faults;

static void check(int holds, const char *what, int line) {
    if (holds)
        return;
    faults++;
    if (faults <= 20)
        printf("line %d: not so: %s\n", line, what);
}
#define CHECK(what) check((what) ? 1 : 0, #what, __LINE__)

static uint8_t *bytes_of(size_t length) {
    uint8_t *bytes = FACTS_CAST(uint8_t *, malloc(length == 0 ? 1 : length));
    if (bytes == NULL) {
        fputs("no memory\n", stderr);
        exit(2);
    }
    return bytes;
}

/* A copy that is no byte longer. */
static uint8_t *copy_of(const uint8_t *bytes, size_t length) {
    uint8_t *copy = bytes_of(length);
    memcpy(copy, bytes, length);
    return copy;
}

static uint8_t *read_file(const char *path, size_t room, size_t *length) {
    uint8_t *bytes = bytes_of(room);
    FILE *file = fopen(path, "rb");
    if (file != NULL) {
        *length = fread(bytes, 1, room, file);
        if (!ferror(file)) {
            fclose(file);
            return bytes;
        }
    }
    perror(path);
    exit(2);
}

/* ---- The reports that are read ---- */

typedef struct {
    uint8_t *report, *index;
    size_t report_length, index_length;
} Pair;

/* Report and index of a description that is accepted. */
static Pair analyse(const uint8_t *description, size_t length) {
    uint64_t sizes[FACTS_SIZES];
    uint32_t answer[FACTS_INDEXED_ANSWER];
    Pair pair = {NULL, NULL, 0, 0};
    size_t words, most;
    uint32_t *workspace;
    CHECK(facts_sizes(description, length, sizes) == FACTS_ACCEPTED);
    words = FACTS_CAST(size_t, sizes[FACTS_WORDS]) + MORE_WORDS;
    most = FACTS_CAST(size_t, sizes[FACTS_REPORT_BYTES]);
    workspace = FACTS_CAST(uint32_t *, calloc(words, sizeof *workspace));
    pair.report = bytes_of(most);
    pair.index = bytes_of(most);
    if (workspace == NULL)
        exit(2);
    CHECK(facts_check_indexed(description, length, workspace, words, pair.report, most, pair.index, most, LIMIT,
                              answer) == FACTS_ACCEPTED);
    pair.report_length = answer[FACTS_LENGTH];
    pair.index_length = answer[FACTS_INDEX_LENGTH];
    free(workspace);
    return pair;
}

static void free_pair(Pair *pair) {
    free(pair->report);
    free(pair->index);
}

/* Bytes that are written without the headers. */
typedef struct {
    uint8_t bytes[2048];
    size_t length;
} Written;

static void put8(Written *out, unsigned value) {
    out->bytes[out->length++] = FACTS_CAST(uint8_t, value & 255);
}

static void put16(Written *out, unsigned value) {
    put8(out, value);
    put8(out, value >> 8);
}

static void put32(Written *out, uint32_t value) {
    put16(out, value & 65535);
    put16(out, value >> 16);
}

/* A cell whose numbers follow from one, in a report of which each part has another value. */
static void put_cell(Written *out, unsigned seed) {
    unsigned kind;
    put16(out, seed);
    put8(out, seed % 3);
    put32(out, 70000 + seed);
    for (kind = 0; kind < FACTS_EXTENTS; kind++) {
        put8(out, (seed + kind) % 3);
        put32(out, 80000 + seed + kind);
        put32(out, 90000 + seed + kind);
    }
    put8(out, seed % 2);
    put16(out, 300 + seed);
    put16(out, 400 + seed);
    put8(out, (seed + 1) % 2);
}

static void see_cell(const facts_cell *cell, unsigned seed) {
    unsigned kind;
    CHECK(cell->mask == seed);
    CHECK(cell->width == seed % 3);
    CHECK(cell->size == 70000 + seed);
    for (kind = 0; kind < FACTS_EXTENTS; kind++) {
        CHECK(cell->extents[kind].form == (seed + kind) % 3);
        CHECK(cell->extents[kind].min == 80000 + seed + kind);
        CHECK(cell->extents[kind].max == 90000 + seed + kind);
    }
    CHECK(cell->owned == seed % 2);
    CHECK(cell->origin == 300 + seed);
    CHECK(cell->receiver == 400 + seed);
    CHECK(cell->when == (seed + 1) % 2);
}

static void put_head(Written *out, unsigned tag, unsigned length) {
    put8(out, tag);
    put16(out, length);
}

static void put_record(Written *out) {
    put_head(out, FACTS_TAG_RECORD, FACTS_RECORD_HEAD + 3 * FACTS_CELL + 2 * FACTS_OUTPUT + 2 * FACTS_GUARD);
    put16(out, 7);
    put16(out, 259);
    put16(out, 2);
    put16(out, 1);
    put16(out, 2);
    put16(out, 2);
    put_cell(out, 20);
    put_cell(out, 21);
    put_cell(out, 22);
    put16(out, 31);
    put_cell(out, 23);
    put16(out, 32);
    put_cell(out, 24);
    put16(out, 0);
    put16(out, FACTS_WORD);
    put16(out, 1);
    put16(out, FACTS_BOOL);
}

/* One field of each tag. */
static Written every_field(void) {
    Written out;
    out.length = 0;
    put_head(&out, FACTS_TAG_REPLY, 4);
    put32(&out, 4000000000UL);
    put_head(&out, FACTS_TAG_SIGNATURE, 2 + 3 * FACTS_CELL);
    put16(&out, 513);
    put_cell(&out, 10);
    put_cell(&out, 11);
    put_cell(&out, 12);
    put_head(&out, FACTS_TAG_SLOT, FACTS_CELL);
    put_cell(&out, 13);
    put_record(&out);
    put_head(&out, FACTS_TAG_INSPECTION, 4);
    put16(&out, 7);
    put16(&out, 260);
    put_head(&out, FACTS_TAG_BRANCH, 5);
    put16(&out, 7);
    put16(&out, 261);
    put8(&out, 1);
    return out;
}

/* ---- Writing descriptions ---- */

/* Writes a description; the length of what is written, or 0. */
typedef size_t (*Describe)(facts_description *out, uint8_t *bytes, size_t room);

static size_t describe_worked(facts_description *out, uint8_t *bytes, size_t room) {
    const facts_chunk chunk = {1, FACTS_BLOCK_FUNC, 0, 1, 0, NULL, NULL};
    facts_describe_begin(out, bytes, room);
    facts_describe_chunk(out, &chunk, facts_shape_unsized_scalar(FACTS_SCALAR_BOOL));
    facts_describe_op(out, FACTS_OP_PUSH_IMMEDIATE, 0, 1, FACTS_IMMEDIATE_FALSE);
    facts_describe_op(out, FACTS_OP_NOT, 1, 1, 0);
    facts_describe_op(out, FACTS_OP_RETURN, 0, 0, 0);
    return facts_describe_end(out);
}

/* Yields its second parameter. */
static void describe_callee(facts_description *out) {
    static const uint8_t types[2] = {FACTS_TYPE_WORD, FACTS_TYPE_COMPOSITE};
    facts_shape shapes[2];
    facts_chunk chunk = {1, FACTS_BLOCK_REENTRANT, 3, 2, 2, NULL, NULL};
    shapes[0] = facts_shape_scalar(FACTS_SCALAR_WORD, 8);
    shapes[1] = facts_shape_body(FACTS_BODY_STRUCT, 16);
    chunk.types = types;
    chunk.shapes = shapes;
    facts_describe_chunk(out, &chunk, facts_shape_top());
    facts_describe_op(out, FACTS_OP_GET_LOCAL, 0, 1, 1);
    facts_describe_op(out, FACTS_OP_YIELD, 1, 1, 0);
    facts_describe_site(out, facts_shape_body(FACTS_BODY_STRUCT, 16), facts_shape_scalar(FACTS_SCALAR_WORD, 8));
    facts_describe_op(out, FACTS_OP_RETURN, 0, 0, 0);
}

/* Never runs and has no signature. */
static void describe_bare(facts_description *out) {
    static const uint8_t types[1] = {FACTS_TYPE_TEXT};
    facts_chunk chunk = {0, FACTS_BLOCK_STREAM, 256, 1, 1, NULL, NULL};
    chunk.types = types;
    facts_describe_bare_chunk(out, &chunk);
    facts_describe_op(out, FACTS_OP_STREAM, 0, 0, 0);
}

static void describe_entry(facts_description *out) {
    const facts_chunk chunk = {1, FACTS_BLOCK_FUNC, 0, 2, 0, NULL, NULL};
    facts_describe_chunk(out, &chunk, facts_shape_top());
    facts_describe_op(out, FACTS_OP_PUSH_IMMEDIATE, 0, 1, FACTS_IMMEDIATE_WORD + 7);
    facts_describe_op(out, FACTS_OP_CALL_EXTERNAL_NATIVE, 0, 1, 0);
    facts_describe_op(out, FACTS_OP_CALL, 2, 1, 0);
    facts_describe_instruction(out, FACTS_OP_CONST, 0, 1, FACTS_CONST_BOOL, 1, 0);
    facts_describe_op(out, FACTS_OP_SET_DATA, 1, 0, 2);
    facts_describe_instruction(out, FACTS_OP_CONST, 0, 1, FACTS_CONST_TUPLE, 0, 9);
    facts_describe_op(out, FACTS_OP_SET_DATA, 1, 0, 3);
    facts_describe_op(out, FACTS_OP_GET_DATA, 0, 1, 3);
    facts_describe_op(out, FACTS_OP_POP_N, 1, 0, 0);
    facts_describe_op(out, FACTS_OP_RETURN, 0, 0, 0);
}

static void describe_data(facts_description *out) {
    out->header.layout = 1;
    out->header.slots = 4;
    out->header.persistent_composite_bytes = 16909060UL;
    facts_describe_shared(out, FACTS_SHARED_BODY + FACTS_BODY_ENUM);
    facts_describe_shared(out, FACTS_SCALAR_BYTE);
    facts_describe_placement(out, 3, 168496141UL);
    facts_describe_initializer(out, FACTS_CONST_BOOL, 1);
    facts_describe_initializer(out, FACTS_CONST_UNIT, 0);
}

/* A field of each kind. */
static size_t describe_all(facts_description *out, uint8_t *bytes, size_t room) {
    facts_describe_begin(out, bytes, room);
    out->header.float_bits_log2 = 5;
    out->header.entry = 1;
    out->header.owns_bodies = 1;
    out->header.handle = FACTS_SHORT_HANDLE;
    describe_callee(out);
    describe_entry(out);
    describe_bare(out);
    facts_describe_native(out, facts_shape_body(FACTS_BODY_STRUCT, 16), 1);
    facts_describe_native(out, facts_shape_unsized_scalar(FACTS_SCALAR_TEXT), 0);
    facts_describe_native(out, facts_shape_unsized_body(FACTS_BODY_ARRAY), 0);
    describe_data(out);
    return facts_describe_end(out);
}

/* ---- The same description by the tables of docs/FORMATS.md ---- */

static void put_bytes(Written *out, const uint8_t *bytes, size_t length) {
    memcpy(out->bytes + out->length, bytes, length);
    out->length += length;
}

static void put_instruction(Written *out, unsigned number, unsigned taken, unsigned given, uint32_t a, uint32_t b,
                            uint32_t c) {
    put_head(out, 3, 15);
    put8(out, number);
    put8(out, taken);
    put8(out, given);
    put32(out, a);
    put32(out, b);
    put32(out, c);
}

static void put_callee(Written *out) {
    static const uint8_t chunk[] = {2, 32, 0,  1, 1,  3, 0, 2, 0,  2, 2, 2, 0,  2,
                                    1, 3, 1, 8, 0, 0, 0,  2, 2, 2, 16, 0, 0, 0,  0, 0, 0, 0, 0, 0, 0};
    static const uint8_t site[] = {4, 14, 0,  2, 2, 2, 16, 0, 0, 0,  1, 3, 1, 8, 0, 0, 0};
    put_bytes(out, chunk, sizeof chunk);
    put_instruction(out, 1, 0, 1, 1, 0, 0);
    put_instruction(out, 32, 1, 1, 0, 0, 0);
    put_bytes(out, site, sizeof site);
    put_instruction(out, 31, 0, 0, 0, 0, 0);
}

static void put_entry(Written *out) {
    static const uint8_t chunk[] = {2, 16, 0,  1, 0,  0, 0, 2, 0,  0, 0, 0,  0, 0, 0, 0, 0, 0, 0};
    put_bytes(out, chunk, sizeof chunk);
    put_instruction(out, 57, 0, 1, 11, 0, 0);
    put_instruction(out, 65, 0, 1, 0, 0, 0);
    put_instruction(out, 30, 2, 1, 0, 0, 0);
    put_instruction(out, 0, 0, 1, 1, 1, 0);
    put_instruction(out, 4, 1, 0, 2, 0, 0);
    put_instruction(out, 0, 0, 1, 7, 0, 9);
    put_instruction(out, 4, 1, 0, 3, 0, 0);
    put_instruction(out, 3, 0, 1, 3, 0, 0);
    put_instruction(out, 58, 1, 0, 0, 0, 0);
    put_instruction(out, 31, 0, 0, 0, 0, 0);
}

static Written all_by_hand(void) {
    static const uint8_t header[] = {1, 16, 0,  5, 1, 0, 3, 0, 2, 0,  1, 4, 0,  1,  4, 3, 2, 1,  4};
    static const uint8_t bare[] = {2, 9, 0,  0, 2,  0, 1, 1, 0,  1, 1, 7};
    static const uint8_t rest[] = {5, 8, 0,  2, 2, 2, 16, 0, 0, 0, 1,  5, 8, 0,  1, 6, 0, 0, 0, 0, 0, 0,
                                   5, 8, 0,  2, 1, 0, 0, 0, 0, 0, 0,  6, 1, 0, 131,  6, 1, 0, 2,
                                   7, 6, 0,  3, 0, 13, 12, 11, 10,  8, 2, 0, 1, 1,  8, 2, 0, 0, 0};
    Written out;
    out.length = 0;
    put_bytes(&out, header, sizeof header);
    put_callee(&out);
    put_entry(&out);
    put_bytes(&out, bare, sizeof bare);
    put_instruction(&out, 28, 0, 0, 0, 0, 0);
    put_bytes(&out, rest, sizeof rest);
    return out;
}

/* ---- Reading everything that can be read ---- */

/* How many parts of a record can be read. */
static size_t read_record(const facts_record *record) {
    facts_cell cell;
    facts_output output;
    facts_guard guard;
    size_t number, read = 0;
    for (number = 0; number <= record->stack; number++)
        read += facts_stack_at(record, number, &cell) ? 1 : 0;
    for (number = 0; number <= record->locals; number++)
        read += facts_local_at(record, number, &cell) ? 1 : 0;
    for (number = 0; number <= record->outputs; number++)
        read += facts_output_at(record, number, &output) ? 1 : 0;
    for (number = 0; number <= record->guards; number++)
        read += facts_guard_at(record, number, &guard) ? 1 : 0;
    return read;
}

static size_t record_parts(const facts_record *record) {
    return FACTS_CAST(size_t, record->stack) + record->locals + record->outputs + record->guards;
}

static size_t read_signature(const facts_signature *signature) {
    facts_cell cell;
    size_t number, read = facts_result_of(signature, &cell) ? 1 : 0;
    for (number = 0; number <= signature->inputs; number++)
        read += facts_input_at(signature, number, &cell) ? 1 : 0;
    return read;
}

/* Whether the field is of one kind and all of it can be read. */
static int read_field(const facts_field *field) {
    uint32_t maximum;
    facts_signature signature;
    facts_cell cell;
    facts_record record;
    facts_inspection inspection;
    facts_branch branch;
    int kinds = facts_get_reply(field, &maximum) + facts_get_slot(field, &cell) +
                facts_get_inspection(field, &inspection) + facts_get_branch(field, &branch);
    if (facts_get_signature(field, &signature))
        kinds += read_signature(&signature) == FACTS_CAST(size_t, signature.inputs) + 1;
    if (facts_get_record(field, &record))
        kinds += read_record(&record) == record_parts(&record);
    CHECK(kinds <= 1);
    return kinds == 1;
}

/* What a walk over any bytes found. */
typedef struct {
    size_t fields, unreadable;
    int end; /* FACTS_END or FACTS_MALFORMED */
} Walked;

static Walked walk_over(const uint8_t *bytes, size_t length) {
    Walked walked = {0, 0, FACTS_FIELD};
    facts_walk walk;
    facts_field field;
    facts_begin(&walk, bytes, length);
    while ((walked.end = facts_next(&walk, &field)) == FACTS_FIELD) {
        walked.fields++;
        walked.unreadable += read_field(&field) ? 0 : 1;
        CHECK(field.contents >= bytes && field.contents + field.length + walk.left == bytes + length);
    }
    return walked;
}

/* ---- Groups of checks ---- */

/* A cell of the worked report: a mask, and one byte or an unknown width. */
static void see_worked_cell(const facts_cell *cell, unsigned mask, unsigned width) {
    size_t kind;
    CHECK(cell->mask == mask);
    CHECK(cell->width == width);
    CHECK(cell->size == (width == FACTS_WIDTH_UNKNOWN ? 0 : 1));
    for (kind = 0; kind < FACTS_EXTENTS; kind++) {
        CHECK(cell->extents[kind].form == FACTS_EXTENT_ABSENT);
        CHECK(cell->extents[kind].min == 0 && cell->extents[kind].max == 0);
    }
    CHECK(cell->owned == 0);
    CHECK(cell->origin == FACTS_NOWHERE);
    CHECK(cell->receiver == FACTS_NOWHERE && cell->when == 0);
}

static void see_worked_head(facts_walk *walk) {
    facts_field field;
    facts_signature signature;
    facts_cell cell;
    uint32_t maximum = 9;
    CHECK(facts_next(walk, &field) == FACTS_FIELD && field.tag == FACTS_TAG_REPLY);
    CHECK(facts_get_reply(&field, &maximum) && maximum == 0);
    CHECK(facts_next(walk, &field) == FACTS_FIELD && field.tag == FACTS_TAG_SIGNATURE);
    CHECK(facts_get_signature(&field, &signature));
    CHECK(signature.chunk == 0 && signature.inputs == 0);
    CHECK(!facts_input_at(&signature, 0, &cell));
    CHECK(facts_result_of(&signature, &cell));
    see_worked_cell(&cell, FACTS_BOOL, FACTS_WIDTH_UNKNOWN);
}

/* The next record: the kind on its stack and the one that it gives, 0 for none. */
static void see_worked_record(facts_walk *walk, unsigned instruction, unsigned stack, unsigned given) {
    facts_field field;
    facts_record record;
    facts_cell cell;
    facts_output output;
    facts_guard guard;
    CHECK(facts_next(walk, &field) == FACTS_FIELD && field.tag == FACTS_TAG_RECORD);
    CHECK(facts_get_record(&field, &record));
    CHECK(record.chunk == 0 && record.instruction == instruction);
    CHECK(record.stack == (stack != 0) && record.locals == 0 && record.outputs == (given != 0) && record.guards == 0);
    CHECK(facts_stack_at(&record, 0, &cell) == (stack != 0));
    if (stack != 0)
        see_worked_cell(&cell, stack, FACTS_WIDTH_SCALAR);
    CHECK(facts_output_at(&record, 0, &output) == (given != 0));
    if (given != 0)
        see_worked_cell(&output.cell, given, FACTS_WIDTH_SCALAR);
    CHECK(given == 0 || output.slot == 0);
    CHECK(!facts_stack_at(&record, 1, &cell) && !facts_local_at(&record, 0, &cell));
    CHECK(!facts_output_at(&record, 1, &output) && !facts_guard_at(&record, 0, &guard));
}

static void the_worked_report(const Pair *worked) {
    facts_walk walk;
    facts_field field;
    CHECK(worked->report_length == 306);
    facts_begin(&walk, worked->report, worked->report_length);
    see_worked_head(&walk);
    see_worked_record(&walk, 0, 0, FACTS_FALSE);
    see_worked_record(&walk, 1, FACTS_FALSE, FACTS_TRUE);
    see_worked_record(&walk, 2, FACTS_TRUE, 0);
    CHECK(facts_next(&walk, &field) == FACTS_END);
    CHECK(facts_next(&walk, &field) == FACTS_END);
    CHECK(facts_well_formed(worked->report, worked->report_length));
}

static void the_worked_index(const Pair *worked) {
    static const uint32_t first[3] = {61, 127, 242}, length[3] = {66, 115, 64};
    facts_entry entry, found;
    facts_record record;
    uint16_t number;
    CHECK(worked->index_length == 36 && facts_entries(worked->index_length) == 3);
    for (number = 0; number < 3; number++) {
        CHECK(facts_entry_at(worked->index, worked->index_length, number, &entry));
        CHECK(entry.chunk == 0 && entry.instruction == number);
        CHECK(entry.first == first[number] && entry.length == length[number]);
        CHECK(facts_find_entry(worked->index, worked->index_length, 0, number, &found));
        CHECK(memcmp(&found, &entry, sizeof entry) == 0);
        CHECK(facts_entry_record(worked->report, worked->report_length, &entry, &record));
        CHECK(record.chunk == 0 && record.instruction == number);
    }
    CHECK(!facts_entry_at(worked->index, worked->index_length, 3, &entry));
    CHECK(!facts_find_entry(worked->index, worked->index_length, 0, 3, &entry));
    CHECK(!facts_find_entry(worked->index, worked->index_length, 1, 0, &entry));
    CHECK(!facts_entry_at(worked->index, 11, 0, &entry) && facts_entry_at(worked->index, 12, 0, &entry));
}

/* The second field: inputs and result. */
static void see_signature(const facts_field *field) {
    facts_signature signature;
    facts_cell cell;
    CHECK(facts_get_signature(field, &signature) && signature.chunk == 513 && signature.inputs == 2);
    CHECK(facts_input_at(&signature, 0, &cell));
    see_cell(&cell, 10);
    CHECK(facts_input_at(&signature, 1, &cell));
    see_cell(&cell, 11);
    CHECK(!facts_input_at(&signature, 2, &cell));
    CHECK(facts_result_of(&signature, &cell));
    see_cell(&cell, 12);
}

static void see_record(const facts_field *field) {
    facts_record record;
    facts_cell cell;
    facts_output output;
    facts_guard guard;
    CHECK(facts_get_record(field, &record) && record.chunk == 7 && record.instruction == 259);
    CHECK(facts_stack_at(&record, 0, &cell));
    see_cell(&cell, 20);
    CHECK(facts_stack_at(&record, 1, &cell));
    see_cell(&cell, 21);
    CHECK(facts_local_at(&record, 0, &cell));
    see_cell(&cell, 22);
    CHECK(facts_output_at(&record, 0, &output) && output.slot == 31);
    see_cell(&output.cell, 23);
    CHECK(facts_output_at(&record, 1, &output) && output.slot == 32);
    see_cell(&output.cell, 24);
    CHECK(facts_guard_at(&record, 0, &guard) && guard.place == 0 && guard.mask == FACTS_WORD);
    CHECK(facts_guard_at(&record, 1, &guard) && guard.place == 1 && guard.mask == FACTS_BOOL);
    CHECK(!facts_stack_at(&record, 2, &cell) && !facts_local_at(&record, 1, &cell));
    CHECK(!facts_output_at(&record, 2, &output) && !facts_guard_at(&record, 2, &guard));
}

static void every_part_of_a_report(void) {
    const Written out = every_field();
    uint8_t *report = copy_of(out.bytes, out.length);
    facts_walk walk;
    facts_field field;
    facts_cell cell;
    facts_inspection inspection;
    facts_branch branch;
    uint32_t maximum;
    facts_begin(&walk, report, out.length);
    CHECK(facts_next(&walk, &field) == FACTS_FIELD && facts_get_reply(&field, &maximum) && maximum == 4000000000UL);
    CHECK(facts_next(&walk, &field) == FACTS_FIELD);
    see_signature(&field);
    CHECK(facts_next(&walk, &field) == FACTS_FIELD && facts_get_slot(&field, &cell));
    see_cell(&cell, 13);
    CHECK(facts_next(&walk, &field) == FACTS_FIELD);
    see_record(&field);
    CHECK(facts_next(&walk, &field) == FACTS_FIELD && facts_get_inspection(&field, &inspection));
    CHECK(inspection.chunk == 7 && inspection.instruction == 260);
    CHECK(facts_next(&walk, &field) == FACTS_FIELD && facts_get_branch(&field, &branch));
    CHECK(branch.chunk == 7 && branch.instruction == 261 && branch.value == 1);
    CHECK(facts_next(&walk, &field) == FACTS_END);
    CHECK(facts_well_formed(report, out.length));
    free(report);
}

/* Each prefix: a walk ends as one where a field ends there, else as malformed; a prefix of whole fields is still in
 * the form of a report, unless it is empty. */
static void each_prefix(const uint8_t *report, size_t length) {
    const size_t fields = walk_over(report, length).fields;
    size_t cut, whole = 0;
    for (cut = 0; cut <= length; cut++) {
        uint8_t *prefix = copy_of(report, cut);
        const Walked walked = walk_over(prefix, cut);
        CHECK(walked.end == FACTS_END || walked.end == FACTS_MALFORMED);
        CHECK(walked.unreadable == 0);
        CHECK(facts_well_formed(prefix, cut) == (walked.end == FACTS_END && cut > 0));
        whole += walked.end == FACTS_END ? 1 : 0;
        free(prefix);
    }
    CHECK(whole == fields + 1);
}

/* Each byte changed to each value: a walk ends and stays inside; where the form is still that of a report, all of it
 * can be read, and where it isn't, something can't or the tags are out of order. */
static void each_byte(const uint8_t *report, size_t length, size_t at) {
    uint8_t *changed = copy_of(report, length);
    unsigned value;
    for (value = 0; value < 256; value++) {
        Walked walked;
        changed[at] = FACTS_CAST(uint8_t, value);
        walked = walk_over(changed, length);
        if (facts_well_formed(changed, length))
            CHECK(walked.end == FACTS_END && walked.unreadable == 0);
        else
            CHECK(value != report[at]);
    }
    free(changed);
}

static void damaged_reports(const Pair *worked) {
    const Written out = every_field();
    size_t at;
    each_prefix(worked->report, worked->report_length);
    each_prefix(out.bytes, out.length);
    for (at = 0; at < worked->report_length; at++)
        each_byte(worked->report, worked->report_length, at);
    for (at = 0; at < out.length; at++)
        each_byte(out.bytes, out.length, at);
}

/* Bytes of a cell that have no meaning. */
static void no_meaning(void) {
    static const size_t at[7] = {FACTS_CELL_WIDTH,     FACTS_CELL_EXTENTS,      FACTS_CELL_EXTENTS + FACTS_EXTENT,
                                 FACTS_CELL_EXTENTS + 2 * FACTS_EXTENT, FACTS_CELL_EXTENTS + 3 * FACTS_EXTENT,
                                 FACTS_CELL_OWNED, FACTS_CELL_WHEN};
    static const uint8_t most[7] = {2, 2, 2, 2, 2, 1, 1};
    uint8_t bytes[FACTS_CELL] = {0};
    facts_cell cell;
    size_t k;
    for (k = 0; k < 7; k++) {
        bytes[at[k]] = most[k];
        CHECK(facts_read_cell(bytes, &cell));
        bytes[at[k]] = FACTS_CAST(uint8_t, most[k] + 1);
        cell.mask = 77;
        CHECK(!facts_read_cell(bytes, &cell) && cell.mask == 77);
        bytes[at[k]] = 0;
    }
}

/* A field of these contents with another length is no such field. */
static void unfit_length(const facts_field *field, size_t length) {
    uint8_t *contents = bytes_of(length);
    facts_field unfit = *field;
    memset(contents, 0, length);
    memcpy(contents, field->contents, length < field->length ? length : field->length);
    unfit.contents = contents;
    unfit.length = length;
    CHECK(read_field(field) && !read_field(&unfit));
    CHECK(facts_field_fine(field) && !facts_field_fine(&unfit));
    free(contents);
}

static void unfit_lengths(void) {
    const Written out = every_field();
    facts_walk walk;
    facts_field field;
    facts_begin(&walk, out.bytes, out.length);
    while (facts_next(&walk, &field) == FACTS_FIELD) {
        unfit_length(&field, field.length - 1);
        unfit_length(&field, field.length + 1);
        unfit_length(&field, 0);
    }
}

/* The value of a known branch is 0 or 1. */
static void values_of_branches(void) {
    uint8_t contents[5] = {1, 2, 3, 4, 0};
    facts_field field;
    facts_branch branch;
    field.tag = FACTS_TAG_BRANCH;
    field.contents = contents;
    field.length = sizeof contents;
    CHECK(facts_get_branch(&field, &branch) && branch.chunk == 513 && branch.instruction == 1027 && branch.value == 0);
    contents[4] = 1;
    CHECK(facts_get_branch(&field, &branch) && branch.value == 1);
    contents[4] = 2;
    CHECK(!facts_get_branch(&field, &branch) && branch.value == 1);
}

/* Tags out of order, one too few or too many. */
static void out_of_order(void) {
    static const uint8_t reply[7] = {FACTS_TAG_REPLY, 4, 0, 0, 0, 0, 0};
    static const uint8_t inspection[7] = {FACTS_TAG_INSPECTION, 4, 0, 0, 0, 0, 0};
    static const uint8_t branch[8] = {FACTS_TAG_BRANCH, 5, 0, 0, 0, 0, 0, 0};
    uint8_t two[22];
    memcpy(two, reply, 7);
    CHECK(facts_well_formed(two, 7));
    memcpy(two + 7, reply, 7);
    CHECK(!facts_well_formed(two, 14));
    memcpy(two + 7, inspection, 7);
    memcpy(two + 14, branch, 8);
    CHECK(facts_well_formed(two, 22) && !facts_well_formed(two, 21) && facts_well_formed(two, 14));
    memcpy(two + 7, branch, 8);
    memcpy(two + 15, inspection, 7);
    CHECK(!facts_well_formed(two, 22) && facts_well_formed(two, 15));
    CHECK(!facts_well_formed(inspection, 7) && !facts_well_formed(two, 0));
}

/* Each byte of an index changed: what an entry names is a record of the report, or none. */
static void damaged_indexes(const Pair *worked) {
    uint8_t *index = copy_of(worked->index, worked->index_length);
    size_t at;
    unsigned value;
    for (at = 0; at < worked->index_length; at++) {
        for (value = 0; value < 256; value++) {
            facts_entry entry;
            facts_record record;
            index[at] = FACTS_CAST(uint8_t, value);
            CHECK(facts_entry_at(index, worked->index_length, at / FACTS_ENTRY, &entry));
            CHECK(facts_entry_record(worked->report, worked->report_length, &entry, &record) ==
                  (value == worked->index[at]));
            facts_find_entry(index, worked->index_length, 0, 1, &entry);
        }
        index[at] = worked->index[at];
    }
    free(index);
}

/* A part is a field only where it is exactly one. */
static void parts(const Pair *worked) {
    facts_field field;
    const size_t length = worked->report_length;
    uint8_t *report = copy_of(worked->report, length);
    uint64_t part[2], last;
    CHECK(facts_lookup(report, length, 0, 2, part) == 1);
    CHECK(facts_get_part(report, length, part[0], part[1], &field) && field.tag == FACTS_TAG_RECORD);
    CHECK(!facts_get_part(report, length, part[0], part[1] - 1, &field));
    CHECK(!facts_get_part(report, length, part[0], part[1] + 1, &field));
    CHECK(!facts_get_part(report, length, part[0] - 1, part[1], &field));
    CHECK(!facts_get_part(report, length, length, 0, &field) && !facts_get_part(report, length, length + 1, 0, &field));
    CHECK(!facts_get_part(report, length, ~FACTS_CAST(uint64_t, 0), 2, &field));
    CHECK(!facts_get_part(report, length, 2, ~FACTS_CAST(uint64_t, 0), &field));
    for (last = 1; last < 8; last++)
        CHECK(!facts_get_part(report, length, length - last, 8, &field));
    free(report);
}

/* Every report of the list: in form, and each record is the one that a lookup answers. */
static size_t see_listed(const uint8_t *report, size_t length) {
    facts_walk walk;
    facts_field field;
    facts_record record;
    uint64_t part[2];
    size_t records = 0;
    CHECK(facts_well_formed(report, length));
    facts_begin(&walk, report, length);
    while (facts_next(&walk, &field) == FACTS_FIELD) {
        if (facts_get_record(&field, &record)) {
            records++;
            CHECK(facts_lookup(report, length, record.chunk, record.instruction, part) == 1);
            CHECK(report + part[0] + FACTS_FIELD_HEAD == field.contents && part[1] == field.length + FACTS_FIELD_HEAD);
        }
    }
    CHECK(walk.left == 0);
    return records;
}

static void listed_reports(const uint8_t *list, size_t length) {
    size_t at = 0, accepted = 0, records = 0;
    while (at + LIST_HEAD <= length) {
        const size_t described = facts_u32(list + at), reported = facts_u32(list + at + LIST_LENGTH);
        if (list[at + LIST_NUMBER] == FACTS_ACCEPTED) {
            uint8_t *report = copy_of(list + at + LIST_HEAD + described, reported);
            records += see_listed(report, reported);
            accepted++;
            free(report);
        }
        at += LIST_HEAD + described + reported;
    }
    CHECK(at == length && accepted > 1000 && records > accepted);
}

/* ---- Descriptions ---- */

/* What is written is these bytes, in a buffer that is no byte longer. In one that is shorter nothing is written
 * outside, the length is 0 and the one that is wanted is known. */
static void described(Describe describe, const uint8_t *expected, size_t length) {
    facts_description out;
    size_t room;
    for (room = 0; room <= length + 1; room++) {
        uint8_t *bytes = bytes_of(room);
        CHECK(describe(&out, bytes, room) == (room < length ? 0 : length));
        CHECK(out.length == length && out.misplaced == 0);
        CHECK(room < length || memcmp(bytes, expected, length) == 0);
        CHECK(room < length || facts_describe_end(&out) == length);
        free(bytes);
    }
}

static void every_kind_of_field(void) {
    const Written out = all_by_hand();
    described(describe_all, out.bytes, out.length);
}

/* The cell that an instruction of the entry gives. */
static facts_cell given_by(const Pair *pair, uint16_t instruction) {
    facts_entry entry;
    facts_record record;
    facts_output output;
    memset(&output, 0, sizeof output);
    CHECK(facts_find_entry(pair->index, pair->index_length, 1, instruction, &entry));
    CHECK(facts_entry_record(pair->report, pair->report_length, &entry, &record));
    CHECK(facts_output_at(&record, 0, &output));
    return output.cell;
}

/* What the library says of it: the least workspace by the formula of docs/FORMATS.md, and what its fields mean. */
static void every_kind_of_field_analysed(void) {
    enum { CALLEE = 3 * (3 + 2 + 6) + 2 + 2, ENTRY = 10 * (0 + 2 + 6) + 0 + 2, BARE = 1 * (256 + 1 + 6) + 0 + 2 };
    uint8_t bytes[1024];
    facts_description out;
    const size_t length = describe_all(&out, bytes, sizeof bytes);
    uint64_t sizes[FACTS_SIZES];
    Pair pair;
    facts_cell cell;
    CHECK(facts_sizes(bytes, length, sizes) == FACTS_ACCEPTED);
    CHECK(sizes[FACTS_WORDS] == 16 * (CALLEE + ENTRY + BARE + 4 + 4) + 1);
    pair = analyse(bytes, length);
    cell = given_by(&pair, 1);
    CHECK(cell.mask == FACTS_STRUCT && cell.width == FACTS_WIDTH_BODY && cell.size == 16 && cell.owned == 1);
    CHECK(given_by(&pair, 2).mask == FACTS_UNKNOWN);
    cell = given_by(&pair, 3);
    CHECK(cell.mask == FACTS_TRUE && cell.width == FACTS_WIDTH_SCALAR && cell.size == 1);
    cell = given_by(&pair, 7);
    CHECK(cell.mask == (FACTS_UNIT | FACTS_TUPLE) && cell.extents[FACTS_BODY_TUPLE].form == FACTS_EXTENT_RANGE);
    CHECK(cell.extents[FACTS_BODY_TUPLE].min == 8 && cell.extents[FACTS_BODY_TUPLE].max == 8);
    free_pair(&pair);
}

/* One field of the kind with this number. */
static void describe_kind(facts_description *out, unsigned kind) {
    const facts_chunk chunk = {1, FACTS_BLOCK_FUNC, 0, 0, 0, NULL, NULL};
    switch (kind) {
    case 0: facts_describe_chunk(out, &chunk, facts_shape_top()); break;
    case 1: facts_describe_bare_chunk(out, &chunk); break;
    case 2: facts_describe_op(out, FACTS_OP_TRAP, 0, 0, 0); break;
    case 3: facts_describe_site(out, facts_shape_top(), facts_shape_top()); break;
    case 4: facts_describe_native(out, facts_shape_top(), 0); break;
    case 5: facts_describe_shared(out, FACTS_SCALAR_UNIT); break;
    case 6: facts_describe_placement(out, 0, 0); break;
    default: facts_describe_initializer(out, FACTS_CONST_UNIT, 0); break;
    }
}

/* Fields of these kinds, a digit to the base of 8 each, behind a first chunk: misplaced where the library says so. */
static void fields_in_this_order(unsigned kinds, unsigned count) {
    uint8_t bytes[256];
    uint64_t sizes[FACTS_SIZES];
    facts_description out;
    uint8_t misplaced;
    size_t length;
    facts_describe_begin(&out, bytes, sizeof bytes);
    out.header.layout = 1;
    describe_kind(&out, 0);
    for (; count > 0; count--, kinds /= 8)
        describe_kind(&out, kinds % 8);
    misplaced = out.misplaced;
    CHECK(misplaced <= 1 && (facts_describe_end(&out) == 0) == (misplaced == 1));
    out.misplaced = 0;
    length = facts_describe_end(&out);
    CHECK(length == out.length && length > 0);
    CHECK(facts_sizes(bytes, length, sizes) == (misplaced == 1 ? FACTS_BAD_FORM : FACTS_ACCEPTED));
}

static void fields_in_every_order(void) {
    unsigned count, kinds, many = 1;
    for (count = 0; count <= 4; count++, many *= 8)
        for (kinds = 0; kinds < many; kinds++)
            fields_in_this_order(kinds, count);
}

/* Where the first field 2 begins, and its contents. */
enum { FIELD_2 = FACTS_FIELD_HEAD + FACTS_HEADER_BYTES, CHUNK_0 = FIELD_2 + FACTS_FIELD_HEAD };

/* More chunks than field 1 can count. */
static void too_many_chunks(void) {
    const facts_chunk chunk = {0, FACTS_BLOCK_FUNC, 0, 0, 0, NULL, NULL};
    uint8_t none[1];
    facts_description out;
    unsigned long number;
    facts_describe_begin(&out, none, 0);
    for (number = 0; number < 65535; number++)
        facts_describe_bare_chunk(&out, &chunk);
    CHECK(out.misplaced == 0);
    facts_describe_bare_chunk(&out, &chunk);
    CHECK(out.length == FIELD_2 + 65536UL * (FACTS_FIELD_HEAD + FACTS_CHUNK_BYTES));
    CHECK(out.misplaced == 1 && facts_describe_end(&out) == 0);
}

/* As many parameters as a byte can say: each with its own type tag and shape. */
static void many_parameters(void) {
    enum { TAGS = CHUNK_0 + FACTS_CHUNK_BYTES, SHAPES = TAGS + 255 + 1, END = SHAPES + 256 * FACTS_SHAPE_BYTES };
    uint8_t types[255], bytes[END];
    facts_shape shapes[255];
    facts_chunk chunk = {1, FACTS_BLOCK_FUNC, 255, 0, 255, NULL, NULL};
    facts_description out;
    unsigned number;
    for (number = 0; number < 255; number++) {
        types[number] = FACTS_CAST(uint8_t, number % 8);
        shapes[number] = facts_shape_scalar(FACTS_CAST(uint8_t, number), 1000 + number);
    }
    chunk.types = types;
    chunk.shapes = shapes;
    facts_describe_begin(&out, bytes, sizeof bytes);
    facts_describe_chunk(&out, &chunk, facts_shape_top());
    CHECK(facts_describe_end(&out) == sizeof bytes);
    CHECK(facts_u16(bytes + FIELD_2 + 1) == END - CHUNK_0);
    CHECK(bytes[TAGS - 2] == 255 && bytes[TAGS - 1] == 255 && bytes[SHAPES - 1] == 255);
    for (number = 0; number < 255; number++) {
        const uint8_t *shape = bytes + SHAPES + number * FACTS_SHAPE_BYTES;
        CHECK(bytes[TAGS + number] == number % 8 && shape[1] == number && facts_u32(shape + 3) == 1000 + number);
    }
}

/* ---- What docs/FORMATS.md says of scripts ---- */

/* A chunk, the entry, with so many locals and a deepest stack; it returns anything. */
static void begin_script(facts_description *out, uint8_t *bytes, size_t room, unsigned locals, unsigned deepest) {
    facts_chunk chunk = {1, FACTS_BLOCK_FUNC, 0, 0, 0, NULL, NULL};
    chunk.locals = FACTS_CAST(uint16_t, locals);
    chunk.deepest = FACTS_CAST(uint16_t, deepest);
    facts_describe_begin(out, bytes, room);
    facts_describe_chunk(out, &chunk, facts_shape_top());
}

static void push_word(facts_description *out) {
    facts_describe_op(out, FACTS_OP_PUSH_IMMEDIATE, 0, 1, FACTS_IMMEDIATE_WORD);
}

/* Two words, an instruction with these operands, a word and a Return, with a layout of two private slots, the second
 * with a placement: the answer to it. */
static void answer_of(uint32_t answer[FACTS_ANSWER], unsigned deepest, uint8_t number, uint8_t taken, uint8_t given,
                      uint32_t a, uint32_t b, uint32_t c) {
    uint8_t bytes[256], report[4096];
    static uint32_t workspace[4096];
    facts_description out;
    begin_script(&out, bytes, sizeof bytes, 1, deepest);
    out.header.layout = 1;
    out.header.slots = 2;
    push_word(&out);
    push_word(&out);
    facts_describe_instruction(&out, number, taken, given, a, b, c);
    push_word(&out);
    facts_describe_op(&out, FACTS_OP_RETURN, 0, 0, 0);
    facts_describe_placement(&out, 1, 0);
    facts_check(bytes, facts_describe_end(&out), workspace, sizeof workspace / sizeof *workspace, report,
                sizeof report, LIMIT, answer);
}

/* Whether the third instruction is refused with this number after so many steps: 3 in the first round. */
static int refused_after(uint32_t steps, uint32_t number, unsigned deepest, uint8_t op, uint8_t taken, uint8_t given,
                         uint32_t a, uint32_t b, uint32_t c) {
    uint32_t answer[FACTS_ANSWER];
    answer_of(answer, deepest, op, taken, given, a, b, c);
    return answer[FACTS_NUMBER] == number && answer[FACTS_CHUNK] == 0 && answer[FACTS_INSTRUCTION] == 2 &&
           answer[FACTS_STEPS] == steps;
}

/* What is refused in the first round, at the third step, and what only in the validation, at its third step or its
 * end. */
static void when_it_is_refused(void) {
    enum { ROUND = 5, HERE = 3, SLOTS = 2 };
    const uint32_t unproven = FACTS_KINDS_NOT_PROVEN;
    CHECK(refused_after(HERE, unproven, 4, FACTS_OP_POP_N, 3, 0, 0, 0, 0));
    CHECK(refused_after(HERE, unproven, 4, FACTS_OP_RETURN, 2, 0, 0, 0, 0));
    CHECK(refused_after(HERE, unproven, 4, FACTS_OP_GET_DATA, 0, 1, SLOTS, 0, 0));
    CHECK(refused_after(HERE, unproven, 4, FACTS_OP_GET_DATA_INDEXED, 1, 1, 0, 1, 0));
    CHECK(refused_after(HERE, unproven, 4, FACTS_OP_GET_FIELD, 1, 1, FACTS_READ_BOXED, 0, 0));
    CHECK(refused_after(HERE, unproven, 4, FACTS_OP_LEN, 1, 1, 0, 0, 0));
    CHECK(refused_after(HERE, FACTS_PLACEMENTS_CROSSED, 4, FACTS_OP_SET_DATA_INDEXED, 2, 0, 0, SLOTS, 0));
    CHECK(refused_after(HERE, FACTS_UNEQUAL_HEIGHTS, 2, FACTS_OP_GET_LOCAL, 0, 1, 0, 0, 0));
    CHECK(refused_after(ROUND + HERE, unproven, 4, FACTS_OP_NOT, 1, 1, 0, 0, 0));
    CHECK(refused_after(ROUND + HERE, FACTS_NO_PACKED_EXTENT, 4, FACTS_OP_NEW_COMPOSITE, 1, 1, FACTS_COMPOSITE_FLAT,
                        FACTS_BODY_TUPLE, 7));
}

/* Inspections are refused where the validation of the chunk ends. */
static void when_an_inspection_is_refused(void) {
    uint8_t bytes[256], report[4096];
    static uint32_t workspace[4096];
    uint32_t answer[FACTS_ANSWER];
    facts_description out;
    begin_script(&out, bytes, sizeof bytes, 0, 2);
    facts_describe_instruction(&out, FACTS_OP_CONST, 0, 1, FACTS_CONST_ENUM, 0, 1 + 7);
    facts_describe_op(&out, FACTS_OP_IS_ENUM, 1, 2, 0);
    facts_describe_op(&out, FACTS_OP_RETURN, 0, 0, 0);
    CHECK(facts_check(bytes, facts_describe_end(&out), workspace, sizeof workspace / sizeof *workspace, report,
                      sizeof report, LIMIT, answer) == FACTS_NO_DISCRIMINANT);
    CHECK(answer[FACTS_INSTRUCTION] == 1 && answer[FACTS_STEPS] == 6);
}

/* 3 and 4 are named with any workspace, 5 comes after them. */
static void named_without_workspace(void) {
    uint8_t bytes[256], report[1];
    uint32_t word[1] = {77}, answer[FACTS_ANSWER];
    facts_description out;
    begin_script(&out, bytes, sizeof bytes, 1, 2);
    push_word(&out);
    facts_describe_op(&out, FACTS_OP_GET_LOCAL, 0, 1, 0);
    CHECK(facts_check(bytes, facts_describe_end(&out), word, 1, report, 0, 0, answer) == FACTS_WORKSPACE_TOO_SMALL);
    facts_describe_op(&out, FACTS_OP_GET_LOCAL, 0, 1, 1);
    CHECK(facts_check(bytes, facts_describe_end(&out), word, 1, report, 0, 0, answer) == FACTS_BAD_REFERENCE);
    CHECK(answer[FACTS_CHUNK] == 0 && answer[FACTS_INSTRUCTION] == 2 && word[0] == 77);
}

/* Origins and predicates before an instruction of chunk 0, the stack from the bottom and then the locals: a digit for
 * each, '.' for none. */
static void provenance(const Pair *pair, uint16_t instruction, char *origins, char *receivers) {
    facts_entry entry;
    facts_record record;
    facts_cell cell;
    size_t number;
    CHECK(facts_find_entry(pair->index, pair->index_length, 0, instruction, &entry));
    CHECK(facts_entry_record(pair->report, pair->report_length, &entry, &record));
    for (number = 0; number < FACTS_CAST(size_t, record.stack) + record.locals; number++) {
        CHECK(facts_nth_cell(record.cells, FACTS_CAST(size_t, record.stack) + record.locals, number, &cell));
        *origins++ = FACTS_CAST(char, cell.origin == FACTS_NOWHERE ? '.' : '0' + cell.origin);
        *receivers++ = FACTS_CAST(char, cell.receiver == FACTS_NOWHERE ? '.' : '0' + cell.receiver);
    }
    *origins = *receivers = 0;
}

static void see_provenance(const Pair *pair, uint16_t instruction, const char *origins, const char *receivers) {
    char found_origins[16], found_receivers[16];
    provenance(pair, instruction, found_origins, found_receivers);
    CHECK(strcmp(found_origins, origins) == 0);
    CHECK(strcmp(found_receivers, receivers) == 0);
}

static void origins_and_predicates(void) {
    uint8_t bytes[512];
    facts_description out;
    Pair pair;
    begin_script(&out, bytes, sizeof bytes, 3, 5);
    facts_describe_op(&out, FACTS_OP_GET_LOCAL, 0, 1, 0);
    facts_describe_op(&out, FACTS_OP_SET_LOCAL, 1, 0, 1);
    facts_describe_op(&out, FACTS_OP_GET_LOCAL, 0, 1, 0);
    facts_describe_op(&out, FACTS_OP_DUP, 1, 2, 0);
    facts_describe_op(&out, FACTS_OP_IS_ENUM, 1, 2, 0);
    facts_describe_op(&out, FACTS_OP_NOT, 1, 1, 0);
    facts_describe_op(&out, FACTS_OP_SET_LOCAL, 1, 0, 2);
    facts_describe_op(&out, FACTS_OP_GET_LOCAL, 0, 1, 2);
    push_word(&out);
    facts_describe_op(&out, FACTS_OP_SET_LOCAL, 1, 0, 0);
    facts_describe_op(&out, FACTS_OP_RETURN, 0, 0, 0);
    pair = analyse(bytes, facts_describe_end(&out));
    see_provenance(&pair, 1, "0...", "....");
    see_provenance(&pair, 2, "...", "...");
    see_provenance(&pair, 4, "00...", ".....");
    see_provenance(&pair, 5, "00....", "..0...");
    see_provenance(&pair, 7, "00...", "....0");
    see_provenance(&pair, 9, "002....", "..0...0");
    see_provenance(&pair, 10, "..2...", "......");
    free_pair(&pair);
}

/* The description that the page has guards of; bindings/c/formats holds the record's bytes. */
static void describe_guards(facts_description *out, uint8_t *bytes, size_t room) {
    static const uint8_t types[2] = {FACTS_TYPE_COMPOSITE, FACTS_TYPE_WORD};
    facts_shape shapes[2];
    facts_chunk chunk = {1, FACTS_BLOCK_FUNC, 1, 2, 1, NULL, NULL};
    shapes[0] = facts_shape_body(4, 16);
    shapes[1] = facts_shape_scalar(FACTS_SCALAR_WORD, 8);
    chunk.types = types;
    chunk.shapes = shapes;
    facts_describe_begin(out, bytes, room);
    facts_describe_chunk(out, &chunk, facts_shape_top());
    facts_describe_op(out, FACTS_OP_GET_LOCAL, 0, 1, 0);
    facts_describe_op(out, FACTS_OP_CONST, 0, 1, FACTS_CONST_BYTE);
    facts_describe_op(out, FACTS_OP_CALL, 2, 1, 1);
    facts_describe_op(out, FACTS_OP_RETURN, 0, 0, 0);
    chunk.locals = chunk.parameters = 2;
    facts_describe_chunk(out, &chunk, facts_shape_top());
    facts_describe_op(out, FACTS_OP_GET_LOCAL, 0, 1, 0);
    facts_describe_op(out, FACTS_OP_GET_LOCAL, 0, 1, 1);
    facts_describe_instruction(out, FACTS_OP_GET_INDEX, 2, 1, FACTS_READ_FLAT, FACTS_SCALAR_WORD, 0);
    facts_describe_op(out, FACTS_OP_RETURN, 0, 0, 0);
}

static void the_guards(void) {
    uint8_t bytes[512];
    facts_description out;
    facts_entry entry;
    facts_record record;
    facts_guard guard;
    Pair pair;
    describe_guards(&out, bytes, sizeof bytes);
    pair = analyse(bytes, facts_describe_end(&out));
    CHECK(facts_find_entry(pair.index, pair.index_length, 1, 2, &entry) && entry.length == 270);
    CHECK(facts_entry_record(pair.report, pair.report_length, &entry, &record) && record.guards == 2);
    CHECK(facts_guard_at(&record, 0, &guard) && guard.place == 0 && guard.mask == FACTS_ARRAY);
    CHECK(facts_guard_at(&record, 1, &guard) && guard.place == 1 && guard.mask == FACTS_WORD);
    free_pair(&pair);
}

/* ---- Words and numbers ---- */

static void meanings(void) {
    uint32_t number, other;
    CHECK(strcmp(facts_meaning(FACTS_ACCEPTED), "accepted") == 0);
    CHECK(strcmp(facts_meaning(FACTS_TOO_LARGE), "over a largest value") == 0);
    CHECK(strcmp(facts_meaning(FACTS_KINDS_NOT_PROVEN), "kinds not proven") == 0);
    CHECK(strstr(facts_meaning(FACTS_WORKSPACE_TOO_SMALL), ": lend ") != NULL);
    CHECK(strstr(facts_meaning(FACTS_REPORT_TOO_LONG), ": lend ") != NULL);
    CHECK(strstr(facts_meaning(FACTS_LIMIT_USED_UP), ": allow ") != NULL);
    CHECK(strstr(facts_meaning(FACTS_QUEUE_FULL), ": lend ") != NULL);
    CHECK(strstr(facts_meaning(FACTS_INDEX_TOO_SHORT), ": lend ") != NULL);
    CHECK(FACTS_INDEX_DISAGREES == 20);
    for (number = 0; number <= 20; number++)
        for (other = number + 1; other <= 21; other++)
            CHECK(strcmp(facts_meaning(number), facts_meaning(other)) != 0);
    CHECK(facts_meaning(21) == facts_meaning(4294967295UL));
}

/* The bits that a name stands for, 0 for none. */
static unsigned bits_of(const char *name, size_t length) {
    static const struct {
        const char *name;
        unsigned bits;
    } names[] = {{"UNIT", FACTS_UNIT},     {"FALSE", FACTS_FALSE},   {"BYTE", FACTS_BYTE},   {"WORD", FACTS_WORD},
                 {"FIXED", FACTS_FIXED},   {"FLOAT", FACTS_FLOAT},   {"TEXT", FACTS_TEXT},   {"OPAQUE", FACTS_OPAQUE},
                 {"TUPLE", FACTS_TUPLE},   {"ARRAY", FACTS_ARRAY},   {"STRUCT", FACTS_STRUCT}, {"ENUM", FACTS_ENUM},
                 {"TRUE", FACTS_TRUE},     {"BOOL", FACTS_BOOL},     {"BODY", FACTS_BODY},   {"UNKNOWN", FACTS_UNKNOWN},
                 {"0x2000", 8192},         {"0x4000", 16384},        {"0x6000", 24576},      {"0x8000", 32768},
                 {"0xa000", 40960},        {"0xc000", 49152},        {"0xe000", 57344}};
    size_t k;
    for (k = 0; k < sizeof names / sizeof *names; k++)
        if (strlen(names[k].name) == length && memcmp(names[k].name, name, length) == 0)
            return names[k].bits;
    return 0;
}

/* The mask that a text says; a name that stands for nothing new is a fault. */
static unsigned mask_of(const char *text) {
    unsigned mask = 0;
    while (*text != 0) {
        const size_t length = strcspn(text, "|");
        const unsigned bits = bits_of(text, length);
        CHECK(bits != 0 && (mask & bits) == 0);
        mask |= bits;
        text += length + (text[length] == '|' ? 1 : 0);
    }
    return mask;
}

static int said(unsigned mask, const char *expected) {
    char text[FACTS_MASK_TEXT];
    return facts_mask_text(text, sizeof text, FACTS_CAST(uint16_t, mask)) == strlen(expected) &&
           strcmp(text, expected) == 0;
}

static void mask_texts(void) {
    char text[FACTS_MASK_TEXT];
    unsigned mask;
    CHECK(said(0, "NONE") && said(FACTS_UNKNOWN, "UNKNOWN") && said(FACTS_BOOL, "BOOL") && said(FACTS_BODY, "BODY"));
    CHECK(said(FACTS_WORD | FACTS_TRUE, "WORD|TRUE") && said(FACTS_FALSE | FACTS_BYTE, "FALSE|BYTE"));
    CHECK(said(FACTS_UNIT | FACTS_BOOL | FACTS_BODY, "UNIT|BOOL|BODY"));
    CHECK(said(FACTS_UNKNOWN & ~FACTS_ENUM, "UNIT|BOOL|BYTE|WORD|FIXED|FLOAT|TEXT|OPAQUE|TUPLE|ARRAY|STRUCT"));
    CHECK(said(65535, "UNKNOWN|0xe000") && said(8192 | FACTS_WORD, "WORD|0x2000") && said(40960, "0xa000"));
    for (mask = 1; mask < 65536; mask++) {
        const size_t length = facts_mask_text(text, sizeof text, FACTS_CAST(uint16_t, mask));
        CHECK(length < sizeof text && length == strlen(text));
        CHECK(mask_of(text) == mask);
    }
}

/* With each room: as much of the text as fits, a 0 behind it, and no byte more. */
static void mask_texts_cut(void) {
    const uint16_t mask = FACTS_WORD | FACTS_TRUE;
    const char *const whole = "WORD|TRUE";
    char text[16];
    size_t room;
    for (room = 0; room < sizeof text; room++) {
        memset(text, '#', sizeof text);
        CHECK(facts_mask_text(text, room, mask) == strlen(whole));
        CHECK(text[room] == '#');
        CHECK(room == 0 || strlen(text) == (room <= strlen(whole) ? room - 1 : strlen(whole)));
        CHECK(room == 0 || strncmp(text, whole, strlen(text)) == 0);
    }
}

/* That the names of facts.h fit together. */
static void numbers(void) {
    char version[32];
    unsigned version_numbers[3] = {FACTS_VERSION_MAJOR, FACTS_VERSION_MINOR, FACTS_VERSION_PATCH};
    sprintf(version, "%u.%u.%u", version_numbers[0], version_numbers[1], version_numbers[2]);
    CHECK(strcmp(version, FACTS_VERSION) == 0);
    CHECK(FACTS_CELL_OWNED == FACTS_CELL_EXTENTS + FACTS_EXTENTS * FACTS_EXTENT);
    CHECK(FACTS_CELL_WHEN + 1 == FACTS_CELL && FACTS_EXTENT_MAX + 4 == FACTS_EXTENT);
    CHECK(FACTS_OUTPUT == 2 + FACTS_CELL && FACTS_RECORD_GUARDS + 2 == FACTS_RECORD_HEAD);
    CHECK(FACTS_ENTRY_LENGTH + 4 == FACTS_ENTRY && FACTS_INDEXED_ANSWER == FACTS_ANSWER + 1);
    CHECK(FACTS_BOOL == (FACTS_FALSE | FACTS_TRUE));
    CHECK(FACTS_BODY == (FACTS_TUPLE | FACTS_ARRAY | FACTS_STRUCT | FACTS_ENUM));
    CHECK(FACTS_UNKNOWN == (FACTS_UNIT | FACTS_BOOL | FACTS_BYTE | FACTS_WORD | FACTS_FIXED | FACTS_FLOAT |
                            FACTS_TEXT | FACTS_OPAQUE | FACTS_BODY));
    CHECK(FACTS_OP_CALL_EXTERNAL_NATIVE + 1 == FACTS_OPS && FACTS_SITE_BYTES == 2 * FACTS_SHAPE_BYTES);
}

/* Counts a group by whether a check in it failed. */
static void count(const char *group) {
    if (faults == 0)
        passed++;
    else {
        failed++;
        printf("%s: %lu checks failed\n", group, faults);
    }
    faults = 0;
}
#define GROUP(call) (call, count(#call))

int main(int arguments, char **argument) {
    size_t length, listed;
    uint8_t *description, *list;
    Pair worked;
    if (arguments != 3) {
        fputs("test WORKED LIST\n", stderr);
        return 2;
    }
    description = read_file(argument[1], MOST_REPORT, &length);
    list = read_file(argument[2], MOST_LIST, &listed);
    GROUP(worked = analyse(description, length));
    GROUP(the_worked_report(&worked));
    GROUP(the_worked_index(&worked));
    GROUP(every_part_of_a_report());
    GROUP(damaged_reports(&worked));
    GROUP(no_meaning());
    GROUP(unfit_lengths());
    GROUP(values_of_branches());
    GROUP(out_of_order());
    GROUP(damaged_indexes(&worked));
    GROUP(parts(&worked));
    GROUP(listed_reports(list, listed));
    GROUP(described(describe_worked, description, length));
    GROUP(every_kind_of_field());
    GROUP(every_kind_of_field_analysed());
    GROUP(fields_in_every_order());
    GROUP(too_many_chunks());
    GROUP(many_parameters());
    GROUP(when_it_is_refused());
    GROUP(when_an_inspection_is_refused());
    GROUP(named_without_workspace());
    GROUP(origins_and_predicates());
    GROUP(the_guards());
    GROUP(meanings());
    GROUP(mask_texts());
    GROUP(mask_texts_cut());
    GROUP(numbers());
    free_pair(&worked);
    free(description);
    free(list);
    printf("%lu passed, %lu failed\n", passed, failed);
    return failed == 0 ? 0 : 1;
}
