/* SPDX-License-Identifier: 0BSD
 *
 * Reads reports and indexes of libfacts_c.a; docs/FORMATS.md says what they
 * mean. It includes facts.h. Everything here is inline and needs no library, no
 * memory and no recursion. The bytes stay the caller's; what is handed out
 * points into them.
 *
 * The bytes may be any bytes: nothing is read past the length that is given.
 * Where they aren't those of a report, a function answers FACTS_MALFORMED or 0
 * and leaves what it should have written as it was. Pointers must not be null,
 * also where a length is 0.
 *
 *     facts_walk walk;
 *     facts_field field;
 *     facts_record record;
 *     facts_cell cell;
 *     int next;
 *     facts_begin(&walk, report, report_bytes);
 *     while ((next = facts_next(&walk, &field)) == FACTS_FIELD)
 *         if (facts_get_record(&field, &record) && facts_stack_at(&record, 0, &cell))
 *             ... cell.mask, cell.width ...
 *     if (next == FACTS_MALFORMED)
 *         ...
 */
#ifndef FACTS_REPORT_H
#define FACTS_REPORT_H

#include "facts.h"

/* ---- What is read ---- */

/* A field of a report. */
typedef struct {
    const uint8_t *contents; /* behind its tag and length */
    size_t length;           /* the bytes of its contents */
    uint8_t tag;             /* FACTS_TAG_REPLY or another */
} facts_field;

/* How large a body of one kind is. */
typedef struct {
    uint8_t form;      /* FACTS_EXTENT_ABSENT, _RANGE or _UNKNOWN */
    uint32_t min, max; /* its bytes, in a range; else 0 */
} facts_extent;

/* What a place can hold. */
typedef struct {
    uint16_t mask;                       /* FACTS_UNIT and others: its kinds */
    uint8_t width;                       /* FACTS_WIDTH_UNKNOWN, _SCALAR or _BODY */
    uint32_t size;                       /* the width's bytes; else 0 */
    facts_extent extents[FACTS_EXTENTS]; /* by kind, from FACTS_BODY_TUPLE */
    uint8_t owned;                       /* 0 or 1 */
    uint16_t origin;                     /* a local, or FACTS_NOWHERE */
    uint16_t receiver;                   /* a predicate's local, or FACTS_NOWHERE */
    uint8_t when;                        /* where the predicate holds: 0 or 1 */
} facts_cell;

/* A chunk's inputs and its result. */
typedef struct {
    const uint8_t *cells;
    uint16_t chunk;
    uint16_t inputs; /* how many */
} facts_signature;

/* The facts of an instruction. */
typedef struct {
    const uint8_t *cells;
    uint16_t chunk, instruction;
    uint16_t stack, locals, outputs, guards; /* how many of each */
} facts_record;

/* What an instruction puts onto the stack. */
typedef struct {
    uint16_t slot; /* the stack place where it goes */
    facts_cell cell;
} facts_output;

/* What has to be tested before an instruction. */
typedef struct {
    uint16_t place; /* the stack place */
    uint16_t mask;  /* the kinds that it must be one of */
} facts_guard;

/* A false inspection. */
typedef struct {
    uint16_t chunk, instruction;
} facts_inspection;

/* A known branch. */
typedef struct {
    uint16_t chunk, instruction;
    uint8_t value; /* of its condition: 0 or 1 */
} facts_branch;

/* An entry of an index. */
typedef struct {
    uint16_t chunk, instruction;
    uint32_t first, length; /* the record's field in the report */
} facts_entry;

/* How far a walk over a report has come. */
typedef struct {
    const uint8_t *rest;
    size_t left;
} facts_walk;

/* ---- Numbers, least byte first ---- */

FACTS_INLINE uint16_t facts_u16(const uint8_t *at) {
    return FACTS_CAST(uint16_t, at[0] | at[1] << 8);
}

FACTS_INLINE uint32_t facts_u32(const uint8_t *at) {
    return facts_u16(at) | FACTS_CAST(uint32_t, facts_u16(at + 2)) << 16;
}

/* ---- Fields ---- */

/* What facts_next answers. */
enum { FACTS_MALFORMED = -1, FACTS_END = 0, FACTS_FIELD = 1 };

/* Begins a walk over the fields of a report. */
FACTS_INLINE void facts_begin(facts_walk *walk, const uint8_t *report, size_t report_bytes) {
    walk->rest = report;
    walk->left = report_bytes;
}

/* The next field: FACTS_FIELD; FACTS_END where none is left; FACTS_MALFORMED
 * where what is left is no whole field. */
FACTS_INLINE int facts_next(facts_walk *walk, facts_field *field) {
    size_t length;
    if (walk->left == 0)
        return FACTS_END;
    if (walk->left < FACTS_FIELD_HEAD)
        return FACTS_MALFORMED;
    length = facts_u16(walk->rest + 1);
    if (walk->left - FACTS_FIELD_HEAD < length)
        return FACTS_MALFORMED;
    field->tag = walk->rest[0];
    field->contents = walk->rest + FACTS_FIELD_HEAD;
    field->length = length;
    walk->rest += FACTS_FIELD_HEAD + length;
    walk->left -= FACTS_FIELD_HEAD + length;
    return FACTS_FIELD;
}

/* The field that is this part of a report, as facts_lookup and an index have
 * it: 1, or 0 where it isn't exactly a field inside the report. */
FACTS_INLINE int facts_get_part(const uint8_t *report, size_t report_bytes, uint64_t first, uint64_t length,
                                facts_field *field) {
    facts_walk walk;
    facts_field found;
    if (first > report_bytes || length > report_bytes - first)
        return 0;
    facts_begin(&walk, report + FACTS_CAST(size_t, first), FACTS_CAST(size_t, length));
    if (facts_next(&walk, &found) != FACTS_FIELD || walk.left != 0)
        return 0;
    *field = found;
    return 1;
}

/* ---- Cells ---- */

FACTS_INLINE facts_extent facts_read_extent(const uint8_t *at) {
    facts_extent extent;
    extent.form = at[FACTS_EXTENT_FORM];
    extent.min = facts_u32(at + FACTS_EXTENT_MIN);
    extent.max = facts_u32(at + FACTS_EXTENT_MAX);
    return extent;
}

/* The cell in these FACTS_CELL bytes: 1, or 0 where one of them has no
 * meaning. */
FACTS_INLINE int facts_read_cell(const uint8_t *at, facts_cell *cell) {
    facts_cell found;
    int kind;
    found.mask = facts_u16(at + FACTS_CELL_MASK);
    found.width = at[FACTS_CELL_WIDTH];
    found.size = facts_u32(at + FACTS_CELL_SIZE);
    found.owned = at[FACTS_CELL_OWNED];
    found.origin = facts_u16(at + FACTS_CELL_ORIGIN);
    found.receiver = facts_u16(at + FACTS_CELL_RECEIVER);
    found.when = at[FACTS_CELL_WHEN];
    if (found.width > FACTS_WIDTH_BODY || found.owned > 1 || found.when > 1)
        return 0;
    for (kind = 0; kind < FACTS_EXTENTS; kind++) {
        found.extents[kind] = facts_read_extent(at + FACTS_CELL_EXTENTS + kind * FACTS_EXTENT);
        if (found.extents[kind].form > FACTS_EXTENT_UNKNOWN)
            return 0;
    }
    *cell = found;
    return 1;
}

/* The cell with this number among so many: 1, or 0 where there is none. */
FACTS_INLINE int facts_nth_cell(const uint8_t *cells, size_t count, size_t number, facts_cell *cell) {
    return number < count && facts_read_cell(cells + number * FACTS_CELL, cell);
}

/* ---- What a field has: 1, or 0 where it isn't such a field ---- */

/* The reply maximum. */
FACTS_INLINE int facts_get_reply(const facts_field *field, uint32_t *maximum) {
    if (field->tag != FACTS_TAG_REPLY || field->length != 4)
        return 0;
    *maximum = facts_u32(field->contents);
    return 1;
}

/* A signature; its cells are had by facts_input_at and facts_result_of. */
FACTS_INLINE int facts_get_signature(const facts_field *field, facts_signature *signature) {
    if (field->tag != FACTS_TAG_SIGNATURE || field->length < 2 + FACTS_CELL || (field->length - 2) % FACTS_CELL != 0)
        return 0;
    signature->chunk = facts_u16(field->contents);
    signature->inputs = FACTS_CAST(uint16_t, (field->length - 2) / FACTS_CELL - 1);
    signature->cells = field->contents + 2;
    return 1;
}

FACTS_INLINE int facts_input_at(const facts_signature *signature, size_t number, facts_cell *cell) {
    return facts_nth_cell(signature->cells, signature->inputs, number, cell);
}

FACTS_INLINE int facts_result_of(const facts_signature *signature, facts_cell *cell) {
    return facts_read_cell(signature->cells + FACTS_CAST(size_t, signature->inputs) * FACTS_CELL, cell);
}

/* A slot; the first such field is slot 0. */
FACTS_INLINE int facts_get_slot(const facts_field *field, facts_cell *cell) {
    return field->tag == FACTS_TAG_SLOT && field->length == FACTS_CELL && facts_read_cell(field->contents, cell);
}

/* How many bytes behind its head a record with these numbers has. */
FACTS_INLINE size_t facts_record_bytes(const facts_record *record) {
    return FACTS_CAST(size_t, record->stack) * FACTS_CELL + FACTS_CAST(size_t, record->locals) * FACTS_CELL +
           FACTS_CAST(size_t, record->outputs) * FACTS_OUTPUT + FACTS_CAST(size_t, record->guards) * FACTS_GUARD;
}

/* A record; what it has is had by the four functions below. */
FACTS_INLINE int facts_get_record(const facts_field *field, facts_record *record) {
    facts_record found;
    if (field->tag != FACTS_TAG_RECORD || field->length < FACTS_RECORD_HEAD)
        return 0;
    found.chunk = facts_u16(field->contents + FACTS_RECORD_CHUNK);
    found.instruction = facts_u16(field->contents + FACTS_RECORD_INSTRUCTION);
    found.stack = facts_u16(field->contents + FACTS_RECORD_STACK);
    found.locals = facts_u16(field->contents + FACTS_RECORD_LOCALS);
    found.outputs = facts_u16(field->contents + FACTS_RECORD_OUTPUTS);
    found.guards = facts_u16(field->contents + FACTS_RECORD_GUARDS);
    found.cells = field->contents + FACTS_RECORD_HEAD;
    if (field->length - FACTS_RECORD_HEAD != facts_record_bytes(&found))
        return 0;
    *record = found;
    return 1;
}

/* The stack place with this number, from the bottom. */
FACTS_INLINE int facts_stack_at(const facts_record *record, size_t number, facts_cell *cell) {
    return facts_nth_cell(record->cells, record->stack, number, cell);
}

FACTS_INLINE int facts_local_at(const facts_record *record, size_t number, facts_cell *cell) {
    const uint8_t *locals = record->cells + FACTS_CAST(size_t, record->stack) * FACTS_CELL;
    return facts_nth_cell(locals, record->locals, number, cell);
}

FACTS_INLINE const uint8_t *facts_outputs_begin(const facts_record *record) {
    return record->cells + (FACTS_CAST(size_t, record->stack) + record->locals) * FACTS_CELL;
}

FACTS_INLINE int facts_output_at(const facts_record *record, size_t number, facts_output *output) {
    const uint8_t *at;
    if (number >= record->outputs)
        return 0;
    at = facts_outputs_begin(record) + number * FACTS_OUTPUT;
    if (!facts_read_cell(at + 2, &output->cell))
        return 0;
    output->slot = facts_u16(at);
    return 1;
}

FACTS_INLINE int facts_guard_at(const facts_record *record, size_t number, facts_guard *guard) {
    const uint8_t *at;
    if (number >= record->guards)
        return 0;
    at = facts_outputs_begin(record) + FACTS_CAST(size_t, record->outputs) * FACTS_OUTPUT + number * FACTS_GUARD;
    guard->place = facts_u16(at);
    guard->mask = facts_u16(at + 2);
    return 1;
}

FACTS_INLINE int facts_get_inspection(const facts_field *field, facts_inspection *inspection) {
    if (field->tag != FACTS_TAG_INSPECTION || field->length != 4)
        return 0;
    inspection->chunk = facts_u16(field->contents);
    inspection->instruction = facts_u16(field->contents + 2);
    return 1;
}

FACTS_INLINE int facts_get_branch(const facts_field *field, facts_branch *branch) {
    if (field->tag != FACTS_TAG_BRANCH || field->length != 5 || field->contents[4] > 1)
        return 0;
    branch->chunk = facts_u16(field->contents);
    branch->instruction = facts_u16(field->contents + 2);
    branch->value = field->contents[4];
    return 1;
}

/* ---- A whole report ---- */

FACTS_INLINE int facts_cells_fine(const uint8_t *cells, size_t count) {
    facts_cell cell;
    size_t number = 0;
    while (number < count && facts_nth_cell(cells, count, number, &cell))
        number++;
    return number == count;
}

FACTS_INLINE int facts_record_fine(const facts_record *record) {
    facts_output output;
    size_t number = 0;
    while (number < record->outputs && facts_output_at(record, number, &output))
        number++;
    return number == record->outputs &&
           facts_cells_fine(record->cells, FACTS_CAST(size_t, record->stack) + record->locals);
}

FACTS_INLINE int facts_field_fine(const facts_field *field) {
    facts_signature signature;
    facts_record record;
    facts_inspection inspection;
    facts_branch branch;
    facts_cell cell;
    uint32_t maximum;
    switch (field->tag) {
    case FACTS_TAG_REPLY: return facts_get_reply(field, &maximum);
    case FACTS_TAG_SIGNATURE:
        return facts_get_signature(field, &signature) &&
               facts_cells_fine(signature.cells, FACTS_CAST(size_t, signature.inputs) + 1);
    case FACTS_TAG_SLOT: return facts_get_slot(field, &cell);
    case FACTS_TAG_RECORD: return facts_get_record(field, &record) && facts_record_fine(&record);
    case FACTS_TAG_INSPECTION: return facts_get_inspection(field, &inspection);
    case FACTS_TAG_BRANCH: return facts_get_branch(field, &branch);
    default: return 0;
    }
}

/* Whether these bytes are fields of a report, in the order of their tags, the
 * first and only the first of tag FACTS_TAG_REPLY, and each can be read: then
 * nothing above fails on them, except for a number that is too large. It isn't
 * asked whether records and others rise, nor whether the facts are true. */
FACTS_INLINE int facts_well_formed(const uint8_t *report, size_t report_bytes) {
    facts_walk walk;
    facts_field field;
    uint8_t last = FACTS_TAG_REPLY - 1;
    int next;
    facts_begin(&walk, report, report_bytes);
    while ((next = facts_next(&walk, &field)) == FACTS_FIELD) {
        const int first = last < FACTS_TAG_REPLY;
        if (first != (field.tag == FACTS_TAG_REPLY) || field.tag < last || !facts_field_fine(&field))
            return 0;
        last = field.tag;
    }
    return next == FACTS_END && last >= FACTS_TAG_REPLY;
}

/* ---- Indexes ---- */

/* How many whole entries an index has. */
FACTS_INLINE size_t facts_entries(size_t index_bytes) {
    return index_bytes / FACTS_ENTRY;
}

/* The entry with this number: 1, or 0 where there is none. */
FACTS_INLINE int facts_entry_at(const uint8_t *index, size_t index_bytes, size_t number, facts_entry *entry) {
    const uint8_t *at;
    if (number >= facts_entries(index_bytes))
        return 0;
    at = index + number * FACTS_ENTRY;
    entry->chunk = facts_u16(at + FACTS_ENTRY_CHUNK);
    entry->instruction = facts_u16(at + FACTS_ENTRY_INSTRUCTION);
    entry->first = facts_u32(at + FACTS_ENTRY_FIRST);
    entry->length = facts_u32(at + FACTS_ENTRY_LENGTH);
    return 1;
}

/* Chunk and instruction as one number that rises as they do. */
FACTS_INLINE uint32_t facts_place(uint16_t chunk, uint16_t instruction) {
    return FACTS_CAST(uint32_t, chunk) << 16 | instruction;
}

/* The entry of an instruction, by halving: 1, or 0 where there is none. Unlike
 * facts_lookup_indexed it trusts the index: where entries don't rise, one that
 * is there may be missed. */
FACTS_INLINE int facts_find_entry(const uint8_t *index, size_t index_bytes, uint16_t chunk, uint16_t instruction,
                                  facts_entry *entry) {
    const uint32_t sought = facts_place(chunk, instruction);
    size_t low = 0, high = facts_entries(index_bytes);
    facts_entry found;
    while (low < high) {
        const size_t middle = low + (high - low) / 2;
        const uint8_t *at = index + middle * FACTS_ENTRY;
        if (facts_place(facts_u16(at), facts_u16(at + FACTS_ENTRY_INSTRUCTION)) < sought)
            low = middle + 1;
        else
            high = middle;
    }
    if (!facts_entry_at(index, index_bytes, low, &found) || facts_place(found.chunk, found.instruction) != sought)
        return 0;
    *entry = found;
    return 1;
}

/* The record that an entry names: 1, or 0 where it names none of the report. */
FACTS_INLINE int facts_entry_record(const uint8_t *report, size_t report_bytes, const facts_entry *entry,
                                    facts_record *record) {
    facts_field field;
    facts_record found;
    if (!facts_get_part(report, report_bytes, entry->first, entry->length, &field) ||
        !facts_get_record(&field, &found) || found.chunk != entry->chunk || found.instruction != entry->instruction)
        return 0;
    *record = found;
    return 1;
}

/* ---- Masks in words ---- */

/* The name of the kind that is this bit of a mask, from 0 to 12. */
FACTS_INLINE const char *facts_kind_name(unsigned bit) {
    switch (bit) {
    case 0: return "UNIT";
    case 1: return "FALSE";
    case 2: return "BYTE";
    case 3: return "WORD";
    case 4: return "FIXED";
    case 5: return "FLOAT";
    case 6: return "TEXT";
    case 7: return "OPAQUE";
    case 8: return "TUPLE";
    case 9: return "ARRAY";
    case 10: return "STRUCT";
    case 11: return "ENUM";
    default: return "TRUE";
    }
}

/* The bits of a mask that are no kind's, as a number. */
FACTS_INLINE const char *facts_no_kind(uint16_t mask) {
    switch (mask >> 13) {
    case 1: return "0x2000";
    case 2: return "0x4000";
    case 3: return "0x6000";
    case 4: return "0x8000";
    case 5: return "0xa000";
    case 6: return "0xc000";
    default: return "0xe000";
    }
}

/* Puts a name behind the length bytes of a text, parted by '|' from one before
 * it, as far as there is room; the length that it then has, or would have. */
FACTS_INLINE size_t facts_put_name(char *text, size_t room, size_t length, const char *name) {
    size_t put = length == 0 ? 0 : 1;
    if (put == 1 && length + 1 < room)
        text[length] = '|';
    for (; *name != 0; name++, put++)
        if (length + put + 1 < room)
            text[length + put] = *name;
    return length + put;
}

/* The name of what a mask has from this bit on, its lowest, and the bits for
 * which the name stands: all kinds, a pair, four, or one. */
FACTS_INLINE const char *facts_lowest_name(uint16_t mask, unsigned bit, uint16_t *bits) {
    *bits = FACTS_CAST(uint16_t, 1U << bit);
    if (bit == 0 && (mask & FACTS_UNKNOWN) == FACTS_UNKNOWN) {
        *bits = FACTS_UNKNOWN;
        return "UNKNOWN";
    }
    if (bit == 1 && (mask & FACTS_BOOL) == FACTS_BOOL) {
        *bits = FACTS_BOOL;
        return "BOOL";
    }
    if (bit == 8 && (mask & FACTS_BODY) == FACTS_BODY) {
        *bits = FACTS_BODY;
        return "BODY";
    }
    return facts_kind_name(bit);
}

/* The kinds of a mask in words, as "WORD|TRUE"; "NONE" for 0, "UNKNOWN" for all,
 * "BOOL" and "BODY" where all of their kinds are there, bits that are no kind's
 * as a number. Writes as much as there is room for and a 0 behind it, nothing
 * where room is 0; the length of the whole text without that 0, as snprintf
 * does. No text is longer than FACTS_MASK_TEXT less 1. */
#define FACTS_MASK_TEXT 80
FACTS_INLINE size_t facts_mask_text(char *text, size_t room, uint16_t mask) {
    size_t length = 0;
    unsigned bit;
    uint16_t left = mask, bits;
    for (bit = 0; bit < 13; bit++) {
        if ((left >> bit & 1) != 0) {
            const char *name = facts_lowest_name(left, bit, &bits);
            length = facts_put_name(text, room, length, name);
            left = FACTS_CAST(uint16_t, left & ~bits);
        }
    }
    if (left != 0 || mask == 0)
        length = facts_put_name(text, room, length, mask == 0 ? "NONE" : facts_no_kind(left));
    if (room > 0)
        text[length < room ? length : room - 1] = 0;
    return length;
}

#endif
