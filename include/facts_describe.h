/* SPDX-License-Identifier: 0BSD
 *
 * Writes descriptions for libfacts_c.a; docs/FORMATS.md says what they mean,
 * examples/c/script.c is a whole program. It includes facts.h. Everything here
 * is inline and needs no library and no memory but the buffer that the caller
 * lends; pointers must not be null unless it says so.
 *
 *     uint8_t bytes[1024];
 *     facts_description script;
 *     facts_chunk chunk = {1, FACTS_BLOCK_FUNC, 0, 1, 0, NULL, NULL};
 *     size_t length;
 *     facts_describe_begin(&script, bytes, sizeof bytes);
 *     facts_describe_chunk(&script, &chunk, facts_shape_scalar(FACTS_SCALAR_BOOL, 1));
 *     facts_describe_op(&script, FACTS_OP_PUSH_IMMEDIATE, 0, 1, FACTS_IMMEDIATE_FALSE);
 *     facts_describe_op(&script, FACTS_OP_RETURN, 0, 0, 0);
 *     length = facts_describe_end(&script);
 *     if (length == 0)
 *         ... script.misplaced, or room for script.length bytes is wanted ...
 *
 * No call in between can fail: nothing is written past the buffer, and
 * facts_describe_end says whether all of it is there. It also writes field 1,
 * with as many chunks and signatures as there were. Whether numbers have a
 * meaning, and whether they are true of the script, isn't asked here; the
 * former facts_sizes says.
 */
#ifndef FACTS_DESCRIBE_H
#define FACTS_DESCRIBE_H

#include "facts.h"

/* ---- What is written ---- */

/* What a value may be and how large it is; made by the functions below. */
typedef struct {
    uint8_t tag;   /* FACTS_SHAPE_TOP, _SCALAR or _FLAT */
    uint8_t kind;  /* FACTS_SCALAR_UNIT or FACTS_BODY_TUPLE and others */
    uint8_t width; /* FACTS_WIDTH_UNKNOWN, _SCALAR or _BODY */
    uint32_t size; /* the width's bytes */
} facts_shape;

/* What field 1 says besides the counts. facts_describe_begin sets what stands
 * in brackets; set what is otherwise at any time before facts_describe_end. */
typedef struct {
    uint8_t float_bits_log2;             /* [6] a float has 64 bits */
    uint16_t entry;                      /* [0] the chunk where the script begins */
    uint8_t layout;                      /* [0] 1 with a data layout */
    uint16_t slots;                      /* [0] how many, shared and private */
    uint8_t owns_bodies;                 /* [0] 0 or 1 */
    uint32_t persistent_composite_bytes; /* [0] */
    uint8_t handle;                      /* [FACTS_LONG_HANDLE] */
} facts_header;

/* What field 2 says besides the return shape. */
typedef struct {
    uint8_t reachable;         /* 0 or 1 */
    uint8_t block;             /* FACTS_BLOCK_FUNC or another */
    uint16_t locals;           /* L, parameters included */
    uint16_t deepest;          /* D */
    uint8_t parameters;        /* how many */
    const uint8_t *types;      /* so many type tags, FACTS_TYPE_WORD and others; null: none is written */
    const facts_shape *shapes; /* so many shapes; not looked at without a signature or parameters */
} facts_chunk;

/* A description that is being written. */
typedef struct {
    uint8_t *bytes;              /* the caller's buffer */
    size_t room;                 /* its length */
    size_t length;               /* what is written, or would be if there were room */
    facts_header header;         /* field 1 */
    uint32_t chunks, signatures; /* how many so far */
    uint8_t last;                /* the tag of the last field */
    uint8_t misplaced;           /* 1 where a field came out of its order */
} facts_description;

/* ---- Shapes ---- */

FACTS_INLINE facts_shape facts_shape_of(uint8_t tag, uint8_t kind, uint8_t width, uint32_t size) {
    facts_shape shape;
    shape.tag = tag;
    shape.kind = kind;
    shape.width = width;
    shape.size = size;
    return shape;
}

/* Anything, of any size. */
FACTS_INLINE facts_shape facts_shape_top(void) {
    return facts_shape_of(FACTS_SHAPE_TOP, 0, FACTS_WIDTH_UNKNOWN, 0);
}

/* A scalar of so many bytes. */
FACTS_INLINE facts_shape facts_shape_scalar(uint8_t kind, uint32_t size) {
    return facts_shape_of(FACTS_SHAPE_SCALAR, kind, FACTS_WIDTH_SCALAR, size);
}

/* A scalar of unknown width: FACTS_SCALAR_TEXT and FACTS_SCALAR_OPAQUE. */
FACTS_INLINE facts_shape facts_shape_unsized_scalar(uint8_t kind) {
    return facts_shape_of(FACTS_SHAPE_SCALAR, kind, FACTS_WIDTH_UNKNOWN, 0);
}

/* A body of so many bytes. */
FACTS_INLINE facts_shape facts_shape_body(uint8_t kind, uint32_t size) {
    return facts_shape_of(FACTS_SHAPE_FLAT, kind, FACTS_WIDTH_BODY, size);
}

/* A body of unknown size. */
FACTS_INLINE facts_shape facts_shape_unsized_body(uint8_t kind) {
    return facts_shape_of(FACTS_SHAPE_FLAT, kind, FACTS_WIDTH_UNKNOWN, 0);
}

/* ---- Bytes ---- */

/* Where there is no room the byte is only counted. */
FACTS_INLINE void facts_put8(facts_description *out, uint8_t value) {
    if (out->length < out->room)
        out->bytes[out->length] = value;
    out->length++;
}

/* Numbers, least byte first. */
FACTS_INLINE void facts_put16(facts_description *out, uint16_t value) {
    facts_put8(out, FACTS_CAST(uint8_t, value & 255));
    facts_put8(out, FACTS_CAST(uint8_t, value >> 8));
}

FACTS_INLINE void facts_put32(facts_description *out, uint32_t value) {
    facts_put16(out, FACTS_CAST(uint16_t, value & 65535));
    facts_put16(out, FACTS_CAST(uint16_t, value >> 16));
}

FACTS_INLINE void facts_put_shape(facts_description *out, const facts_shape *shape) {
    facts_put8(out, shape->tag);
    facts_put8(out, shape->kind);
    facts_put8(out, shape->width);
    facts_put32(out, shape->size);
}

/* Whether a field may stand behind one with the tag last. */
FACTS_INLINE int facts_may_follow(uint8_t last, uint8_t tag) {
    switch (tag) {
    case FACTS_TAG_CHUNK: return last <= FACTS_TAG_SITE;
    case FACTS_TAG_INSTRUCTION: return last >= FACTS_TAG_CHUNK && last <= FACTS_TAG_SITE;
    case FACTS_TAG_SITE: return last == FACTS_TAG_INSTRUCTION;
    default: return last <= tag;
    }
}

/* Tag and length of a field. */
FACTS_INLINE void facts_put_field(facts_description *out, uint8_t tag, uint16_t length) {
    if (!facts_may_follow(out->last, tag))
        out->misplaced = 1;
    out->last = tag;
    facts_put8(out, tag);
    facts_put16(out, length);
}

FACTS_INLINE void facts_put_header(facts_description *out) {
    facts_put8(out, FACTS_TAG_HEADER);
    facts_put16(out, FACTS_HEADER_BYTES);
    facts_put8(out, out->header.float_bits_log2);
    facts_put16(out, out->header.entry);
    facts_put16(out, FACTS_CAST(uint16_t, out->chunks));
    facts_put16(out, FACTS_CAST(uint16_t, out->signatures));
    facts_put8(out, out->header.layout);
    facts_put16(out, out->header.slots);
    facts_put8(out, out->header.owns_bodies);
    facts_put32(out, out->header.persistent_composite_bytes);
    facts_put8(out, out->header.handle);
}

/* ---- Begin and end ---- */

/* Begins a description in a buffer of so many bytes, and leaves room for field
 * 1. With 0 bytes nothing is written, only counted. */
FACTS_INLINE void facts_describe_begin(facts_description *out, uint8_t *bytes, size_t room) {
    out->bytes = bytes;
    out->room = room;
    out->length = 0;
    out->header.float_bits_log2 = 6;
    out->header.entry = 0;
    out->header.layout = 0;
    out->header.slots = 0;
    out->header.owns_bodies = 0;
    out->header.persistent_composite_bytes = 0;
    out->header.handle = FACTS_LONG_HANDLE;
    out->chunks = 0;
    out->signatures = 0;
    out->last = FACTS_TAG_HEADER;
    out->misplaced = 0;
    facts_put_header(out);
}

/* Writes field 1. The length of the description; 0 where it isn't whole: where
 * out->length is above out->room (then lend so many bytes and write it again),
 * or where a field came out of its order, out->misplaced. */
FACTS_INLINE size_t facts_describe_end(facts_description *out) {
    const size_t length = out->length;
    if (length > out->room || out->misplaced != 0)
        return 0;
    out->length = 0;
    facts_put_header(out);
    out->length = length;
    return length;
}

/* ---- Fields 2 to 8, in this order: chunks, each followed by its
 * instructions; natives, shared slots, placements, initializers ---- */

/* What a chunk has with a signature and without one. */
FACTS_INLINE void facts_put_chunk(facts_description *out, const facts_chunk *chunk, size_t more) {
    const uint8_t tags = chunk->types == NULL ? 0 : chunk->parameters;
    uint8_t number;
    facts_put_field(out, FACTS_TAG_CHUNK, FACTS_CAST(uint16_t, FACTS_CHUNK_BYTES + tags + more));
    facts_put8(out, chunk->reachable);
    facts_put8(out, chunk->block);
    facts_put16(out, chunk->locals);
    facts_put16(out, chunk->deepest);
    facts_put8(out, chunk->parameters);
    facts_put8(out, tags);
    for (number = 0; number < tags; number++)
        facts_put8(out, chunk->types[number]);
    out->chunks++;
    if (out->chunks > 65535) /* more than field 1 can say */
        out->misplaced = 1;
}

/* A chunk with a signature. */
FACTS_INLINE void facts_describe_chunk(facts_description *out, const facts_chunk *chunk, facts_shape result) {
    uint8_t number;
    if (out->signatures != out->chunks) /* those with a signature come first */
        out->misplaced = 1;
    facts_put_chunk(out, chunk, 1 + (FACTS_CAST(size_t, chunk->parameters) + 1) * FACTS_SHAPE_BYTES);
    facts_put8(out, chunk->parameters);
    for (number = 0; number < chunk->parameters; number++)
        facts_put_shape(out, &chunk->shapes[number]);
    facts_put_shape(out, &result);
    out->signatures++;
}

/* A chunk without a signature, behind all that have one. */
FACTS_INLINE void facts_describe_bare_chunk(facts_description *out, const facts_chunk *chunk) {
    facts_put_chunk(out, chunk, 0);
}

/* An instruction of the last chunk, FACTS_OP_CONST or another, with all its
 * operands. */
FACTS_INLINE void facts_describe_instruction(facts_description *out, uint8_t number, uint8_t taken, uint8_t given,
                                             uint32_t a, uint32_t b, uint32_t c) {
    facts_put_field(out, FACTS_TAG_INSTRUCTION, FACTS_INSTRUCTION_BYTES);
    facts_put8(out, number);
    facts_put8(out, taken);
    facts_put8(out, given);
    facts_put32(out, a);
    facts_put32(out, b);
    facts_put32(out, c);
}

/* An instruction with one operand or none (a is then 0). */
FACTS_INLINE void facts_describe_op(facts_description *out, uint8_t number, uint8_t taken, uint8_t given, uint32_t a) {
    facts_describe_instruction(out, number, taken, given, a, 0, 0);
}

/* The dialogue site of the last instruction. */
FACTS_INLINE void facts_describe_site(facts_description *out, facts_shape yielded, facts_shape reply) {
    facts_put_field(out, FACTS_TAG_SITE, FACTS_SITE_BYTES);
    facts_put_shape(out, &yielded);
    facts_put_shape(out, &reply);
}

/* The next native: what it returns, and whether that is owned. */
FACTS_INLINE void facts_describe_native(facts_description *out, facts_shape returned, uint8_t snapshot) {
    facts_put_field(out, FACTS_TAG_NATIVE, FACTS_NATIVE_BYTES);
    facts_put_shape(out, &returned);
    facts_put8(out, snapshot);
}

/* The next shared slot: FACTS_SCALAR_UNIT or another, or FACTS_SHARED_BODY and
 * the kind of a body. From here on header.layout must be 1. */
FACTS_INLINE void facts_describe_shared(facts_description *out, uint8_t kind) {
    facts_put_field(out, FACTS_TAG_SHARED, FACTS_SHARED_BYTES);
    facts_put8(out, kind);
}

/* A private slot that can hold bodies. */
FACTS_INLINE void facts_describe_placement(facts_description *out, uint16_t slot, uint32_t offset) {
    facts_put_field(out, FACTS_TAG_PLACEMENT, FACTS_PLACEMENT_BYTES);
    facts_put16(out, slot);
    facts_put32(out, offset);
}

/* The initializer of the next private slot: FACTS_CONST_UNIT or another, and
 * the value of a Bool, else 0. */
FACTS_INLINE void facts_describe_initializer(facts_description *out, uint8_t constant, uint8_t value) {
    facts_put_field(out, FACTS_TAG_INITIALIZER, FACTS_INITIALIZER_BYTES);
    facts_put8(out, constant);
    facts_put8(out, value);
}

#endif
