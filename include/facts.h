/* SPDX-License-Identifier: 0BSD
 *
 * Genduvo's static library, libfacts_c.a: the value-kind facts of a script.
 * docs/FORMATS.md has the bytes of descriptions, reports and indexes, and what
 * they mean; facts_describe.h writes descriptions, facts_report.h reads reports
 * and indexes. Both include this file.
 *
 * To link it: cc prog.c libfacts_c.a. No other library is needed.
 *
 * The caller owns all memory and lends it for one call. The library keeps no
 * pointer, has no memory of its own beside the stack, and no state: threads
 * may call it at the same time, each with memory of its own.
 *
 * A pointer must not be null, also where its length is 0, and must be aligned
 * for its type. In C++ that takes care: data() of an empty std::vector may be
 * null, so lend a vector of one element with the length 0 instead. What is
 * written (workspace, report, index, answer, words, sizes, part) must overlap
 * nothing else of the same call.
 *
 * Platform: x86-64, System V ABI, ELF; the archive needs memcpy and memset and
 * nothing else. Stack: the deepest chain of frames has 4,600 bytes beside
 * memcpy and memset; allow 8 KB.
 *
 * How much to lend:
 *
 *   workspace  the least that facts_sizes says, and some more. The least has
 *              room for one entry in the queue; an entry is a word, and an If
 *              may put in two, so many scripts want a few words more. The
 *              examples lend the least + 1,000 words, far more than any
 *              generated script was seen to need (27; a chunk of 4,000
 *              instructions 161). After 8 lend more and call again; twice as
 *              many is a fine next try.
 *   report     as many bytes as facts_sizes says: then 6 never comes. After 6
 *              lend more and call again.
 *   index      as many bytes as for the report: then 19 never comes.
 *   limit      1,000,000 in the examples. A step took 0.3 to 3 microseconds,
 *              by the number of locals and the height of the stack, so a limit
 *              bounds the time of a call. After 7 allow more and call again;
 *              twice as many is a fine next try.
 *
 * Nothing of an accepted report depends on how much was lent: to lend more, or
 * to allow more steps, changes only whether 5 to 8 and 19 come. The sizes grow
 * with the instructions of a chunk times its locals and its deepest stack. The
 * worst case, a description of 1 MiB with 256 locals and a stack of 64, has a
 * least workspace of 303,649,985 words, 1.2 GB, and wrote a report of
 * 923,882,362 bytes; with no locals and a stack of one it is 26 MB and 7 MB.
 *
 * Memory that was never touched costs a page fault at its first use, so lend
 * the same workspace again and again: it may hold anything when it is lent. It
 * is as it was after 1 to 5, and zeros after all else.
 */
#ifndef FACTS_H
#define FACTS_H

#include <stddef.h>
#include <stdint.h>

/* The version of the formats and of these functions. */
#define FACTS_VERSION "0.6.0"
#define FACTS_VERSION_MAJOR 0
#define FACTS_VERSION_MINOR 6
#define FACTS_VERSION_PATCH 0

/* A function in a header: no warning where it isn't used. */
#if defined(__cplusplus) || (defined(__STDC_VERSION__) && __STDC_VERSION__ >= 199901L)
#define FACTS_INLINE static inline
#elif defined(__GNUC__)
#define FACTS_INLINE static __inline__
#else
#define FACTS_INLINE static
#endif

/* A conversion that both languages take without a warning. */
#ifdef __cplusplus
#define FACTS_CAST(type, value) static_cast<type>(value)
#else
#define FACTS_CAST(type, value) ((type)(value))
#endif

/* ---- Refusals ---- */

/* A refusal's number, and by whose doing it comes:
 *
 * The exporter, who wrote the description:
 *    1  bad tag, order or length, a flag not 0 or 1, a handle size not 4 or 8,
 *       an enum place or operand with no meaning
 *    2  over a largest value; a description has at most 1,048,576 bytes
 *    3  entry or callee without signature, local not below L, more parameters
 *       than L, an indexed access of 0 slots without layout, a call taking
 *       more than its callee's parameters, or a Yield without site
 *    4  taken or given unfit for the instruction
 * The host, who lends the memory and sets the limit:
 *    5  workspace too small: facts_sizes says how many words are the least
 *    6  report too long for its buffer: with as many bytes as facts_sizes
 *       says it never is
 *    7  an entry due with the step limit used up
 *    8  queue full: a larger workspace gives it room
 * The script's author:
 *    9  incomplete signatures or no instructions
 *   10  parameter disagrees with its declared kind
 *   11  reply unbounded
 *   12  initializer past the slots
 *   13  kinds not proven
 *   14  private placements crossed
 *   15  no packed extent
 *   16  no discriminant
 *   17  mixed receiver
 *   18  unequal stack heights meeting, or a height above D
 * The host, who lends the index buffer and keeps report and index together:
 *   19  index buffer too short: FACTS_ENTRY bytes for each record are enough,
 *       and so is the length of the report buffer
 *   20  index and report disagree; only facts_lookup_indexed answers it
 *
 * 1 and 2 name no chunk and no instruction. The program genduvo says which byte
 * it is, and what rule it breaks: genduvo explain FILE (docs/TOOL.md).
 */

/* The same by name. */
enum {
    FACTS_ACCEPTED = 0,
    FACTS_BAD_FORM = 1,
    FACTS_TOO_LARGE = 2,
    FACTS_BAD_REFERENCE = 3,
    FACTS_BAD_EFFECT = 4,
    FACTS_WORKSPACE_TOO_SMALL = 5,
    FACTS_REPORT_TOO_LONG = 6,
    FACTS_LIMIT_USED_UP = 7,
    FACTS_QUEUE_FULL = 8,
    FACTS_INCOMPLETE_SIGNATURES = 9,
    FACTS_PARAMETER_DISAGREES = 10,
    FACTS_REPLY_UNBOUNDED = 11,
    FACTS_INITIALIZER_PAST_SLOTS = 12,
    FACTS_KINDS_NOT_PROVEN = 13,
    FACTS_PLACEMENTS_CROSSED = 14,
    FACTS_NO_PACKED_EXTENT = 15,
    FACTS_NO_DISCRIMINANT = 16,
    FACTS_MIXED_RECEIVER = 17,
    FACTS_UNEQUAL_HEIGHTS = 18,
    FACTS_INDEX_TOO_SHORT = 19,
    FACTS_INDEX_DISAGREES = 20
};

/* A number in words; those of the host's refusals say what to do. */
FACTS_INLINE const char *facts_meaning(uint32_t number) {
    switch (number) {
    case FACTS_ACCEPTED: return "accepted";
    case FACTS_BAD_FORM: return
        "bad tag, order or length, a flag not 0 or 1, a handle size not 4 "
        "or 8, an enum place or operand with no meaning";
    case FACTS_TOO_LARGE: return "over a largest value";
    case FACTS_BAD_REFERENCE: return
        "entry or callee without signature, local not below L, more "
        "parameters than L, an indexed access of 0 slots without layout, "
        "a call taking more than its callee's parameters, or a Yield "
        "without site";
    case FACTS_BAD_EFFECT: return "taken or given unfit for the instruction";
    case FACTS_WORKSPACE_TOO_SMALL: return
        "workspace too small: lend at least as many words as facts_sizes "
        "says, and some more";
    case FACTS_REPORT_TOO_LONG: return
        "report too long for its buffer: lend as many bytes as "
        "facts_sizes says";
    case FACTS_LIMIT_USED_UP: return "an entry due with the step limit used up: allow more steps";
    case FACTS_QUEUE_FULL: return
        "queue full: lend a larger workspace, each word more is room for "
        "one more entry";
    case FACTS_INCOMPLETE_SIGNATURES: return "incomplete signatures or no instructions";
    case FACTS_PARAMETER_DISAGREES: return "parameter disagrees with its declared kind";
    case FACTS_REPLY_UNBOUNDED: return "reply unbounded";
    case FACTS_INITIALIZER_PAST_SLOTS: return "initializer past the slots";
    case FACTS_KINDS_NOT_PROVEN: return "kinds not proven";
    case FACTS_PLACEMENTS_CROSSED: return "private placements crossed";
    case FACTS_NO_PACKED_EXTENT: return "no packed extent";
    case FACTS_NO_DISCRIMINANT: return "no discriminant";
    case FACTS_MIXED_RECEIVER: return "mixed receiver";
    case FACTS_UNEQUAL_HEIGHTS: return "unequal stack heights meeting, or a height above D";
    case FACTS_INDEX_TOO_SHORT: return
        "index buffer too short: lend as many bytes as for the report";
    case FACTS_INDEX_DISAGREES: return
        "index and report disagree: look the record up without the index, "
        "or analyse again";
    default: return "no number of an answer";
    }
}

/* ---- Numbers of a description ---- */

/* What begins each field, of a description and of a report: a byte, the tag,
 * and two bytes, how many follow. Numbers have their least byte first. */
#define FACTS_FIELD_HEAD 3

/* The fields of a description, in the order in which they stand: field 1 once;
 * for each chunk its field 2, then its instructions, each followed by its site
 * if it has one; then fields 5 to 8. */
enum {
    FACTS_TAG_HEADER = 1,
    FACTS_TAG_CHUNK = 2,
    FACTS_TAG_INSTRUCTION = 3,
    FACTS_TAG_SITE = 4,
    FACTS_TAG_NATIVE = 5,
    FACTS_TAG_SHARED = 6,
    FACTS_TAG_PLACEMENT = 7,
    FACTS_TAG_INITIALIZER = 8
};

/* How many bytes these fields have behind their tag and length. */
#define FACTS_HEADER_BYTES 16
#define FACTS_CHUNK_BYTES 8 /* then type tags, and with a signature shapes */
#define FACTS_INSTRUCTION_BYTES 15
#define FACTS_SITE_BYTES 14
#define FACTS_NATIVE_BYTES 8
#define FACTS_SHARED_BYTES 1
#define FACTS_PLACEMENT_BYTES 6
#define FACTS_INITIALIZER_BYTES 2

/* The largest values; one more is FACTS_TOO_LARGE. */
#define FACTS_MOST_BYTES 1048576 /* a description */
#define FACTS_MOST_CHUNKS 64
#define FACTS_MOST_INSTRUCTIONS 4096 /* of a chunk */
#define FACTS_MOST_LOCALS 256
#define FACTS_MOST_DEEPEST 64
#define FACTS_MOST_PARAMETERS 16 /* also type tags */
#define FACTS_MOST_TAKEN 64
#define FACTS_MOST_GIVEN 4
#define FACTS_MOST_SLOTS 1024
#define FACTS_MOST_NATIVES 256
#define FACTS_MOST_SHARED 1024
#define FACTS_MOST_PLACEMENTS 1024
#define FACTS_MOST_INITIALIZERS 1024
#define FACTS_MOST_FLOAT_BITS_LOG2 31

/* The size of an opaque handle: one of these. */
#define FACTS_SHORT_HANDLE 4
#define FACTS_LONG_HANDLE 8

/* What a chunk is. */
enum { FACTS_BLOCK_FUNC = 0, FACTS_BLOCK_REENTRANT = 1, FACTS_BLOCK_STREAM = 2 };

/* The type tags of parameters. */
enum {
    FACTS_TYPE_COMPOSITE = 0,
    FACTS_TYPE_BYTE = 1,
    FACTS_TYPE_WORD = 2,
    FACTS_TYPE_FIXED = 3,
    FACTS_TYPE_FLOAT = 4,
    FACTS_TYPE_BOOL = 5,
    FACTS_TYPE_UNIT = 6,
    FACTS_TYPE_TEXT = 7
};

/* What a constant is: operand a of FACTS_OP_CONST, first byte of field 8. */
enum {
    FACTS_CONST_UNIT = 0,
    FACTS_CONST_BOOL = 1,
    FACTS_CONST_INT = 2,
    FACTS_CONST_BYTE = 3,
    FACTS_CONST_FIXED = 4,
    FACTS_CONST_FLOAT = 5,
    FACTS_CONST_STATIC_STR = 6,
    FACTS_CONST_TUPLE = 7,
    FACTS_CONST_ARRAY = 8,
    FACTS_CONST_STRUCT = 9,
    FACTS_CONST_ENUM = 10,
    FACTS_CONST_NONE = 11
};

/* A shape: tag, kind, width, size (4 bytes). */
#define FACTS_SHAPE_BYTES 7
enum { FACTS_SHAPE_TOP = 0, FACTS_SHAPE_SCALAR = 1, FACTS_SHAPE_FLAT = 2 };

/* The width of a shape, and that of a cell. */
enum { FACTS_WIDTH_UNKNOWN = 0, FACTS_WIDTH_SCALAR = 1, FACTS_WIDTH_BODY = 2 };

/* The kind of a scalar shape, of a flat read and of a shared slot. */
enum {
    FACTS_SCALAR_UNIT = 0,
    FACTS_SCALAR_BOOL = 1,
    FACTS_SCALAR_BYTE = 2,
    FACTS_SCALAR_WORD = 3,
    FACTS_SCALAR_FIXED = 4,
    FACTS_SCALAR_FLOAT = 5,
    FACTS_SCALAR_TEXT = 6,
    FACTS_SCALAR_OPAQUE = 7
};

/* The kind of a flat shape, of a construction and of a nested read; also which
 * of a cell's extents is the one of that kind. */
enum { FACTS_BODY_TUPLE = 0, FACTS_BODY_ARRAY = 1, FACTS_BODY_STRUCT = 2, FACTS_BODY_ENUM = 3 };

/* Added to the kind of a body, it is that of a shared slot with such a body. */
#define FACTS_SHARED_BODY 128

/* Operand a of FACTS_OP_NEW_COMPOSITE. */
enum { FACTS_COMPOSITE_FLAT = 0, FACTS_COMPOSITE_BOXED = 1 };

/* Operand a of the field and index reads. */
enum { FACTS_READ_FLAT = 0, FACTS_READ_NESTED = 1, FACTS_READ_BOXED = 2 };

/* Operand a of FACTS_OP_PUSH_IMMEDIATE. Word k, up to 15, is
 * FACTS_IMMEDIATE_WORD + k; others are unknown. A larger Word is FACTS_OP_CONST
 * with FACTS_CONST_INT, whose value isn't described. */
enum {
    FACTS_IMMEDIATE_UNIT = 0,
    FACTS_IMMEDIATE_TRUE = 1,
    FACTS_IMMEDIATE_FALSE = 2,
    FACTS_IMMEDIATE_NONE = 3,
    FACTS_IMMEDIATE_WORD = 4,
    FACTS_IMMEDIATE_LAST_WORD = 19
};

/* The instructions. */
enum {
    FACTS_OP_CONST = 0,
    FACTS_OP_GET_LOCAL = 1,
    FACTS_OP_SET_LOCAL = 2,
    FACTS_OP_GET_DATA = 3,
    FACTS_OP_SET_DATA = 4,
    FACTS_OP_GET_DATA_INDEXED = 5,
    FACTS_OP_SET_DATA_INDEXED = 6,
    FACTS_OP_BOUNDS_CHECK = 7,
    FACTS_OP_ADD = 8,
    FACTS_OP_SUB = 9,
    FACTS_OP_MUL = 10,
    FACTS_OP_DIV = 11,
    FACTS_OP_MOD = 12,
    FACTS_OP_NEG = 13,
    FACTS_OP_CMP_EQ = 14,
    FACTS_OP_CMP_NE = 15,
    FACTS_OP_CMP_LT = 16,
    FACTS_OP_CMP_GT = 17,
    FACTS_OP_CMP_LE = 18,
    FACTS_OP_CMP_GE = 19,
    FACTS_OP_NOT = 20,
    FACTS_OP_IF = 21,
    FACTS_OP_ELSE = 22,
    FACTS_OP_END_IF = 23,
    FACTS_OP_LOOP = 24,
    FACTS_OP_END_LOOP = 25,
    FACTS_OP_BREAK = 26,
    FACTS_OP_BREAK_IF = 27,
    FACTS_OP_STREAM = 28,
    FACTS_OP_RESET = 29,
    FACTS_OP_CALL = 30,
    FACTS_OP_RETURN = 31,
    FACTS_OP_YIELD = 32,
    FACTS_OP_DUP = 33,
    FACTS_OP_NEW_COMPOSITE = 34,
    FACTS_OP_GET_FIELD = 35,
    FACTS_OP_GET_INDEX = 36,
    FACTS_OP_GET_TUPLE_FIELD = 37,
    FACTS_OP_GET_ENUM_FIELD = 38,
    FACTS_OP_LEN = 39,
    FACTS_OP_IS_ENUM = 40,
    FACTS_OP_IS_STRUCT = 41,
    FACTS_OP_INT_TO_FLOAT = 42,
    FACTS_OP_FLOAT_TO_INT = 43,
    FACTS_OP_WORD_TO_BYTE = 44,
    FACTS_OP_BYTE_TO_WORD = 45,
    FACTS_OP_WORD_TO_FIXED = 46,
    FACTS_OP_FIXED_TO_WORD = 47,
    FACTS_OP_FIXED_MUL = 48,
    FACTS_OP_FIXED_DIV = 49,
    FACTS_OP_TRAP = 50,
    FACTS_OP_CHECKED_ADD = 51,
    FACTS_OP_CHECKED_SUB = 52,
    FACTS_OP_CHECKED_MUL = 53,
    FACTS_OP_CHECKED_NEG = 54,
    FACTS_OP_CHECKED_DIV = 55,
    FACTS_OP_CHECKED_MOD = 56,
    FACTS_OP_PUSH_IMMEDIATE = 57,
    FACTS_OP_POP_N = 58,
    FACTS_OP_BIT_AND = 59,
    FACTS_OP_BIT_OR = 60,
    FACTS_OP_BIT_XOR = 61,
    FACTS_OP_SHL = 62,
    FACTS_OP_SHR = 63,
    FACTS_OP_CALL_VERIFIED_NATIVE = 64,
    FACTS_OP_CALL_EXTERNAL_NATIVE = 65
};
#define FACTS_OPS 66 /* how many there are */

/* ---- Numbers of a report ---- */

/* The fields of a report, in the order in which they stand. */
enum {
    FACTS_TAG_REPLY = 16,
    FACTS_TAG_SIGNATURE = 17,
    FACTS_TAG_SLOT = 18,
    FACTS_TAG_RECORD = 19,
    FACTS_TAG_INSPECTION = 20,
    FACTS_TAG_BRANCH = 21
};

/* Masks: the kinds that a value may have, one bit each. */
enum {
    FACTS_UNIT = 1,
    FACTS_FALSE = 2,
    FACTS_BYTE = 4,
    FACTS_WORD = 8,
    FACTS_FIXED = 16,
    FACTS_FLOAT = 32,
    FACTS_TEXT = 64,
    FACTS_OPAQUE = 128,
    FACTS_TUPLE = 256,
    FACTS_ARRAY = 512,
    FACTS_STRUCT = 1024,
    FACTS_ENUM = 2048,
    FACTS_TRUE = 4096,
    FACTS_BOOL = 4098,   /* FACTS_FALSE and FACTS_TRUE */
    FACTS_BODY = 3840,   /* the four kinds of body */
    FACTS_UNKNOWN = 8191 /* all of them */
};

/* The bytes of a cell, and where its parts stand. */
#define FACTS_CELL 49
enum {
    FACTS_CELL_MASK = 0,      /* 2 bytes */
    FACTS_CELL_WIDTH = 2,     /* 1 byte: FACTS_WIDTH_UNKNOWN or another */
    FACTS_CELL_SIZE = 3,      /* 4 bytes: the width's size */
    FACTS_CELL_EXTENTS = 7,   /* FACTS_EXTENTS times FACTS_EXTENT bytes */
    FACTS_CELL_OWNED = 43,    /* 1 byte: 0 or 1 */
    FACTS_CELL_ORIGIN = 44,   /* 2 bytes: a local, or FACTS_NOWHERE */
    FACTS_CELL_RECEIVER = 46, /* 2 bytes: a local, or FACTS_NOWHERE */
    FACTS_CELL_WHEN = 48      /* 1 byte: 0 or 1 */
};

/* The bytes of an extent, and where its parts stand; a cell has four, in the
 * order FACTS_BODY_TUPLE to FACTS_BODY_ENUM. */
#define FACTS_EXTENT 9
#define FACTS_EXTENTS 4
enum {
    FACTS_EXTENT_FORM = 0, /* 1 byte: one of the three below */
    FACTS_EXTENT_MIN = 1,  /* 4 bytes */
    FACTS_EXTENT_MAX = 5   /* 4 bytes */
};
enum { FACTS_EXTENT_ABSENT = 0, FACTS_EXTENT_RANGE = 1, FACTS_EXTENT_UNKNOWN = 2 };

/* Where the numbers at the head of a record stand, 2 bytes each, counted from
 * behind the field's tag and length; the cells follow. */
enum {
    FACTS_RECORD_CHUNK = 0,
    FACTS_RECORD_INSTRUCTION = 2,
    FACTS_RECORD_STACK = 4,   /* how many cells: the stack */
    FACTS_RECORD_LOCALS = 6,  /* how many cells: the locals */
    FACTS_RECORD_OUTPUTS = 8, /* how many outputs, FACTS_OUTPUT bytes each */
    FACTS_RECORD_GUARDS = 10, /* how many guards, FACTS_GUARD bytes each */
    FACTS_RECORD_HEAD = 12    /* the bytes of this head */
};
#define FACTS_OUTPUT 51 /* slot (2 bytes) and cell */
#define FACTS_GUARD 4   /* stack place and mask (2 bytes each) */

/* The chunk or the instruction of a refusal that names none; the local of a
 * cell that has none. */
#define FACTS_NOWHERE 65535

/* ---- Answers and calls ---- */

/* Where the numbers of an answer stand. */
enum {
    FACTS_NUMBER,      /* 0: accepted; else the refusal's number */
    FACTS_CHUNK,       /* the chunk that the refusal names, or FACTS_NOWHERE */
    FACTS_INSTRUCTION, /* the instruction that it names, or FACTS_NOWHERE */
    FACTS_STEPS,       /* the steps taken */
    FACTS_LENGTH,      /* the report's length in bytes; 0 in a refusal */
    FACTS_ANSWER       /* how many numbers an answer has */
};

/* The answer of a call with an index has one number more. */
enum {
    /* the index's length in bytes; 0 in a refusal */
    FACTS_INDEX_LENGTH = FACTS_ANSWER,
    FACTS_INDEXED_ANSWER /* how many numbers it has */
};

/* The bytes of an entry of an index, in this order, least byte first:
 *
 *    chunk        2  the chunk of a record
 *    instruction  2  its instruction
 *    first        4  the place of the record's first byte, its tag
 *    length       4  the record's length in bytes, tag and length included
 */
#define FACTS_ENTRY 12
enum {
    FACTS_ENTRY_CHUNK = 0,
    FACTS_ENTRY_INSTRUCTION = 2,
    FACTS_ENTRY_FIRST = 4,
    FACTS_ENTRY_LENGTH = 8
};

#ifdef __cplusplus
extern "C" {
#endif

/* Analyses a description. Returns 0 and leaves the report in the first bytes
 * of its buffer, or returns the refusal's number and leaves the buffer as it
 * was. The bytes past a report stay as they were, too.
 *
 * A description has one report: every call that accepts it writes the same
 * bytes and takes the same steps, whatever workspace, buffer and limit it has.
 * The guards of a record rise by stack place, then by mask.
 *
 * description  its bytes; only read. The last byte of field 1, its sixteenth,
 *              is the size of an opaque handle, 4 or 8: a body packs a handle
 *              with so many bytes
 * workspace    words to work in, whatever they hold: at least as many as
 *              facts_sizes says; each one more is room for one more entry in
 *              the queue. As it was after 1 to 5, zeros after all else
 * report       the buffer for the report; as long as facts_sizes says, it is
 *              long enough
 * limit        the most steps to take
 * answer       five numbers, all written on every call
 */
uint32_t facts_check(const uint8_t *description, size_t description_bytes,
                     uint32_t *workspace, size_t workspace_words,
                     uint8_t *report, size_t report_bytes,
                     uint32_t limit, uint32_t answer[FACTS_ANSWER]);

/* The least workspace for a description, in words. Returns 0 where it has
 * good form; else 1 to 4, and words[0] is 0.
 */
uint32_t facts_words(const uint8_t *description, size_t description_bytes,
                     uint64_t words[1]);

/* Where the sizes of a description stand. */
enum {
    FACTS_WORDS,        /* the least workspace, in words */
    FACTS_REPORT_BYTES, /* no report of the description has more bytes */
    FACTS_SIZES         /* how many sizes there are */
};

/* What to lend for a description. Returns 0 where it has good form; else 1 to
 * 4, and both sizes are 0. The second is a bound: the highest stack, all
 * locals and all guards that each reachable instruction can have. A report is
 * often shorter, never longer, with an index or without.
 *
 * To learn which chunk and instruction 3 and 4 name, call facts_check with any
 * workspace, one word will do: 1 to 4 come before 5.
 */
uint32_t facts_sizes(const uint8_t *description, size_t description_bytes,
                     uint64_t sizes[FACTS_SIZES]);

/* The record of an instruction in a report, or in any bytes. Returns 1 where
 * there is one: part[0] is the place of its first byte, its tag, and part[1]
 * its length in bytes, tag and length included. Returns 0 where there is none:
 * part[0] is report_bytes and part[1] is 0.
 *
 * It walks from the report's first byte at each call. To go over all records,
 * walk over the fields (facts_next of facts_report.h) or use an index.
 */
uint32_t facts_lookup(const uint8_t *report, size_t report_bytes,
                      uint16_t chunk, uint16_t instruction, uint64_t part[2]);

/* Analyses a description as facts_check does, and leaves an index of the
 * report in the first bytes of a second buffer: an entry for each record,
 * rising by chunk, then instruction. Returns 0, or what facts_check returns
 * where it refuses, or 19 where the index buffer is too short; 19 comes after
 * all else, 6 too, has the steps of the whole run, and names neither chunk nor
 * instruction. A refusal leaves both buffers as they were. The bytes past the
 * index stay as they were.
 *
 * An index has FACTS_ENTRY bytes for each record. A record has 15 or more, so
 * an index buffer as long as the report buffer is always enough.
 *
 * description, workspace, report, limit
 *              as for facts_check; the workspace is zeros after 19
 * index        the buffer for the index
 * answer       six numbers, all written on every call
 */
uint32_t facts_check_indexed(const uint8_t *description,
                             size_t description_bytes,
                             uint32_t *workspace, size_t workspace_words,
                             uint8_t *report, size_t report_bytes,
                             uint8_t *index, size_t index_bytes, uint32_t limit,
                             uint32_t answer[FACTS_INDEXED_ANSWER]);

/* The record of an instruction in a report, through its index. Returns what
 * facts_lookup returns, with the same part; or 20 where report and index
 * disagree: part[0] is report_bytes and part[1] is 0. Both may be any bytes,
 * and are only read.
 *
 * They disagree where bytes of the index are left over, or its entries don't
 * rise strictly by chunk, then instruction, or aren't, one for one, those of
 * all records of the report. The index that an accepted call writes never
 * disagrees with its report.
 *
 * The whole of both is tested at each call. A program that trusts its own
 * bytes goes by the entries themselves (facts_find_entry of facts_report.h).
 */
uint32_t facts_lookup_indexed(const uint8_t *report, size_t report_bytes,
                              const uint8_t *index, size_t index_bytes,
                              uint16_t chunk, uint16_t instruction,
                              uint64_t part[2]);

#ifdef __cplusplus
}
#endif

#endif
