/* lent LIST FILE..: analyses the descriptions of a stored list (crates/replay) and of the files in memory that
 * nobody has written: workspace, report and index are malloc's. Nothing may depend on what such memory holds, and
 * valgrind complains where something does. Each is called with exactly the least workspace and with more. */
#include "facts.h"
#include "facts_report.h"

#include <stdio.h>
#include <stdlib.h>
#include <string.h>

enum { LIST = 16 * FACTS_MOST_BYTES, REPORT = 1 << 16, LIMIT = 1000000, MORE = 1000 };

/* Where the numbers of an entry of the list stand, behind the description's length (oracle/src/replaylist.rs); then
 * come the description and the report. */
enum { WORDS = 4, BUFFER = 8, ALLOWED = 12, NUMBER = 16, CHUNK = 17, INSTRUCTION = 19, STEPS = 21 };
enum { LENGTH = 25, HEAD = 29 };

/* What a description is called with. */
typedef struct {
    const uint8_t *bytes;
    size_t length, words, report;
    uint32_t limit;
} Call;

static unsigned long calls, descriptions;

static void fail(const char *what) {
    fprintf(stderr, "description %lu: %s\n", descriptions, what);
    exit(1);
}

static void *lend(size_t bytes) {
    void *memory = malloc(bytes == 0 ? 1 : bytes);
    if (memory == NULL) {
        fputs("no memory\n", stderr);
        exit(2);
    }
    return memory;
}

static void fail_at(const char *path) {
    perror(path);
    exit(2);
}

static uint8_t *read_file(const char *path, size_t most, size_t *length) {
    FILE *file = fopen(path, "rb");
    if (file == NULL)
        fail_at(path);
    uint8_t *bytes = lend(most);
    *length = fread(bytes, 1, most, file);
    if (ferror(file))
        fail_at(path);
    fclose(file);
    return bytes;
}

/* After all but 1 to 5 the workspace is zeros. */
static void see_zeros(uint32_t number, const uint32_t *workspace, size_t words) {
    if (number >= FACTS_BAD_FORM && number <= FACTS_WORKSPACE_TOO_SMALL)
        return;
    for (size_t at = 0; at < words; at++)
        if (workspace[at] != 0)
            fail("a word that is not 0");
}

/* The call with an index answers as the one without, and leaves the same report. */
static void call_indexed(const Call *c, const uint32_t *expected, const uint8_t *report) {
    uint32_t answer[FACTS_INDEXED_ANSWER];
    uint32_t *workspace = lend(c->words * sizeof *workspace);
    uint8_t *again = lend(c->report), *index = lend(c->report);
    uint64_t part[2];
    uint32_t number = facts_check_indexed(c->bytes, c->length, workspace, c->words, again, c->report, index, c->report,
                                          c->limit, answer);
    calls++;
    see_zeros(number, workspace, c->words);
    if (memcmp(answer, expected, FACTS_ANSWER * sizeof *answer) != 0)
        fail("another answer with an index");
    if (memcmp(again, report, answer[FACTS_LENGTH]) != 0)
        fail("another report with an index");
    if (number == FACTS_ACCEPTED && facts_lookup_indexed(again, answer[FACTS_LENGTH], index, answer[FACTS_INDEX_LENGTH],
                                                         FACTS_NOWHERE, FACTS_NOWHERE, part) != 0)
        fail("an index that is not the report's");
    if (number == FACTS_ACCEPTED && !facts_well_formed(again, answer[FACTS_LENGTH]))
        fail("a report that can't be read");
    free(workspace);
    free(again);
    free(index);
}

/* Both calls; the report, whose length is in the answer. */
static uint8_t *call(const Call *c, uint32_t answer[FACTS_ANSWER]) {
    uint32_t *workspace = lend(c->words * sizeof *workspace);
    uint8_t *report = lend(c->report);
    uint32_t number = facts_check(c->bytes, c->length, workspace, c->words, report, c->report, c->limit, answer);
    calls++;
    see_zeros(number, workspace, c->words);
    free(workspace);
    call_indexed(c, answer, report);
    return report;
}

/* The least workspace, 0 where there is none. */
static size_t least(const uint8_t *bytes, size_t length) {
    uint64_t words[1];
    facts_words(bytes, length, words);
    return words[0];
}

/* With the least workspace, and with MORE words: where both are accepted, the reports are the same. */
static void call_twice(const uint8_t *bytes, size_t length) {
    uint32_t small[FACTS_ANSWER], large[FACTS_ANSWER];
    Call c = {bytes, length, least(bytes, length), REPORT, LIMIT};
    descriptions++;
    uint8_t *first = call(&c, small);
    c.words += MORE;
    uint8_t *second = call(&c, large);
    if (small[FACTS_NUMBER] == FACTS_ACCEPTED &&
        (memcmp(small, large, sizeof small) != 0 || memcmp(first, second, small[FACTS_LENGTH]) != 0))
        fail("another report with more words");
    free(first);
    free(second);
}

/* The length of an entry of the list; it must not be longer than what is left of the list. */
static size_t entry_length(const uint8_t *entry, size_t left) {
    if (left < HEAD)
        fail("a list that ends inside an entry");
    size_t length = HEAD + (size_t)facts_u32(entry) + facts_u32(entry + LENGTH);
    if (left < length)
        fail("a list that ends inside an entry");
    return length;
}

/* An entry of the list: twice, and within its own bounds, answered as it says. Returns its length. */
static size_t call_entry(const uint8_t *entry, size_t left) {
    size_t whole = entry_length(entry, left), length = facts_u32(entry), report_length = facts_u32(entry + LENGTH);
    const uint8_t *bytes = entry + HEAD;
    const uint32_t expected[FACTS_ANSWER] = {entry[NUMBER], facts_u16(entry + CHUNK), facts_u16(entry + INSTRUCTION),
                                             facts_u32(entry + STEPS), (uint32_t)report_length};
    uint32_t answer[FACTS_ANSWER];
    Call c = {bytes, length, facts_u32(entry + WORDS), facts_u32(entry + BUFFER), facts_u32(entry + ALLOWED)};
    call_twice(bytes, length);
    uint8_t *report = call(&c, answer);
    if (memcmp(answer, expected, sizeof answer) != 0)
        fail("not the answer of the list");
    if (memcmp(report, bytes + length, report_length) != 0)
        fail("not the report of the list");
    free(report);
    return whole;
}

int main(int count, char **args) {
    if (count < 3) {
        fputs("lent LIST FILE..\n", stderr);
        return 2;
    }
    size_t length;
    uint8_t *list = read_file(args[1], LIST, &length);
    for (size_t at = 0; at < length;)
        at += call_entry(list + at, length - at);
    free(list);
    for (int k = 2; k < count; k++) {
        uint8_t *bytes = read_file(args[k], FACTS_MOST_BYTES + 1, &length);
        call_twice(bytes, length);
        free(bytes);
    }
    printf("%lu descriptions, %lu calls in memory never written\n", descriptions, calls);
    return 0;
}
