/* The header's own numbers against the library: what is at a limit passes, and one past it is refused. It
 * prints each answer that is wrong, and the header's version.
 */
#include "station.h"

#include <stdio.h>
#include <string.h>

enum { WORDS = STATION_MOST_WORDS, PAIRS = STATION_MOST_PAIRS, JOBS = STATION_MOST_JOBS, BYTES = STATION_MOST_FILE };

static uint32_t table[WORDS + 1];
static uint16_t list[2 * PAIRS + 2], classes[WORDS + 1], work[STATION_WORK_ENTRIES(WORDS + 1)], sizes[2 * JOBS + 2];
static uint8_t bodies[BYTES], file[BYTES + 4], room[STATION_ROOM_BYTES(WORDS)];

static void expect(const char *what, unsigned found, unsigned wanted) {
    if (found != wanted)
        printf("%s: %u and not %u\n", what, found, wanted);
}

/* A match of this many words and pairs with just what it needs. */
static unsigned lent(size_t words, size_t pairs) {
    return STATION_ANSWER_OF(station_lent(table, words, list, 2 * pairs, classes, words, work, STATION_WORK_ENTRIES(words)));
}

/* A function of this many arguments. */
static unsigned arguments(size_t count) {
    uint32_t block[STATION_MOST_ARGUMENTS + 4] = {0, STATION_FUNCTION(1), STATION_COUNT(count)};
    for (size_t i = 0; i < count; i++)
        block[3 + i] = STATION_CONSTANT(1);
    return STATION_ANSWER_OF(station_check(block, 3 + count, classes, WORDS, work, STATION_WORK_ENTRIES(WORDS)));
}

/* A file of this many jobs, of which the first alone has words; its answer on just the room that it needs. */
static unsigned written(size_t jobs, size_t words) {
    memset(sizes, 0, sizeof sizes);
    sizes[0] = (uint16_t)words;
    return station_write(sizes, 2 * jobs, bodies, 4 * words, file, STATION_FILE_BYTES(jobs, 4 * words));
}

static void words_and_pairs(void) {
    for (size_t i = 1; i < WORDS + 1; i++)
        table[i] = STATION_CONSTANT(1);
    for (size_t i = 0; i < 2 * PAIRS + 2; i++)
        list[i] = 1;
    expect("most words", lent(WORDS, 0), STATION_ACCEPTED);
    expect("a word more", lent(WORDS + 1, 0), STATION_SIZE);
    expect("most pairs", lent(2, PAIRS), STATION_ACCEPTED);
    expect("a pair more", lent(2, PAIRS + 1), STATION_LIST);
    expect("a work entry less",
           STATION_ANSWER_OF(station_check(table, WORDS, classes, WORDS, work, STATION_WORK_ENTRIES(WORDS) - 1)),
           STATION_ROOM);
    expect("most arguments", arguments(STATION_MOST_ARGUMENTS), STATION_ACCEPTED);
    expect("an argument more", arguments(STATION_MOST_ARGUMENTS + 1), STATION_WORD);
}

/* As many unnamed variables as a table holds; and two of another label, which is a name. */
static void names(void) {
    for (size_t i = 1; i < WORDS; i++)
        table[i] = STATION_UNNAMED;
    expect("unnamed variables", lent(WORDS, 0), STATION_ACCEPTED);
    table[1] = table[2] = STATION_VARIABLE(1);
    expect("two of one name", lent(3, 0), STATION_NAME);
}

static void files(void) {
    size_t longest = (BYTES - STATION_FILE_BYTES(1, 0)) / 4;
    expect("most jobs", written(JOBS, 1), STATION_ACCEPTED);
    size_t length = STATION_FILE_BYTES(JOBS, 4);
    uint64_t result = station_read(file, length, sizes, 2 * JOBS);
    expect("most jobs read", STATION_ANSWER_OF(result), STATION_ACCEPTED);
    expect("their count", STATION_JOBS_OF(result), JOBS);
    result = station_read(file, length, sizes, 2 * JOBS - 1);
    expect("a size less", STATION_ANSWER_OF(result), STATION_ROOM);
    expect("room for an answer", station_match(file, length, 1, room, STATION_ROOM_BYTES(1)), STATION_ACCEPTED);
    expect("a byte less", station_match(file, length, 1, room, STATION_ROOM_BYTES(1) - 1), STATION_ROOM);
    expect("a job more", written(JOBS + 1, 1), STATION_CONTENTS);
    expect("the longest file", written(1, longest), STATION_ACCEPTED);
    expect("its length", (unsigned)STATION_FILE_BYTES(1, 4 * longest), BYTES);
    expect("a word longer", written(1, longest + 1), STATION_FILE);
    sizes[0] = 1;
    expect("room one byte short", station_write(sizes, 2, bodies, 4, file, STATION_FILE_BYTES(1, 4) - 1), STATION_ROOM);
}

/* Each word that can be made is taken apart again. */
static void words(void) {
    for (uint32_t content = 0; content < 65536; content++) {
        const uint32_t made[] = {STATION_VARIABLE(content), STATION_CONSTANT(content), STATION_FUNCTION(content),
                                 STATION_POINTER_TO(content), STATION_COUNT(content)};
        const unsigned tags[] = {STATION_TAG_VARIABLE, STATION_TAG_CONSTANT, STATION_TAG_FUNCTION,
                                 STATION_TAG_POINTER, STATION_TAG_COUNT};
        for (int i = 0; i < 5; i++) {
            expect("a word", made[i], tags[i] * 65536 + content);
            expect("its tag", STATION_TAG_OF(made[i]), tags[i]);
            expect("its content", STATION_CONTENT_OF(made[i]), content);
        }
    }
    expect("an unnamed variable", STATION_UNNAMED, STATION_VARIABLE(0));
    expect("a high bit", STATION_TAG_OF(STATION_VARIABLE(1) | (uint32_t)1 << 21) == STATION_TAG_VARIABLE, 0);
}

int main(void) {
    words_and_pairs();
    names();
    files();
    words();
    printf("%s %d\n", STATION_VERSION, STATION_VERSION_NUMBER);
    return 0;
}
