/* A host program: two small tables are put into a job file, its sizes are read back, each job is matched, and
 * what the answers say is printed in words; then the same tables and lists again on buffers that the host lends.
 *
 * It compiles as C and as C++.
 */
#include "station.h"

#include <stdio.h>
#include <string.h>

/* A run and two dark frames, each f(sensor, degrees). The degrees of the run are left open: the variable 1
 * stands for them, and the frame that goes with the run tells what they are. */
static const uint32_t frames[] = {
    0,
    STATION_FUNCTION(1), STATION_COUNT(2), STATION_CONSTANT(7), STATION_VARIABLE(1), /* 1: run of sensor 7 */
    STATION_FUNCTION(1), STATION_COUNT(2), STATION_CONSTANT(7), STATION_CONSTANT(20), /* 5: sensor 7, 20 degrees */
    STATION_FUNCTION(1), STATION_COUNT(2), STATION_CONSTANT(8), STATION_CONSTANT(20), /* 9: sensor 8, 20 degrees */
};

/* The run goes with the first frame; with the second one too it cannot. */
static const uint16_t run_and_frame[] = {1, 5};
static const uint16_t run_and_both[] = {1, 5, 1, 9};

/* f(x), and the pair of x and f(x): no finite term is both. */
static const uint32_t holds_itself[] = {0, STATION_FUNCTION(1), STATION_COUNT(1), STATION_VARIABLE(1)};
static const uint16_t itself[] = {1, 3};

struct job {
    const char *what;
    const uint32_t *table;
    uint16_t words;
    const uint16_t *list;
    uint16_t pairs;
};

#define LENGTH(row) (sizeof(row) / sizeof((row)[0]))

static const struct job jobs[] = {
    {"a run and its frame", frames, LENGTH(frames), run_and_frame, 1},
    {"a run and two frames", frames, LENGTH(frames), run_and_both, 2},
    {"a variable and the term that holds it", holds_itself, LENGTH(holds_itself), itself, 1},
};

enum { MOST_WORDS = 16, FILE_ROOM = 512 };

static uint16_t number_at(const uint8_t *bytes, size_t at) {
    return (uint16_t)(bytes[at] | bytes[at + 1] << 8);
}

static size_t put(uint8_t *bytes, size_t at, uint32_t number, int size) {
    for (int i = 0; i < size; i++)
        bytes[at++] = (uint8_t)(number >> 8 * i);
    return at;
}

/* What stands at an address: a variable's label, a constant's, a function's. */
static void print_node(const uint32_t *table, uint16_t at) {
    uint16_t tag = STATION_TAG_OF(table[at]);
    printf("%s %u at %u",
           tag == STATION_TAG_VARIABLE   ? "variable"
           : tag == STATION_TAG_CONSTANT ? "constant"
                                         : "function",
           (unsigned)STATION_CONTENT_OF(table[at]), (unsigned)at);
}

/* The bindings: each variable and the node that names its class. */
static void print_bindings(const struct job *job, const uint16_t *classes) {
    for (uint16_t at = 1; at < job->words; at++)
        if (STATION_TAG_OF(job->table[at]) == STATION_TAG_VARIABLE) {
            printf("  ");
            print_node(job->table, at);
            if (classes[at] == at)
                printf(" is free\n");
            else {
                printf(" is bound to ");
                print_node(job->table, classes[at]);
                printf("\n");
            }
        }
}

static void print_answer(const struct job *job, uint16_t answer, uint16_t place, uint16_t joins,
                         const uint16_t *classes) {
    printf("%s: ", job->what);
    if (answer == STATION_ACCEPTED) {
        printf("accepted, %u joins\n", (unsigned)joins);
        print_bindings(job, classes);
    } else if (answer == STATION_CLASH)
        printf("refused, a clash at pair %u\n", (unsigned)place);
    else if (answer == STATION_CYCLE)
        printf("refused, a cycle at pair %u\n", (unsigned)place);
    else
        printf("refused, answer %u at place %u\n", (unsigned)answer, (unsigned)place);
}

/* A job file of all jobs. Returns its length. */
static size_t write_file(uint8_t *file, size_t room) {
    uint16_t sizes[2 * LENGTH(jobs)];
    uint8_t bodies[FILE_ROOM];
    size_t end = 0;
    for (size_t k = 0; k < LENGTH(jobs); k++) {
        sizes[2 * k] = jobs[k].words;
        sizes[2 * k + 1] = jobs[k].pairs;
        for (size_t i = 0; i < jobs[k].words; i++)
            end = put(bodies, end, jobs[k].table[i], 4);
        for (size_t i = 0; i < 2 * (size_t)jobs[k].pairs; i++)
            end = put(bodies, end, jobs[k].list[i], 2);
    }
    uint16_t answer = station_write(sizes, LENGTH(sizes), bodies, end, file, room);
    printf("a file of %u jobs: answer %u\n", (unsigned)LENGTH(jobs), (unsigned)answer);
    return answer == STATION_ACCEPTED ? STATION_FILE_BYTES(LENGTH(jobs), end) : 0;
}

/* What a file holds, or where it is bad: for a host that did not write it. */
static void read_file(const uint8_t *file, size_t length) {
    uint16_t sizes[2 * STATION_MOST_JOBS];
    uint64_t result = station_read(file, length, sizes, LENGTH(sizes));
    printf("%u bytes: ", (unsigned)length);
    if (STATION_ANSWER_OF(result) != STATION_ACCEPTED) {
        printf("refused, answer %u at place %u\n", (unsigned)STATION_ANSWER_OF(result),
               (unsigned)STATION_PLACE_OF(result));
        return;
    }
    printf("%u jobs\n", (unsigned)STATION_JOBS_OF(result));
    for (unsigned k = 0; k < STATION_JOBS_OF(result); k++)
        printf("  job %u has %u words and a list of %u\n", k + 1, (unsigned)sizes[2 * k], (unsigned)sizes[2 * k + 1]);
}

/* Each job of the file, with one room used again. The room is read only where the answer wrote it. */
static void match_file(const uint8_t *file, size_t length) {
    uint8_t room[STATION_ROOM_BYTES(MOST_WORDS)];
    memset(room, 0xAA, sizeof room);
    for (uint32_t k = 1; k <= LENGTH(jobs); k++) {
        const struct job *job = &jobs[k - 1];
        uint16_t answer = station_match(file, length, k, room, sizeof room);
        if (answer == STATION_ACCEPTED || (3 <= answer && answer <= 11)) {
            uint16_t classes[MOST_WORDS];
            for (size_t i = 0; i < job->words; i++)
                classes[i] = number_at(room, 6 + 2 * i);
            print_answer(job, answer, number_at(room, 2), number_at(room, 4), classes);
        } else
            printf("%s: refused, answer %u\n", job->what, (unsigned)answer);
    }
    printf("a job that is not there: answer %u\n",
           (unsigned)station_match(file, length, LENGTH(jobs) + 1, room, sizeof room));
    printf("a room one byte too short: answer %u\n",
           (unsigned)station_match(file, length, 1, room, STATION_ROOM_BYTES(LENGTH(frames)) - 1));
}

/* The same tables and lists on lent buffers, full of what an earlier list might have left. */
static void match_lent(void) {
    uint16_t classes[MOST_WORDS], work[STATION_WORK_ENTRIES(MOST_WORDS)];
    memset(classes, 0xAA, sizeof classes);
    memset(work, 0x55, sizeof work);
    for (size_t k = 0; k < LENGTH(jobs); k++) {
        const struct job *job = &jobs[k];
        uint64_t result = station_lent(job->table, job->words, job->list, 2 * (size_t)job->pairs, classes,
                                       LENGTH(classes), work, LENGTH(work));
        print_answer(job, STATION_ANSWER_OF(result), STATION_PLACE_OF(result), STATION_JOINS_OF(result), classes);
    }
    printf("the tables alone: answers %u and %u\n",
           (unsigned)STATION_ANSWER_OF(station_check(frames, LENGTH(frames), classes, LENGTH(classes), work, LENGTH(work))),
           (unsigned)STATION_ANSWER_OF(station_check(holds_itself, LENGTH(holds_itself), classes, LENGTH(classes), work, LENGTH(work))));
}

int main(void) {
    uint8_t file[FILE_ROOM];
    size_t length = write_file(file, sizeof file);
    if (length == 0)
        return 1;
    printf("\nwhat the file holds, and without its last byte:\n");
    read_file(file, length);
    read_file(file, length - 1);
    printf("\nby the job file:\n");
    match_file(file, length);
    printf("\non lent buffers:\n");
    match_lent();
    return 0;
}
