#define _POSIX_C_SOURCE 200809L
#include "clock.h"

#include <time.h>

enum { LEAST_BATCHES = 20 };
static const double NEVER = 1e18, BATCH = 20e3, ALL_BATCHES = 20e6; /* nanoseconds */

double now(void) {
    struct timespec time;
    clock_gettime(CLOCK_MONOTONIC, &time);
    return 1e9 * (double)time.tv_sec + (double)time.tv_nsec;
}

static uint16_t classes[MOST_WORDS], work[4 * MOST_WORDS];
static uint8_t room[6 + 2 * MOST_WORDS];

/* The jobs of a measurement, and their files, one behind the other. */
static const struct job *jobs;
static size_t job_count;
static uint8_t files[FILES_ROOM];
static size_t file_at[MOST_JOBS + 1];

static void take(const struct job *taken, size_t count) {
    jobs = taken;
    job_count = count;
    file_at[0] = 0;
    for (size_t k = 0; k < count; k++)
        file_at[k + 1] = file_at[k] + file_of(&taken[k], files + file_at[k]);
}

static void call_lent(const struct side *side, size_t k) {
    const struct job *job = &jobs[k];
    side->lent(job->table, job->words, job->list, 2 * job->pairs, classes, MOST_WORDS, work, 4 * MOST_WORDS);
}

static void call_match(const struct side *side, size_t k) {
    side->match(files + file_at[k], file_at[k + 1] - file_at[k], 1, room, sizeof room);
}

typedef void call(const struct side *side, size_t k);

/* Nanoseconds a call, all jobs taken by turns, `rounds` times. */
static double batch(call *call, const struct side *side, int rounds) {
    double began = now();
    for (int round = 0; round < rounds; round++)
        for (size_t k = 0; k < job_count; k++)
            call(side, k);
    return (now() - began) / (double)rounds / (double)job_count;
}

/* So many rounds that the clock's own time does not show. */
static int rounds_a_batch(call *call) {
    double once = batch(call, &sides[PLAIN], 10) * (double)job_count;
    return once >= BATCH ? 1 : (int)(BATCH / once) + 1;
}

static void best(call *call, double times[SIDES]) {
    int rounds = rounds_a_batch(call);
    double began = now();
    for (int done = 0; done < LEAST_BATCHES || now() - began < ALL_BATCHES; done++)
        for (int side = 0; side < SIDES; side++) {
            double time = batch(call, &sides[side], rounds);
            if (time < times[side])
                times[side] = time;
        }
}

struct times no_times(void) {
    struct times times;
    for (int side = 0; side < SIDES; side++)
        times.lent[side] = times.match[side] = NEVER;
    return times;
}

void measure(const struct job *taken, size_t count, struct times *times) {
    take(taken, count);
    best(call_lent, times->lent);
    best(call_match, times->match);
}
