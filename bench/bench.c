/* Measures every family and the night, and prints one line for each, fields parted by tabs:
 *
 *   family, what it is
 *   time, family, words, pairs, answer, asked, station_match, C, station_lent, C (nanoseconds a call), tables
 *   night, lists, station, C (seconds)
 *
 * 'asked' is 1 at the sizes that the goals are about; the others show how the time grows. Pairs and answer are
 * those of the first table, where there are more.
 */
#include "agree.h"
#include "clock.h"
#include "families.h"
#include "night.h"

#include <stdio.h>
#include <stdlib.h>

/* A machine may be slow for seconds on end, so all rows are measured several times over. */
enum { SWEEPS = 5, MOST_ROWS = 200 };

/* On one random table over and over a call takes far less time than among others, up to some 2,000 words, as if
 * the processor learned it by heart. No night sends one table over and over, so random tables are taken by
 * turns, as many as have this many words together at every size.
 */
enum { WORDS_BY_TURNS = 32768 };

struct row {
    const struct family *family;
    size_t size; /* what the family was asked for */
    int asked;
    size_t tables, words, pairs;
    unsigned answer;
    struct times times;
};

static struct row rows[MOST_ROWS];
static size_t row_count;
static struct job jobs[MOST_JOBS];

/* Makes the jobs of a row, and returns how many they are. */
static size_t make_jobs(const struct family *family, size_t size) {
    size_t tables = family->random ? WORDS_BY_TURNS / size : 1;
    for (size_t k = 0; k < tables; k++)
        family->make(&jobs[k], size, (uint32_t)k);
    return tables;
}

static void add_row(const struct family *family, size_t size, int asked) {
    if (row_count == MOST_ROWS) {
        fprintf(stderr, "too many rows\n");
        exit(1);
    }
    size_t tables = make_jobs(family, size);
    for (size_t k = tables; k-- > 1;)
        must_agree(&jobs[k], family->name);
    unsigned answer = STATION_ANSWER_OF(must_agree(&jobs[0], family->name));
    rows[row_count++] = (struct row){family, size, asked, tables, jobs[0].words, jobs[0].pairs, answer, no_times()};
}

static int is_asked(const struct family *family, size_t size) {
    for (int i = 0; i < MOST_SIZES; i++)
        if (family->own[i] == size)
            return 1;
    return 0;
}

/* The sizes that are asked for, and 64, 128, .. 4,096 as far as they give a larger job. */
static void add_family(const struct family *family) {
    size_t last = 0;
    for (size_t size = family->least; size <= MOST_WORDS; size++) {
        int asked = is_asked(family, size), doubled = size >= 64 && (size & (size - 1)) == 0;
        if (!asked && !doubled)
            continue;
        family->make(&jobs[0], size, 0);
        size_t words = jobs[0].words;
        if (words > last)
            add_row(family, size, asked);
        last = words;
    }
}

static void print_row(const struct row *row) {
    const struct times *t = &row->times;
    printf("time\t%s\t%zu\t%zu\t%u\t%d\t%.0f\t%.0f\t%.0f\t%.0f\t%zu\n", row->family->name, row->words, row->pairs, row->answer,
           row->asked, t->match[STATION], t->match[PLAIN], t->lent[STATION], t->lent[PLAIN],
           row->tables);
}

int main(void) {
    must_agree_on_damaged_jobs();
    for (size_t i = 0; i < family_count; i++) {
        printf("family\t%s\t%s\n", families[i].name, families[i].what);
        add_family(&families[i]);
    }
    for (int sweep = 0; sweep < SWEEPS; sweep++)
        for (size_t k = 0; k < row_count; k++) {
            size_t tables = make_jobs(rows[k].family, rows[k].size);
            measure(jobs, tables, &rows[k].times);
        }
    for (size_t k = 0; k < row_count; k++)
        print_row(&rows[k]);
    double seconds[SIDES];
    time_night(seconds);
    printf("night\t%d\t%.6f\t%.6f\n", NIGHT_LISTS, seconds[STATION], seconds[PLAIN]);
    return 0;
}
