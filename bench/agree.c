#include "agree.h"

#include "families.h"
#include "random.h"
#include "sides.h"

#include <stdio.h>
#include <stdlib.h>
#include <string.h>

enum { AFTER = 8 }; /* entries behind those in use, which stay */

struct left {
    uint64_t lent;
    uint16_t classes[MOST_WORDS + AFTER], work[4 * MOST_WORDS + AFTER];
    uint16_t match;
    uint8_t room[6 + 2 * MOST_WORDS + AFTER];
};

static struct left left_by[SIDES];

/* All that a side leaves, in buffers that held something before. */
static void leave(const struct side *side, const struct job *job, const uint8_t *file, size_t length,
                  struct left *left) {
    memset(left, 0xA5, sizeof *left);
    left->lent = side->lent(job->table, job->words, job->list, 2 * job->pairs, left->classes,
                            job->words + AFTER, left->work, 4 * job->words + AFTER);
    left->match = side->match(file, length, 1, left->room, sizeof left->room);
}

static void differ(const struct job *job, const char *what) {
    fprintf(stderr, "the sides differ on %s: %zu words, %zu pairs, station %llx, C %llx\n", what, job->words,
            job->pairs, (unsigned long long)left_by[STATION].lent, (unsigned long long)left_by[PLAIN].lent);
    exit(1);
}

uint64_t must_agree(const struct job *job, const char *what) {
    static uint8_t file[FILE_ROOM];
    size_t length = file_of(job, file);
    for (int side = 0; side < SIDES; side++)
        leave(&sides[side], job, file, length, &left_by[side]);
    if (memcmp(&left_by[STATION], &left_by[PLAIN], sizeof left_by[STATION]) != 0)
        differ(job, what);
    return left_by[STATION].lent;
}

static const uint32_t tags[] = {0, 16, 17, 18, 19, 20, 24, 25, 32, 1u << 12};

/* Another word in some place: any tag, a small content. It is often 0, which two variables may have. */
static void damage(struct job *job, struct numbers *numbers) {
    uint32_t tag = tags[below(numbers, sizeof tags / sizeof tags[0])];
    uint32_t content = below(numbers, 3) == 0 ? 0 : below(numbers, 20);
    job->table[below(numbers, (uint32_t)job->words)] = tag << 16 | content;
}

void must_agree_on_damaged_jobs(void) {
    static struct job job;
    struct numbers numbers = {1986};
    unsigned answers[12] = {0};
    for (int k = 0; k < 200000; k++) {
        random_any(&job, 1 + below(&numbers, 60), 0);
        for (uint32_t times = below(&numbers, 4); times > 0; times--)
            damage(&job, &numbers);
        while (below(&numbers, 3) == 0)
            put_pair(&job, (uint16_t)below(&numbers, 64), (uint16_t)below(&numbers, 64));
        answers[STATION_ANSWER_OF(must_agree(&job, "a damaged job"))]++;
    }
    for (int answer = 3; answer <= 11; answer++)
        if (answers[answer] == 0 && answer != STATION_LIST) /* job files have no odd list */
            fprintf(stderr, "no damaged job had the answer %d\n", answer);
}
