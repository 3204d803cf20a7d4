/* The two entries. */
#include "plain.h"

#include "check.h"
#include "unify.h"

#if __BYTE_ORDER__ != __ORDER_LITTLE_ENDIAN__
#error "numbers are copied out of the file as they lie there"
#endif

/* The answers from 3 on. The class row is the class table if the answer is 0, and 0 if not. */
static struct answer match(const uint32_t *table, size_t n, const uint16_t *list, size_t entries,
                           uint16_t *class, uint16_t *work) {
    struct answer answer = check(table, n, work);
    if (answer.number == STATION_ACCEPTED)
        answer = unify(table, n, list, entries, class, work);
    if (answer.number != STATION_ACCEPTED)
        memset(class, 0, n * sizeof *class);
    return answer;
}

uint64_t plain_lent(const uint32_t *table, size_t n, const uint16_t *list, size_t entries,
                    uint16_t *classes, size_t class_len, uint16_t *work, size_t work_len) {
    if (n == 0 || n > MOST_WORDS)
        return STATION_SIZE;
    if (class_len < n || work_len < 4 * n)
        return STATION_ROOM;
    struct answer answer = match(table, n, list, entries, classes, work);
    memset(work, 0, 4 * n * sizeof *work);
    return answer.number | (uint64_t)answer.place << 16 | (uint64_t)answer.joins << 32;
}

enum { MOST_BYTES = 32768, MOST_JOBS = 64, CONTENTS = 2, ENTRY = 6 };

static inline size_t number_at(const uint8_t *bytes) {
    uint16_t number;
    memcpy(&number, bytes, sizeof number);
    return number;
}

/* 12, 13, 14 or 0. */
static inline uint16_t judge(const uint8_t *file, size_t file_len) {
    if (file_len < 2 || file_len > MOST_BYTES)
        return STATION_FILE;
    size_t jobs = number_at(file), start = CONTENTS + ENTRY * jobs;
    if (jobs == 0 || jobs > MOST_JOBS || file_len < start)
        return STATION_CONTENTS;
    for (const uint8_t *entry = file + CONTENTS; jobs > 0; jobs--, entry += ENTRY) {
        if (number_at(entry) != start)
            return STATION_BODY;
        start += 4 * (number_at(entry + 2) + number_at(entry + 4));
        if (file_len < start)
            return STATION_BODY;
    }
    return start == file_len ? 0 : STATION_BODY;
}

uint16_t plain_match(const uint8_t *file, size_t file_len, uint32_t job, uint8_t *room, size_t room_len) {
    uint16_t refused = judge(file, file_len);
    if (refused != 0)
        return refused;
    if (job == 0 || job > number_at(file))
        return STATION_JOB;
    const uint8_t *entry = file + CONTENTS + ENTRY * (size_t)(job - 1), *body = file + number_at(entry);
    size_t n = number_at(entry + 2), entries = 2 * number_at(entry + 4);
    if (n == 0 || n > MOST_WORDS)
        return STATION_SIZE;
    if (room_len < 6 + 2 * n)
        return STATION_ROOM;
    uint32_t table[MOST_WORDS];
    uint16_t list[MOST_ENTRIES], class[MOST_WORDS], work[4 * MOST_WORDS];
    memcpy(table, body, n * sizeof *table);
    if (entries <= MOST_ENTRIES) /* a longer list is refused by its length alone */
        memcpy(list, body + n * sizeof *table, entries * sizeof *list);
    struct answer answer = match(table, n, list, entries, class, work);
    memcpy(room, &answer, 6);
    memcpy(room + 6, class, n * sizeof *class);
    return answer.number;
}
