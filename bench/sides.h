/* The two sides of every measurement: the station and plain C, by the same types. */
#ifndef SIDES_H
#define SIDES_H

#include <stddef.h>
#include <stdint.h>

typedef uint64_t lent_call(const uint32_t *table, size_t n, const uint16_t *list, size_t entries,
                           uint16_t *classes, size_t class_len, uint16_t *work, size_t work_len);
typedef uint16_t match_call(const uint8_t *file, size_t file_len, uint32_t job, uint8_t *room, size_t room_len);

struct side {
    lent_call *lent;
    match_call *match;
};

enum { STATION, PLAIN, SIDES };
extern const struct side sides[SIDES];

#endif
