/* The same two jobs as the station's, in plain C written for speed: what the station is measured against.
 *
 * Same algorithm, same answers, and the same bytes left in every buffer. Nothing of it is proved.
 */
#ifndef PLAIN_H
#define PLAIN_H

#include <stddef.h>
#include <stdint.h>

/* As station_lent. */
uint64_t plain_lent(const uint32_t *table, size_t n, const uint16_t *list, size_t entries,
                    uint16_t *classes, size_t class_len, uint16_t *work, size_t work_len);

/* As station_match. */
uint16_t plain_match(const uint8_t *file, size_t file_len, uint32_t job, uint8_t *room, size_t room_len);

#endif
