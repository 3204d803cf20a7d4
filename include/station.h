/* station.h: the rule station, for a host program in C or C++.
 *
 * A table of words holds terms; a list of pairs of addresses asks whether the paired terms can be made
 * equal, and by which bindings. This is first-order unification over finite terms. The functions are
 * proved: they end, stay inside what they are lent, and give the answers of document 01
 * (docs/document-01.md). docs/HOST.md leads through a first host program; examples/host.c is one.
 *
 * The proof is of the source, on the language's abstract machine. The compiler, the linker and the host are
 * not in it: the library for x86-64 Linux is tested, and the stack that a call takes is measured and not
 * proved. docs/HOST.md has the figures.
 *
 * What the host owes
 * ------------------
 * - No pointer is null, also where its length is 0.
 * - Each pointer is aligned for its type and leads to as many entries as its length says.
 * - Lent buffers do not overlap one another, nor what is read: the table, the list, the file, the sizes and
 *   the bodies.
 * - One call at a time on one set of buffers.
 * - A dark frame is good for 48 hours. The station knows no clock: the host takes older frames out
 *   before it sends a list.
 */
#ifndef STATION_H
#define STATION_H

#include <stddef.h>
#include <stdint.h>

#ifdef __cplusplus
extern "C" {
#endif

/* ---- version ----
 *
 * The first number grows when a program that was right before may be wrong now, the second when something is
 * added. To compare: 10,000 x the first + 100 x the second + the third.
 */
#define STATION_VERSION "1.2.0"
#define STATION_VERSION_NUMBER 10200

/* ---- limits ---- */
#define STATION_MOST_WORDS 4096    /* of a table, with word 0 */
#define STATION_MOST_ARGUMENTS 255 /* of a function */
#define STATION_MOST_PAIRS 256     /* of a list */
#define STATION_MOST_JOBS 64       /* of a job file */
#define STATION_MOST_FILE 32768    /* bytes of a job file */

/* What must be lent: work entries for a table of n words (its class entries are n), bytes of room for the
 * answer to a job of n words, and bytes for a file of that number of jobs, whose bodies have bodies_len bytes
 * together. */
#define STATION_WORK_ENTRIES(n) (4 * (size_t)(n))
#define STATION_ROOM_BYTES(n) (6 + 2 * (size_t)(n))
#define STATION_FILE_BYTES(jobs, bodies_len) (2 + 6 * (size_t)(jobs) + (size_t)(bodies_len))

/* ---- answers ----
 *
 * Every call gives one of these numbers. The place says where:
 *   3, 5, 6     an address of the table
 *   4           the address of the first word that cannot stand there; n, which is no address of the table,
 *               if a block runs past the end
 *   9, 10, 11   the number of a pair, from 1
 *   14          the number of an entry of the contents, from 1; J + 1 if bytes follow the last of J bodies
 * It is 0 for all others, and always for station_write, to which 12, 13 and 14 mean what stands with it.
 */
enum station_answer {
    STATION_ACCEPTED = 0,
    STATION_SIZE = 1,      /* the table has 0 words, or over 4,096 */
    STATION_ROOM = 2,      /* a lent buffer is too short */
    STATION_WORD = 3,      /* not a word: its tag, its high bits, or a count of 0 or over 255 */
    STATION_LAYOUT = 4,    /* the row of items breaks */
    STATION_POINTER = 5,   /* a pointer names no node */
    STATION_NAME = 6,      /* a variable's label, not 0, stood earlier */
    STATION_LOOP = 7,      /* a node reaches itself through children */
    STATION_LIST = 8,      /* an odd number of entries, or over 512 */
    STATION_ADDRESS = 9,   /* a side of a pair is not the address of a node */
    STATION_CLASH = 10,    /* the list up to this pair has two different symbols in one class */
    STATION_CYCLE = 11,    /* the list up to this pair binds a variable to a term that holds it */
    STATION_FILE = 12,     /* the file has under 2 bytes, or over 32,768 */
    STATION_CONTENTS = 13, /* 0 jobs or over 64, or the contents pass the end */
    STATION_BODY = 14,     /* a wrong offset, a body past the end, or bytes after the last */
    STATION_JOB = 15       /* the file has no job of this number */
};

/* ---- words ----
 *
 * A word is tag x 65,536 + content. Word 0 of a table is the number 0. A function word is followed by a
 * count word and that many argument words, each a variable, a constant or a pointer.
 *
 * Variables are told apart by their addresses. A label names one, and may stand at no other; to use a
 * variable again, point to it. Label 0 is no name: any number of variables may have it, and every one is
 * a different variable. Labels of constants and functions are another matter, and 0 is one like any other.
 */
enum station_tag {
    STATION_TAG_VARIABLE = 16,
    STATION_TAG_CONSTANT = 18,
    STATION_TAG_FUNCTION = 19,
    STATION_TAG_POINTER = 20,
    STATION_TAG_COUNT = 24
};

#define STATION_VARIABLE(label) ((uint32_t)STATION_TAG_VARIABLE << 16 | (uint16_t)(label))
#define STATION_UNNAMED STATION_VARIABLE(0)
#define STATION_CONSTANT(label) ((uint32_t)STATION_TAG_CONSTANT << 16 | (uint16_t)(label))
#define STATION_FUNCTION(label) ((uint32_t)STATION_TAG_FUNCTION << 16 | (uint16_t)(label))
#define STATION_POINTER_TO(address) ((uint32_t)STATION_TAG_POINTER << 16 | (uint16_t)(address))
#define STATION_COUNT(arguments) ((uint32_t)STATION_TAG_COUNT << 16 | (uint16_t)(arguments))

/* The tag of a word, which is not one of these where a high bit is set, and its label, address or count. */
#define STATION_TAG_OF(word) ((uint16_t)((uint32_t)(word) >> 16))
#define STATION_CONTENT_OF(word) ((uint16_t)((word) & 65535u))

/* ---- one job of a job file ----
 *
 * Matches the job of a number, from 1. The answers 12, 13, 14, 15, 1 and 2 write nothing; they are
 * looked for in this order, and 2 means that the room is under 6 + 2n bytes for a table of n words.
 * Any other answer leaves in the room, 2 bytes each and the low byte first: answer, place, joins, and
 * the n class entries, which are 0 if the answer is not 0. Later bytes of the room stay as they were.
 *
 * The class entry of a node is the address that names its class: what a variable is bound to. The
 * entries of other words are 0.
 */
uint16_t station_match(const uint8_t *file, size_t file_len, uint32_t job,
                       uint8_t *room, size_t room_len);

/* ---- a table and a list, on lent buffers ----
 *
 * The list is left, right, left, right. The class buffer needs n entries and the work buffer 4n, else
 * the answer is 2. What they held does not count. The answers 1 and 2 change nothing; any other leaves
 * the first 4n work entries at 0, and the first n class entries at 0 or, if the answer is 0, at the
 * class table. Later entries stay.
 */
uint64_t station_lent(const uint32_t *table, size_t n, const uint16_t *list, size_t entries,
                      uint16_t *classes, size_t class_len, uint16_t *work, size_t work_len);

/* The table check alone: 0 to 7 by the same rules. On 0, too, the entries in use are 0. */
uint64_t station_check(const uint32_t *table, size_t n,
                       uint16_t *classes, size_t class_len, uint16_t *work, size_t work_len);

/* What station_lent, station_check and station_read return holds three numbers. Its top 16 bits are reserved;
 * they are 0 today. */
#define STATION_ANSWER_OF(result) ((uint16_t)((result) & 65535u))
#define STATION_PLACE_OF(result) ((uint16_t)((result) >> 16 & 65535u))
#define STATION_JOINS_OF(result) ((uint16_t)((result) >> 32 & 65535u)) /* station_lent, station_check */
#define STATION_JOBS_OF(result) ((uint16_t)((result) >> 32 & 65535u))  /* station_read */

/* ---- a job file ----
 *
 * Writes the file of these sizes (n, p, n, p, ..) and bodies, end to end, into the room. A body is n
 * words of 4 bytes and p pairs of 4 bytes, the low byte first. The answers 13 (an odd row of sizes, or
 * not 1 to 64 jobs), 14 (the bodies' length is not the sum), 12 (the file would pass 32,768 bytes) and 2
 * (the room is short) are looked for in this order and write nothing. Bytes after the file stay.
 */
uint16_t station_write(const uint16_t *sizes, size_t sizes_len, const uint8_t *bodies, size_t bodies_len,
                       uint8_t *room, size_t room_len);

/* Reads the sizes of a file: returns answer + 65,536 x place + 4,294,967,296 x J. The answers are 12, 13 and 14,
 * as for station_match, then 2 if there is room for fewer than 2J sizes; J is 0 on refusal. On 0 the first 2J
 * entries are n, p, n, p, ..; later entries stay, and a refusal writes nothing. 2 * STATION_MOST_JOBS entries
 * are always enough.
 */
uint64_t station_read(const uint8_t *file, size_t file_len, uint16_t *sizes, size_t sizes_len);

#ifdef __cplusplus
}
#endif

#endif
