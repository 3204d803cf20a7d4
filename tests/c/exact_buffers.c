/* Calls the station's entries as standard input says, on rows that are exactly as long as lent. Nobody sets
 * the buffers and the room before a call, so that whoever watches sees it where an old content counts.
 *
 * A request is a letter, the rows that are read, the lengths of what is lent, and how many entries of each
 * are to be printed after the result: m for station_match, l for station_lent, c for station_check, w for
 * station_write, r for station_read.
 */
#include "rows.h"
#include "station.h"

static void print_result(uint64_t result) {
    printf("%lu", (unsigned long)result);
}

static void match(void) {
    struct uint8_t_row file = uint8_t_read();
    uint32_t job = (uint32_t)number();
    struct uint8_t_row room = uint8_t_room(number());
    print_result(station_match(file.entries, file.length, job, room.entries, room.length));
    uint8_t_print(room, number());
    free(file.entries);
    free(room.entries);
}

static void lent(int check) {
    struct uint32_t_row table = uint32_t_read();
    struct uint16_t_row list = check ? uint16_t_room(0) : uint16_t_read();
    struct uint16_t_row classes = uint16_t_room(number());
    struct uint16_t_row work = uint16_t_room(number());
    if (check)
        print_result(station_check(table.entries, table.length, classes.entries, classes.length, work.entries,
                                   work.length));
    else
        print_result(station_lent(table.entries, table.length, list.entries, list.length, classes.entries,
                                  classes.length, work.entries, work.length));
    uint16_t_print(classes, number());
    uint16_t_print(work, number());
    free(table.entries);
    free(list.entries);
    free(classes.entries);
    free(work.entries);
}

static void write_file(void) {
    struct uint16_t_row sizes = uint16_t_read();
    struct uint8_t_row bodies = uint8_t_read();
    struct uint8_t_row room = uint8_t_room(number());
    print_result(station_write(sizes.entries, sizes.length, bodies.entries, bodies.length, room.entries, room.length));
    uint8_t_print(room, number());
    free(sizes.entries);
    free(bodies.entries);
    free(room.entries);
}

static void read_sizes(void) {
    struct uint8_t_row file = uint8_t_read();
    struct uint16_t_row sizes = uint16_t_room(number());
    print_result(station_read(file.entries, file.length, sizes.entries, sizes.length));
    uint16_t_print(sizes, number());
    free(file.entries);
    free(sizes.entries);
}

int main(void) {
    char entry;
    while (scanf(" %c", &entry) == 1) {
        if (entry == 'm')
            match();
        else if (entry == 'w')
            write_file();
        else if (entry == 'r')
            read_sizes();
        else
            lent(entry == 'c');
        printf("\n");
    }
    return 0;
}
