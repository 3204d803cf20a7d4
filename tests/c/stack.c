/* How much stack station_lent uses. Standard input has a table, a list and the lengths of the buffers for
 * each call; a line comes back with the bytes used and the result.
 *
 * Each call runs on a stack of its own, which was painted before: what is no longer painted was used. Twice,
 * in two colours, since a call may write what looks like one. All that is below the start of that stack is
 * counted, so the few bytes of the call itself and of what leads to it are counted too.
 */
#include "rows.h"
#include "station.h"

#include <string.h>
#include <ucontext.h>

enum { STACK = 1 << 20 };

static unsigned char stack[STACK] __attribute__((aligned(64)));
static ucontext_t here, there;

static struct uint32_t_row table;
static struct uint16_t_row list, classes, work;
static uint64_t result;

static void call(void) {
    result = station_lent(table.entries, table.length, list.entries, list.length, classes.entries, classes.length,
                          work.entries, work.length);
}

static void nothing(void) {
}

static size_t used_in_colour(void (*run)(void), int colour) {
    memset(stack, colour, sizeof stack);
    getcontext(&there);
    there.uc_stack.ss_sp = stack;
    there.uc_stack.ss_size = sizeof stack;
    there.uc_link = &here;
    makecontext(&there, run, 0);
    swapcontext(&here, &there);
    size_t painted = 0;
    while (painted < sizeof stack && stack[painted] == colour)
        painted++;
    return sizeof stack - painted;
}

static size_t used(void (*run)(void)) {
    size_t one = used_in_colour(run, 0xA5), other = used_in_colour(run, 0x3C);
    return one < other ? other : one;
}

int main(void) {
    size_t calls = number();
    printf("%lu 0\n", (unsigned long)used(nothing));
    while (calls-- > 0) {
        table = uint32_t_read();
        list = uint16_t_read();
        classes = uint16_t_room(number());
        work = uint16_t_room(number());
        size_t bytes = used(call);
        printf("%lu %lu\n", (unsigned long)bytes, (unsigned long)result);
        free(table.entries);
        free(list.entries);
        free(classes.entries);
        free(work.entries);
    }
    return 0;
}
