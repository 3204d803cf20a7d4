/* Makes the calls that standard input holds, so that whoever watches sees which instructions they run.
 *
 * A call is 11 numbers of 32 bits: the entry, the job's number, the length of a memory, and for each of four
 * rows at which byte of the memory it begins and how many entries it has; then the memory's bytes. Back comes
 * the result in 64 bits, and the whole memory: what was lent and what stands around it.
 */
#include "station.h"

#include <stdio.h>
#include <stdlib.h>

struct call {
    uint32_t entry, job, bytes, at[4], length[4];
};

static uint64_t made(const struct call *call, uint8_t *memory) {
    const uint32_t *length = call->length;
    void *row[4];
    for (int i = 0; i < 4; i++)
        row[i] = memory + call->at[i];
    switch (call->entry) {
    case 'm':
        return station_match(row[0], length[0], call->job, row[1], length[1]);
    case 'l':
        return station_lent(row[0], length[0], row[1], length[1], row[2], length[2], row[3], length[3]);
    case 'c':
        return station_check(row[0], length[0], row[1], length[1], row[2], length[2]);
    case 'w':
        return station_write(row[0], length[0], row[1], length[1], row[2], length[2]);
    case 'r':
        return station_read(row[0], length[0], row[1], length[1]);
    }
    fprintf(stderr, "no entry\n");
    exit(2);
}

int main(void) {
    struct call call;
    while (fread(&call, sizeof call, 1, stdin) == 1) {
        uint8_t *memory = malloc(call.bytes);
        if (memory == NULL || fread(memory, 1, call.bytes, stdin) != call.bytes) {
            fprintf(stderr, "no memory, or its bytes are missing\n");
            return 2;
        }
        uint64_t result = made(&call, memory);
        fwrite(&result, sizeof result, 1, stdout);
        fwrite(memory, 1, call.bytes, stdout);
        free(memory);
    }
    return 0;
}
