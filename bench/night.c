#include "night.h"

#include "agree.h"
#include "clock.h"
#include "families.h"
#include "random.h"

#include <stdlib.h>

/* A list of a night has some frames and runs: 64 to 512 words. Half of the lists can be met. */
enum { NIGHTS = 20, LEAST_WORDS = 64, WORDS_MORE = 449 };

struct file {
    uint8_t *bytes;
    size_t length;
};

static struct file files[NIGHT_LISTS];

static void make_night(void) {
    static struct job job;
    static uint8_t bytes[FILE_ROOM];
    struct numbers numbers = {48};
    for (int k = 0; k < NIGHT_LISTS; k++) {
        size_t words = LEAST_WORDS + below(&numbers, WORDS_MORE);
        if (k % 2 == 0)
            random_met(&job, words, (uint32_t)k);
        else
            random_any(&job, words, (uint32_t)k);
        must_agree(&job, "a list of the night");
        files[k].length = file_of(&job, bytes);
        if ((files[k].bytes = malloc(files[k].length)) == NULL)
            exit(1);
        for (size_t i = 0; i < files[k].length; i++)
            files[k].bytes[i] = bytes[i];
    }
}

static double one_night(const struct side *side) {
    static uint8_t room[6 + 2 * MOST_WORDS];
    double began = now();
    for (int k = 0; k < NIGHT_LISTS; k++)
        side->match(files[k].bytes, files[k].length, 1, room, sizeof room);
    return (now() - began) / 1e9;
}

void time_night(double seconds[SIDES]) {
    make_night();
    for (int side = 0; side < SIDES; side++)
        seconds[side] = one_night(&sides[side]);
    for (int night = 1; night < NIGHTS; night++)
        for (int side = 0; side < SIDES; side++) {
            double time = one_night(&sides[side]);
            if (time < seconds[side])
                seconds[side] = time;
        }
}
