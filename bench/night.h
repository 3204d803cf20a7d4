/* A night of 9,000 lists, each a job file of its own, matched one after the other. */
#ifndef NIGHT_H
#define NIGHT_H

#include "sides.h"

enum { NIGHT_LISTS = 9000 };

/* Seconds that each side takes for the whole night, the shortest of some nights. */
void time_night(double seconds[SIDES]);

#endif
