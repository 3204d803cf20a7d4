#include "sides.h"

#include "plain/plain.h"
#include "station.h"

const struct side sides[SIDES] = {
    [STATION] = {station_lent, station_match},
    [PLAIN] = {plain_lent, plain_match},
};
