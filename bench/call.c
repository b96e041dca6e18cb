/* Times calls of the station from C, each on the station in place: rounds of an offer and a turn in the urgent lane, an offer, a begin and an
   end in the fair lane. Says nanoseconds a call. */
#define _POSIX_C_SOURCE 199309L
#include <stdio.h>
#include <time.h>

#include "tuhkeliar.h"

enum { ROUNDS = 8000, CALLS = 5 };

static tuhkeliar_station station;

int main(void) {
    struct timespec began, ended;
    int done = 0;
    tuhkeliar_fresh_at(&station);
    tuhkeliar_open_urgent_at(&station, 0, 4096);
    tuhkeliar_open_fair_at(&station, 0, 1);
    clock_gettime(CLOCK_MONOTONIC, &began);
    for (int round = 0; round < ROUNDS; round++) {
        done += tuhkeliar_offer_cell_at(&station, 0, 4096).kind == TUHKELIAR_CELL_ACCEPTED;
        done += tuhkeliar_turn_at(&station, true).kind == TUHKELIAR_SENT;
        done += tuhkeliar_offer_packet_at(&station, 0, 100).kind == TUHKELIAR_PACKET_ACCEPTED;
        done += tuhkeliar_begin_at(&station).kind == TUHKELIAR_BEGUN;
        done += tuhkeliar_end_at(&station).kind == TUHKELIAR_ENDED;
    }
    clock_gettime(CLOCK_MONOTONIC, &ended);
    if (done != ROUNDS * CALLS) {
        return 1;
    }
    printf("%.0f\n", ((ended.tv_sec - began.tv_sec) * 1e9 + (ended.tv_nsec - began.tv_nsec)) / done);
    return 0;
}
