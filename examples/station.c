/* A station in C: two flows open, three cells and a packet are offered, one of the cells to go at once, and the radio comes by.

   tools/build tuhkeliar_c
   cc -Iinclude examples/station.c -Ltarget/staticlib -ltuhkeliar_c -o station && ./station

   (where cc compiles for x86-64) */
#include <inttypes.h>
#include <stdio.h>

#include "tuhkeliar.h"

static tuhkeliar_station station;

/* Says what a turn of the radio came to. */
static void turn(bool usable) {
    tuhkeliar_answer answer = tuhkeliar_turn_at(&station, usable);
    if (answer.kind == TUHKELIAR_SENT) {
        printf("sent cell %" PRIu64 " of flow %" PRIu64 ", missed %" PRIu64 "\n", answer.b, answer.a, answer.c);
    } else if (answer.kind == TUHKELIAR_IDLE) {
        printf("sent none, missed %" PRIu64 "\n", answer.a);
    } else {
        printf("refused with %" PRIu64 "\n", answer.a);
    }
}

int main(void) {
    tuhkeliar_fresh_at(&station);
    tuhkeliar_open_urgent_at(&station, 0, 3);
    tuhkeliar_open_urgent_at(&station, 1, 1);
    tuhkeliar_offer_cell_at(&station, 0, 3);
    tuhkeliar_offer_cell_at(&station, 1, 1);
    tuhkeliar_offer_cell_at(&station, 0, 1); /* sooner than its flow has to: it goes first, and the cell of flow 1 is missed */
    turn(true);
    turn(false);
    turn(true);

    tuhkeliar_open_fair_at(&station, 0, 2);
    tuhkeliar_answer packet = tuhkeliar_offer_packet_at(&station, 0, 100);
    printf("packet %" PRIu64 ": start %" PRIu64 ", finish %" PRIu64 "\n", packet.a, packet.b, packet.c);
    tuhkeliar_answer begun = tuhkeliar_begin_at(&station);
    printf("begun: %" PRIu64 " bytes of flow %" PRIu64 "\n", begun.c, begun.a);
    if (tuhkeliar_close_fair_at(&station, 0).a == TUHKELIAR_FLOW_IN_USE) {
        printf("flow 0 stays open while its packet is in service\n");
    }
    tuhkeliar_end_at(&station);
    return 0;
}
