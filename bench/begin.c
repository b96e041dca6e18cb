/* Times begin and end from C, with every place of sixteen flows held at first and none at last: in the station's fair lane, and in a class lane
   with a full tree, 31 classes and four deep. Says nanoseconds a call, the fair lane's and the class lane's. */
#define _POSIX_C_SOURCE 199309L
#include <stdio.h>
#include <time.h>

#include "tuhkeliar.h"

enum { ROUNDS = 20, ALL = TUHKELIAR_FLOWS * TUHKELIAR_PLACES };

static tuhkeliar_station station;
static tuhkeliar_classes lane;
static int done;

static double now(void) {
    struct timespec at;
    clock_gettime(CLOCK_MONOTONIC, &at);
    return at.tv_sec * 1e9 + at.tv_nsec;
}

/* Two classes below each class, as far as four deep goes, the rest below those at depth 3; the flows in the deepest. */
static tuhkeliar_plan full(void) {
    tuhkeliar_plan plan = {.count = TUHKELIAR_CLASSES};
    for (int class = 0; class < TUHKELIAR_CLASSES; class++) {
        plan.parents[class] = class < 15 ? (class - 1) / 2 : 3 + class % 4;
        plan.weights[class] = 1 + class % 16;
    }
    for (int flow = 0; flow < TUHKELIAR_FLOWS; flow++) {
        plan.classes[flow] = 15 + flow;
    }
    return plan;
}

static double fair(void) {
    double took = 0;
    tuhkeliar_fresh_at(&station);
    for (int flow = 0; flow < TUHKELIAR_FLOWS; flow++) {
        done += tuhkeliar_open_fair_at(&station, flow, 1 + flow).kind == TUHKELIAR_OPENED;
    }
    for (int round = 0; round < ROUNDS; round++) {
        for (int k = 0; k < ALL; k++) {
            done += tuhkeliar_offer_packet_at(&station, k % TUHKELIAR_FLOWS, 1 + k).kind == TUHKELIAR_PACKET_ACCEPTED;
        }
        double began = now();
        for (int k = 0; k < ALL; k++) {
            done += tuhkeliar_begin_at(&station).kind == TUHKELIAR_BEGUN;
            done += tuhkeliar_end_at(&station).kind == TUHKELIAR_ENDED;
        }
        took += now() - began;
    }
    return took;
}

static double classes(void) {
    double took = 0;
    tuhkeliar_classes_fresh_at(&lane);
    done += tuhkeliar_classes_set_up_at(&lane, full()).kind == TUHKELIAR_SET_UP;
    for (int flow = 0; flow < TUHKELIAR_FLOWS; flow++) {
        done += tuhkeliar_classes_open_at(&lane, flow, 1 + flow).kind == TUHKELIAR_OPENED;
    }
    for (int round = 0; round < ROUNDS; round++) {
        for (int k = 0; k < ALL; k++) {
            done += tuhkeliar_classes_offer_at(&lane, k % TUHKELIAR_FLOWS, 1 + k).kind == TUHKELIAR_TAKEN;
        }
        double began = now();
        for (int k = 0; k < ALL; k++) {
            done += tuhkeliar_classes_begin_at(&lane).kind == TUHKELIAR_BEGUN;
            done += tuhkeliar_classes_end_at(&lane).kind == TUHKELIAR_ENDED;
        }
        took += now() - began;
    }
    return took;
}

int main(void) {
    const double calls = ROUNDS * ALL * 2.0;
    double one = fair() / calls, other = classes() / calls;
    if (done != 2 * TUHKELIAR_FLOWS + 1 + 2 * ROUNDS * ALL * 3) {
        return 1;
    }
    printf("%.0f %.0f\n", one, other);
    return 0;
}
