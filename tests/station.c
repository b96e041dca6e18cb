/* Plays a session over the station's static library: commands on standard input, replies on standard output. It stands beside the
   program so that the library is tried from C; lines are taken to be commands. */
#include <inttypes.h>
#include <stdio.h>

#include "tuhkeliar.h"

static tuhkeliar_station station;

static tuhkeliar_answer play(char command, uint64_t flow, uint64_t figure) {
    switch (command) {
    case 'U': return tuhkeliar_open_urgent_at(&station, flow, figure);
    case 'F': return tuhkeliar_open_fair_at(&station, flow, figure);
    case 'C': return tuhkeliar_close_urgent_at(&station, flow);
    case 'c': return tuhkeliar_close_fair_at(&station, flow);
    case 'u': return tuhkeliar_offer_cell_at(&station, flow, figure);
    case 'f': return tuhkeliar_offer_packet_at(&station, flow, figure);
    case 't': return tuhkeliar_turn_at(&station, true);
    case 'x': return tuhkeliar_turn_at(&station, false);
    case 'b': return tuhkeliar_begin_at(&station);
    default: return tuhkeliar_end_at(&station);
    }
}

/* Whether an answer is of the kind that its command gets when it is not refused. */
static bool in_kind(char command, uint64_t kind) {
    switch (command) {
    case 'U':
    case 'F': return kind == TUHKELIAR_OPENED;
    case 'C':
    case 'c': return kind == TUHKELIAR_CLOSED;
    case 'u': return kind == TUHKELIAR_CELL_ACCEPTED;
    case 'f': return kind == TUHKELIAR_PACKET_ACCEPTED;
    case 't': return kind == TUHKELIAR_SENT || kind == TUHKELIAR_IDLE;
    case 'x': return kind == TUHKELIAR_IDLE;
    case 'b': return kind == TUHKELIAR_BEGUN;
    case 'e': return kind == TUHKELIAR_ENDED;
    }
    return false;
}

static void tell(tuhkeliar_answer t) {
    switch (t.kind) {
    case TUHKELIAR_REFUSED: printf("no %" PRIu64 "\n", t.a); break;
    case TUHKELIAR_OPENED:
    case TUHKELIAR_CLOSED: printf("ok\n"); break;
    case TUHKELIAR_CELL_ACCEPTED: printf("ok %" PRIu64 " %" PRIu64 "\n", t.a, t.b); break;
    case TUHKELIAR_SENT: printf("sent %" PRIu64 " %" PRIu64 " missed %" PRIu64 "\n", t.a, t.b, t.c); break;
    case TUHKELIAR_IDLE: printf("idle missed %" PRIu64 "\n", t.a); break;
    case TUHKELIAR_PACKET_ACCEPTED: printf("ok %" PRIu64 " %" PRIu64 " %" PRIu64 "\n", t.a, t.b, t.c); break;
    case TUHKELIAR_BEGUN: printf("ok %" PRIu64 " %" PRIu64 " %" PRIu64 "\n", t.a, t.b, t.d); break;
    case TUHKELIAR_ENDED: printf("ok %" PRIu64 " %" PRIu64 "\n", t.a, t.b); break;
    }
}

/* Whether the header's fields are where the library has them: each after calls that make it differ from its neighbours. */
static bool laid_out(void) {
    tuhkeliar_station s = tuhkeliar_fresh();
    s = tuhkeliar_turn(s, true).station;
    s = tuhkeliar_open_urgent(s, 1, 9).station;
    s = tuhkeliar_offer_cell(s, 1, 9).station;
    s = tuhkeliar_offer_cell(s, 1, 7).station;
    s = tuhkeliar_open_fair(s, 2, 3).station;
    s = tuhkeliar_offer_packet(s, 2, 10).station;
    s = tuhkeliar_offer_packet(s, 2, 20).station;
    s = tuhkeliar_offer_packet(s, 2, 30).station;
    s = tuhkeliar_open_fair(s, 5, 1).station;
    s = tuhkeliar_offer_packet(s, 5, 1).station;
    s = tuhkeliar_offer_packet(s, 5, 2).station;
    for (int k = 0; k < 2; k++) s = tuhkeliar_end(tuhkeliar_begin(s).station).station;
    s = tuhkeliar_begin(s).station;
    tuhkeliar_urgent_flow u = s.urgent.flows[1];
    tuhkeliar_cell c = s.urgent.cells[17];
    tuhkeliar_fair_flow f = s.fair.flows[2];
    tuhkeliar_packet p = s.fair.packets[34];
    tuhkeliar_service b = s.fair.service;
    return s.urgent.now.slot == 1 && u.opened && u.deadline == 9 && u.next == 2 && c.held && c.number == 1 && c.last.slot == 7
        && s.fair.time.tag == 720720 && s.fair.largest.tag == 2402400 && b.busy && b.flow == 5 && b.number == 1 && b.length == 2
        && b.finish.tag == 2162160 && f.opened && f.weight == 3 && f.next == 3 && f.finish.tag == 14414400 && p.held && p.number == 2
        && p.length == 30 && p.start.tag == 7207200 && p.finish.tag == 14414400;
}

int main(void) {
    char line[64];
    if (!laid_out()) return 1;
    if (tuhkeliar_slots_passed(65530, 4) != 10 || tuhkeliar_slots_passed(5, 4) != 65535) return 1;
    tuhkeliar_fresh_at(&station);
    while (fgets(line, sizeof line, stdin)) {
        char command = 0;
        uint64_t flow = 0, figure = 0;
        sscanf(line, "%c %" SCNu64 " %" SCNu64, &command, &flow, &figure);
        tuhkeliar_answer answer = play(command, flow, figure);
        if (answer.kind != TUHKELIAR_REFUSED && !in_kind(command, answer.kind)) return 1;
        tell(answer);
    }
    return 0;
}
