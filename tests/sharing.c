/* Plays a session of the class program over the static library: commands on standard input, replies on standard output. Lines are taken to be
   commands, each at its time: a tree is described, set up, and then called. */
#include <inttypes.h>
#include <stdio.h>

#include "tuhkeliar.h"

static tuhkeliar_classes lane;
static tuhkeliar_plan plan;

/* Nothing is described: every flow hangs from a class that there is not. */
static void forget(void) {
    plan.count = 0;
    for (int flow = 0; flow < TUHKELIAR_FLOWS; flow++) {
        plan.classes[flow] = TUHKELIAR_CLASSES;
    }
}

/* One class more; of more than there may be it is only counted that they are more. */
static void add(uint64_t parent, uint64_t weight) {
    if (plan.count < TUHKELIAR_CLASSES) {
        plan.parents[plan.count] = parent;
        plan.weights[plan.count] = weight;
        plan.count++;
    } else {
        plan.count = TUHKELIAR_CLASSES + 1;
    }
}

static tuhkeliar_answer play(char command, uint64_t flow, uint64_t figure) {
    switch (command) {
    case 'F': return tuhkeliar_classes_open_at(&lane, flow, figure);
    case 'c': return tuhkeliar_classes_close_at(&lane, flow);
    case 'f': return tuhkeliar_classes_offer_at(&lane, flow, figure);
    case 'b': return tuhkeliar_classes_begin_at(&lane);
    default: return tuhkeliar_classes_end_at(&lane);
    }
}

/* Whether an answer is of the kind that its command gets when it is not refused. */
static bool in_kind(char command, uint64_t kind) {
    switch (command) {
    case 'F': return kind == TUHKELIAR_OPENED;
    case 'c': return kind == TUHKELIAR_CLOSED;
    case 'f': return kind == TUHKELIAR_TAKEN;
    case 'b': return kind == TUHKELIAR_BEGUN;
    default: return kind == TUHKELIAR_ENDED;
    }
}

static void tell(tuhkeliar_answer t) {
    switch (t.kind) {
    case TUHKELIAR_REFUSED: printf("no %" PRIu64 "\n", t.a); break;
    case TUHKELIAR_TAKEN: printf("ok %" PRIu64 "\n", t.a); break;
    case TUHKELIAR_BEGUN: printf("ok %" PRIu64 " %" PRIu64 " %" PRIu64 "\n", t.a, t.b, t.d); break;
    case TUHKELIAR_ENDED: printf("ok %" PRIu64 " %" PRIu64 "\n", t.a, t.b); break;
    default: printf("ok\n"); break;
    }
}

/* Whether the header's fields are where the library has them, each after calls that make it differ from its neighbours, and whether a refused
   tree leaves the lane. */
static bool laid_out(void) {
    tuhkeliar_plan two = {.count = 2, .parents = {9, 0}, .weights = {3, 4}, .classes = {1}};
    tuhkeliar_classes l = tuhkeliar_classes_fresh();
    l = tuhkeliar_classes_set_up(l, two).lane;
    l = tuhkeliar_classes_open(l, 0, 5).lane;
    l = tuhkeliar_classes_offer(l, 0, 500).lane;
    l = tuhkeliar_classes_offer(l, 0, 100).lane;
    l = tuhkeliar_classes_begin(l).lane;
    l = tuhkeliar_classes_end(l).lane;
    tuhkeliar_answer begun = tuhkeliar_classes_begin(l).answer;
    l = tuhkeliar_classes_begin(l).lane;
    tuhkeliar_answer refused = tuhkeliar_classes_set_up(l, (tuhkeliar_plan){0}).answer;
    l = tuhkeliar_classes_set_up(l, (tuhkeliar_plan){0}).lane;
    const uint64_t byte = 720720;
    const tuhkeliar_node *root = &l.nodes[0], *class = &l.nodes[1], *flow = &l.nodes[TUHKELIAR_CLASSES];
    return refused.kind == TUHKELIAR_REFUSED && refused.a == TUHKELIAR_BAD_TREE && begun.c == 100 && begun.d == 500 * byte / 5 &&
           root->parent == TUHKELIAR_CLASSES && root->weight == 3 && class->parent == 0 && class->weight == 4 && class->waiting == 0 &&
           class->start.tag == 500 * byte / 4 && class->finish.tag == 600 * byte / 4 && flow->parent == 1 && flow->weight == 5 &&
           flow->start.tag == 100 * byte && flow->finish.tag == 120 * byte && l.classes[0].time.tag == 125 * byte &&
           l.classes[0].largest.tag == 125 * byte && l.classes[1].time.tag == 100 * byte && l.classes[1].largest.tag == 100 * byte &&
           l.service.busy && l.service.number == 1 && l.service.length == 100 && l.flows[0].opened && l.flows[0].next == 2 && !l.packets[0].held;
}

int main(void) {
    char line[64], command;
    bool ready = false;
    if (!laid_out()) {
        return 1;
    }
    tuhkeliar_classes_fresh_at(&lane);
    forget();
    while (fgets(line, sizeof line, stdin) != NULL) {
        uint64_t first = 0, second = 0;
        tuhkeliar_answer t = {.kind = TUHKELIAR_SET_UP};
        sscanf(line, "%c %" SCNu64 " %" SCNu64, &command, &first, &second);
        if (command == 'K') {
            add(first, second);
        } else if (command == 'G' && first < TUHKELIAR_FLOWS) {
            plan.classes[first] = second;
        } else if (command == 'G') {
            t = (tuhkeliar_answer){.kind = TUHKELIAR_REFUSED, .a = TUHKELIAR_NO_SUCH_FLOW};
        } else if (command == 'S') {
            t = tuhkeliar_classes_set_up_at(&lane, plan);
            ready = t.kind == TUHKELIAR_SET_UP;
            if (!ready) {
                forget();
            }
        } else {
            t = play(command, first, second);
            if (!ready || (t.kind != TUHKELIAR_REFUSED && !in_kind(command, t.kind))) {
                return 1;
            }
        }
        tell(t);
    }
    return 0;
}
