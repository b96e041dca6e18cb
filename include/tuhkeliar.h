/* Tuhkeliar's station, and its class lane, for programs in C.

   A call takes the station by value and hands it back beside the answer; any call with any numbers is answered. The same calls with `_at` in
   their names work on a station that stays where it is: they are what most programs want.

   Linking: `tools/build tuhkeliar_c` proves the library and writes target/staticlib/libtuhkeliar_c.a, for x86-64:

       cc -Iinclude program.c -Ltarget/staticlib -ltuhkeliar_c

   where cc compiles for x86-64 (x86_64-linux-gnu-gcc on another processor).

   From outside the archive needs memcpy, memmove and memset, and nothing else: no heap, no files, no C library beside these three.
   Threads: no call keeps anything or shares anything with another, so threads with a station each need no lock; one station is one thread's at a time.
   Stack: a station has 17,344 bytes, a class lane 13,168. A by-value call takes up to 75 kB below its caller (62 kB in the class lane), and its
   caller keeps about 35 kB (27 kB) for each such call that is written in it; a call with `_at` takes up to 109 kB (88 kB) in all while it lasts,
   and its caller next to nothing. Measured with gcc 12, -O2, and the older kit, rattle-kit-5b. */
#ifndef TUHKELIAR_H
#define TUHKELIAR_H

#include <stdbool.h>
#include <stdint.h>

#ifdef __cplusplus
extern "C" {
#endif

/* Goes up by one with every change that a program which uses this header could notice. */
#define TUHKELIAR_VERSION 5

/* Flows are 0 to 15 and have so many places each; classes are 0 to 30 at most; the largest deadline, weight and length; where slots and tags end. */
#define TUHKELIAR_FLOWS 16
#define TUHKELIAR_PLACES 16
#define TUHKELIAR_CLASSES 31
#define TUHKELIAR_MOST_DEADLINE 4096
#define TUHKELIAR_MOST_WEIGHT 16
#define TUHKELIAR_MOST_LENGTH 1500
#define TUHKELIAR_SLOT_LIMIT UINT64_C(4000000000)
#define TUHKELIAR_TAG_LIMIT UINT64_C(4611686018427387904)

/* A by-value call whose result is dropped has done nothing: the compiler warns of it. And a call that is kept apart has its own stack frame. */
#if defined(__GNUC__)
#define TUHKELIAR_KEEP __attribute__((warn_unused_result))
#define TUHKELIAR_APART static __attribute__((noinline, unused))
#else
#define TUHKELIAR_KEEP
#define TUHKELIAR_APART static
#endif

typedef struct {
    uint64_t slot;
} tuhkeliar_slot;

typedef struct {
    uint64_t tag;
} tuhkeliar_tag;

typedef struct {
    bool opened;
    uint64_t deadline;
    uint64_t next;
} tuhkeliar_urgent_flow;

typedef struct {
    bool held;
    uint64_t number;
    tuhkeliar_slot last;
} tuhkeliar_cell;

typedef struct {
    tuhkeliar_slot now;
    tuhkeliar_urgent_flow flows[TUHKELIAR_FLOWS];
    tuhkeliar_cell cells[TUHKELIAR_FLOWS * TUHKELIAR_PLACES];
} tuhkeliar_urgent;

typedef struct {
    bool opened;
    uint64_t weight;
    uint64_t next;
    tuhkeliar_tag finish;
} tuhkeliar_fair_flow;

typedef struct {
    bool held;
    uint64_t number;
    uint64_t length;
    tuhkeliar_tag start;
    tuhkeliar_tag finish;
} tuhkeliar_packet;

typedef struct {
    bool busy;
    uint64_t flow;
    uint64_t number;
    uint64_t length;
    tuhkeliar_tag finish;
} tuhkeliar_service;

typedef struct {
    tuhkeliar_tag time;
    tuhkeliar_tag largest;
    tuhkeliar_service service;
    tuhkeliar_fair_flow flows[TUHKELIAR_FLOWS];
    tuhkeliar_packet packets[TUHKELIAR_FLOWS * TUHKELIAR_PLACES];
} tuhkeliar_fair;

/* The station. A program gets one from tuhkeliar_fresh, hands it to each call and keeps the one that comes back; of bytes that it made up
   itself nothing is promised. */
typedef struct {
    tuhkeliar_urgent urgent;
    tuhkeliar_fair fair;
} tuhkeliar_station;

/* The library's station has this size. */
#if defined(__cplusplus)
static_assert(sizeof(tuhkeliar_station) == 17344, "the station is laid out otherwise than in the library");
#else
_Static_assert(sizeof(tuhkeliar_station) == 17344, "the station is laid out otherwise than in the library");
#endif

/* The kinds of answers, and what stands in a, b, c and d; the rest of the four is 0. */
enum {
    TUHKELIAR_REFUSED = 0,         /* the refusal's number */
    TUHKELIAR_OPENED = 1,          /* nothing */
    TUHKELIAR_CELL_ACCEPTED = 2,   /* number, last slot */
    TUHKELIAR_SENT = 3,            /* flow, number, missed */
    TUHKELIAR_IDLE = 4,            /* missed */
    TUHKELIAR_PACKET_ACCEPTED = 5, /* number, start, finish */
    TUHKELIAR_BEGUN = 6,           /* flow, number, length, start */
    TUHKELIAR_ENDED = 7,           /* flow, number, length */
    TUHKELIAR_CLOSED = 8,          /* nothing */
    TUHKELIAR_SET_UP = 9,          /* class lane only: nothing */
    TUHKELIAR_TAKEN = 10           /* class lane only: number */
};

/* The refusals, by their numbers. */
enum {
    TUHKELIAR_NO_SUCH_FLOW = 1,        /* the flow's number is above 15 */
    TUHKELIAR_NOT_OPEN = 2,            /* the flow is not open in this lane */
    TUHKELIAR_ALREADY_OPEN = 3,        /* the flow is open in this lane */
    TUHKELIAR_PLACES_FULL = 5,         /* sixteen of the flow wait */
    TUHKELIAR_TAGS_USED_UP = 6,        /* the packet's finish or its number would pass the largest tag */
    TUHKELIAR_SLOTS_USED_UP = 7,       /* there is no slot left for the cell's own window, or for the turn */
    TUHKELIAR_PACKET_IN_SERVICE = 8,   /* begin: a packet is in service */
    TUHKELIAR_NOTHING_WAITS = 9,       /* begin: no packet waits */
    TUHKELIAR_NOTHING_IN_SERVICE = 10, /* end: no packet is in service */
    TUHKELIAR_NO_COMMAND = 11,         /* programs only: a line that is no command */
    TUHKELIAR_FLOW_IN_USE = 12,        /* closing: something of the flow waits or is in service */
    TUHKELIAR_BAD_WEIGHT = 13,         /* not 1 to 16 */
    TUHKELIAR_BAD_DEADLINE = 14,       /* not 1 to 4,096; of a cell: not 1 to its flow's own */
    TUHKELIAR_BAD_LENGTH = 15,         /* not 1 to 1,500 */
    TUHKELIAR_LIST_TOO_LONG = 16,      /* admission only: more than sixteen declarations */
    TUHKELIAR_BAD_BURST = 17,          /* admission only: not 1 to 16 */
    TUHKELIAR_BAD_PERIOD = 18,         /* admission only: no divisor of 5,040 */
    TUHKELIAR_BAD_TREE = 27            /* class lane only: the tree breaks a rule */
};

typedef struct {
    uint64_t kind;
    uint64_t a;
    uint64_t b;
    uint64_t c;
    uint64_t d;
} tuhkeliar_answer;

/* The station after a call, and the answer. */
typedef struct {
    tuhkeliar_station station;
    tuhkeliar_answer answer;
} tuhkeliar_called;

/* A tree of classes as it is described: how many classes there are, what each hangs from and its weight, and the class of each flow. Class 0 is
   the root, and what it hangs from is not read, nor what stands from the count on. */
typedef struct {
    uint64_t count;
    uint64_t parents[TUHKELIAR_CLASSES];
    uint64_t weights[TUHKELIAR_CLASSES];
    uint64_t classes[TUHKELIAR_FLOWS];
} tuhkeliar_plan;

typedef struct {
    uint64_t parent;
    uint64_t weight;
    uint64_t waiting;
    tuhkeliar_tag start;
    tuhkeliar_tag finish;
} tuhkeliar_node;

typedef struct {
    tuhkeliar_tag time;
    tuhkeliar_tag largest;
} tuhkeliar_class;

/* The class lane, a lane of its own beside a station. A program gets one from tuhkeliar_classes_fresh, sets up a tree, and goes on as with a
   station. */
typedef struct {
    tuhkeliar_node nodes[TUHKELIAR_CLASSES + TUHKELIAR_FLOWS];
    tuhkeliar_class classes[TUHKELIAR_CLASSES];
    tuhkeliar_service service;
    tuhkeliar_fair_flow flows[TUHKELIAR_FLOWS];
    tuhkeliar_packet packets[TUHKELIAR_FLOWS * TUHKELIAR_PLACES];
} tuhkeliar_classes;

/* The library's class lane, and its description of a tree, have these sizes. */
#if defined(__cplusplus)
static_assert(sizeof(tuhkeliar_classes) == 13168, "the class lane is laid out otherwise than in the library");
static_assert(sizeof(tuhkeliar_plan) == 632, "a tree's description is laid out otherwise than in the library");
#else
_Static_assert(sizeof(tuhkeliar_classes) == 13168, "the class lane is laid out otherwise than in the library");
_Static_assert(sizeof(tuhkeliar_plan) == 632, "a tree's description is laid out otherwise than in the library");
#endif

/* The class lane after a call, and the answer. */
typedef struct {
    tuhkeliar_classes lane;
    tuhkeliar_answer answer;
} tuhkeliar_class_called;

/* The station before any call. */
TUHKELIAR_KEEP tuhkeliar_station tuhkeliar_fresh(void);

/* Opens a flow with a deadline in slots, or with a weight. */
TUHKELIAR_KEEP tuhkeliar_called tuhkeliar_open_urgent(tuhkeliar_station station, uint64_t flow, uint64_t deadline);
TUHKELIAR_KEEP tuhkeliar_called tuhkeliar_open_fair(tuhkeliar_station station, uint64_t flow, uint64_t weight);

/* Closes a flow; refused while something of it waits or is in service. Its numbers and last finish go on when it is opened again. */
TUHKELIAR_KEEP tuhkeliar_called tuhkeliar_close_urgent(tuhkeliar_station station, uint64_t flow);
TUHKELIAR_KEEP tuhkeliar_called tuhkeliar_close_fair(tuhkeliar_station station, uint64_t flow);

/* Offers a cell with a deadline of its own, at most its flow's; or a packet of this length in bytes. */
TUHKELIAR_KEEP tuhkeliar_called tuhkeliar_offer_cell(tuhkeliar_station station, uint64_t flow, uint64_t deadline);
TUHKELIAR_KEEP tuhkeliar_called tuhkeliar_offer_packet(tuhkeliar_station station, uint64_t flow, uint64_t length);

/* A turn of the radio, open or lost. */
TUHKELIAR_KEEP tuhkeliar_called tuhkeliar_turn(tuhkeliar_station station, bool usable);

/* Takes a waiting packet into service, and ends it. */
TUHKELIAR_KEEP tuhkeliar_called tuhkeliar_begin(tuhkeliar_station station);
TUHKELIAR_KEEP tuhkeliar_called tuhkeliar_end(tuhkeliar_station station);

/* How many slots passed between two of the radio's own counts; a gap of 65,536 or more can't be told. */
uint16_t tuhkeliar_slots_passed(uint16_t earlier, uint16_t later);

/* The class lane before a tree is described: one class with every flow in it. */
TUHKELIAR_KEEP tuhkeliar_classes tuhkeliar_classes_fresh(void);

/* Sets up a new lane with the tree that is described, whatever waited in the old one; one that breaks a rule is refused with 27, and the lane is as
   it was. */
TUHKELIAR_KEEP tuhkeliar_class_called tuhkeliar_classes_set_up(tuhkeliar_classes lane, tuhkeliar_plan plan);

/* Opens a flow with a weight among the children of its class, closes it, offers a packet of this length, takes one into service and ends it. */
TUHKELIAR_KEEP tuhkeliar_class_called tuhkeliar_classes_open(tuhkeliar_classes lane, uint64_t flow, uint64_t weight);
TUHKELIAR_KEEP tuhkeliar_class_called tuhkeliar_classes_close(tuhkeliar_classes lane, uint64_t flow);
TUHKELIAR_KEEP tuhkeliar_class_called tuhkeliar_classes_offer(tuhkeliar_classes lane, uint64_t flow, uint64_t length);
TUHKELIAR_KEEP tuhkeliar_class_called tuhkeliar_classes_begin(tuhkeliar_classes lane);
TUHKELIAR_KEEP tuhkeliar_class_called tuhkeliar_classes_end(tuhkeliar_classes lane);

/* The same calls on a station that stays where it is: it becomes the station after the call, and the answer comes back. */
TUHKELIAR_APART void tuhkeliar_fresh_at(tuhkeliar_station *station) {
    *station = tuhkeliar_fresh();
}

TUHKELIAR_APART tuhkeliar_answer tuhkeliar_open_urgent_at(tuhkeliar_station *station, uint64_t flow, uint64_t deadline) {
    tuhkeliar_called called = tuhkeliar_open_urgent(*station, flow, deadline);
    *station = called.station;
    return called.answer;
}

TUHKELIAR_APART tuhkeliar_answer tuhkeliar_open_fair_at(tuhkeliar_station *station, uint64_t flow, uint64_t weight) {
    tuhkeliar_called called = tuhkeliar_open_fair(*station, flow, weight);
    *station = called.station;
    return called.answer;
}

TUHKELIAR_APART tuhkeliar_answer tuhkeliar_close_urgent_at(tuhkeliar_station *station, uint64_t flow) {
    tuhkeliar_called called = tuhkeliar_close_urgent(*station, flow);
    *station = called.station;
    return called.answer;
}

TUHKELIAR_APART tuhkeliar_answer tuhkeliar_close_fair_at(tuhkeliar_station *station, uint64_t flow) {
    tuhkeliar_called called = tuhkeliar_close_fair(*station, flow);
    *station = called.station;
    return called.answer;
}

TUHKELIAR_APART tuhkeliar_answer tuhkeliar_offer_cell_at(tuhkeliar_station *station, uint64_t flow, uint64_t deadline) {
    tuhkeliar_called called = tuhkeliar_offer_cell(*station, flow, deadline);
    *station = called.station;
    return called.answer;
}

TUHKELIAR_APART tuhkeliar_answer tuhkeliar_offer_packet_at(tuhkeliar_station *station, uint64_t flow, uint64_t length) {
    tuhkeliar_called called = tuhkeliar_offer_packet(*station, flow, length);
    *station = called.station;
    return called.answer;
}

TUHKELIAR_APART tuhkeliar_answer tuhkeliar_turn_at(tuhkeliar_station *station, bool usable) {
    tuhkeliar_called called = tuhkeliar_turn(*station, usable);
    *station = called.station;
    return called.answer;
}

TUHKELIAR_APART tuhkeliar_answer tuhkeliar_begin_at(tuhkeliar_station *station) {
    tuhkeliar_called called = tuhkeliar_begin(*station);
    *station = called.station;
    return called.answer;
}

TUHKELIAR_APART tuhkeliar_answer tuhkeliar_end_at(tuhkeliar_station *station) {
    tuhkeliar_called called = tuhkeliar_end(*station);
    *station = called.station;
    return called.answer;
}

/* And on a class lane that stays where it is. */
TUHKELIAR_APART void tuhkeliar_classes_fresh_at(tuhkeliar_classes *lane) {
    *lane = tuhkeliar_classes_fresh();
}

TUHKELIAR_APART tuhkeliar_answer tuhkeliar_classes_set_up_at(tuhkeliar_classes *lane, tuhkeliar_plan plan) {
    tuhkeliar_class_called called = tuhkeliar_classes_set_up(*lane, plan);
    *lane = called.lane;
    return called.answer;
}

TUHKELIAR_APART tuhkeliar_answer tuhkeliar_classes_open_at(tuhkeliar_classes *lane, uint64_t flow, uint64_t weight) {
    tuhkeliar_class_called called = tuhkeliar_classes_open(*lane, flow, weight);
    *lane = called.lane;
    return called.answer;
}

TUHKELIAR_APART tuhkeliar_answer tuhkeliar_classes_close_at(tuhkeliar_classes *lane, uint64_t flow) {
    tuhkeliar_class_called called = tuhkeliar_classes_close(*lane, flow);
    *lane = called.lane;
    return called.answer;
}

TUHKELIAR_APART tuhkeliar_answer tuhkeliar_classes_offer_at(tuhkeliar_classes *lane, uint64_t flow, uint64_t length) {
    tuhkeliar_class_called called = tuhkeliar_classes_offer(*lane, flow, length);
    *lane = called.lane;
    return called.answer;
}

TUHKELIAR_APART tuhkeliar_answer tuhkeliar_classes_begin_at(tuhkeliar_classes *lane) {
    tuhkeliar_class_called called = tuhkeliar_classes_begin(*lane);
    *lane = called.lane;
    return called.answer;
}

TUHKELIAR_APART tuhkeliar_answer tuhkeliar_classes_end_at(tuhkeliar_classes *lane) {
    tuhkeliar_class_called called = tuhkeliar_classes_end(*lane);
    *lane = called.lane;
    return called.answer;
}

#ifdef __cplusplus
}
#endif

#endif
