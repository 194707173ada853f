/* The tables, lists of events and optional parts that are counted. The same numbers come out on every machine. */
#ifndef WORKLOAD_H
#define WORKLOAD_H

#include "naustvri.h"

/* A table as it stands before the list, and the list. */
struct workload {
    const char *name;
    size_t circuits;
    uint8_t table[NAUSTVRI_CIRCUITS_MOST * NAUSTVRI_CIRCUIT_SIZE];
    uint8_t events[NAUSTVRI_EVENTS_MOST * NAUSTVRI_EVENT_SIZE];
};

/* Set-ups, calls that are answered, releases, look-aheads, cancels and clocks in two domains over a route that is nearly always full. */
void make_mixed(struct workload *w, size_t circuits);

/* The same, and three of a hundred events take the mark off a holder: some with the reservation above it, a few from one whose mark is off
 * already. From then on nobody takes the circuit before its release. */
void make_mixed_without_service(struct workload *w, size_t circuits);

/* A full route on which one event of four takes a circuit; the others are answered calls, reservations above a holder, and calls that empty and
 * fill a circuit. */
void make_take_heavy(struct workload *w, size_t circuits);

/* A route full of answered calls of the highest level: every search goes to the end and every event but the clock is refused. */
void make_full_table(struct workload *w, size_t circuits);

/* A table whose every circuit is held by a call whose mark is off. */
void make_marks_off(uint8_t *table, size_t circuits);

/* A table whose every circuit is held by a ROUTINE call that rings. */
void make_all_ringing(uint8_t *table, size_t circuits);

/* A table whose every circuit has an answered holder and a reservation, so that the most references stand in it. */
void make_all_parts(uint8_t *table, size_t circuits);

/* The same with references drawn at random, others for each draw. */
void make_all_parts_drawn(uint8_t *table, size_t circuits, unsigned draw);

/* The same with references that were made against the library's filter of references, so that it tells none of them apart. */
void make_all_parts_alike(uint8_t *table, size_t circuits);

enum { OTHERS_MOST = 64, OTHER_CONTENTS_MOST = 20 };

/* The optional part of a message, and the list that it is written from. */
struct optional {
    size_t part_len, list_len;
    uint8_t part[(OTHERS_MOST + 1) * (2 + OTHER_CONTENTS_MOST) + 1];
    uint8_t list[(OTHERS_MOST + 1) * (NAUSTVRI_LISTED_CONTENTS + OTHER_CONTENTS_MOST)];
};

/* The part of the handbook's message: a calling party number, what to do with name 58, and precedence. */
void make_handbook_optional(struct optional *o);

/* A part whose last parameter is precedence, behind up to 64 others that have 0 to 20 octets of contents. */
void make_optional(struct optional *o, size_t others);

#endif
