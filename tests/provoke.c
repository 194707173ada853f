/* Provokes every number as the handbook's table says: writes a line for each way, the number that the library gave, then the handbook's
 * words for that way. */
#include <stdio.h>
#include <stdlib.h>
#include <string.h>

#include "naustvri.h"

enum { CIRCUITS = 2 };

static uint8_t table[CIRCUITS * NAUSTVRI_CIRCUIT_SIZE], event[2 * NAUSTVRI_EVENT_SIZE], answer[2 * NAUSTVRI_ANSWER_SIZE];

/* A step of a script, with its digits:
 *
 *   sLC lLC     set-up, look-ahead of call C at level L, LFB "allowed"
 *   rC cC k     release, cancel of call C; clock
 *   nC aC       no-service, answered of call C
 *   @N=XX       changes octet N of the event that the step before it made, before that is applied
 *   #N=XX       changes octet N of the table
 *   =N+L>M      copies L octets of the table, from octet N on, to octet M on */
static void make_event(const char *step)
{
    static const char kinds[] = "srlckna";
    const char *kind = strchr(kinds, step[0]);
    if (kind == NULL)
        exit(2);
    memset(event, 0, sizeof event);
    event[NAUSTVRI_EVENT_KIND] = (uint8_t)(NAUSTVRI_SET_UP + (kind - kinds));
    const char *call = step + 1;
    if (*kind == 's' || *kind == 'l')
        event[NAUSTVRI_EVENT_PRECEDENCE] = (uint8_t)(*call++ - '0');
    if (*kind != 'k')
        event[NAUSTVRI_EVENT_REFERENCE] = (uint8_t)(*call - '0');
}

static void change(uint8_t *octets, const char *step)
{
    char *value;
    unsigned long place = strtoul(step + 1, &value, 10);
    octets[place] = (uint8_t)strtoul(value + 1, NULL, 16);
}

static void copy(const char *step)
{
    char *rest;
    unsigned long from = strtoul(step + 1, &rest, 10), octets = strtoul(rest + 1, &rest, 10), to = strtoul(rest + 1, NULL, 10);
    memcpy(table + to, table + from, octets);
}

/* The number of a script's last event, over so many free circuits. */
static int last_number(size_t circuits, const char *script)
{
    char steps[64];
    int number = -1;
    memset(table, 0, sizeof table);
    snprintf(steps, sizeof steps, "%s", script);
    for (char *step = strtok(steps, " "); step != NULL; step = strtok(NULL, " ")) {
        if (step[0] == '#') {
            change(table, step);
            continue;
        }
        if (step[0] == '=') {
            copy(step);
            continue;
        }
        make_event(step);
        if (strchr(step, '@') != NULL)
            change(event, strchr(step, '@'));
        number = naustvri_event(table, circuits * NAUSTVRI_CIRCUIT_SIZE, event, NAUSTVRI_EVENT_SIZE, answer, NAUSTVRI_ANSWER_SIZE);
    }
    return number;
}

/* What is no script of events over a valid table. */
static int check_zeros(void)
{
    memset(table, 0, sizeof table);
    return naustvri_check(table, NAUSTVRI_CIRCUIT_SIZE).number;
}

static int short_event(void) { return naustvri_event(table, sizeof table, event, NAUSTVRI_EVENT_SIZE - 1, answer, NAUSTVRI_ANSWER_SIZE); }

static int long_table(void) { return naustvri_check(table, NAUSTVRI_CIRCUIT_SIZE + 1).number; }

static int short_list(void) { return naustvri_list(table, sizeof table, event, 2 * NAUSTVRI_EVENT_SIZE, answer, NAUSTVRI_ANSWER_SIZE); }

static uint64_t figures[NAUSTVRI_FIGURES];

/* An empty list, added to the first so many totals. */
static int add_nothing(size_t totals) { return naustvri_figures(table, sizeof table, NULL, 0, NULL, 0, figures, totals); }

static int one_total_too_few(void) { return add_nothing(NAUSTVRI_FIGURES - 1); }

static int one_list_too_many(void)
{
    memset(figures, 0, sizeof figures);
    for (int i = 0; i < NAUSTVRI_LISTS_MOST; i++)
        if (add_nothing(NAUSTVRI_FIGURES) != NAUSTVRI_DONE)
            return -1;
    return add_nothing(NAUSTVRI_FIGURES);
}

static int great_total(void)
{
    memset(figures, 0, sizeof figures);
    figures[NAUSTVRI_FIGURE_START] = UINT64_MAX - 4095;
    return add_nothing(NAUSTVRI_FIGURES);
}

static int great_point_code(void)
{
    uint8_t octets[NAUSTVRI_REFERENCE_SIZE];
    return naustvri_write_reference(octets, sizeof octets, (struct naustvri_reference){.identity = 1, .point = 16384});
}

/* Precedence twice, each time well-formed: two parameters of a part, and of a list. */
static const uint8_t part_twice[] = {58, 6, 3, 0, 0, 0, 0, 0, 58, 6, 3, 0, 0, 0, 0, 0, 0};
static const uint8_t list_twice[] = {58, 6, 0, 3, 0, 0, 0, 0, 0, 58, 6, 0, 3, 0, 0, 0, 0, 0};

static int find(const uint8_t *part, size_t length) { return naustvri_find_precedence(part, length).number; }

static int write_list(const uint8_t *list, size_t length, size_t room)
{
    uint8_t buffer[64];
    return naustvri_write_optional(buffer, room, list, length).number;
}

static int empty_part(void) { return find((const uint8_t[]){0}, 1); }

static int part_cut_in_contents(void) { return find((const uint8_t[]){0x3a, 6, 0x43}, 3); }

static int lone_name(void) { return find((const uint8_t[]){0x3a}, 1); }

static int no_part(void) { return find(NULL, 0); }

static int part_without_end(void) { return find((const uint8_t[]){1, 2, 0, 0}, 4); }

static int precedence_twice(void) { return find(part_twice, sizeof part_twice); }

static int five_octets(void) { return find((const uint8_t[]){58, 5, 3, 0, 0, 0, 0, 0}, 8); }

static int empty_list(void) { return write_list(NULL, 0, 1); }

static int no_room(void) { return write_list(NULL, 0, 0); }

static int list_cut_short(void) { return write_list((const uint8_t[]){1, 0}, 2, 64); }

static int name_zero(void) { return write_list((const uint8_t[]){0, 0, 0}, 3, 64); }

static int listed_twice(void) { return write_list(list_twice, sizeof list_twice, 64); }

static const struct {
    const char *words;
    size_t circuits;
    const char *script;
    int (*other)(void); /* in place of a script */
} ways[] = {
    {"check a table of 32 zero octets", 0, NULL, check_zeros},
    {"find precedence in a part `00`", 0, NULL, empty_part},
    {"write an empty list into one octet", 0, NULL, empty_list},
    {"set up a call on a free route", 1, "s41", NULL},
    {"set up a PRIORITY call on a route full of ROUTINE calls that were answered", 2, "s41 s42 a1 a2 s33", NULL},
    {"look ahead at PRIORITY, then set another call up at IMMEDIATE, on a route of one circuit", 1, "l31 s22", NULL},
    {"look ahead at PRIORITY, LFB \"allowed\", on a free route", 1, "l31", NULL},
    {"look ahead at PRIORITY, then at IMMEDIATE with another reference, on a route of one circuit", 1, "l31 l22", NULL},
    {"release a call that holds a circuit", 1, "s41 r1", NULL},
    {"cancel a reservation", 1, "l31 c1", NULL},
    {"any clock event", 1, "k", NULL},
    {"set up a call, then send no-service for it", 1, "s41 n1", NULL},
    {"look ahead above a holder that was answered, then send no-service for the holder", 1, "s41 a1 l32 n1", NULL},
    {"set up a call, then send answered for it", 1, "s41 a1", NULL},
    {"send answered for it again", 1, "s41 a1 a1", NULL},
    {"set up a call, send no-service for it, then answered", 1, "s41 n1 a1", NULL},
    {"an event of 15 octets", 0, NULL, short_event},
    {"a table of 33 octets", 0, NULL, long_table},
    {"a list with one answer place too few", 0, NULL, short_list},
    {"figures with 94 totals", 0, NULL, one_total_too_few},
    {"write an empty list into no octet", 0, NULL, no_room},
    {"write a list `01 00`", 0, NULL, list_cut_short},
    {"figures of 65,537 empty lists, from zeros", 0, NULL, one_list_too_many},
    {"figures with a total of 2^64 - 4,096", 0, NULL, great_total},
    {"find precedence in a part `3a 06 43`", 0, NULL, part_cut_in_contents},
    {"find precedence in a part `3a`", 0, NULL, lone_name},
    {"find precedence in no octet", 0, NULL, no_part},
    {"find precedence in a part `01 02 00 00`", 0, NULL, part_without_end},
    {"find precedence in a part with precedence twice", 0, NULL, precedence_twice},
    {"write a list with precedence twice", 0, NULL, listed_twice},
    {"a set-up with level 5", 1, "s51", NULL},
    {"a set-up with LFB 11", 1, "s31@1=63", NULL},
    {"a set-up with a digit `a`", 1, "s31@2=0a", NULL},
    {"a release whose parameter is not zero", 1, "s41 r1@1=04", NULL},
    {"a no-service event with a spare bit in its parameter", 1, "s41 n1@1=80", NULL},
    {"an answered event with a spare bit in its parameter", 1, "s41 a1@1=80", NULL},
    {"kind 0", 1, "k@0=00", NULL},
    {"kind 8", 1, "s41 r1@0=08", NULL},
    {"writing a point code of 16384", 0, NULL, great_point_code},
    {"find precedence in a part whose precedence has five octets", 0, NULL, five_octets},
    {"write a list with a name 0", 0, NULL, name_zero},
    {"set octet 0 of a circuit to 2", 1, "#0=02 k", NULL},
    {"hold a circuit, then set octet 30 of it to 2", 1, "s41 #30=02 k", NULL},
    {"hold a circuit, then set octet 1 of it to 15 and octet 6 to 1", 1, "s41 #1=0f #6=01 k", NULL},
    {"reserve a circuit, then set octet 13 of it to 15", 1, "l31 #13=0f k", NULL},
    {"hold a circuit, then set octet 2 of it to 0xA0", 1, "s41 #2=a0 k", NULL},
    {"set octet 28 of a circuit to 1", 1, "#28=01 k", NULL},
    {"set octet 30 of a free circuit to 1", 1, "#30=01 k", NULL},
    {"reserve a circuit, then set octet 30 of it to 2", 1, "l31 #30=02 k", NULL},
    {"hold a circuit at ROUTINE and send answered, then copy its octets 0 to 11 to octets 12 to 23", 1, "s41 a1 =0+12>12 k", NULL},
    {"look ahead above a holder in the zero domain that was answered, then set octet 1 of the circuit to 15", 1, "s41 a1 l32 #1=0f k", NULL},
    {"look ahead above a holder that was answered, then set octet 30 of the circuit to 1", 1, "s41 a1 l32 #30=01 k", NULL},
    {"hold a circuit, then copy its 32 octets to another", 2, "s41 =0+32>32 k", NULL},
    {"look ahead with octet 1 of the parameter `43`", 1, "l31@1=43", NULL},
    {"look ahead with octet 1 of the parameter `04`", 1, "l31@1=04", NULL},
    {"set the same call up twice", 2, "s41 s41", NULL},
    {"look ahead at IMMEDIATE, set the same call up at FLASH", 1, "l21 s11", NULL},
    {"release a call twice", 1, "s41 r1 r1", NULL},
    {"send no-service for a call that has only reserved", 1, "l31 n1", NULL},
    {"send answered for a call that has only reserved", 1, "l31 a1", NULL},
    {"send answered for a call that was released", 1, "s41 r1 a1", NULL},
    {"set up a ROUTINE call on a full route", 1, "s41 s42", NULL},
    {"set up a PRIORITY call on a route full of PRIORITY calls that were answered", 2, "s31 s32 a1 a2 s33", NULL},
    {"set up a FLASH OVERRIDE call on a route full of ROUTINE calls that ring", 2, "s41 s42 s03", NULL},
    {"set up a FLASH OVERRIDE call in the zero domain on a route full of answered calls whose mark is off", 2, "s41 s42 a1 a2 n1 n2 s03", NULL},
    {"look ahead at PRIORITY on a route full of PRIORITY calls that were answered", 2, "s31 s32 a1 a2 l33", NULL},
    {"look ahead at FLASH OVERRIDE on a route full of ROUTINE calls that ring", 2, "s41 s42 l03", NULL},
};

int main(void)
{
    for (size_t i = 0; i < sizeof ways / sizeof *ways; i++)
        printf("%d %s\n", ways[i].other ? ways[i].other() : last_number(ways[i].circuits, ways[i].script), ways[i].words);
    return 0;
}
