/* Naustvri: which circuit of a trunk route a call with a precedence gets, who loses one, and what the refused party hears.
 *
 * Every function takes any octets of any length, ends, allocates nothing and keeps nothing from one call to the next. It reads and
 * writes the buffers lent to it and nothing else. A length counts octets; figures_len alone counts numbers of 64 bits.
 *
 * Duties of the caller. No function tests them:
 *
 *   Pointers:  The caller must lend, at each pointer, as many octets as the length beside it says, at `figures` as many numbers.
 *              Where the length is 0 the pointer is not used, and may be null, as data() of an empty vector in C++ may be.
 *   Overlap:   The caller must not lend a buffer that the function writes (its pointer is not const) where it shares an octet with
 *              another buffer of the same call.
 *   Threads:   The caller must see to it that no other thread uses a buffer while a function writes it, and that none writes a buffer
 *              while a function reads it. Calls on different buffers may run at the same time.
 *   Alignment: The caller must lend `figures` aligned as C has a uint64_t, which an array of them is. A buffer of octets needs none: it may
 *              be lent at any address.
 *   Padding:   The caller must compare two structs given back member by member, never by memcmp: between and after their members lie octets of
 *              any value.
 *   Version:   The caller must link the archive that the header belongs to: naustvri_version() == NAUSTVRI_VERSION.
 *
 * Clocks and places in circuits, events and answers have their low octet first. Precedence, domain and reference stand in them as in
 * their messages: write them by naustvri_write_precedence and naustvri_write_reference. */
#ifndef NAUSTVRI_H
#define NAUSTVRI_H

#include <stddef.h>
#include <stdint.h>

/* The version of this header: one number that grows, and its three parts. The major part grows where a host that ignores the change
 * would be wrong, the minor part with any other change that a host sees. */
#define NAUSTVRI_VERSION_MAJOR 3
#define NAUSTVRI_VERSION_MINOR 0
#define NAUSTVRI_VERSION_PATCH 0
#define NAUSTVRI_VERSION (NAUSTVRI_VERSION_MAJOR * 10000u + NAUSTVRI_VERSION_MINOR * 100u + NAUSTVRI_VERSION_PATCH)

#ifdef __cplusplus
extern "C" {
#endif

/* The tables below have a row for each value: its constant, the value, and its meaning in words. From them come the constants and, at
 * the end, the functions that give a value's name and meaning. A host may go through them too, by two macros of its own: `first` takes
 * the first row and `next` every other. */

/* The numbers given back, in the order in which refusals are tried. At 20 and 60 nothing is written. 61 to 63 are of the optional part alone, where
 * the place decides before the number; its writer tries 63 after 22. 41 to 45 say why a table is not valid, and come with the record that is bad.
 * 21 and 28 of earlier versions are given by no function any more, and stand for nothing else. */
#define NAUSTVRI_NUMBERS(first, next) \
    first(NAUSTVRI_DONE, 0, "list carried out, table valid, or field or optional part read or written") \
    next(NAUSTVRI_SEIZED, 1, "the call holds the circuit, nobody lost one") \
    next(NAUSTVRI_SEIZED_WITH_LOSS, 2, "the call holds the circuit; a holder, a reservation or both lost it") \
    next(NAUSTVRI_RESERVED, 3, "the circuit is reserved, nobody lost a reservation") \
    next(NAUSTVRI_RESERVED_WITH_LOSS, 4, "the circuit is reserved, another's reservation was lost") \
    next(NAUSTVRI_RELEASED, 5, "the holder is gone") \
    next(NAUSTVRI_CANCELLED, 6, "the reservation is gone, a holder stays") \
    next(NAUSTVRI_CLOCK_TAKEN, 7, "the clock was looked at") \
    next(NAUSTVRI_UNMARKED, 8, "the holder stays, without a precedence; a reservation above it, if there was one, is lost") \
    next(NAUSTVRI_NOW_ANSWERED, 9, "the holder stays, and rings no more") \
    next(NAUSTVRI_WRONG_LENGTH, 20, "a length is wrong") \
    next(NAUSTVRI_TOO_MANY_LISTS, 60, "a list too many: the totals take no more") \
    next(NAUSTVRI_PARAMETER_CUT_SHORT, 61, "the octets of the optional part run out inside a parameter") \
    next(NAUSTVRI_NO_END, 62, "the octets of the optional part run out before a name") \
    next(NAUSTVRI_PRECEDENCE_TWICE, 63, "precedence is given twice in one optional part or list") \
    next(NAUSTVRI_MALFORMED, 22, "the event, field or parameter is malformed") \
    next(NAUSTVRI_FLAG_OR_LEVEL, 41, "a flag or a holder's octet 30 is above 1, or a present part's level above 4 (a holder's may be 15 in the zero domain)") \
    next(NAUSTVRI_DIGIT_OR_POINT_CODE, 42, "a digit of a present part is above 9, or a spare bit of its point code is set") \
    next(NAUSTVRI_NOT_ZERO, 43, "an octet of an absent part, or octet 28, 29 or 31, is not zero") \
    next(NAUSTVRI_NOT_ABOVE_HOLDER, 44, "the reservation is not strictly above the holder in the same domain, or the holder has level 15 or rings") \
    next(NAUSTVRI_REPEATED_REFERENCE, 45, "the reference of a present part stands in an earlier present part") \
    next(NAUSTVRI_LOOK_AHEAD_NOT_ALLOWED, 23, "a look-ahead whose LFB is not \"allowed\"") \
    next(NAUSTVRI_LOOK_AHEAD_BY_ROUTINE, 24, "a look-ahead by ROUTINE") \
    next(NAUSTVRI_ALREADY_PRESENT, 25, "set-up by a call that holds a circuit; look-ahead by one that holds or has reserved one") \
    next(NAUSTVRI_RESERVATION_DIFFERS, 26, "set-up whose level or domain is not its reservation's") \
    next(NAUSTVRI_NOT_PRESENT, 27, "release, no-service or answered without a holder, cancel without a reservation") \
    next(NAUSTVRI_NO_CIRCUIT_ROUTINE, 30, "set-up by ROUTINE, no circuit free") \
    next(NAUSTVRI_NO_CIRCUIT_PRECEDENCE, 31, "set-up by a higher level, no circuit free or takeable") \
    next(NAUSTVRI_NO_CIRCUIT_LOOK_AHEAD, 32, "look-ahead, no circuit free or takeable")

/* Causes of Q.850: for the asking party in an answer (34 with number 30, 46 with 31), and those that the host gives to the two sides of
 * a holder that lost its circuit. */
#define NAUSTVRI_CAUSES(first, next) \
    first(NAUSTVRI_CAUSE_NONE, 0, "none") \
    next(NAUSTVRI_CAUSE_PREEMPTION, 8, "preemption, on the other side of the call that lost its circuit") \
    next(NAUSTVRI_CAUSE_PREEMPTION_CIRCUIT_REUSE, 9, "preemption, on the circuit that was lost, which is used again") \
    next(NAUSTVRI_CAUSE_NO_CIRCUIT, 34, "no circuit available, for a ROUTINE call") \
    next(NAUSTVRI_CAUSE_PRECEDENCE_CALL_BLOCKED, 46, "precedence call blocked, for a higher level")

/* Precedence levels: 0 is the highest. NO_PRECEDENCE stands in a table's holder part only: a holder has it after a no-service event, and no call
 * can take its circuit. It is no level of a call, so it is no taker's and no loser's in the figures. */
#define NAUSTVRI_LEVELS(first, next) \
    first(NAUSTVRI_FLASH_OVERRIDE, 0, "FLASH OVERRIDE") \
    next(NAUSTVRI_FLASH, 1, "FLASH") \
    next(NAUSTVRI_IMMEDIATE, 2, "IMMEDIATE") \
    next(NAUSTVRI_PRIORITY, 3, "PRIORITY") \
    next(NAUSTVRI_ROUTINE, 4, "ROUTINE") \
    next(NAUSTVRI_NO_PRECEDENCE, 15, "NO PRECEDENCE")

/* The look-ahead (LFB) indicator. */
#define NAUSTVRI_LFBS(first, next) \
    first(NAUSTVRI_LFB_ALLOWED, 0, "allowed") \
    next(NAUSTVRI_LFB_PATH_RESERVED, 1, "path reserved") \
    next(NAUSTVRI_LFB_NOT_ALLOWED, 2, "not allowed")

/* The kind of an event. A no-service event says that the called party of a holder is without the service: the holder keeps its circuit, its level
 * becomes NO_PRECEDENCE and its domain zero, and a reservation above it is lost. A second one is answered by UNMARKED too and changes nothing.
 *
 * An answered event says that the called party of a holder has answered. From its set-up until then the holder rings: no call takes its circuit, and
 * none reserves above it. So a call that was set up by an event and is never reported as answered is never taken; a holder in a table of a version
 * before 3.0.0 has 0 in CIRCUIT_RINGING, and counts as answered. A second answered event is answered by NOW_ANSWERED too and changes nothing. It may
 * come before a no-service event of the same call or after it; a no-service event leaves the holder ringing. */
#define NAUSTVRI_KINDS(first, next) \
    first(NAUSTVRI_SET_UP, 1, "set-up") \
    next(NAUSTVRI_RELEASE, 2, "release") \
    next(NAUSTVRI_LOOK_AHEAD, 3, "look-ahead") \
    next(NAUSTVRI_CANCEL, 4, "cancel") \
    next(NAUSTVRI_CLOCK, 5, "clock") \
    next(NAUSTVRI_NO_SERVICE, 6, "no-service") \
    next(NAUSTVRI_ANSWERED, 7, "answered")

/* The names of parameters that the library knows. Name 0 ends an optional part. Any other name is passed over in a part that is read, and written as
 * it stands in a list. */
#define NAUSTVRI_NAMES(first, next) \
    first(NAUSTVRI_NAME_END, 0, "end of optional parameters") \
    next(NAUSTVRI_NAME_PRECEDENCE, 58, "MLPP precedence")

/* No comma follows the last constant, as C89 has it. */
#define NAUSTVRI_FIRST_CONSTANT(name, value, meaning) name = value
#define NAUSTVRI_NEXT_CONSTANT(name, value, meaning) , name = value
enum naustvri_number { NAUSTVRI_NUMBERS(NAUSTVRI_FIRST_CONSTANT, NAUSTVRI_NEXT_CONSTANT) };
enum naustvri_cause { NAUSTVRI_CAUSES(NAUSTVRI_FIRST_CONSTANT, NAUSTVRI_NEXT_CONSTANT) };
enum naustvri_level { NAUSTVRI_LEVELS(NAUSTVRI_FIRST_CONSTANT, NAUSTVRI_NEXT_CONSTANT) };
enum naustvri_lfb { NAUSTVRI_LFBS(NAUSTVRI_FIRST_CONSTANT, NAUSTVRI_NEXT_CONSTANT) };
enum naustvri_kind { NAUSTVRI_KINDS(NAUSTVRI_FIRST_CONSTANT, NAUSTVRI_NEXT_CONSTANT) };
enum naustvri_name { NAUSTVRI_NAMES(NAUSTVRI_FIRST_CONSTANT, NAUSTVRI_NEXT_CONSTANT) };
#undef NAUSTVRI_FIRST_CONSTANT
#undef NAUSTVRI_NEXT_CONSTANT

/* Sizes in octets. */
#define NAUSTVRI_PRECEDENCE_SIZE 6
#define NAUSTVRI_DOMAIN_SIZE 5
#define NAUSTVRI_REFERENCE_SIZE 5
#define NAUSTVRI_CIRCUIT_SIZE 32
#define NAUSTVRI_EVENT_SIZE 16
#define NAUSTVRI_ANSWER_SIZE 16

/* Limits. */
#define NAUSTVRI_CIRCUITS_MOST 256      /* a table has 1 to 256 circuits */
#define NAUSTVRI_EVENTS_MOST 4096       /* a list has 0 to 4,096 events */
#define NAUSTVRI_LISTS_MOST 65536       /* at most 65,536 lists are added to the same totals */
#define NAUSTVRI_RESERVATION_STEPS 3000 /* a reservation of this age or more, in steps of 10 ms, goes at a clock event */

/* A circuit, 32 octets: where each field stands. A part whose flag is 0 is all zero. */
#define NAUSTVRI_CIRCUIT_HELD 0                   /* flag of the holder's part, octets 0 to 11 and 30 */
#define NAUSTVRI_CIRCUIT_HOLDER_LEVEL 1           /* 0 to 4; or NO_PRECEDENCE, where the domain is zero and the circuit not reserved */
#define NAUSTVRI_CIRCUIT_HOLDER_DOMAIN 2          /* octets 2 to 6 of the precedence parameter */
#define NAUSTVRI_CIRCUIT_HOLDER_REFERENCE 7
#define NAUSTVRI_CIRCUIT_RESERVED 12              /* flag of the reservation's part, octets 12 to 27 */
#define NAUSTVRI_CIRCUIT_RESERVATION_LEVEL 13     /* 0 to 4 */
#define NAUSTVRI_CIRCUIT_RESERVATION_DOMAIN 14
#define NAUSTVRI_CIRCUIT_RESERVATION_REFERENCE 19
#define NAUSTVRI_CIRCUIT_RESERVATION_CLOCK 24     /* 4 octets: the clock at reservation */
#define NAUSTVRI_CIRCUIT_ZERO 28                  /* octets 28, 29 and 31: zero */
#define NAUSTVRI_CIRCUIT_RINGING 30               /* 1 while the holder rings (the circuit is then not reserved), 0 when it is answered */

/* An event, 16 octets. */
#define NAUSTVRI_EVENT_KIND 0
#define NAUSTVRI_EVENT_PRECEDENCE 1 /* zero, spare bits too, in every event but a set-up and a look-ahead */
#define NAUSTVRI_EVENT_REFERENCE 7  /* zero, spare bits too, in a clock event */
#define NAUSTVRI_EVENT_CLOCK 12     /* 4 octets, steps of 10 ms: read in a look-ahead and a clock event */

/* An answer, 16 octets. */
#define NAUSTVRI_ANSWER_NUMBER 0
#define NAUSTVRI_ANSWER_CAUSE 1
#define NAUSTVRI_ANSWER_PLACE 2             /* 2 octets: the circuit; of a clock event how many reservations it removed; at 41 to 45 the bad record */
#define NAUSTVRI_ANSWER_CALL_LOST 4         /* a holder lost its circuit: at 2 alone */
#define NAUSTVRI_ANSWER_LOST_CALL 5         /* its call reference */
#define NAUSTVRI_ANSWER_RESERVATION_LOST 10 /* a reservation was lost: at 2, 4 and 8 alone */
#define NAUSTVRI_ANSWER_LOST_RESERVATION 11 /* its call reference */

/* ANSWER_PLACE where there is none, and the record where none is named. */
#define NAUSTVRI_NO_PLACE 65535

/* A parameter in a lent list, before its contents. */
#define NAUSTVRI_LISTED_NAME 0
#define NAUSTVRI_LISTED_LENGTH 1   /* 2 octets, the low one first: how many octets of contents follow */
#define NAUSTVRI_LISTED_CONTENTS 3

/* The day's figures, 95 totals of 64 bits. */
#define NAUSTVRI_FIGURES 95
#define NAUSTVRI_FIGURE_LISTS 0         /* lists added */
#define NAUSTVRI_FIGURE_START 1         /* holders in the table before each list: circuits whose octet 0 is 1 */
#define NAUSTVRI_FIGURE_SEIZED 2        /* set-ups answered by 1 or 2 */
#define NAUSTVRI_FIGURE_RELEASED 3      /* events answered by 5 */
#define NAUSTVRI_FIGURE_LOST 4          /* holders that lost their circuit */
#define NAUSTVRI_FIGURE_END 5           /* holders in the table after each list, counted so too */
#define NAUSTVRI_FIGURE_LOST_BY_LEVEL 6 /* 25 totals: holders that lost their circuit, at + 5 * the taker's level + the loser's level, each 0 to 4 */
#define NAUSTVRI_FIGURE_ANSWERED 31     /* 64 totals: events by the number that they were answered by, at + that number */

/* The values of a precedence parameter. */
struct naustvri_precedence {
    uint8_t level;      /* 0 to 4 */
    uint8_t lfb;        /* 0 to 2 */
    uint8_t digits[4];  /* the network identity, first digit first, each 0 to 9 */
    uint32_t service;   /* the service domain, 24 bits */
};

struct naustvri_precedence_reading {
    uint8_t number;
    struct naustvri_precedence value;
};

/* The values of a call reference. */
struct naustvri_reference {
    uint32_t identity;  /* 24 bits */
    uint16_t point;     /* the point code, 14 bits */
};

struct naustvri_reference_reading {
    uint8_t number;
    struct naustvri_reference value;
};

/* What the check gives: 0, or why the table was refused, and the record that is bad. */
struct naustvri_check_reading {
    uint8_t number;
    uint16_t record;    /* at 41 to 45 the bad record, from 0 as circuits are numbered; else NAUSTVRI_NO_PLACE */
};

/* Four words of 64 lamps: circuit 64 * j + i is bit i of words[j], lit where it is free, dark past the table's end. */
struct naustvri_lamps_reading {
    uint8_t number;
    uint16_t lit;       /* how many are lit */
    uint16_t record;    /* as the check gives it */
    uint64_t words[4];
};

/* What stands at a place of an optional part: a parameter, whose name is not 0; or the end or a refusal, where name, length and start are 0 and
 * next is the place asked for. */
struct naustvri_parameter {
    uint8_t number;     /* 0, 61 or 62 */
    uint8_t name;       /* 0 at the end and at a refusal */
    uint8_t length;     /* how many octets of contents */
    size_t start;       /* the place behind the length octet, where the contents start, even if there are none */
    size_t next;        /* the place of the next name */
};

/* Precedence in an optional part. At a refusal every value is zero. Look at number and found before value: a level of 0 is FLASH OVERRIDE. */
struct naustvri_found_precedence {
    uint8_t number;     /* 0, 61, 62, 63 or 22 */
    uint8_t found;      /* 1 where there is precedence, else 0 */
    size_t start;       /* the place of its six octets; 0 where there is none */
    size_t end;         /* how many octets the part has, its end octet with them */
    struct naustvri_precedence value; /* what the six octets say; zero where there is none */
};

/* What the writer of an optional part did. */
struct naustvri_written_part {
    uint8_t number;     /* 0, 20, 22 or 63 */
    size_t end;         /* how many octets were written, the end octet with them; 0 at a refusal */
};

/* The version of the archive, as NAUSTVRI_VERSION is the header's. */
uint32_t naustvri_version(void);

/* Number 0 and the values of six octets; 20 for another length, 22 for a level above 4, LFB 11 or a digit above 9. At 20 and
 * 22 all values are zero. Spare bits are ignored. */
struct naustvri_precedence_reading naustvri_read_precedence(const uint8_t *octets, size_t octets_len);

/* 0 with the six octets written, spare bits 0; 20 for a buffer of another length, 22 for a value that is too large. At 20 and
 * 22 the buffer is as it was. */
uint8_t naustvri_write_precedence(uint8_t *buffer, size_t buffer_len, struct naustvri_precedence value);

/* Number 0 and the values of five octets; 20 for another length, with zero values. Spare bits are ignored. */
struct naustvri_reference_reading naustvri_read_reference(const uint8_t *octets, size_t octets_len);

/* 0 with the five octets written, spare bits 0; 20 for a buffer of another length, 22 for a value that is too large. At 20 and
 * 22 the buffer is as it was. */
uint8_t naustvri_write_reference(uint8_t *buffer, size_t buffer_len, struct naustvri_reference value);

/* The optional part of a message: each parameter is a name octet, a length octet and as many octets of contents, and the first name 0 ends the
 * part. Octets behind it are neither read nor refused. A message whose pointer to the optional part is 0 has none: do not call, since an empty part
 * is refused by 62.
 *
 * naustvri_next_parameter is one step: what stands at a place of the part. Number 0 with a name that is not 0: a parameter. 0 with name 0: the end.
 * 61: the part is cut short inside a parameter. 62: no octet is left where a name should stand, so at any place from part_len on. At the end and at a
 * refusal `next` is the same place again. It looks at one parameter, so it gives no 63 and no 22, and the contents are the sender's octets, spare
 * bits and all. A walk:
 *
 *   struct naustvri_parameter p = naustvri_next_parameter(part, part_len, 0);
 *   for (; p.number == 0 && p.name != 0; p = naustvri_next_parameter(part, part_len, p.next))
 *       use(p.name, part + p.start, p.length);
 *   if (p.number != 0)
 *       refuse(p.number); .. 61 or 62: the part is not whole
 */
struct naustvri_parameter naustvri_next_parameter(const uint8_t *part, size_t part_len, size_t place);

/* MLPP precedence (name 58) in an optional part, which is gone through from place 0 to its end or to its first fault; other names are passed over,
 * whatever they hold. 0: the part is whole, and `found` says whether it has precedence. 61 and 62: as above. 63: precedence a second time. 22:
 * precedence that is not six well-formed octets; a wrong length is 22 too. The first parameter with a fault decides, at one parameter in the order
 * 61, 63, 22. At a refusal every value is zero. */
struct naustvri_found_precedence naustvri_find_precedence(const uint8_t *part, size_t part_len);

/* An optional part from a list of parameters: 0, with the parameters written in their order, each by name, length and contents, precedence with its
 * spare bits 0, then one octet 0 as the end; octets of the buffer behind it stay. 20: the buffer has too little room, that is 2 octets a parameter,
 * its contents, and 1 for the end; or the lent list is cut short inside a parameter. Then 22: a name 0, contents of more than 255 octets, or
 * precedence that is not six well-formed octets. Then 63: precedence twice. Each is looked for in the whole list before the next, so precedence
 * twice, the second malformed, is 22 here, and 63 where it is read. At a refusal the buffer is as it was. A buffer of list_len + 1 octets has room for
 * every list: 20 is then a list that is cut short.
 *
 * The list is lent as octets, parameter after parameter: its name, how many octets of contents in two octets, the low one first, and the
 * contents. It has no end octet. An empty list gives a part of one octet 0. */
struct naustvri_written_part naustvri_write_optional(uint8_t *buffer, size_t buffer_len, const uint8_t *list, size_t list_len);

/* Number 0 for a valid table, 20 for a length that is not 1 to 256 whole circuits; else 41 to 45 and the record that is bad. That is the
 * lowest record that has any of 41 to 44, with the first of them that it has: 41 of either part goes before 42 of either, and so on. Where no
 * record has any of them it is the lowest at 45: a present part of it has a reference that stands in an earlier present part, of a lower record
 * or, for the reservation's part, of the same record. */
struct naustvri_check_reading naustvri_check(const uint8_t *table, size_t table_len);

/* One event of 16 octets applied to a table of 1 to 256 whole circuits, with 16 octets for the answer: the answer's number. At 20
 * (a length is wrong) no buffer is written; at any other refusal the answer is written and the table is as it was. Over a table that is
 * not valid a malformed event is answered by 22, and any other by the check's number, 41 to 45, with its record in ANSWER_PLACE. */
uint8_t naustvri_event(uint8_t *table, size_t table_len, const uint8_t *event, size_t event_len, uint8_t *answer,
                       size_t answer_len);

/* A list of 0 to 4,096 events applied in order, with as many octets for the answers as the events have: 0, or 20 where a length is
 * wrong and no buffer is written. It equals its events applied one by one; over a table that is not valid each answer is 22, or the check's
 * number and record, which stay the same to the end of the list. */
uint8_t naustvri_list(uint8_t *table, size_t table_len, const uint8_t *events, size_t events_len, uint8_t *answers,
                      size_t answers_len);

/* A list carried out as naustvri_list does it, and added to the totals in `figures`, which are all zero before the first list: 0, with
 * the table and the answers that naustvri_list leaves. 20 where a length is wrong (figures_len has to be 95); then 60 where no list can
 * be added, since figures[NAUSTVRI_FIGURE_LISTS] is 65,536 or more, or any of the totals is 2^64 - 4,096 or more. At 20 and 60 no buffer is
 * written. A list over a table that is not valid is added too: its events count under 22 and the check's number. From zeros, after any lists
 * over any tables, START + SEIZED == RELEASED + LOST + END, and no total is over 268,435,456. */
uint8_t naustvri_figures(uint8_t *table, size_t table_len, const uint8_t *events, size_t events_len, uint8_t *answers,
                         size_t answers_len, uint64_t *figures, size_t figures_len);

/* The lamp map of a valid table with number 0; else the check's number and record, with no lamp lit. */
struct naustvri_lamps_reading naustvri_lamps(const uint8_t *table, size_t table_len);

/* How the functions below are declared; a host may define it first. A C89 compiler that knows no inline function leaves them out. */
#ifndef NAUSTVRI_INLINE
#if defined(__cplusplus) || (defined(__STDC_VERSION__) && __STDC_VERSION__ >= 199901L)
#define NAUSTVRI_INLINE static inline
#elif defined(__GNUC__)
#define NAUSTVRI_INLINE static __inline__
#endif
#endif

#ifdef NAUSTVRI_INLINE
/* Text for a value. A name is the constant's without its prefix, as "SEIZED"; a meaning is in words, as "the call holds the circuit,
 * nobody lost one". For a value that the table does not have the text says so. It is never null, and lasts as long as the program. */
#define NAUSTVRI_NAME(name, value, meaning) case value: return &#name[sizeof "NAUSTVRI_" - 1];
#define NAUSTVRI_MEANING(name, value, meaning) case value: return meaning;
#define NAUSTVRI_TEXT(table, of, value, unknown) switch (value) { table(of, of) default: return unknown; }

NAUSTVRI_INLINE const char *naustvri_number_name(unsigned number)
{
    NAUSTVRI_TEXT(NAUSTVRI_NUMBERS, NAUSTVRI_NAME, number, "UNKNOWN")
}

NAUSTVRI_INLINE const char *naustvri_number_meaning(unsigned number)
{
    NAUSTVRI_TEXT(NAUSTVRI_NUMBERS, NAUSTVRI_MEANING, number, "unknown number")
}

NAUSTVRI_INLINE const char *naustvri_cause_name(unsigned cause)
{
    NAUSTVRI_TEXT(NAUSTVRI_CAUSES, NAUSTVRI_NAME, cause, "UNKNOWN")
}

NAUSTVRI_INLINE const char *naustvri_cause_meaning(unsigned cause)
{
    NAUSTVRI_TEXT(NAUSTVRI_CAUSES, NAUSTVRI_MEANING, cause, "unknown cause")
}

NAUSTVRI_INLINE const char *naustvri_level_name(unsigned level)
{
    NAUSTVRI_TEXT(NAUSTVRI_LEVELS, NAUSTVRI_NAME, level, "UNKNOWN")
}

NAUSTVRI_INLINE const char *naustvri_level_meaning(unsigned level)
{
    NAUSTVRI_TEXT(NAUSTVRI_LEVELS, NAUSTVRI_MEANING, level, "unknown level")
}

NAUSTVRI_INLINE const char *naustvri_lfb_name(unsigned lfb)
{
    NAUSTVRI_TEXT(NAUSTVRI_LFBS, NAUSTVRI_NAME, lfb, "UNKNOWN")
}

NAUSTVRI_INLINE const char *naustvri_lfb_meaning(unsigned lfb)
{
    NAUSTVRI_TEXT(NAUSTVRI_LFBS, NAUSTVRI_MEANING, lfb, "unknown LFB")
}

NAUSTVRI_INLINE const char *naustvri_kind_name(unsigned kind)
{
    NAUSTVRI_TEXT(NAUSTVRI_KINDS, NAUSTVRI_NAME, kind, "UNKNOWN")
}

NAUSTVRI_INLINE const char *naustvri_kind_meaning(unsigned kind)
{
    NAUSTVRI_TEXT(NAUSTVRI_KINDS, NAUSTVRI_MEANING, kind, "unknown kind")
}

NAUSTVRI_INLINE const char *naustvri_name_name(unsigned name)
{
    NAUSTVRI_TEXT(NAUSTVRI_NAMES, NAUSTVRI_NAME, name, "UNKNOWN")
}

NAUSTVRI_INLINE const char *naustvri_name_meaning(unsigned name)
{
    NAUSTVRI_TEXT(NAUSTVRI_NAMES, NAUSTVRI_MEANING, name, "unknown name")
}

#undef NAUSTVRI_TEXT
#undef NAUSTVRI_MEANING
#undef NAUSTVRI_NAME
#endif

#ifdef __cplusplus
}
#endif

#endif
