/* Serves the library over standard input and output, so that a program for any machine can hold it to its own results.
 *
 * A request is a `struct request`, then the octets of up to four buffers in the order in which the function takes them; its response
 * is a `struct response`, then the same buffers as the function left them. Request FLUSH has no response: all that came before is
 * written out. Each buffer lies between guard octets or ends where no memory is; the response says whether the guards stand. */
#define _GNU_SOURCE
#include <stdio.h>
#include <stdlib.h>
#include <string.h>
#include <sys/mman.h>

#include "naustvri.h"

enum entry { READ_PRECEDENCE, WRITE_PRECEDENCE, READ_REFERENCE, WRITE_REFERENCE, CHECK, EVENT, LIST, LAMPS, FIGURES,
             NEXT_PARAMETER, FIND_PRECEDENCE, WRITE_OPTIONAL, FLUSH };

enum { BUFFERS = 4, LONGEST = 1 << 19, GUARD = 64, GUARD_OCTET = 0x5a, PAGE = 4096, AT_END = 255 };

struct request {
    uint8_t entry;
    uint8_t place[BUFFERS]; /* how far from an aligned place each buffer starts; AT_END: it ends where no memory is */
    uint8_t unused[3];
    uint32_t length[BUFFERS];
    struct naustvri_precedence precedence; /* to be written */
    struct naustvri_reference reference;
    uint8_t unused_too[4];
    uint64_t asked; /* the place of an optional part that a step is asked for */
};

struct response {
    uint8_t number;
    uint8_t guards_stand;
    uint16_t lit;
    struct naustvri_precedence precedence; /* as read */
    struct naustvri_reference reference;
    uint16_t record; /* by the check or the lamp map */
    uint8_t name, length; /* of a parameter */
    uint8_t found; /* whether there is precedence */
    uint8_t unused[3];
    uint64_t words[4];
    uint64_t start; /* the place of the contents */
    uint64_t after; /* the place after the parameter, or after the end of the part that was read or written */
};

/* Memory for one buffer with guards, and no memory after it. */
struct arena {
    uint8_t *from, *end, *buffer;
    size_t length;
};

static struct arena make_arena(void)
{
    struct arena a;
    a.from = mmap(NULL, LONGEST + 2 * PAGE, PROT_READ | PROT_WRITE, MAP_PRIVATE | MAP_ANONYMOUS, -1, 0);
    if (a.from == MAP_FAILED)
        exit(2);
    a.end = a.from + LONGEST + PAGE;
    if (mprotect(a.end, PAGE, PROT_NONE) != 0)
        exit(2);
    memset(a.from, GUARD_OCTET, (size_t)(a.end - a.from));
    return a;
}

static void put_buffer(struct arena *a, size_t length, uint8_t place)
{
    a->length = length;
    a->buffer = place == AT_END ? a->end - length : a->from + GUARD + place;
    if (fread(a->buffer, 1, length, stdin) != length)
        exit(2);
}

static int all_guard(const uint8_t *from, const uint8_t *to)
{
    for (; from < to; from++)
        if (*from != GUARD_OCTET)
            return 0;
    return 1;
}

static int guards_stand(const struct arena *a)
{
    const uint8_t *after = a->buffer + a->length, *last = a->end - after < GUARD ? a->end : after + GUARD;
    return all_guard(a->buffer - GUARD, a->buffer) && all_guard(after, last);
}

/* Readings: members are copied one by one, so that no padding of the library's goes into a response. */
static void copy_precedence(struct naustvri_precedence *to, const struct naustvri_precedence *from)
{
    to->level = from->level;
    to->lfb = from->lfb;
    memcpy(to->digits, from->digits, sizeof to->digits);
    to->service = from->service;
}

static void read_precedence(const struct arena *octets, struct response *r)
{
    struct naustvri_precedence_reading precedence = naustvri_read_precedence(octets->buffer, octets->length);
    r->number = precedence.number;
    copy_precedence(&r->precedence, &precedence.value);
}

static void read_reference(const struct arena *octets, struct response *r)
{
    struct naustvri_reference_reading reference = naustvri_read_reference(octets->buffer, octets->length);
    r->number = reference.number;
    r->reference.identity = reference.value.identity;
    r->reference.point = reference.value.point;
}

static void check(const struct arena *table, struct response *r)
{
    struct naustvri_check_reading check = naustvri_check(table->buffer, table->length);
    r->number = check.number;
    r->record = check.record;
}

static void show_lamps(const struct arena *table, struct response *r)
{
    struct naustvri_lamps_reading lamps = naustvri_lamps(table->buffer, table->length);
    r->number = lamps.number;
    r->lit = lamps.lit;
    r->record = lamps.record;
    memcpy(r->words, lamps.words, sizeof r->words);
}

static void next_parameter(const struct arena *part, size_t place, struct response *r)
{
    struct naustvri_parameter parameter = naustvri_next_parameter(part->buffer, part->length, place);
    r->number = parameter.number;
    r->name = parameter.name;
    r->length = parameter.length;
    r->start = parameter.start;
    r->after = parameter.next;
}

static void find_precedence(const struct arena *part, struct response *r)
{
    struct naustvri_found_precedence found = naustvri_find_precedence(part->buffer, part->length);
    r->number = found.number;
    r->found = found.found;
    r->start = found.start;
    r->after = found.end;
    copy_precedence(&r->precedence, &found.value);
}

static void write_optional(const struct arena *buffer, const struct arena *list, struct response *r)
{
    struct naustvri_written_part written = naustvri_write_optional(buffer->buffer, buffer->length, list->buffer, list->length);
    r->number = written.number;
    r->after = written.end;
}

/* The functions of the optional part. */
static void call_optional(const struct request *q, const struct arena *a, struct response *r)
{
    switch (q->entry) {
    case NEXT_PARAMETER:
        next_parameter(a, q->asked, r);
        break;
    case FIND_PRECEDENCE:
        find_precedence(a, r);
        break;
    case WRITE_OPTIONAL:
        write_optional(&a[0], &a[1], r);
        break;
    default:
        exit(2);
    }
}

static void call(const struct request *q, const struct arena *a, struct response *r)
{
    switch (q->entry) {
    case READ_PRECEDENCE:
        read_precedence(a, r);
        break;
    case WRITE_PRECEDENCE:
        r->number = naustvri_write_precedence(a[0].buffer, a[0].length, q->precedence);
        break;
    case READ_REFERENCE:
        read_reference(a, r);
        break;
    case WRITE_REFERENCE:
        r->number = naustvri_write_reference(a[0].buffer, a[0].length, q->reference);
        break;
    case CHECK:
        check(a, r);
        break;
    case EVENT:
        r->number = naustvri_event(a[0].buffer, a[0].length, a[1].buffer, a[1].length, a[2].buffer, a[2].length);
        break;
    case LIST:
        r->number = naustvri_list(a[0].buffer, a[0].length, a[1].buffer, a[1].length, a[2].buffer, a[2].length);
        break;
    case LAMPS:
        show_lamps(a, r);
        break;
    case FIGURES:
        r->number = naustvri_figures(a[0].buffer, a[0].length, a[1].buffer, a[1].length, a[2].buffer, a[2].length,
                                     (uint64_t *)(void *)a[3].buffer, a[3].length / sizeof(uint64_t));
        break;
    default:
        call_optional(q, a, r);
    }
}

int main(void)
{
    struct arena arenas[BUFFERS];
    struct request q;
    setvbuf(stdin, NULL, _IOFBF, 1 << 20);
    setvbuf(stdout, NULL, _IOFBF, 1 << 20);
    for (int i = 0; i < BUFFERS; i++)
        arenas[i] = make_arena();
    while (fread(&q, sizeof q, 1, stdin) == 1) {
        if (q.entry == FLUSH) {
            fflush(stdout);
            continue;
        }
        struct response r;
        memset(&r, 0, sizeof r);
        r.guards_stand = 1;
        for (int i = 0; i < BUFFERS; i++) {
            if (q.length[i] > LONGEST)
                exit(2);
            put_buffer(&arenas[i], q.length[i], q.place[i]);
        }
        call(&q, arenas, &r);
        for (int i = 0; i < BUFFERS; i++)
            r.guards_stand &= guards_stand(&arenas[i]);
        fwrite(&r, sizeof r, 1, stdout);
        for (int i = 0; i < BUFFERS; i++) {
            fwrite(arenas[i].buffer, 1, arenas[i].length, stdout);
            memset(arenas[i].buffer, GUARD_OCTET, arenas[i].length);
        }
    }
    return 0;
}
