/* Reads the initial address messages of a text by the library, with the C that the handbook shows (shown.c), and writes the text again with what the
 * library gives. Its lines, on standard input:
 *
 *   message OCTETS           the octets of a message before its optional part, in hexadecimal
 *   place .. | .. | OCTETS   what stands at a place of the part: place, name, count and octets come from a walk
 *   found ..                 what the C that is shown finds in the message
 *   listed OCTETS            a parameter of a list
 *   written ..               what the list is written as */
#include <stdio.h>
#include <stdlib.h>
#include <string.h>

#include "naustvri.h"
#include "shown.c"

/* The eighth octet of an initial address message points at its optional part. */
enum { POINTER = 7 };

struct octets {
    uint8_t octet[256];
    size_t count;
};

static struct octets message, list;

static void take(struct octets *to, const char *words)
{
    for (char *rest = (char *)words;; to->count++) {
        char *from = rest;
        unsigned long octet = strtoul(from, &rest, 16);
        if (rest == from || to->count == sizeof to->octet)
            return;
        to->octet[to->count] = (uint8_t)octet;
    }
}

static void print_octets(const char *before, const uint8_t *octets, size_t count)
{
    printf("%s", before);
    for (size_t i = 0; i < count; i++)
        printf(" %02x", octets[i]);
    printf("\n");
}

/* A walk from parameter to parameter, to the end or to a refusal. */
static void print_walk(const uint8_t *part, size_t length)
{
    struct naustvri_parameter at = naustvri_next_parameter(part, length, 0);
    size_t place = 0;
    for (; at.number == NAUSTVRI_DONE && at.name != NAUSTVRI_NAME_END; at = naustvri_next_parameter(part, length, place)) {
        printf("place %zu | name %u, %u octets at %zu", place, at.name, at.length, at.start);
        print_octets(" |", part + place, at.next - place);
        place = at.next;
    }
    printf("place %zu", place);
    if (at.number != NAUSTVRI_DONE)
        printf(" | refused by %u\n", at.number);
    else
        print_octets(" | end |", part + place, 1);
}

/* Where the part of the message starts; its end where it has none. */
static size_t part_of_message(void)
{
    size_t part = message.count > POINTER ? POINTER + message.octet[POINTER] : 0;
    return part > POINTER && part < message.count ? part : message.count;
}

static void print_message(void)
{
    size_t part = part_of_message();
    print_octets("message", message.octet, part);
    if (part < message.count)
        print_walk(message.octet + part, message.count - part);
    struct naustvri_found_precedence found = precedence_of(message.octet, message.count);
    printf("found %u: %u at %zu, end %zu | level %u, LFB %u, digits %u%u%u%u, service domain %u\n", found.number, found.found, found.start, found.end,
           found.value.level, found.value.lfb, found.value.digits[0], found.value.digits[1], found.value.digits[2], found.value.digits[3],
           (unsigned)found.value.service);
    message.count = 0;
}

static void print_listed(const char *words)
{
    size_t before = list.count;
    take(&list, words);
    print_octets("listed", list.octet + before, list.count - before);
}

static void print_written(void)
{
    uint8_t buffer[256];
    struct naustvri_written_part written = naustvri_write_optional(buffer, sizeof buffer, list.octet, list.count);
    printf("written %u: end %zu", written.number, written.end);
    print_octets(" |", buffer, written.end);
}

int main(void)
{
    char line[256];
    while (fgets(line, sizeof line, stdin) != NULL) {
        char *words = strchr(line, ' '), *last = strrchr(line, '|');
        if (words == NULL)
            exit(2);
        if (strncmp(line, "message ", 8) == 0)
            take(&message, words);
        else if (strncmp(line, "place ", 6) == 0 && last != NULL)
            take(&message, last + 1);
        else if (strncmp(line, "found ", 6) == 0)
            print_message();
        else if (strncmp(line, "listed ", 7) == 0)
            print_listed(words);
        else if (strncmp(line, "written ", 8) == 0)
            print_written();
        else
            exit(2);
    }
    return 0;
}
