/* Applies the events of a text to the library, and writes the text again with what the library gives. Its lines, on standard input:
 *
 *   route N            a new route of N circuits, all free
 *   event  OCTETS      an event, in hexadecimal
 *   answer ..          the answer to the event above it, whose octets come from the library
 *   circuit N ..       a circuit as it stands, whose octets come from the table */
#include <stdio.h>
#include <stdlib.h>
#include <string.h>

#include "naustvri.h"

static uint8_t table[NAUSTVRI_CIRCUITS_MOST * NAUSTVRI_CIRCUIT_SIZE], answer[NAUSTVRI_ANSWER_SIZE];
static unsigned circuits;

static void print_octets(const uint8_t *octets, size_t from, size_t to)
{
    for (size_t i = from; i < to; i++)
        printf(" %02x", octets[i]);
}

static void new_route(const char *words)
{
    circuits = (unsigned)strtoul(words, NULL, 10);
    if (circuits > NAUSTVRI_CIRCUITS_MOST)
        exit(2);
    memset(table, 0, sizeof table);
    printf("route %u\n", circuits);
}

static void apply(const char *words)
{
    uint8_t event[NAUSTVRI_EVENT_SIZE];
    char *rest = (char *)words;
    for (int i = 0; i < NAUSTVRI_EVENT_SIZE; i++)
        event[i] = (uint8_t)strtoul(rest, &rest, 16);
    naustvri_event(table, circuits * NAUSTVRI_CIRCUIT_SIZE, event, sizeof event, answer, sizeof answer);
    printf("event ");
    print_octets(event, 0, sizeof event);
    printf("\n");
}

static void print_answer(void)
{
    printf("answer");
    print_octets(answer, 0, sizeof answer);
    printf("\n");
}

/* The holder's part, the reservation's and the last four octets, of which one belongs to the holder's. */
static void print_circuit(const char *words)
{
    unsigned long circuit = strtoul(words, NULL, 10);
    if (circuit >= circuits)
        exit(2);
    const uint8_t *octets = table + circuit * NAUSTVRI_CIRCUIT_SIZE;
    printf("circuit %lu |", circuit);
    print_octets(octets, 0, NAUSTVRI_CIRCUIT_RESERVED);
    printf(" |");
    print_octets(octets, NAUSTVRI_CIRCUIT_RESERVED, NAUSTVRI_CIRCUIT_ZERO);
    printf(" |");
    print_octets(octets, NAUSTVRI_CIRCUIT_ZERO, NAUSTVRI_CIRCUIT_SIZE);
    printf("\n");
}

int main(void)
{
    char line[256];
    while (fgets(line, sizeof line, stdin) != NULL) {
        char *words = strchr(line, ' ');
        if (words == NULL)
            exit(2);
        switch (line[0]) {
        case 'r':
            new_route(words);
            break;
        case 'e':
            apply(words);
            break;
        case 'a':
            print_answer();
            break;
        case 'c':
            print_circuit(words);
            break;
        default:
            exit(2);
        }
    }
    return 0;
}
