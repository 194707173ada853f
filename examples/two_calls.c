/* Two calls on a route of one circuit: a ROUTINE call gets it and is answered, then a PRIORITY call takes it. */
#include <stdio.h>

#include "naustvri.h"

static void write_call(uint8_t *event, uint32_t identity)
{
    struct naustvri_reference reference = {.identity = identity, .point = 1};
    naustvri_write_reference(event + NAUSTVRI_EVENT_REFERENCE, NAUSTVRI_REFERENCE_SIZE, reference);
}

static void set_up(uint8_t *table, uint8_t level, uint32_t identity)
{
    uint8_t event[NAUSTVRI_EVENT_SIZE] = {NAUSTVRI_SET_UP}, answer[NAUSTVRI_ANSWER_SIZE];
    struct naustvri_precedence precedence = {.level = level, .lfb = NAUSTVRI_LFB_ALLOWED};
    naustvri_write_precedence(event + NAUSTVRI_EVENT_PRECEDENCE, NAUSTVRI_PRECEDENCE_SIZE, precedence);
    write_call(event, identity);

    uint8_t number = naustvri_event(table, NAUSTVRI_CIRCUIT_SIZE, event, sizeof event, answer, sizeof answer);
    unsigned circuit = answer[NAUSTVRI_ANSWER_PLACE] + 256u * answer[NAUSTVRI_ANSWER_PLACE + 1];
    printf("call %u: number %u, circuit %u", identity, number, circuit);
    if (answer[NAUSTVRI_ANSWER_CALL_LOST])
        printf(", taken from call %u",
               naustvri_read_reference(answer + NAUSTVRI_ANSWER_LOST_CALL, NAUSTVRI_REFERENCE_SIZE).value.identity);
    printf("\n");
}

/* A call rings from its set-up until the host says that it is answered. A ringing call is never taken, so that without this event the second
 * set-up would be refused by 31. */
static void answered(uint8_t *table, uint32_t identity)
{
    uint8_t event[NAUSTVRI_EVENT_SIZE] = {NAUSTVRI_ANSWERED}, answer[NAUSTVRI_ANSWER_SIZE];
    write_call(event, identity);
    naustvri_event(table, NAUSTVRI_CIRCUIT_SIZE, event, sizeof event, answer, sizeof answer);
}

int main(void)
{
    uint8_t table[NAUSTVRI_CIRCUIT_SIZE] = {0}; /* one circuit, free */
    if (naustvri_version() != NAUSTVRI_VERSION)
        return 1; /* this header is not the archive's */
    set_up(table, NAUSTVRI_ROUTINE, 1);
    answered(table, 1);
    set_up(table, NAUSTVRI_PRIORITY, 2);
    return 0;
}
