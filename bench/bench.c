/* The benchmark: calls the library and plain C on the same octets, ends with status 1 where their results differ or too few events take a
 * circuit, and sets a mark before and after each counted call. For each pair of marks it writes one line, tab between: what is counted,
 * circuits, side, the number of events that the call stands for. What is over no circuits begins with the title of its table. Lines that
 * begin with "stack" or "answers" have no marks. */
#include <stdio.h>
#include <stdlib.h>
#include <string.h>

#include "naustvri.h"
#include "plain.h"
#include "stack.h"
#include "workload.h"

static const struct side {
    const char *name;
    struct naustvri_precedence_reading (*read_precedence)(const uint8_t *, size_t);
    uint8_t (*write_precedence)(uint8_t *, size_t, struct naustvri_precedence);
    struct naustvri_reference_reading (*read_reference)(const uint8_t *, size_t);
    uint8_t (*write_reference)(uint8_t *, size_t, struct naustvri_reference);
    struct naustvri_check_reading (*check)(const uint8_t *, size_t);
    uint8_t (*event)(uint8_t *, size_t, const uint8_t *, size_t, uint8_t *, size_t);
    uint8_t (*list)(uint8_t *, size_t, const uint8_t *, size_t, uint8_t *, size_t);
    struct naustvri_lamps_reading (*lamps)(const uint8_t *, size_t);
} sides[] = {
    {"library", naustvri_read_precedence, naustvri_write_precedence, naustvri_read_reference, naustvri_write_reference, naustvri_check,
     naustvri_event, naustvri_list, naustvri_lamps},
    {"plain", plain_read_precedence, plain_write_precedence, plain_read_reference, plain_write_reference, plain_check, plain_event,
     plain_list, plain_lamps},
};

enum { SIDES = 2 };

/* They stand apart from the others, so that the code round the other calls is what it was before them, and so are their counts. */
static uint8_t (*const add_figures[SIDES])(uint8_t *, size_t, const uint8_t *, size_t, uint8_t *, size_t, uint64_t *, size_t) = {
    naustvri_figures, plain_figures};
static uint64_t figures[SIDES][NAUSTVRI_FIGURES];

/* The functions of the optional part, apart from the others so that the code round the other calls is what it was before them. */
static const struct {
    struct naustvri_parameter (*next_parameter)(const uint8_t *, size_t, size_t);
    struct naustvri_found_precedence (*find_precedence)(const uint8_t *, size_t);
    struct naustvri_written_part (*write_optional)(uint8_t *, size_t, const uint8_t *, size_t);
} optional_sides[SIDES] = {
    {naustvri_next_parameter, naustvri_find_precedence, naustvri_write_optional},
    {plain_next_parameter, plain_find_precedence, plain_write_optional},
};

#define EACH_SIDE(s) (const struct side *s = sides; s < sides + SIDES; s++)

/* What a call gave back and left in its buffers. */
struct result {
    uint8_t number;
    uint8_t table[NAUSTVRI_CIRCUITS_MOST * NAUSTVRI_CIRCUIT_SIZE];
    uint8_t answers[NAUSTVRI_EVENTS_MOST * NAUSTVRI_ANSWER_SIZE];
};

static struct result results[SIDES];

static void must_be_equal(const char *what, const void *a, const void *b, size_t octets)
{
    if (memcmp(a, b, octets) == 0)
        return;
    fprintf(stderr, "bench: the library and plain C differ: %s\n", what);
    exit(1);
}

/* The budgets are for traffic in which at least one event in ten takes a circuit. */
static void must_take(const char *what, size_t taken, size_t events)
{
    if (10 * taken >= events)
        return;
    fprintf(stderr, "bench: only %zu of %zu events take a circuit: %s\n", taken, events, what);
    exit(1);
}

/* The counter's mark: it counts up to each entry into this function. */
__attribute__((noinline)) void bench_mark(void) { __asm__ volatile("" ::: "memory"); }

static void counted(const char *what, size_t circuits, const struct side *s, size_t events)
{
    printf("%s\t%zu\t%s\t%zu\n", what, circuits, s->name, events);
}

#define COUNT(call)   \
    do {              \
        bench_mark(); \
        call;         \
        bench_mark(); \
    } while (0)

static void bench_check(const char *what, const uint8_t *table, size_t circuits)
{
    struct naustvri_check_reading checks[SIDES];
    for EACH_SIDE (s) {
        COUNT(checks[s - sides] = s->check(table, circuits * NAUSTVRI_CIRCUIT_SIZE));
        counted(what, circuits, s, 1);
    }
    must_be_equal(what, &checks[0].number, &checks[1].number, sizeof checks[0].number);
    must_be_equal(what, &checks[0].record, &checks[1].record, sizeof checks[0].record);
}

/* Valid tables with other references each time. Only the library is counted: the cost of plain C hangs on no reference. */
static void bench_draws(const char *what, size_t circuits)
{
    enum { DRAWS = 200 };
    static uint8_t table[NAUSTVRI_CIRCUITS_MOST * NAUSTVRI_CIRCUIT_SIZE];
    for (unsigned draw = 0; draw < DRAWS; draw++) {
        struct naustvri_check_reading check;
        make_all_parts_drawn(table, circuits, draw);
        COUNT(check = naustvri_check(table, circuits * NAUSTVRI_CIRCUIT_SIZE));
        counted(what, circuits, sides, 1);
        must_be_equal(what, &check.number, &(uint8_t){NAUSTVRI_DONE}, sizeof check.number);
    }
}

static void bench_lamps(const char *what, const uint8_t *table, size_t circuits)
{
    struct naustvri_lamps_reading lamps[SIDES];
    for EACH_SIDE (s) {
        COUNT(lamps[s - sides] = s->lamps(table, circuits * NAUSTVRI_CIRCUIT_SIZE));
        counted(what, circuits, s, 1);
    }
    must_be_equal(what, &lamps[0].number, &lamps[1].number, sizeof lamps[0].number);
    must_be_equal(what, &lamps[0].lit, &lamps[1].lit, sizeof lamps[0].lit);
    must_be_equal(what, &lamps[0].record, &lamps[1].record, sizeof lamps[0].record);
    must_be_equal(what, lamps[0].words, lamps[1].words, sizeof lamps[0].words);
}

static void bench_list(const char *what, const struct workload *w)
{
    size_t octets = w->circuits * NAUSTVRI_CIRCUIT_SIZE;
    for EACH_SIDE (s) {
        struct result *r = &results[s - sides];
        memcpy(r->table, w->table, octets);
        COUNT(r->number = s->list(r->table, octets, w->events, sizeof w->events, r->answers, sizeof r->answers));
        counted(what, w->circuits, s, NAUSTVRI_EVENTS_MOST);
    }
    must_be_equal(what, &results[0].number, &results[1].number, 1);
    must_be_equal(what, results[0].table, results[1].table, octets);
    must_be_equal(what, results[0].answers, results[1].answers, sizeof results[0].answers);
}

/* A list added to totals that are all zero before it. */
static void bench_figures(const char *what, const struct workload *w)
{
    size_t octets = w->circuits * NAUSTVRI_CIRCUIT_SIZE;
    for EACH_SIDE (s) {
        size_t k = (size_t)(s - sides);
        struct result *r = &results[k];
        memcpy(r->table, w->table, octets);
        memset(figures[k], 0, sizeof figures[k]);
        COUNT(r->number = add_figures[k](r->table, octets, w->events, sizeof w->events, r->answers, sizeof r->answers, figures[k], NAUSTVRI_FIGURES));
        counted(what, w->circuits, s, NAUSTVRI_EVENTS_MOST);
    }
    must_be_equal(what, &results[0].number, &results[1].number, 1);
    must_be_equal(what, results[0].table, results[1].table, octets);
    must_be_equal(what, results[0].answers, results[1].answers, sizeof results[0].answers);
    must_be_equal(what, figures[0], figures[1], sizeof figures[0]);
}

/* Events spread over the list, each alone over the table as the events before it left it. */
static void bench_event(const char *what, const struct workload *w)
{
    enum { APART = 128 };
    static uint8_t table[sizeof w->table], answers[APART * NAUSTVRI_ANSWER_SIZE];
    size_t octets = w->circuits * NAUSTVRI_CIRCUIT_SIZE, taken = 0;
    memcpy(table, w->table, octets);
    for (size_t i = 0; i < NAUSTVRI_EVENTS_MOST; i += APART) {
        const uint8_t *events = w->events + i * NAUSTVRI_EVENT_SIZE;
        for EACH_SIDE (s) {
            struct result *r = &results[s - sides];
            memcpy(r->table, table, octets);
            COUNT(r->number = s->event(r->table, octets, events, NAUSTVRI_EVENT_SIZE, r->answers, NAUSTVRI_ANSWER_SIZE));
            counted(what, w->circuits, s, 1);
        }
        must_be_equal(what, &results[0].number, &results[1].number, 1);
        must_be_equal(what, results[0].table, results[1].table, octets);
        must_be_equal(what, results[0].answers, results[1].answers, NAUSTVRI_ANSWER_SIZE);
        taken += results[0].number == NAUSTVRI_SEIZED_WITH_LOSS;
        plain_list(table, octets, events, APART * NAUSTVRI_EVENT_SIZE, answers, sizeof answers);
    }
    must_take(what, taken, NAUSTVRI_EVENTS_MOST / APART);
}

static void precedences_must_be_equal(const struct naustvri_precedence *a, const struct naustvri_precedence *b)
{
    must_be_equal("level", &a->level, &b->level, sizeof a->level);
    must_be_equal("LFB", &a->lfb, &b->lfb, sizeof a->lfb);
    must_be_equal("digits", a->digits, b->digits, sizeof a->digits);
    must_be_equal("service", &a->service, &b->service, sizeof a->service);
}

/* Both fields of the set-ups of a list, read, and written again. */
static void bench_fields(const struct workload *w)
{
    for (size_t i = 0; i < NAUSTVRI_EVENTS_MOST; i++) {
        const uint8_t *event = w->events + i * NAUSTVRI_EVENT_SIZE;
        const uint8_t *parameter = event + NAUSTVRI_EVENT_PRECEDENCE, *octets = event + NAUSTVRI_EVENT_REFERENCE;
        struct naustvri_precedence_reading precedence[SIDES];
        struct naustvri_reference_reading reference[SIDES];
        uint8_t written[SIDES][NAUSTVRI_PRECEDENCE_SIZE + NAUSTVRI_REFERENCE_SIZE] = {{0}}, numbers[SIDES][2];
        if (event[NAUSTVRI_EVENT_KIND] != NAUSTVRI_SET_UP)
            continue;
        for EACH_SIDE (s) {
            size_t k = (size_t)(s - sides);
            COUNT(precedence[k] = s->read_precedence(parameter, NAUSTVRI_PRECEDENCE_SIZE));
            counted("one field: read precedence", 0, s, 1);
            COUNT(numbers[k][0] = s->write_precedence(written[k], NAUSTVRI_PRECEDENCE_SIZE, precedence[k].value));
            counted("one field: write precedence", 0, s, 1);
            COUNT(reference[k] = s->read_reference(octets, NAUSTVRI_REFERENCE_SIZE));
            counted("one field: read reference", 0, s, 1);
            COUNT(numbers[k][1] = s->write_reference(written[k] + NAUSTVRI_PRECEDENCE_SIZE, NAUSTVRI_REFERENCE_SIZE, reference[k].value));
            counted("one field: write reference", 0, s, 1);
        }
        must_be_equal("the numbers of reading", (uint8_t[]){precedence[0].number, reference[0].number},
                      (uint8_t[]){precedence[1].number, reference[1].number}, 2);
        must_be_equal("the numbers of writing", numbers[0], numbers[1], sizeof numbers[0]);
        precedences_must_be_equal(&precedence[0].value, &precedence[1].value);
        must_be_equal("identity", &reference[0].value.identity, &reference[1].value.identity, sizeof reference[0].value.identity);
        must_be_equal("point code", &reference[0].value.point, &reference[1].value.point, sizeof reference[0].value.point);
        must_be_equal("the octets written", written[0], written[1], sizeof written[0]);
    }
}

static void bench_find(const char *what, const struct optional *o)
{
    struct naustvri_found_precedence found[SIDES];
    for EACH_SIDE (s) {
        size_t k = (size_t)(s - sides);
        COUNT(found[k] = optional_sides[k].find_precedence(o->part, o->part_len));
        counted(what, 0, s, 1);
    }
    must_be_equal(what, &found[0].number, &found[1].number, sizeof found[0].number);
    must_be_equal(what, &found[0].found, &found[1].found, sizeof found[0].found);
    must_be_equal(what, &found[0].start, &found[1].start, sizeof found[0].start);
    must_be_equal(what, &found[0].end, &found[1].end, sizeof found[0].end);
    must_be_equal(what, &found[0].end, &o->part_len, sizeof found[0].end);
    precedences_must_be_equal(&found[0].value, &found[1].value);
}

/* A walk from place 0 to the end of a part, each step counted by itself. */
static void bench_walk(const char *what, const struct optional *o)
{
    struct naustvri_parameter steps[SIDES] = {{0}};
    do {
        size_t place = steps[0].next;
        for EACH_SIDE (s) {
            size_t k = (size_t)(s - sides);
            COUNT(steps[k] = optional_sides[k].next_parameter(o->part, o->part_len, place));
            counted(what, 0, s, 1);
        }
        must_be_equal(what, &steps[0].number, &steps[1].number, sizeof steps[0].number);
        must_be_equal(what, &steps[0].name, &steps[1].name, sizeof steps[0].name);
        must_be_equal(what, &steps[0].length, &steps[1].length, sizeof steps[0].length);
        must_be_equal(what, &steps[0].start, &steps[1].start, sizeof steps[0].start);
        must_be_equal(what, &steps[0].next, &steps[1].next, sizeof steps[0].next);
    } while (steps[0].name != NAUSTVRI_NAME_END);
}

/* A list written into a buffer that is longer than its part. */
static void bench_write(const char *what, const struct optional *o)
{
    static uint8_t buffers[SIDES][sizeof o->part];
    struct naustvri_written_part written[SIDES];
    memset(buffers, 255, sizeof buffers);
    for EACH_SIDE (s) {
        size_t k = (size_t)(s - sides);
        COUNT(written[k] = optional_sides[k].write_optional(buffers[k], sizeof buffers[k], o->list, o->list_len));
        counted(what, 0, s, 1);
    }
    must_be_equal(what, &written[0].number, &written[1].number, sizeof written[0].number);
    must_be_equal(what, &written[0].end, &written[1].end, sizeof written[0].end);
    must_be_equal(what, buffers[0], buffers[1], sizeof buffers[0]);
    must_be_equal(what, buffers[0], o->part, o->part_len);
}

static struct optional handbook, behind_eight, behind_most;

static void bench_optional(void)
{
    make_handbook_optional(&handbook);
    make_optional(&behind_eight, 8);
    make_optional(&behind_most, OTHERS_MOST);
    bench_find("optional part: find precedence, the handbook's part", &handbook);
    bench_find("optional part: find precedence, behind 8 others", &behind_eight);
    bench_find("optional part: find precedence, behind 64 others", &behind_most);
    bench_walk("optional part: one step of a walk, 64 others and precedence", &behind_most);
    bench_write("optional part: write, the handbook's three parameters", &handbook);
    bench_write("optional part: write, 64 others and precedence", &behind_most);
}

/* How often each number stands in the answers of the last list; how many of its events take a circuit. */
static size_t write_answer_counts(const struct workload *w)
{
    unsigned counts[256] = {0};
    for (size_t i = 0; i < NAUSTVRI_EVENTS_MOST; i++)
        counts[results[0].answers[i * NAUSTVRI_ANSWER_SIZE]]++;
    for (int number = 0; number < 256; number++)
        if (counts[number])
            printf("answers\t%s\t%zu\t%d\t%u\n", w->name, w->circuits, number, counts[number]);
    return counts[NAUSTVRI_SEIZED_WITH_LOSS];
}

/* The measured callers: one for each entry, over the greatest table or the longest part. */
static const struct side *painted;
static struct workload work, mixed;
static volatile uint8_t number_painted;

static char *call_read_precedence(void)
{
    number_painted = painted->read_precedence(work.events + NAUSTVRI_EVENT_PRECEDENCE, NAUSTVRI_PRECEDENCE_SIZE).number;
    return STACK_POINTER();
}

static char *call_write_precedence(void)
{
    static uint8_t buffer[NAUSTVRI_PRECEDENCE_SIZE];
    static struct naustvri_precedence value;
    number_painted = painted->write_precedence(buffer, sizeof buffer, value);
    return STACK_POINTER();
}

static char *call_read_reference(void)
{
    number_painted = painted->read_reference(work.events + NAUSTVRI_EVENT_REFERENCE, NAUSTVRI_REFERENCE_SIZE).number;
    return STACK_POINTER();
}

static char *call_write_reference(void)
{
    static uint8_t buffer[NAUSTVRI_REFERENCE_SIZE];
    static struct naustvri_reference value;
    number_painted = painted->write_reference(buffer, sizeof buffer, value);
    return STACK_POINTER();
}

static char *call_check(void)
{
    number_painted = painted->check(work.table, sizeof work.table).number;
    return STACK_POINTER();
}

/* Enough events of the list that each kind is among them. */
static char *call_event(void)
{
    for (int i = 0; i < 256; i++)
        number_painted = painted->event(work.table, sizeof work.table, work.events + i * NAUSTVRI_EVENT_SIZE, NAUSTVRI_EVENT_SIZE,
                                        results[0].answers, NAUSTVRI_ANSWER_SIZE);
    return STACK_POINTER();
}

static char *call_list(void)
{
    number_painted = painted->list(work.table, sizeof work.table, work.events, sizeof work.events, results[0].answers, sizeof results[0].answers);
    return STACK_POINTER();
}

static char *call_figures(void)
{
    number_painted = add_figures[painted - sides](work.table, sizeof work.table, work.events, sizeof work.events, results[0].answers,
                                                  sizeof results[0].answers, figures[0], NAUSTVRI_FIGURES);
    return STACK_POINTER();
}

static char *call_lamps(void)
{
    number_painted = painted->lamps(work.table, sizeof work.table).number;
    return STACK_POINTER();
}

static char *call_next_parameter(void)
{
    number_painted = optional_sides[painted - sides].next_parameter(behind_most.part, behind_most.part_len, 0).number;
    return STACK_POINTER();
}

static char *call_find_precedence(void)
{
    number_painted = optional_sides[painted - sides].find_precedence(behind_most.part, behind_most.part_len).number;
    return STACK_POINTER();
}

static char *call_write_optional(void)
{
    static uint8_t buffer[sizeof behind_most.part];
    number_painted = optional_sides[painted - sides].write_optional(buffer, sizeof buffer, behind_most.list, behind_most.list_len).number;
    return STACK_POINTER();
}

static void write_stacks(void)
{
    static const struct {
        const char *name;
        char *(*caller)(void);
    } entries[] = {
        {"read precedence", call_read_precedence}, {"write precedence", call_write_precedence},
        {"read reference", call_read_reference},   {"write reference", call_write_reference},
        {"check", call_check},                     {"event", call_event},
        {"list", call_list},                       {"figures", call_figures},
        {"lamps", call_lamps},                     {"next parameter", call_next_parameter},
        {"find precedence", call_find_precedence}, {"write optional", call_write_optional},
    };
    for EACH_SIDE (s) {
        painted = s;
        for (size_t i = 0; i < sizeof entries / sizeof *entries; i++) {
            work = mixed;
            printf("stack\t%s\t%s\t%zu\n", entries[i].name, s->name, stack_used(entries[i].caller));
        }
    }
}

int main(void)
{
    static const size_t sizes[] = {16, 64, 256};
    /* The first is counted in more ways, and the last leaves behind the state from which the next table with every part is drawn. */
    static void (*const workloads[])(struct workload *, size_t) = {make_mixed, make_mixed_without_service, make_take_heavy, make_full_table};
    static uint8_t table[sizeof work.table];
    COUNT();
    counted("nothing", 0, sides, 1);
    for (size_t i = 0; i < sizeof sizes / sizeof *sizes; i++) {
        make_all_parts(table, sizes[i]);
        bench_check("check, every part present", table, sizes[i]);
        make_all_parts_alike(table, sizes[i]);
        bench_check("check, references made against the filter", table, sizes[i]);
        for (size_t j = 0; j < sizeof workloads / sizeof *workloads; j++) {
            char what[64];
            workloads[j](&work, sizes[i]);
            snprintf(what, sizeof what, "%s, an event", work.name);
            bench_list(what, &work);
            size_t taken = write_answer_counts(&work);
            if (workloads[j] != make_full_table)
                must_take(what, taken, NAUSTVRI_EVENTS_MOST);
            if (j == 0) {
                bench_check("check, mixed table", work.table, sizes[i]);
                make_marks_off(table, sizes[i]);
                bench_check("check, every mark off", table, sizes[i]);
                make_all_ringing(table, sizes[i]);
                bench_check("check, every holder ringing", table, sizes[i]);
                bench_lamps("lamp map, mixed table", work.table, sizes[i]);
                bench_event("one event alone, mixed", &work);
                bench_figures("figures of a mixed list, an event", &work);
            }
        }
    }
    for (size_t i = 0; i < sizeof sizes / sizeof *sizes; i++)
        bench_draws("check, references drawn at random", sizes[i]);
    make_mixed(&mixed, NAUSTVRI_CIRCUITS_MOST);
    bench_fields(&mixed);
    bench_optional();
    /* The stack is painted over the list that has events of every kind. */
    make_mixed_without_service(&mixed, NAUSTVRI_CIRCUITS_MOST);
    write_stacks();
    return 0;
}
