/* A host that uses the header as C89 and C++98 can: it lends empty buffers, lets a call ring until it is answered, adds offsets to sizes, and
 * prints the text for each value. An empty buffer is a null pointer in C, and what an empty vector has in C++. A line "not so" and exit
 * status 1 say that the library did otherwise than the header promises. */
#include <stdio.h>
#include <string.h>

#include "naustvri.h"

#ifdef __cplusplus
#include <vector>
static std::vector<uint8_t> no_octets;
static std::vector<uint64_t> no_numbers;
#define NOTHING no_octets.data()
#define NO_NUMBERS no_numbers.data()
#else
#define NOTHING NULL
#define NO_NUMBERS NULL
#endif

static int failed;

static void expect(int so, const char *promise)
{
    if (!so) {
        printf("not so: %s\n", promise);
        failed = 1;
    }
}

/* One empty buffer. */
static void lend_nothing(void)
{
    struct naustvri_precedence precedence = {NAUSTVRI_ROUTINE, NAUSTVRI_LFB_ALLOWED, {0, 0, 4, 6}, 7};
    struct naustvri_reference reference = {1, 2};
    struct naustvri_precedence_reading of_precedence = naustvri_read_precedence(NOTHING, 0);
    struct naustvri_reference_reading of_reference = naustvri_read_reference(NOTHING, 0);
    struct naustvri_check_reading of_check = naustvri_check(NOTHING, 0);
    struct naustvri_lamps_reading of_lamps = naustvri_lamps(NOTHING, 0);
    expect(of_precedence.number == NAUSTVRI_WRONG_LENGTH && of_precedence.value.service == 0, "read_precedence of nothing gives 20");
    expect(of_reference.number == NAUSTVRI_WRONG_LENGTH && of_reference.value.identity == 0, "read_reference of nothing gives 20");
    expect(of_check.number == NAUSTVRI_WRONG_LENGTH && of_check.record == NAUSTVRI_NO_PLACE, "check of nothing gives 20 and no record");
    expect(of_lamps.number == NAUSTVRI_WRONG_LENGTH && of_lamps.record == NAUSTVRI_NO_PLACE, "lamps of nothing gives 20 and no record");
    expect(of_lamps.lit == 0, "no lamp of nothing is lit");
    expect(naustvri_write_precedence(NOTHING, 0, precedence) == NAUSTVRI_WRONG_LENGTH, "write_precedence into nothing gives 20");
    expect(naustvri_write_reference(NOTHING, 0, reference) == NAUSTVRI_WRONG_LENGTH, "write_reference into nothing gives 20");
}

/* No optional part, no list of parameters, or no room for a part. */
static void lend_no_part(void)
{
    uint8_t room[2] = {1, 2};
    struct naustvri_found_precedence found = naustvri_find_precedence(NOTHING, 0);
    struct naustvri_parameter first = naustvri_next_parameter(NOTHING, 0, 0), later = naustvri_next_parameter(NOTHING, 0, 5);
    struct naustvri_written_part nowhere = naustvri_write_optional(NOTHING, 0, NOTHING, 0);
    struct naustvri_written_part written = naustvri_write_optional(room, 1, NOTHING, 0);
    expect(found.number == NAUSTVRI_NO_END && found.found == 0, "find_precedence in nothing gives 62");
    expect(found.start == 0 && found.end == 0 && found.value.service == 0, "at 62 every value is zero");
    expect(first.number == NAUSTVRI_NO_END && first.next == 0, "next_parameter of nothing gives 62 and the place again");
    expect(later.number == NAUSTVRI_NO_END && later.next == 5, "next_parameter behind nothing gives 62 and the place again");
    expect(later.name == NAUSTVRI_NAME_END && later.length == 0 && later.start == 0, "at 62 there is no parameter");
    expect(nowhere.number == NAUSTVRI_WRONG_LENGTH && nowhere.end == 0, "write_optional into nothing gives 20");
    expect(written.number == NAUSTVRI_DONE && written.end == 1 && room[0] == NAUSTVRI_NAME_END, "an empty list gives one octet 0");
    expect(room[1] == 2, "the octet behind the buffer stays");
}

/* Two circuits, of which the second is bad. */
static void lend_damaged(void)
{
    uint8_t table[2 * NAUSTVRI_CIRCUIT_SIZE] = {0}, answer[NAUSTVRI_ANSWER_SIZE] = {0}, event[NAUSTVRI_EVENT_SIZE] = {NAUSTVRI_CLOCK};
    struct naustvri_check_reading check;
    struct naustvri_lamps_reading lamps;
    table[NAUSTVRI_CIRCUIT_SIZE + NAUSTVRI_CIRCUIT_HELD] = 2;
    check = naustvri_check(table, sizeof table);
    lamps = naustvri_lamps(table, sizeof table);
    expect(check.number == NAUSTVRI_FLAG_OR_LEVEL && check.record == 1, "check gives the reason and the bad record");
    expect(lamps.number == NAUSTVRI_FLAG_OR_LEVEL && lamps.record == 1 && lamps.lit == 0, "lamps gives them too, and none lit");
    expect(naustvri_event(table, sizeof table, event, sizeof event, answer, sizeof answer) == NAUSTVRI_FLAG_OR_LEVEL, "event gives the reason");
    expect(answer[NAUSTVRI_ANSWER_NUMBER] == NAUSTVRI_FLAG_OR_LEVEL, "the answer has the reason");
    expect(answer[NAUSTVRI_ANSWER_PLACE] == 1 && answer[NAUSTVRI_ANSWER_PLACE + 1] == 0, "the answer has the bad record");
    expect(naustvri_list(table, sizeof table, NOTHING, 0, NOTHING, 0) == NAUSTVRI_DONE, "no events over a table that is not valid give 0");
}

/* Some of three buffers empty: bit 0 of `empty` is the table, bit 1 the events, bit 2 the answers. */
static void lend_some(unsigned empty)
{
    uint8_t table[NAUSTVRI_CIRCUIT_SIZE] = {0}, answer[NAUSTVRI_ANSWER_SIZE] = {0}, event[NAUSTVRI_EVENT_SIZE] = {NAUSTVRI_SET_UP};
    uint8_t *t = empty & 1 ? NOTHING : table, *a = empty & 4 ? NOTHING : answer, number;
    const uint8_t *e = empty & 2 ? NOTHING : event;
    size_t t_len = empty & 1 ? 0 : sizeof table, e_len = empty & 2 ? 0 : sizeof event, a_len = empty & 4 ? 0 : sizeof answer;
    number = naustvri_event(t, t_len, e, e_len, a, a_len);
    expect(number == (empty == 0 ? NAUSTVRI_SEIZED : NAUSTVRI_WRONG_LENGTH), "event with an empty buffer gives 20");
    expect(table[NAUSTVRI_CIRCUIT_HELD] == (empty == 0) && answer[NAUSTVRI_ANSWER_NUMBER] == (empty == 0), "at 20 no buffer is written");
    memset(table, 0, sizeof table);
    memset(answer, 0, sizeof answer);
    number = naustvri_list(t, t_len, e, e_len, a, a_len);
    expect(number == (empty == 0 || empty == 6 ? NAUSTVRI_DONE : NAUSTVRI_WRONG_LENGTH), "list is carried out with both or neither empty");
    expect(table[NAUSTVRI_CIRCUIT_HELD] == (empty == 0) && answer[NAUSTVRI_ANSWER_NUMBER] == (empty == 0), "an empty list writes nothing");
}

/* Some of four buffers empty: as above, and bit 3 is the totals. */
static void lend_totals(unsigned empty)
{
    uint8_t table[NAUSTVRI_CIRCUIT_SIZE] = {0}, answer[NAUSTVRI_ANSWER_SIZE] = {0}, event[NAUSTVRI_EVENT_SIZE] = {NAUSTVRI_SET_UP};
    uint64_t figures[NAUSTVRI_FIGURES] = {0};
    uint8_t *t = empty & 1 ? NOTHING : table, *a = empty & 4 ? NOTHING : answer, number;
    const uint8_t *e = empty & 2 ? NOTHING : event;
    uint64_t *f = empty & 8 ? NO_NUMBERS : figures;
    size_t t_len = empty & 1 ? 0 : sizeof table, e_len = empty & 2 ? 0 : sizeof event, a_len = empty & 4 ? 0 : sizeof answer;
    size_t f_len = empty & 8 ? 0 : NAUSTVRI_FIGURES;
    number = naustvri_figures(t, t_len, e, e_len, a, a_len, f, f_len);
    expect(number == (empty == 0 || empty == 6 ? NAUSTVRI_DONE : NAUSTVRI_WRONG_LENGTH), "figures are added with both or neither empty");
    expect(table[NAUSTVRI_CIRCUIT_HELD] == (empty == 0) && answer[NAUSTVRI_ANSWER_NUMBER] == (empty == 0), "figures write as a list does");
    expect(figures[NAUSTVRI_FIGURE_LISTS] == (number == NAUSTVRI_DONE), "a list that is carried out is counted, an empty one too");
    expect(figures[NAUSTVRI_FIGURE_SEIZED] == (empty == 0) && figures[NAUSTVRI_FIGURE_END] == (empty == 0), "a seizure is counted");
    expect(figures[NAUSTVRI_FIGURE_ANSWERED + NAUSTVRI_SEIZED] == (empty == 0), "an event is counted by its number");
}

/* Totals that take no more, or one list more. */
static void lend_full_totals(void)
{
    uint8_t table[NAUSTVRI_CIRCUIT_SIZE] = {0};
    uint64_t figures[NAUSTVRI_FIGURES] = {NAUSTVRI_LISTS_MOST - 1};
    expect(naustvri_figures(table, sizeof table, NOTHING, 0, NOTHING, 0, figures, NAUSTVRI_FIGURES) == NAUSTVRI_DONE, "65,536 lists are added");
    expect(figures[NAUSTVRI_FIGURE_LISTS] == NAUSTVRI_LISTS_MOST, "the last of them is counted");
    expect(naustvri_figures(table, sizeof table, NOTHING, 0, NOTHING, 0, figures, NAUSTVRI_FIGURES) == NAUSTVRI_TOO_MANY_LISTS, "and no more");
    expect(figures[NAUSTVRI_FIGURE_LISTS] == NAUSTVRI_LISTS_MOST, "at 60 nothing is written");
    expect(NAUSTVRI_FIGURE_LOST_BY_LEVEL + 25 == NAUSTVRI_FIGURE_ANSWERED, "25 totals by level");
    expect(NAUSTVRI_FIGURE_ANSWERED + 64 == NAUSTVRI_FIGURES, "64 totals by number end them");
}

/* The number that an event on a route of one circuit is answered by: zero domain, LFB allowed. */
static unsigned happen(uint8_t *circuit, uint8_t kind, uint8_t level, uint8_t identity)
{
    uint8_t event[NAUSTVRI_EVENT_SIZE] = {0}, answer[NAUSTVRI_ANSWER_SIZE];
    event[NAUSTVRI_EVENT_KIND] = kind;
    event[NAUSTVRI_EVENT_PRECEDENCE] = level;
    event[NAUSTVRI_EVENT_REFERENCE] = identity;
    return naustvri_event(circuit, NAUSTVRI_CIRCUIT_SIZE, event, sizeof event, answer, sizeof answer);
}

/* A ROUTINE call, and one at FLASH OVERRIDE that would take its circuit. */
static void ring(void)
{
    uint8_t circuit[NAUSTVRI_CIRCUIT_SIZE] = {0};
    expect(happen(circuit, NAUSTVRI_SET_UP, NAUSTVRI_ROUTINE, 1) == NAUSTVRI_SEIZED, "a call gets the free circuit");
    expect(circuit[NAUSTVRI_CIRCUIT_RINGING] == 1, "it rings from its set-up on");
    expect(happen(circuit, NAUSTVRI_SET_UP, NAUSTVRI_FLASH_OVERRIDE, 2) == NAUSTVRI_NO_CIRCUIT_PRECEDENCE, "no call takes a ringing one's circuit");
    expect(happen(circuit, NAUSTVRI_LOOK_AHEAD, NAUSTVRI_FLASH_OVERRIDE, 2) == NAUSTVRI_NO_CIRCUIT_LOOK_AHEAD, "none reserves above it");
    expect(happen(circuit, NAUSTVRI_ANSWERED, 0, 1) == NAUSTVRI_NOW_ANSWERED, "an answered event gives 9");
    expect(circuit[NAUSTVRI_CIRCUIT_RINGING] == 0, "the call rings no more");
    expect(happen(circuit, NAUSTVRI_ANSWERED, 0, 1) == NAUSTVRI_NOW_ANSWERED, "a second one gives 9 too");
    expect(happen(circuit, NAUSTVRI_SET_UP, NAUSTVRI_FLASH_OVERRIDE, 2) == NAUSTVRI_SEIZED_WITH_LOSS, "an answered call is taken");
}

/* A record beside another, and the octet after a field, by sums of the header's constants. */
static void add_offsets(void)
{
    uint8_t octets[NAUSTVRI_EVENT_SIZE + NAUSTVRI_ANSWER_SIZE] = {0};
    octets[NAUSTVRI_EVENT_SIZE + NAUSTVRI_ANSWER_NUMBER] = NAUSTVRI_DONE;
    octets[NAUSTVRI_EVENT_REFERENCE + NAUSTVRI_REFERENCE_SIZE] = NAUSTVRI_CAUSE_NO_CIRCUIT;
    expect(octets[NAUSTVRI_EVENT_CLOCK] == 34, "the clock follows after the reference");
    expect(NAUSTVRI_CIRCUIT_RESERVATION_CLOCK + 4 == NAUSTVRI_CIRCUIT_ZERO, "zero octets follow after a circuit's last part");
    expect(NAUSTVRI_CIRCUIT_ZERO + 2 == NAUSTVRI_CIRCUIT_RINGING, "two of them, then octet 30");
    expect(NAUSTVRI_CIRCUIT_RINGING + 2 == NAUSTVRI_CIRCUIT_SIZE, "and one more ends a circuit");
}

#ifdef NAUSTVRI_INLINE
static void print_texts(const char *what, const char *(*name)(unsigned), const char *(*meaning)(unsigned))
{
    unsigned value;
    for (value = 0; value < 1000; value++)
        if (strcmp(name(value), "UNKNOWN") != 0)
            printf("%s %u %s %s\n", what, value, name(value), meaning(value));
        else
            expect(strncmp(meaning(value), "unknown ", 8) == 0, "a value that a table does not have is unknown");
}

static void print_all_texts(void)
{
    print_texts("number", naustvri_number_name, naustvri_number_meaning);
    print_texts("cause", naustvri_cause_name, naustvri_cause_meaning);
    print_texts("level", naustvri_level_name, naustvri_level_meaning);
    print_texts("LFB", naustvri_lfb_name, naustvri_lfb_meaning);
    print_texts("kind", naustvri_kind_name, naustvri_kind_meaning);
    print_texts("name", naustvri_name_name, naustvri_name_meaning);
}
#else
static void print_all_texts(void)
{
    printf("no text\n");
}
#endif

int main(void)
{
    unsigned empty;
    lend_nothing();
    lend_no_part();
    lend_damaged();
    for (empty = 0; empty < 8; empty++)
        lend_some(empty);
    for (empty = 0; empty < 16; empty++)
        lend_totals(empty);
    lend_full_totals();
    ring();
    add_offsets();
    print_all_texts();
    return failed;
}
