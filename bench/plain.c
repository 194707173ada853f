/* The rival in plain C: linear scans, references compared pair by pair, the table checked once a list, records read straight
 * from the octets. */
#include "plain.h"

#include <stdbool.h>
#include <string.h>

/* A part of a circuit: its flag, level, domain and reference stand at the same places in the holder's and the reservation's. */
enum { FLAG = 0, LEVEL = 1, DOMAIN = 2, REFERENCE = 7, PART_SIZE = 12, HOLDER = 0, RESERVATION = 12, NONE = -1 };

static bool same_domain(const uint8_t *a, const uint8_t *b) { return memcmp(a, b, NAUSTVRI_DOMAIN_SIZE) == 0; }

static bool same_reference(const uint8_t *a, const uint8_t *b) { return memcmp(a, b, NAUSTVRI_REFERENCE_SIZE) == 0; }

static bool all_zero(const uint8_t *octets, size_t n)
{
    for (size_t i = 0; i < n; i++)
        if (octets[i] != 0)
            return false;
    return true;
}

static bool decimal(const uint8_t *domain)
{
    return domain[0] >> 4 <= 9 && (domain[0] & 15) <= 9 && domain[1] >> 4 <= 9 && (domain[1] & 15) <= 9;
}

static uint32_t read_clock(const uint8_t *o)
{
    return o[0] | (uint32_t)o[1] << 8 | (uint32_t)o[2] << 16 | (uint32_t)o[3] << 24;
}

/* The precedence parameter: level, LFB indicator and domain at their places in its octets. */
static uint8_t level_in(const uint8_t *parameter) { return parameter[0] & 15; }

static uint8_t lfb_in(const uint8_t *parameter) { return parameter[0] >> 5 & 3; }

static const uint8_t *domain_in(const uint8_t *parameter) { return parameter + 1; }

static bool parameter_ok(const uint8_t *parameter)
{
    return level_in(parameter) <= NAUSTVRI_ROUTINE && lfb_in(parameter) <= NAUSTVRI_LFB_NOT_ALLOWED && decimal(domain_in(parameter));
}

struct naustvri_precedence_reading plain_read_precedence(const uint8_t *octets, size_t octets_len)
{
    struct naustvri_precedence_reading reading = {0};
    if (octets_len != NAUSTVRI_PRECEDENCE_SIZE) {
        reading.number = NAUSTVRI_WRONG_LENGTH;
    } else if (!parameter_ok(octets)) {
        reading.number = NAUSTVRI_MALFORMED;
    } else {
        reading.value.level = level_in(octets);
        reading.value.lfb = lfb_in(octets);
        reading.value.digits[0] = octets[1] >> 4;
        reading.value.digits[1] = octets[1] & 15;
        reading.value.digits[2] = octets[2] >> 4;
        reading.value.digits[3] = octets[2] & 15;
        reading.value.service = (uint32_t)octets[3] << 16 | (uint32_t)octets[4] << 8 | octets[5];
    }
    return reading;
}

uint8_t plain_write_precedence(uint8_t *buffer, size_t buffer_len, struct naustvri_precedence value)
{
    if (buffer_len != NAUSTVRI_PRECEDENCE_SIZE)
        return NAUSTVRI_WRONG_LENGTH;
    if (value.level > NAUSTVRI_ROUTINE || value.lfb > NAUSTVRI_LFB_NOT_ALLOWED || value.service >> 24 != 0)
        return NAUSTVRI_MALFORMED;
    for (int i = 0; i < 4; i++)
        if (value.digits[i] > 9)
            return NAUSTVRI_MALFORMED;
    buffer[0] = (uint8_t)(value.lfb << 5 | value.level);
    buffer[1] = (uint8_t)(value.digits[0] << 4 | value.digits[1]);
    buffer[2] = (uint8_t)(value.digits[2] << 4 | value.digits[3]);
    buffer[3] = (uint8_t)(value.service >> 16);
    buffer[4] = (uint8_t)(value.service >> 8);
    buffer[5] = (uint8_t)value.service;
    return NAUSTVRI_DONE;
}

struct naustvri_reference_reading plain_read_reference(const uint8_t *octets, size_t octets_len)
{
    struct naustvri_reference_reading reading = {0};
    if (octets_len != NAUSTVRI_REFERENCE_SIZE) {
        reading.number = NAUSTVRI_WRONG_LENGTH;
    } else {
        reading.value.identity = octets[0] | (uint32_t)octets[1] << 8 | (uint32_t)octets[2] << 16;
        reading.value.point = (uint16_t)(octets[3] | (octets[4] & 63) << 8);
    }
    return reading;
}

uint8_t plain_write_reference(uint8_t *buffer, size_t buffer_len, struct naustvri_reference value)
{
    if (buffer_len != NAUSTVRI_REFERENCE_SIZE)
        return NAUSTVRI_WRONG_LENGTH;
    if (value.identity >> 24 != 0 || value.point >> 14 != 0)
        return NAUSTVRI_MALFORMED;
    buffer[0] = (uint8_t)value.identity;
    buffer[1] = (uint8_t)(value.identity >> 8);
    buffer[2] = (uint8_t)(value.identity >> 16);
    buffer[3] = (uint8_t)value.point;
    buffer[4] = (uint8_t)(value.point >> 8);
    return NAUSTVRI_DONE;
}

/* A parameter of an optional part: its name, how many octets of contents, and these. */
enum { NAME = 0, LENGTH = 1, CONTENTS = 2 };

/* What a step gives where no parameter stands: it stays at its place. */
static struct naustvri_parameter stay(uint8_t number, size_t place)
{
    return (struct naustvri_parameter){.number = number, .next = place};
}

struct naustvri_parameter plain_next_parameter(const uint8_t *part, size_t part_len, size_t place)
{
    if (place >= part_len)
        return stay(NAUSTVRI_NO_END, place);
    if (part[place + NAME] == NAUSTVRI_NAME_END)
        return stay(NAUSTVRI_DONE, place);
    size_t left = part_len - place;
    if (left < CONTENTS || left - CONTENTS < part[place + LENGTH])
        return stay(NAUSTVRI_PARAMETER_CUT_SHORT, place);
    struct naustvri_parameter parameter = {.name = part[place + NAME], .length = part[place + LENGTH]};
    parameter.start = place + CONTENTS;
    parameter.next = parameter.start + parameter.length;
    return parameter;
}

static struct naustvri_found_precedence refuse_part(uint8_t number) { return (struct naustvri_found_precedence){.number = number}; }

struct naustvri_found_precedence plain_find_precedence(const uint8_t *part, size_t part_len)
{
    struct naustvri_found_precedence found = {0};
    struct naustvri_parameter parameter = plain_next_parameter(part, part_len, 0);
    while (parameter.name != NAUSTVRI_NAME_END) {
        if (parameter.name == NAUSTVRI_NAME_PRECEDENCE) {
            if (found.found)
                return refuse_part(NAUSTVRI_PRECEDENCE_TWICE);
            struct naustvri_precedence_reading precedence = plain_read_precedence(part + parameter.start, parameter.length);
            if (precedence.number != NAUSTVRI_DONE)
                return refuse_part(NAUSTVRI_MALFORMED);
            found.found = 1;
            found.start = parameter.start;
            found.value = precedence.value;
        }
        parameter = plain_next_parameter(part, part_len, parameter.next);
    }
    if (parameter.number != NAUSTVRI_DONE)
        return refuse_part(parameter.number);
    found.end = parameter.next + 1;
    return found;
}

static bool is_precedence(const uint8_t *listed) { return listed[NAUSTVRI_LISTED_NAME] == NAUSTVRI_NAME_PRECEDENCE; }

/* How many octets of contents a parameter of a list has, if they are all there. */
static size_t listed_length(const uint8_t *listed)
{
    return listed[NAUSTVRI_LISTED_LENGTH] | (size_t)listed[NAUSTVRI_LISTED_LENGTH + 1] << 8;
}

/* Whether a parameter of a list can stand in a part. */
static bool listed_ok(const uint8_t *listed)
{
    size_t length = listed_length(listed);
    if (is_precedence(listed))
        return length == NAUSTVRI_PRECEDENCE_SIZE && parameter_ok(listed + NAUSTVRI_LISTED_CONTENTS);
    return listed[NAUSTVRI_LISTED_NAME] != NAUSTVRI_NAME_END && length <= UINT8_MAX;
}

/* Whether a list can be written into so much room: the writer's number. */
static uint8_t judge_list(const uint8_t *list, size_t list_len, size_t room)
{
    size_t need = 1, precedences = 0, place = 0;
    bool all_ok = true;
    while (place < list_len) {
        const uint8_t *listed = list + place;
        size_t left = list_len - place;
        if (left < NAUSTVRI_LISTED_CONTENTS || left - NAUSTVRI_LISTED_CONTENTS < listed_length(listed))
            return NAUSTVRI_WRONG_LENGTH;
        need += CONTENTS + listed_length(listed);
        all_ok = all_ok && listed_ok(listed);
        precedences += is_precedence(listed);
        place += NAUSTVRI_LISTED_CONTENTS + listed_length(listed);
    }
    if (need > room)
        return NAUSTVRI_WRONG_LENGTH;
    if (!all_ok)
        return NAUSTVRI_MALFORMED;
    return precedences > 1 ? NAUSTVRI_PRECEDENCE_TWICE : NAUSTVRI_DONE;
}

/* Writes one parameter of a list: how many octets it takes in the part. Precedence gets its spare bits 0. */
static size_t write_listed(uint8_t *buffer, const uint8_t *listed)
{
    size_t length = listed_length(listed);
    buffer[NAME] = listed[NAUSTVRI_LISTED_NAME];
    buffer[LENGTH] = (uint8_t)length;
    memcpy(buffer + CONTENTS, listed + NAUSTVRI_LISTED_CONTENTS, length);
    if (is_precedence(listed))
        buffer[CONTENTS] = (uint8_t)(lfb_in(buffer + CONTENTS) << 5 | level_in(buffer + CONTENTS));
    return CONTENTS + length;
}

struct naustvri_written_part plain_write_optional(uint8_t *buffer, size_t buffer_len, const uint8_t *list, size_t list_len)
{
    struct naustvri_written_part written = {.number = judge_list(list, list_len, buffer_len)};
    if (written.number != NAUSTVRI_DONE)
        return written;
    for (size_t place = 0; place < list_len; place += NAUSTVRI_LISTED_CONTENTS + listed_length(list + place))
        written.end += write_listed(buffer + written.end, list + place);
    buffer[written.end++] = NAUSTVRI_NAME_END;
    return written;
}

static bool table_length_ok(size_t n)
{
    return n % NAUSTVRI_CIRCUIT_SIZE == 0 && n >= NAUSTVRI_CIRCUIT_SIZE && n <= NAUSTVRI_CIRCUITS_MOST * NAUSTVRI_CIRCUIT_SIZE;
}

static bool fields_ok(const uint8_t *part) { return decimal(part + DOMAIN) && part[REFERENCE + 4] < 64; }

static bool part_ok(const uint8_t *part)
{
    if (part[FLAG] == 0)
        return all_zero(part, PART_SIZE);
    return part[FLAG] == 1 && part[LEVEL] <= NAUSTVRI_ROUTINE && fields_ok(part);
}

/* Whether a circuit is held by a call whose mark is off: it stands under no precedence, in the zero domain. */
static bool unmarked(const uint8_t *holder)
{
    return holder[FLAG] == 1 && holder[LEVEL] == NAUSTVRI_NO_PRECEDENCE && all_zero(holder + DOMAIN, NAUSTVRI_DOMAIN_SIZE);
}

static bool holder_ok(const uint8_t *holder) { return part_ok(holder) || (unmarked(holder) && fields_ok(holder)); }

/* The octets of a circuit that are of no part: 28, 29 and 31, round the one that belongs to the holder's. */
static bool spare_zero(const uint8_t *circuit) { return all_zero(circuit + NAUSTVRI_CIRCUIT_ZERO, 2) && !circuit[NAUSTVRI_CIRCUIT_RINGING + 1]; }

/* Whether a record is as it should be by itself. A holder rings or does not; nobody rings on a circuit that is not held. */
static bool circuit_ok(const uint8_t *circuit)
{
    const uint8_t *holder = circuit + HOLDER, *reservation = circuit + RESERVATION;
    uint8_t ringing = circuit[NAUSTVRI_CIRCUIT_RINGING];
    if (!holder_ok(holder) || !part_ok(reservation) || ringing > holder[FLAG] || !spare_zero(circuit))
        return false;
    if (!reservation[FLAG])
        return all_zero(circuit + NAUSTVRI_CIRCUIT_RESERVATION_CLOCK, 4);
    return !holder[FLAG] ||
           (reservation[LEVEL] < holder[LEVEL] && same_domain(reservation + DOMAIN, holder + DOMAIN) && !unmarked(holder) && !ringing);
}

static bool flag_or_level_wrong(const uint8_t *part) { return part[FLAG] > 1 || (part[FLAG] && part[LEVEL] > NAUSTVRI_ROUTINE); }

static bool absent_not_zero(const uint8_t *part, size_t octets) { return !part[FLAG] && !all_zero(part, octets); }

/* The first reason of a record that is not as it should be: this comes after circuit_ok, so that a sound record is looked at only once. */
static uint8_t reason(const uint8_t *circuit)
{
    const uint8_t *holder = circuit + HOLDER, *reservation = circuit + RESERVATION;
    uint8_t ringing = circuit[NAUSTVRI_CIRCUIT_RINGING];
    if ((flag_or_level_wrong(holder) && !unmarked(holder)) || flag_or_level_wrong(reservation) || (holder[FLAG] && ringing > 1))
        return NAUSTVRI_FLAG_OR_LEVEL;
    if ((holder[FLAG] && !fields_ok(holder)) || (reservation[FLAG] && !fields_ok(reservation)))
        return NAUSTVRI_DIGIT_OR_POINT_CODE;
    if (absent_not_zero(holder, PART_SIZE) || (!holder[FLAG] && ringing) ||
        absent_not_zero(reservation, NAUSTVRI_CIRCUIT_ZERO - RESERVATION) || !spare_zero(circuit))
        return NAUSTVRI_NOT_ZERO;
    return NAUSTVRI_NOT_ABOVE_HOLDER;
}

static struct naustvri_check_reading reading(uint8_t number, size_t record)
{
    return (struct naustvri_check_reading){.number = number, .record = (uint16_t)record};
}

/* The lowest record that is bad by itself. */
static struct naustvri_check_reading check_records(const uint8_t *table, size_t circuits)
{
    for (size_t record = 0; record < circuits; record++) {
        const uint8_t *circuit = table + record * NAUSTVRI_CIRCUIT_SIZE;
        if (!circuit_ok(circuit))
            return reading(reason(circuit), record);
    }
    return reading(NAUSTVRI_DONE, NAUSTVRI_NO_PLACE);
}

/* Whether `part` has the reference of no part before it: of a circuit below `circuits`. */
static bool stands_in_none_before(const uint8_t *table, size_t circuits, const uint8_t *part)
{
    for (size_t i = 0; i < circuits; i++) {
        const uint8_t *circuit = table + i * NAUSTVRI_CIRCUIT_SIZE;
        if (circuit[HOLDER] && same_reference(circuit + HOLDER + REFERENCE, part + REFERENCE))
            return false;
        if (circuit[RESERVATION] && same_reference(circuit + RESERVATION + REFERENCE, part + REFERENCE))
            return false;
    }
    return true;
}

/* Whether a part of a record has a reference that stands in an earlier part. */
static bool repeats(const uint8_t *table, size_t record)
{
    const uint8_t *holder = table + record * NAUSTVRI_CIRCUIT_SIZE + HOLDER, *reservation = holder + RESERVATION;
    if (holder[FLAG] && !stands_in_none_before(table, record, holder))
        return true;
    if (reservation[FLAG] && !stands_in_none_before(table, record, reservation))
        return true;
    return holder[FLAG] && reservation[FLAG] && same_reference(holder + REFERENCE, reservation + REFERENCE);
}

/* The lowest record that repeats a reference. */
static struct naustvri_check_reading check_references(const uint8_t *table, size_t circuits)
{
    for (size_t record = 0; record < circuits; record++)
        if (repeats(table, record))
            return reading(NAUSTVRI_REPEATED_REFERENCE, record);
    return reading(NAUSTVRI_DONE, NAUSTVRI_NO_PLACE);
}

/* The check of a table whose length is right. */
static struct naustvri_check_reading verdict(const uint8_t *table, size_t circuits)
{
    struct naustvri_check_reading records = check_records(table, circuits);
    return records.number != NAUSTVRI_DONE ? records : check_references(table, circuits);
}

struct naustvri_check_reading plain_check(const uint8_t *table, size_t table_len)
{
    if (!table_length_ok(table_len))
        return reading(NAUSTVRI_WRONG_LENGTH, NAUSTVRI_NO_PLACE);
    return verdict(table, table_len / NAUSTVRI_CIRCUIT_SIZE);
}

struct naustvri_lamps_reading plain_lamps(const uint8_t *table, size_t table_len)
{
    struct naustvri_check_reading check = plain_check(table, table_len);
    struct naustvri_lamps_reading lamps = {.number = check.number, .record = check.record};
    if (lamps.number != NAUSTVRI_DONE)
        return lamps;
    for (size_t i = 0; i < table_len / NAUSTVRI_CIRCUIT_SIZE; i++) {
        const uint8_t *circuit = table + i * NAUSTVRI_CIRCUIT_SIZE;
        if (!circuit[HOLDER] && !circuit[RESERVATION]) {
            lamps.words[i / 64] |= (uint64_t)1 << i % 64;
            lamps.lit++;
        }
    }
    return lamps;
}

/* An event as it is decided on: its reference with the spare bits 0. */
struct call {
    const uint8_t *parameter;
    uint8_t reference[NAUSTVRI_REFERENCE_SIZE];
    uint32_t clock;
};

static bool event_ok(const uint8_t *event)
{
    const uint8_t *parameter = event + NAUSTVRI_EVENT_PRECEDENCE;
    switch (event[NAUSTVRI_EVENT_KIND]) {
    case NAUSTVRI_SET_UP:
    case NAUSTVRI_LOOK_AHEAD:
        return parameter_ok(parameter);
    case NAUSTVRI_RELEASE:
    case NAUSTVRI_CANCEL:
    case NAUSTVRI_NO_SERVICE:
    case NAUSTVRI_ANSWERED:
        return all_zero(parameter, NAUSTVRI_PRECEDENCE_SIZE);
    case NAUSTVRI_CLOCK:
        return all_zero(parameter, NAUSTVRI_PRECEDENCE_SIZE + NAUSTVRI_REFERENCE_SIZE);
    default:
        return false;
    }
}

/* The circuit whose part (HOLDER or RESERVATION) has this reference, or NONE. */
static int find(const uint8_t *table, size_t circuits, size_t part, const uint8_t *reference)
{
    for (size_t i = 0; i < circuits; i++) {
        const uint8_t *p = table + i * NAUSTVRI_CIRCUIT_SIZE + part;
        if (p[FLAG] && same_reference(p + REFERENCE, reference))
            return (int)i;
    }
    return NONE;
}

/* The circuit that a call of this parameter gets, or NONE. */
static int choose(const uint8_t *table, size_t circuits, const uint8_t *parameter)
{
    int best = NONE, best_rank = 0;
    for (size_t i = 0; i < circuits; i++) {
        const uint8_t *circuit = table + i * NAUSTVRI_CIRCUIT_SIZE;
        bool held = circuit[HOLDER], reserved = circuit[RESERVATION];
        if (!held && !reserved)
            return (int)i;
        const uint8_t *standing = circuit + (reserved ? RESERVATION : HOLDER);
        if (standing[LEVEL] <= level_in(parameter) || !same_domain(standing + DOMAIN, domain_in(parameter)))
            continue;
        /* A holder whose mark is off has the zero domain, and no call of that domain beats it; nor is a holder taken while it rings. */
        if (standing[LEVEL] == NAUSTVRI_NO_PRECEDENCE || circuit[NAUSTVRI_CIRCUIT_RINGING])
            continue;
        int rank = 2 * standing[LEVEL] + !held;
        if (rank > best_rank) {
            best_rank = rank;
            best = (int)i;
        }
    }
    return best;
}

static uint8_t write_answer(uint8_t *answer, uint8_t number, uint8_t cause, unsigned place)
{
    memset(answer, 0, NAUSTVRI_ANSWER_SIZE);
    answer[NAUSTVRI_ANSWER_NUMBER] = number;
    answer[NAUSTVRI_ANSWER_CAUSE] = cause;
    answer[NAUSTVRI_ANSWER_PLACE] = (uint8_t)place;
    answer[NAUSTVRI_ANSWER_PLACE + 1] = (uint8_t)(place >> 8);
    return number;
}

static uint8_t refuse(uint8_t *answer, uint8_t number) { return write_answer(answer, number, NAUSTVRI_CAUSE_NONE, NAUSTVRI_NO_PLACE); }

/* Names the call of a part as lost, at its flag's place in the answer. */
static void lose(uint8_t *answer, size_t flag, const uint8_t *part)
{
    answer[flag] = 1;
    memcpy(answer + flag + 1, part + REFERENCE, NAUSTVRI_REFERENCE_SIZE);
}

static void fill_part(uint8_t *part, const struct call *call)
{
    part[FLAG] = 1;
    part[LEVEL] = level_in(call->parameter);
    memcpy(part + DOMAIN, domain_in(call->parameter), NAUSTVRI_DOMAIN_SIZE);
    memcpy(part + REFERENCE, call->reference, NAUSTVRI_REFERENCE_SIZE);
}

static void empty_holder(uint8_t *circuit)
{
    memset(circuit + HOLDER, 0, PART_SIZE);
    circuit[NAUSTVRI_CIRCUIT_RINGING] = 0;
}

static void empty_reservation(uint8_t *circuit) { memset(circuit + RESERVATION, 0, NAUSTVRI_CIRCUIT_ZERO - RESERVATION); }

static uint8_t set_up(uint8_t *table, size_t circuits, const struct call *call, uint8_t *answer)
{
    if (find(table, circuits, HOLDER, call->reference) != NONE)
        return refuse(answer, NAUSTVRI_ALREADY_PRESENT);
    int place = find(table, circuits, RESERVATION, call->reference);
    bool own = place != NONE;
    if (own) {
        const uint8_t *reservation = table + place * NAUSTVRI_CIRCUIT_SIZE + RESERVATION;
        if (reservation[LEVEL] != level_in(call->parameter) || !same_domain(reservation + DOMAIN, domain_in(call->parameter)))
            return refuse(answer, NAUSTVRI_RESERVATION_DIFFERS);
    } else {
        place = choose(table, circuits, call->parameter);
    }
    if (place == NONE) {
        if (level_in(call->parameter) == NAUSTVRI_ROUTINE)
            return write_answer(answer, NAUSTVRI_NO_CIRCUIT_ROUTINE, NAUSTVRI_CAUSE_NO_CIRCUIT, NAUSTVRI_NO_PLACE);
        return write_answer(answer, NAUSTVRI_NO_CIRCUIT_PRECEDENCE, NAUSTVRI_CAUSE_PRECEDENCE_CALL_BLOCKED, NAUSTVRI_NO_PLACE);
    }
    uint8_t *circuit = table + place * NAUSTVRI_CIRCUIT_SIZE;
    bool call_lost = circuit[HOLDER], reservation_lost = circuit[RESERVATION] && !own;
    uint8_t number = call_lost || reservation_lost ? NAUSTVRI_SEIZED_WITH_LOSS : NAUSTVRI_SEIZED;
    write_answer(answer, number, NAUSTVRI_CAUSE_NONE, (unsigned)place);
    if (call_lost)
        lose(answer, NAUSTVRI_ANSWER_CALL_LOST, circuit + HOLDER);
    if (reservation_lost)
        lose(answer, NAUSTVRI_ANSWER_RESERVATION_LOST, circuit + RESERVATION);
    empty_reservation(circuit);
    fill_part(circuit + HOLDER, call);
    circuit[NAUSTVRI_CIRCUIT_RINGING] = 1;
    return number;
}

static uint8_t look_ahead(uint8_t *table, size_t circuits, const struct call *call, uint8_t *answer)
{
    if (lfb_in(call->parameter) != NAUSTVRI_LFB_ALLOWED)
        return refuse(answer, NAUSTVRI_LOOK_AHEAD_NOT_ALLOWED);
    if (level_in(call->parameter) == NAUSTVRI_ROUTINE)
        return refuse(answer, NAUSTVRI_LOOK_AHEAD_BY_ROUTINE);
    if (find(table, circuits, HOLDER, call->reference) != NONE || find(table, circuits, RESERVATION, call->reference) != NONE)
        return refuse(answer, NAUSTVRI_ALREADY_PRESENT);
    int place = choose(table, circuits, call->parameter);
    if (place == NONE)
        return refuse(answer, NAUSTVRI_NO_CIRCUIT_LOOK_AHEAD);
    uint8_t *circuit = table + place * NAUSTVRI_CIRCUIT_SIZE;
    uint8_t number = circuit[RESERVATION] ? NAUSTVRI_RESERVED_WITH_LOSS : NAUSTVRI_RESERVED;
    write_answer(answer, number, NAUSTVRI_CAUSE_NONE, (unsigned)place);
    if (circuit[RESERVATION])
        lose(answer, NAUSTVRI_ANSWER_RESERVATION_LOST, circuit + RESERVATION);
    fill_part(circuit + RESERVATION, call);
    for (int i = 0; i < 4; i++)
        circuit[NAUSTVRI_CIRCUIT_RESERVATION_CLOCK + i] = (uint8_t)(call->clock >> 8 * i);
    return number;
}

static uint8_t release(uint8_t *table, size_t circuits, const struct call *call, uint8_t *answer)
{
    int place = find(table, circuits, HOLDER, call->reference);
    if (place == NONE)
        return refuse(answer, NAUSTVRI_NOT_PRESENT);
    empty_holder(table + place * NAUSTVRI_CIRCUIT_SIZE);
    return write_answer(answer, NAUSTVRI_RELEASED, NAUSTVRI_CAUSE_NONE, (unsigned)place);
}

static uint8_t cancel(uint8_t *table, size_t circuits, const struct call *call, uint8_t *answer)
{
    int place = find(table, circuits, RESERVATION, call->reference);
    if (place == NONE)
        return refuse(answer, NAUSTVRI_NOT_PRESENT);
    empty_reservation(table + place * NAUSTVRI_CIRCUIT_SIZE);
    return write_answer(answer, NAUSTVRI_CANCELLED, NAUSTVRI_CAUSE_NONE, (unsigned)place);
}

/* The called party is without the service: the holder's mark comes off, and a reservation above it is lost. */
static uint8_t unmark(uint8_t *table, size_t circuits, const struct call *call, uint8_t *answer)
{
    int place = find(table, circuits, HOLDER, call->reference);
    if (place == NONE)
        return refuse(answer, NAUSTVRI_NOT_PRESENT);
    uint8_t *circuit = table + place * NAUSTVRI_CIRCUIT_SIZE;
    write_answer(answer, NAUSTVRI_UNMARKED, NAUSTVRI_CAUSE_NONE, (unsigned)place);
    if (circuit[RESERVATION]) {
        lose(answer, NAUSTVRI_ANSWER_RESERVATION_LOST, circuit + RESERVATION);
        empty_reservation(circuit);
    }
    circuit[HOLDER + LEVEL] = NAUSTVRI_NO_PRECEDENCE;
    memset(circuit + HOLDER + DOMAIN, 0, NAUSTVRI_DOMAIN_SIZE);
    return NAUSTVRI_UNMARKED;
}

/* The called party has answered: the holder rings no more. */
static uint8_t stop_ringing(uint8_t *table, size_t circuits, const struct call *call, uint8_t *answer)
{
    int place = find(table, circuits, HOLDER, call->reference);
    if (place == NONE)
        return refuse(answer, NAUSTVRI_NOT_PRESENT);
    table[place * NAUSTVRI_CIRCUIT_SIZE + NAUSTVRI_CIRCUIT_RINGING] = 0;
    return write_answer(answer, NAUSTVRI_NOW_ANSWERED, NAUSTVRI_CAUSE_NONE, (unsigned)place);
}

static uint8_t take_clock(uint8_t *table, size_t circuits, const struct call *call, uint8_t *answer)
{
    unsigned removed = 0;
    for (size_t i = 0; i < circuits; i++) {
        uint8_t *circuit = table + i * NAUSTVRI_CIRCUIT_SIZE;
        if (circuit[RESERVATION] &&
            call->clock - read_clock(circuit + NAUSTVRI_CIRCUIT_RESERVATION_CLOCK) >= NAUSTVRI_RESERVATION_STEPS) {
            empty_reservation(circuit);
            removed++;
        }
    }
    return write_answer(answer, NAUSTVRI_CLOCK_TAKEN, NAUSTVRI_CAUSE_NONE, removed);
}

/* One event over a table whose check is known. */
static uint8_t apply(uint8_t *table, size_t circuits, const struct naustvri_check_reading *check, const uint8_t *event, uint8_t *answer)
{
    if (!event_ok(event))
        return refuse(answer, NAUSTVRI_MALFORMED);
    if (check->number != NAUSTVRI_DONE)
        return write_answer(answer, check->number, NAUSTVRI_CAUSE_NONE, check->record);
    struct call call = {.parameter = event + NAUSTVRI_EVENT_PRECEDENCE, .clock = read_clock(event + NAUSTVRI_EVENT_CLOCK)};
    memcpy(call.reference, event + NAUSTVRI_EVENT_REFERENCE, NAUSTVRI_REFERENCE_SIZE);
    call.reference[4] &= 63;
    switch (event[NAUSTVRI_EVENT_KIND]) {
    case NAUSTVRI_SET_UP:
        return set_up(table, circuits, &call, answer);
    case NAUSTVRI_RELEASE:
        return release(table, circuits, &call, answer);
    case NAUSTVRI_LOOK_AHEAD:
        return look_ahead(table, circuits, &call, answer);
    case NAUSTVRI_CANCEL:
        return cancel(table, circuits, &call, answer);
    case NAUSTVRI_NO_SERVICE:
        return unmark(table, circuits, &call, answer);
    case NAUSTVRI_ANSWERED:
        return stop_ringing(table, circuits, &call, answer);
    default:
        return take_clock(table, circuits, &call, answer);
    }
}

uint8_t plain_event(uint8_t *table, size_t table_len, const uint8_t *event, size_t event_len, uint8_t *answer, size_t answer_len)
{
    if (!table_length_ok(table_len) || event_len != NAUSTVRI_EVENT_SIZE || answer_len != NAUSTVRI_ANSWER_SIZE)
        return NAUSTVRI_WRONG_LENGTH;
    size_t circuits = table_len / NAUSTVRI_CIRCUIT_SIZE;
    struct naustvri_check_reading check = verdict(table, circuits);
    return apply(table, circuits, &check, event, answer);
}

static bool list_lengths_ok(size_t table_len, size_t events_len, size_t answers_len)
{
    return table_length_ok(table_len) && events_len % NAUSTVRI_EVENT_SIZE == 0 &&
           events_len <= NAUSTVRI_EVENTS_MOST * NAUSTVRI_EVENT_SIZE && answers_len == events_len;
}

uint8_t plain_list(uint8_t *table, size_t table_len, const uint8_t *events, size_t events_len, uint8_t *answers, size_t answers_len)
{
    if (!list_lengths_ok(table_len, events_len, answers_len))
        return NAUSTVRI_WRONG_LENGTH;
    size_t circuits = table_len / NAUSTVRI_CIRCUIT_SIZE;
    struct naustvri_check_reading check = verdict(table, circuits);
    for (size_t i = 0; i < events_len; i += NAUSTVRI_EVENT_SIZE)
        apply(table, circuits, &check, events + i, answers + i);
    return NAUSTVRI_DONE;
}

static uint64_t holders(const uint8_t *table, size_t circuits)
{
    uint64_t held = 0;
    for (size_t i = 0; i < circuits; i++)
        held += table[i * NAUSTVRI_CIRCUIT_SIZE + HOLDER] == 1;
    return held;
}

/* Whether a list can be added to the totals: none of them goes past its end by what a list may add. */
static bool has_room(const uint64_t *figures)
{
    for (size_t i = 0; i < NAUSTVRI_FIGURES; i++)
        if (figures[i] > UINT64_MAX - NAUSTVRI_EVENTS_MOST)
            return false;
    return figures[NAUSTVRI_FIGURE_LISTS] < NAUSTVRI_LISTS_MOST;
}

/* Adds an event by its answer. `levels` are those under which the holders stood just before it, and stand after it; a holder whose mark came
 * off keeps the one that it had, since it is never lost. */
static void count(uint64_t *figures, uint8_t *levels, const uint8_t *event, const uint8_t *answer)
{
    uint8_t number = answer[NAUSTVRI_ANSWER_NUMBER], taker = level_in(event + NAUSTVRI_EVENT_PRECEDENCE);
    figures[NAUSTVRI_FIGURE_ANSWERED + number]++;
    if (number == NAUSTVRI_RELEASED)
        figures[NAUSTVRI_FIGURE_RELEASED]++;
    if (event[NAUSTVRI_EVENT_KIND] != NAUSTVRI_SET_UP || (number != NAUSTVRI_SEIZED && number != NAUSTVRI_SEIZED_WITH_LOSS))
        return;
    uint8_t *level = levels + answer[NAUSTVRI_ANSWER_PLACE], loser = *level;
    *level = taker;
    figures[NAUSTVRI_FIGURE_SEIZED]++;
    if (!answer[NAUSTVRI_ANSWER_CALL_LOST])
        return;
    figures[NAUSTVRI_FIGURE_LOST]++;
    figures[NAUSTVRI_FIGURE_LOST_BY_LEVEL + 5 * taker + loser]++;
}

uint8_t plain_figures(uint8_t *table, size_t table_len, const uint8_t *events, size_t events_len, uint8_t *answers, size_t answers_len,
                      uint64_t *figures, size_t figures_len)
{
    if (!list_lengths_ok(table_len, events_len, answers_len) || figures_len != NAUSTVRI_FIGURES)
        return NAUSTVRI_WRONG_LENGTH;
    if (!has_room(figures))
        return NAUSTVRI_TOO_MANY_LISTS;
    size_t circuits = table_len / NAUSTVRI_CIRCUIT_SIZE;
    struct naustvri_check_reading check = verdict(table, circuits);
    uint8_t levels[NAUSTVRI_CIRCUITS_MOST];
    for (size_t i = 0; i < circuits; i++)
        levels[i] = table[i * NAUSTVRI_CIRCUIT_SIZE + HOLDER + LEVEL];
    figures[NAUSTVRI_FIGURE_LISTS]++;
    figures[NAUSTVRI_FIGURE_START] += holders(table, circuits);
    for (size_t i = 0; i < events_len; i += NAUSTVRI_EVENT_SIZE) {
        apply(table, circuits, &check, events + i, answers + i);
        count(figures, levels, events + i, answers + i);
    }
    figures[NAUSTVRI_FIGURE_END] += holders(table, circuits);
    return NAUSTVRI_DONE;
}
