/* The tables, lists of events and optional parts that are counted. */
#include "workload.h"

#include <string.h>

#include "plain.h"

static const uint64_t seed = 88172645463325252ull;
static uint64_t state;

/* A number below n, from a xorshift generator. */
static unsigned below(unsigned n)
{
    state ^= state << 13;
    state ^= state >> 7;
    state ^= state << 17;
    return (unsigned)((state >> 33) % n);
}

/* The reference of the call with this number: no two of 16,777,216 calls share one. */
static void write_call(uint8_t *octets, uint32_t call)
{
    struct naustvri_reference reference = {.identity = call * 2654435761u & 0xffffff, .point = (uint16_t)(call * 40503u & 0x3fff)};
    plain_write_reference(octets, NAUSTVRI_REFERENCE_SIZE, reference);
}

static void write_parameter(uint8_t *octets, unsigned level, unsigned domain)
{
    struct naustvri_precedence value = {.level = (uint8_t)level, .digits = {0, 2, 4, (uint8_t)domain}, .service = 70000 + domain};
    plain_write_precedence(octets, NAUSTVRI_PRECEDENCE_SIZE, value);
}

static void write_clock(uint8_t *octets, uint32_t clock)
{
    for (int i = 0; i < 4; i++)
        octets[i] = (uint8_t)(clock >> 8 * i);
}

/* An event of a call with this number; a call is not named by its number where its reference is copied from the table. */
static void make_event(uint8_t *event, enum naustvri_kind kind, unsigned level, unsigned domain, uint32_t call, uint32_t clock)
{
    memset(event, 0, NAUSTVRI_EVENT_SIZE);
    event[NAUSTVRI_EVENT_KIND] = (uint8_t)kind;
    if (kind == NAUSTVRI_SET_UP || kind == NAUSTVRI_LOOK_AHEAD)
        write_parameter(event + NAUSTVRI_EVENT_PRECEDENCE, level, domain);
    if (kind != NAUSTVRI_CLOCK)
        write_call(event + NAUSTVRI_EVENT_REFERENCE, call);
    write_clock(event + NAUSTVRI_EVENT_CLOCK, clock);
}

/* A part of a circuit, written by the product's own layout. */
static void make_part(uint8_t *part, unsigned level, unsigned domain, uint32_t call)
{
    uint8_t parameter[NAUSTVRI_PRECEDENCE_SIZE];
    write_parameter(parameter, level, domain);
    part[0] = 1;
    part[1] = (uint8_t)level;
    memcpy(part + 2, parameter + 1, NAUSTVRI_DOMAIN_SIZE);
    write_call(part + 7, call);
}

/* ROUTINE most often, FLASH OVERRIDE seldom. */
static unsigned some_level(void)
{
    static const uint8_t levels[] = {4, 4, 4, 4, 4, 4, 4, 4, 3, 3, 3, 3, 3, 2, 2, 2, 2, 1, 1, 0};
    return levels[below(sizeof levels)];
}

/* Three calls of four are in the first domain. */
static unsigned some_domain(void) { return below(4) == 0; }

/* Makes `event` one about a call that stands in the table: in the part at `flag` of some circuit whose flag at `beside` is 1 too, where one is met
 * soon. */
static void name_a_part(uint8_t *event, const struct workload *w, const uint8_t *table, size_t flag, size_t beside)
{
    for (int tries = 0; tries < 64; tries++) {
        const uint8_t *circuit = table + below((unsigned)w->circuits) * NAUSTVRI_CIRCUIT_SIZE, *part = circuit + flag;
        if (!part[0] || !circuit[beside])
            continue;
        memcpy(event + NAUSTVRI_EVENT_REFERENCE, part + 7, NAUSTVRI_REFERENCE_SIZE);
        if (event[NAUSTVRI_EVENT_KIND] == NAUSTVRI_SET_UP)
            memcpy(event + NAUSTVRI_EVENT_PRECEDENCE, part + 1, NAUSTVRI_PRECEDENCE_SIZE);
        return;
    }
}

/* Makes one event of a list, about the call with this number or one that stands in the table. */
typedef void make_one(uint8_t *event, const struct workload *w, const uint8_t *table, uint32_t call);

static uint32_t clock_at(uint32_t call) { return 12 * call; }

/* The route is run in before the list begins; the list is made a few events at a time from the table as it stands then, so that
 * most events about a call that is there find it. */
static void make_list(struct workload *w, make_one *make)
{
    enum { AT_ONCE = 4 };
    static uint8_t table[sizeof w->table], answers[AT_ONCE * NAUSTVRI_ANSWER_SIZE], events[AT_ONCE * NAUSTVRI_EVENT_SIZE];
    size_t octets = w->circuits * NAUSTVRI_CIRCUIT_SIZE;
    uint32_t call = (uint32_t)w->circuits, run_in = 8 * (uint32_t)w->circuits;
    memcpy(table, w->table, octets);
    for (uint32_t made = 0; made < run_in + NAUSTVRI_EVENTS_MOST; made += AT_ONCE) {
        if (made == run_in)
            memcpy(w->table, table, octets);
        for (int i = 0; i < AT_ONCE; i++)
            make(events + i * NAUSTVRI_EVENT_SIZE, w, table, ++call);
        if (made >= run_in)
            memcpy(w->events + (made - run_in) * NAUSTVRI_EVENT_SIZE, events, sizeof events);
        plain_list(table, octets, events, sizeof events, answers, sizeof answers);
    }
}

static void begin(struct workload *w, const char *name, size_t circuits)
{
    state = seed;
    memset(w, 0, sizeof *w);
    w->name = name;
    w->circuits = circuits;
}

/* Of a hundred events 14 releases, 26 answered, 5 look-aheads, 2 cancels, 2 clocks, 4 set-ups of reservers and 47 of new calls. */
static void make_mixed_event(uint8_t *event, const struct workload *w, const uint8_t *table, uint32_t call)
{
    unsigned die = below(100), level = some_level(), domain = some_domain();
    uint32_t clock = clock_at(call);
    if (die < 2) {
        make_event(event, NAUSTVRI_CLOCK, 0, 0, 0, clock);
    } else if (die < 16) {
        make_event(event, NAUSTVRI_RELEASE, 0, 0, call, clock);
        name_a_part(event, w, table, NAUSTVRI_CIRCUIT_HELD, NAUSTVRI_CIRCUIT_HELD);
    } else if (die < 18) {
        make_event(event, NAUSTVRI_CANCEL, 0, 0, call, clock);
        name_a_part(event, w, table, NAUSTVRI_CIRCUIT_RESERVED, NAUSTVRI_CIRCUIT_RESERVED);
    } else if (die < 44) {
        make_event(event, NAUSTVRI_ANSWERED, 0, 0, call, clock);
        name_a_part(event, w, table, NAUSTVRI_CIRCUIT_HELD, NAUSTVRI_CIRCUIT_RINGING);
    } else if (die < 49) {
        make_event(event, NAUSTVRI_LOOK_AHEAD, level == NAUSTVRI_ROUTINE ? NAUSTVRI_PRIORITY : level, domain, call, clock);
    } else {
        make_event(event, NAUSTVRI_SET_UP, level, domain, call, clock);
        if (die < 53)
            name_a_part(event, w, table, NAUSTVRI_CIRCUIT_RESERVED, NAUSTVRI_CIRCUIT_RESERVED);
    }
}

void make_mixed(struct workload *w, size_t circuits)
{
    begin(w, "mixed list", circuits);
    make_list(w, make_mixed_event);
}

/* Of a hundred events three take the mark off a holder, whose called party is without the service: one in four times a holder that a
 * reservation stands above, if such a one is met. The others are as in the mixed list. */
static void make_event_without_service(uint8_t *event, const struct workload *w, const uint8_t *table, uint32_t call)
{
    if (below(100) >= 3) {
        make_mixed_event(event, w, table, call);
        return;
    }
    make_event(event, NAUSTVRI_NO_SERVICE, 0, 0, call, clock_at(call));
    name_a_part(event, w, table, NAUSTVRI_CIRCUIT_HELD, NAUSTVRI_CIRCUIT_HELD);
    if (below(4) == 0)
        name_a_part(event, w, table, NAUSTVRI_CIRCUIT_HELD, NAUSTVRI_CIRCUIT_RESERVED);
}

void make_mixed_without_service(struct workload *w, size_t circuits)
{
    begin(w, "mixed list, 3 in 100 without service", circuits);
    make_list(w, make_event_without_service);
}

/* The part of a circuit that its standing mark is read from. */
static const uint8_t *standing(const uint8_t *circuit)
{
    return circuit + (circuit[NAUSTVRI_CIRCUIT_RESERVED] ? NAUSTVRI_CIRCUIT_RESERVED : NAUSTVRI_CIRCUIT_HELD);
}

/* Looks at a few circuits, and a call one level above the lowest of them comes, one in five as a look-ahead; while the lowest rings, it is
 * answered instead. A free circuit is filled by ROUTINE; where only FLASH OVERRIDE is met, its call goes and ROUTINE fills the circuit. */
static void make_taking_event(uint8_t *event, const struct workload *w, const uint8_t *table, uint32_t call)
{
    static int emptied;
    const uint8_t *circuit = table, *lowest = standing(circuit);
    for (int looks = 0; looks < 8 && lowest[0]; looks++) {
        const uint8_t *other = table + below((unsigned)w->circuits) * NAUSTVRI_CIRCUIT_SIZE, *part = standing(other);
        if (part[0] && part[1] < lowest[1])
            continue;
        circuit = other;
        lowest = part;
    }
    uint32_t clock = clock_at(call);
    if (emptied || !lowest[0]) {
        emptied = 0;
        make_event(event, NAUSTVRI_SET_UP, NAUSTVRI_ROUTINE, some_domain(), call, clock);
    } else if (lowest[1] == NAUSTVRI_FLASH_OVERRIDE) {
        emptied = 1;
        make_event(event, circuit[NAUSTVRI_CIRCUIT_RESERVED] ? NAUSTVRI_CANCEL : NAUSTVRI_RELEASE, 0, 0, call, clock);
        memcpy(event + NAUSTVRI_EVENT_REFERENCE, lowest + 7, NAUSTVRI_REFERENCE_SIZE);
    } else if (circuit[NAUSTVRI_CIRCUIT_RINGING]) {
        make_event(event, NAUSTVRI_ANSWERED, 0, 0, call, clock);
        memcpy(event + NAUSTVRI_EVENT_REFERENCE, lowest + 7, NAUSTVRI_REFERENCE_SIZE);
    } else {
        make_event(event, below(5) ? NAUSTVRI_SET_UP : NAUSTVRI_LOOK_AHEAD, 0, 0, call, clock);
        memcpy(event + NAUSTVRI_EVENT_PRECEDENCE, lowest + 1, NAUSTVRI_PRECEDENCE_SIZE);
        event[NAUSTVRI_EVENT_PRECEDENCE]--;
    }
}

void make_take_heavy(struct workload *w, size_t circuits)
{
    begin(w, "take-heavy list", circuits);
    make_list(w, make_taking_event);
}

void make_full_table(struct workload *w, size_t circuits)
{
    begin(w, "full table list", circuits);
    uint32_t call = 0;
    for (size_t i = 0; i < circuits; i++)
        make_part(w->table + i * NAUSTVRI_CIRCUIT_SIZE, NAUSTVRI_FLASH_OVERRIDE, some_domain(), ++call);
    for (size_t i = 0; i < NAUSTVRI_EVENTS_MOST; i++) {
        static const enum naustvri_kind kinds[] = {NAUSTVRI_SET_UP, NAUSTVRI_SET_UP, NAUSTVRI_SET_UP, NAUSTVRI_LOOK_AHEAD,
                                                   NAUSTVRI_RELEASE, NAUSTVRI_CANCEL};
        enum naustvri_kind kind = below(64) ? kinds[below(6)] : NAUSTVRI_CLOCK;
        unsigned level = some_level();
        if (kind == NAUSTVRI_LOOK_AHEAD && level == NAUSTVRI_ROUTINE)
            level = NAUSTVRI_PRIORITY;
        ++call;
        make_event(w->events + i * NAUSTVRI_EVENT_SIZE, kind, level, some_domain(), call, call);
    }
}

void make_marks_off(uint8_t *table, size_t circuits)
{
    memset(table, 0, circuits * NAUSTVRI_CIRCUIT_SIZE);
    for (size_t i = 0; i < circuits; i++) {
        uint8_t *holder = table + i * NAUSTVRI_CIRCUIT_SIZE + NAUSTVRI_CIRCUIT_HELD;
        make_part(holder, NAUSTVRI_NO_PRECEDENCE, 0, (uint32_t)i + 1);
        memset(holder + 2, 0, NAUSTVRI_DOMAIN_SIZE);
    }
}

void make_all_ringing(uint8_t *table, size_t circuits)
{
    memset(table, 0, circuits * NAUSTVRI_CIRCUIT_SIZE);
    for (size_t i = 0; i < circuits; i++) {
        uint8_t *circuit = table + i * NAUSTVRI_CIRCUIT_SIZE;
        make_part(circuit + NAUSTVRI_CIRCUIT_HELD, NAUSTVRI_ROUTINE, 0, (uint32_t)i + 1);
        circuit[NAUSTVRI_CIRCUIT_RINGING] = 1;
    }
}

void make_all_parts(uint8_t *table, size_t circuits)
{
    uint32_t call = 0;
    memset(table, 0, circuits * NAUSTVRI_CIRCUIT_SIZE);
    for (size_t i = 0; i < circuits; i++) {
        uint8_t *circuit = table + i * NAUSTVRI_CIRCUIT_SIZE;
        unsigned level = 1 + below(4), domain = some_domain();
        make_part(circuit + NAUSTVRI_CIRCUIT_HELD, level, domain, ++call);
        make_part(circuit + NAUSTVRI_CIRCUIT_RESERVED, below(level), domain, ++call);
        write_clock(circuit + NAUSTVRI_CIRCUIT_RESERVATION_CLOCK, call);
    }
}

/* Part i of a table, its holder's or its reservation's. */
static uint8_t *part_of(uint8_t *table, size_t i)
{
    return table + i / 2 * NAUSTVRI_CIRCUIT_SIZE + (i % 2 ? NAUSTVRI_CIRCUIT_RESERVED : NAUSTVRI_CIRCUIT_HELD);
}

void make_all_parts_drawn(uint8_t *table, size_t circuits, unsigned draw)
{
    state = 2685821657736338717ull * (draw + 1);
    make_all_parts(table, circuits);
    for (size_t i = 0; i < 2 * circuits; i++) {
        struct naustvri_reference reference = {.identity = below(1 << 24), .point = (uint16_t)below(1 << 14)};
        plain_write_reference(part_of(table, i) + 7, NAUSTVRI_REFERENCE_SIZE, reference);
    }
}

void make_all_parts_alike(uint8_t *table, size_t circuits)
{
    /* crates/references: the stem of a reference is its first four octets times 1540483477, modulo 2^32; it is noted by its stem times 695872825
     * and its last octet times 739982445, added; bits 14 to 36 of that are its bits and its word. The sums here are alike in these, and `back`
     * and `stem_back` undo the multiplications. */
    const uint64_t back = 34576838921, lowest = ((uint64_t)1 << 37) - 1, alike = (uint64_t)12345 << 14;
    const uint32_t stem_back = 3852147133;
    make_all_parts(table, circuits);
    size_t i = 0;
    for (uint64_t last = 0; i < 2 * circuits; last++)
        for (uint64_t rest = 0; rest < 1 << 14 && i < 2 * circuits; rest++) {
            uint64_t stem = (alike + rest - 739982445 * last) * back & lowest;
            if (stem >> 32)
                continue;
            uint32_t four = (uint32_t)stem * stem_back;
            struct naustvri_reference reference = {.identity = four & 0xffffff, .point = (uint16_t)(four >> 24 | last << 8)};
            plain_write_reference(part_of(table, i++) + 7, NAUSTVRI_REFERENCE_SIZE, reference);
        }
}

/* Puts a parameter more into the list and into the part, which has no end octet yet. */
static void add_parameter(struct optional *o, unsigned name, const uint8_t *contents, size_t length)
{
    uint8_t *listed = o->list + o->list_len, *parameter = o->part + o->part_len;
    listed[NAUSTVRI_LISTED_NAME] = parameter[0] = (uint8_t)name;
    listed[NAUSTVRI_LISTED_LENGTH] = parameter[1] = (uint8_t)length;
    listed[NAUSTVRI_LISTED_LENGTH + 1] = 0;
    memcpy(listed + NAUSTVRI_LISTED_CONTENTS, contents, length);
    memcpy(parameter + 2, contents, length);
    o->list_len += NAUSTVRI_LISTED_CONTENTS + length;
    o->part_len += 2 + length;
}

static void add_end(struct optional *o) { o->part[o->part_len++] = NAUSTVRI_NAME_END; }

void make_handbook_optional(struct optional *o)
{
    static const uint8_t calling[] = {0x84, 0x13, 0x64, 0x18, 0x32, 0x54, 0x06}, compatibility[] = {0x3a, 0xc0};
    static const uint8_t precedence[NAUSTVRI_PRECEDENCE_SIZE] = {0x43, 0x04, 0x60, 0x00, 0x00, 0x01};
    o->part_len = o->list_len = 0;
    add_parameter(o, 10, calling, sizeof calling);
    add_parameter(o, 57, compatibility, sizeof compatibility);
    add_parameter(o, NAUSTVRI_NAME_PRECEDENCE, precedence, sizeof precedence);
    add_end(o);
}

void make_optional(struct optional *o, size_t others)
{
    uint8_t precedence[NAUSTVRI_PRECEDENCE_SIZE];
    state = seed;
    o->part_len = o->list_len = 0;
    for (size_t i = 0; i < others; i++) {
        uint8_t contents[OTHER_CONTENTS_MOST];
        unsigned name = 1 + below(NAUSTVRI_NAME_PRECEDENCE - 1), length = below(OTHER_CONTENTS_MOST + 1);
        for (unsigned j = 0; j < length; j++)
            contents[j] = (uint8_t)below(256);
        add_parameter(o, name, contents, length);
    }
    write_parameter(precedence, NAUSTVRI_PRIORITY, 0);
    add_parameter(o, NAUSTVRI_NAME_PRECEDENCE, precedence, sizeof precedence);
    add_end(o);
}
