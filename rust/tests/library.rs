// The library through the wrapper: document 01's listing with the line that 02's L7 adds, and every function with guard octets around the buffers that
// it writes.

use naustvri::*;

// What the check gives for a valid table.
const VALID: Check = Check {
    number: DONE,
    record: NO_PLACE,
};

const GUARD: u8 = 0x5a;
const MARGIN: usize = 64;

// Lends `call` a copy of the buffer, of octets or numbers, between guards, and puts back what the copy then holds.
fn guarded<N, T>(buffer: &mut [N], call: impl FnOnce(&mut [N]) -> T) -> T
where
    N: Copy + PartialEq + From<u8>,
{
    let within = MARGIN..MARGIN + buffer.len();
    let mut lent = vec![N::from(GUARD); buffer.len() + 2 * MARGIN];
    lent[within.clone()].copy_from_slice(buffer);
    let result = call(&mut lent[within.clone()]);
    buffer.copy_from_slice(&lent[within.clone()]);
    lent[within].fill(N::from(GUARD));
    assert!(lent.iter().all(|&guard| guard == N::from(GUARD)));
    result
}

fn apply(table: &mut [u8], octets: &[u8], answer: &mut [u8]) -> u8 {
    guarded(table, |table| {
        guarded(answer, |answer| event(table, octets, answer))
    })
}

// Zero domain, LFB allowed.
fn event_of(kind: u8, level: u8, reference: Reference, clock: u32) -> [u8; EVENT_SIZE] {
    let mut octets = [0; EVENT_SIZE];
    let precedence = Precedence {
        level,
        ..Precedence::default()
    };
    octets[EVENT_KIND] = kind;
    let at = &mut octets[EVENT_PRECEDENCE..EVENT_PRECEDENCE + PRECEDENCE_SIZE];
    assert_eq!(
        guarded(at, |buffer| write_precedence(buffer, precedence)),
        DONE
    );
    let at = &mut octets[EVENT_REFERENCE..EVENT_REFERENCE + REFERENCE_SIZE];
    assert_eq!(
        guarded(at, |buffer| write_reference(buffer, reference)),
        DONE
    );
    octets[EVENT_CLOCK..].copy_from_slice(&clock.to_le_bytes());
    octets
}

fn call(identity: u32) -> Reference {
    Reference { identity, point: 1 }
}

// The listing's events; a parameter that has to be zero is that of level 0.
fn listed_events() -> [[u8; EVENT_SIZE]; 10] {
    let nobody = Reference::default();
    [
        event_of(SET_UP, ROUTINE, call(1), 0),
        event_of(ANSWERED, 0, call(1), 0),
        event_of(LOOK_AHEAD, IMMEDIATE, call(2), 100),
        event_of(SET_UP, PRIORITY, call(3), 0),
        event_of(SET_UP, PRIORITY, call(4), 0),
        event_of(RELEASE, 0, call(1), 0),
        event_of(CLOCK, 0, nobody, 3099),
        event_of(CLOCK, 0, nobody, 3100),
        event_of(SET_UP, PRIORITY, call(4), 0),
        event_of(SET_UP, ROUTINE, call(5), 0),
    ]
}

const LISTING: [&str; 10] = [
    "1 1 0 0 - -",
    "2 9 0 0 - -",
    "3 3 0 1 - -",
    "4 2 0 0 1/1 -",
    "5 31 46 - - -",
    "6 27 0 - - -",
    "7 7 0 0 - -",
    "8 7 0 1 - -",
    "9 1 0 1 - -",
    "10 30 34 - - -",
];

// An answer as a line of the listing.
fn line(count: usize, answer: &[u8]) -> String {
    let place = match u16::from_le_bytes([answer[ANSWER_PLACE], answer[ANSWER_PLACE + 1]]) {
        NO_PLACE => String::from("-"),
        place => place.to_string(),
    };
    let lost = |flag: usize, at: usize| {
        if answer[flag] == 0 {
            return String::from("-");
        }
        let reading = read_reference(&answer[at..at + REFERENCE_SIZE]);
        assert_eq!(reading.number, DONE);
        format!("{}/{}", reading.value.identity, reading.value.point)
    };
    let lost_call = lost(ANSWER_CALL_LOST, ANSWER_LOST_CALL);
    let lost_reservation = lost(ANSWER_RESERVATION_LOST, ANSWER_LOST_RESERVATION);
    let (number, cause) = (answer[ANSWER_NUMBER], answer[ANSWER_CAUSE]);
    format!("{count} {number} {cause} {place} {lost_call} {lost_reservation}")
}

#[test]
fn listing_event_by_event() {
    let mut table = [0; 2 * CIRCUIT_SIZE];
    for (i, octets) in listed_events().iter().enumerate() {
        let mut answer = [0xff; ANSWER_SIZE];
        let number = apply(&mut table, octets, &mut answer);
        assert_eq!(number, answer[ANSWER_NUMBER]);
        assert_eq!(line(i + 1, &answer), LISTING[i]);
        assert_eq!(check(&table), VALID);
    }
}

#[test]
fn listing_as_a_list() {
    let mut table = [0; 2 * CIRCUIT_SIZE];
    let events = listed_events().concat();
    let mut answers = [0xff; LISTING.len() * ANSWER_SIZE];
    let number = guarded(&mut table, |table| {
        guarded(&mut answers, |answers| list(table, &events, answers))
    });
    assert_eq!(number, DONE);
    for (i, answer) in answers.chunks(ANSWER_SIZE).enumerate() {
        assert_eq!(line(i + 1, answer), LISTING[i]);
    }
    // The calls that hold the two circuits at the end, and ring.
    for (circuit, identity) in table.chunks(CIRCUIT_SIZE).zip([3, 4]) {
        assert_eq!(
            read_reference(&circuit[CIRCUIT_HOLDER_REFERENCE..CIRCUIT_RESERVED]).value,
            call(identity)
        );
        assert_eq!(circuit[CIRCUIT_RINGING], 1);
    }
}

#[test]
fn wrong_length_writes_nothing() {
    let octets = event_of(SET_UP, ROUTINE, call(1), 0);
    for (circuits, event_size, answer_size) in [
        (0, 16, 16),
        (257, 16, 16),
        (1, 15, 16),
        (1, 16, 17),
        (1, 0, 0),
    ] {
        let mut table = vec![0; circuits * CIRCUIT_SIZE];
        let mut answer = vec![0xff; answer_size];
        assert_eq!(
            apply(&mut table, &octets[..event_size], &mut answer),
            WRONG_LENGTH
        );
        assert!(table.iter().all(|&octet| octet == 0));
        assert!(answer.iter().all(|&octet| octet == 0xff));
    }
    let (mut table, mut answers) = ([0; CIRCUIT_SIZE], [0xff; 2 * ANSWER_SIZE]);
    assert_eq!(
        guarded(&mut table, |table| list(table, &octets, &mut answers)),
        WRONG_LENGTH
    );
    assert_eq!(
        (table, answers),
        ([0; CIRCUIT_SIZE], [0xff; 2 * ANSWER_SIZE])
    );
    assert_eq!(list(&mut table, &[], &mut []), DONE);
}

// A list added to totals, each buffer between guards.
fn add(table: &mut [u8], events: &[u8], answers: &mut [u8], totals: &mut [u64]) -> u8 {
    guarded(table, |table| {
        guarded(answers, |answers| {
            guarded(totals, |totals| figures(table, events, answers, totals))
        })
    })
}

#[test]
fn figures_of_the_listing() {
    let mut table = [0; 2 * CIRCUIT_SIZE];
    let events = listed_events().concat();
    let mut answers = [0xff; LISTING.len() * ANSWER_SIZE];
    let mut totals = [0; FIGURES];
    assert_eq!(add(&mut table, &events, &mut answers, &mut totals), DONE);
    for (i, answer) in answers.chunks(ANSWER_SIZE).enumerate() {
        assert_eq!(line(i + 1, answer), LISTING[i]);
    }
    let priority_over_routine = FIGURE_LOST_BY_LEVEL + usize::from(5 * PRIORITY + ROUTINE);
    let mut wanted = [0; FIGURES];
    for (place, total) in [
        (FIGURE_LISTS, 1),
        (FIGURE_SEIZED, 3),
        (FIGURE_LOST, 1),
        (FIGURE_END, 2),
        (priority_over_routine, 1),
    ] {
        wanted[place] = total;
    }
    for (number, total) in [
        (1, 2),
        (2, 1),
        (3, 1),
        (7, 2),
        (9, 1),
        (27, 1),
        (30, 1),
        (31, 1),
    ] {
        wanted[FIGURE_ANSWERED + number] = total;
    }
    assert_eq!(totals, wanted);

    // Calls 3 and 4 are there at the start of another list, and call 3 goes.
    let release = event_of(RELEASE, 0, call(3), 0);
    let mut answer = [0xff; ANSWER_SIZE];
    assert_eq!(add(&mut table, &release, &mut answer, &mut totals), DONE);
    for place in [
        FIGURE_LISTS,
        FIGURE_RELEASED,
        FIGURE_END,
        FIGURE_ANSWERED + 5,
    ] {
        wanted[place] += 1;
    }
    wanted[FIGURE_START] = 2;
    assert_eq!(totals, wanted);
}

#[test]
fn refused_list_adds_nothing() {
    let octets = event_of(SET_UP, ROUTINE, call(1), 0);
    let refused = |totals: &[u64], size: usize, number: u8| {
        let (mut table, mut answer, mut lent) = (vec![0; size], [0xff; 16], totals.to_vec());
        assert_eq!(add(&mut table, &octets, &mut answer, &mut lent), number);
        assert!(table.iter().all(|&octet| octet == 0) && answer == [0xff; 16]);
        assert_eq!(lent, totals);
    };
    let with = |place: usize, total: u64| {
        let mut totals = [0; FIGURES];
        totals[place] = total;
        totals
    };
    for length in [0, FIGURES - 1, FIGURES + 1] {
        refused(&vec![LISTS_MOST; length], CIRCUIT_SIZE, WRONG_LENGTH);
    }
    refused(&with(FIGURE_LISTS, LISTS_MOST), 31, WRONG_LENGTH);
    refused(&with(FIGURE_LISTS, LISTS_MOST), 32, TOO_MANY_LISTS);
    for place in 0..FIGURES {
        refused(&with(place, u64::MAX - 4095), 32, TOO_MANY_LISTS);
    }

    let last = &mut with(FIGURE_LISTS, LISTS_MOST - 1);
    assert_eq!(add(&mut [0; 32], &octets, &mut [0; 16], last), DONE);
    assert_eq!(add(&mut [0; 32], &octets, &mut [0; 16], last), 60);
    for place in 1..FIGURES {
        let totals = &mut with(place, u64::MAX - 4096);
        assert_eq!(add(&mut [0; 32], &octets, &mut [0; 16], totals), DONE);
    }
}

#[test]
fn precedence_there_and_back() {
    let value = Precedence {
        level: IMMEDIATE,
        lfb: LFB_PATH_RESERVED,
        digits: [0, 4, 7, 1],
        service: 0x0a_0b0c,
    };
    let mut octets = [0xff; PRECEDENCE_SIZE];
    assert_eq!(
        guarded(&mut octets, |buffer| write_precedence(buffer, value)),
        DONE
    );
    assert_eq!(octets, [0x22, 0x04, 0x71, 0x0a, 0x0b, 0x0c]);
    assert_eq!(
        read_precedence(&octets),
        PrecedenceReading {
            number: DONE,
            value
        }
    );

    let refused = |number| PrecedenceReading {
        number,
        ..PrecedenceReading::default()
    };
    assert_eq!(read_precedence(&octets[1..]), refused(WRONG_LENGTH));
    assert_eq!(read_precedence(&[0x62, 0, 0, 0, 0, 0]), refused(MALFORMED));
    let too_large = Precedence {
        service: 0x100_0000,
        ..value
    };
    assert_eq!(
        guarded(&mut octets, |buffer| write_precedence(buffer, too_large)),
        MALFORMED
    );
    assert_eq!(
        guarded(&mut octets[..5], |buffer| write_precedence(
            buffer, too_large
        )),
        WRONG_LENGTH
    );
    assert_eq!(read_precedence(&octets).value, value);
}

#[test]
fn reference_there_and_back() {
    let value = Reference {
        identity: 0x01_0203,
        point: 0x3fde,
    };
    let mut octets = [0xff; REFERENCE_SIZE];
    assert_eq!(
        guarded(&mut octets, |buffer| write_reference(buffer, value)),
        DONE
    );
    assert_eq!(octets, [0x03, 0x02, 0x01, 0xde, 0x3f]);
    assert_eq!(
        read_reference(&octets),
        ReferenceReading {
            number: DONE,
            value
        }
    );

    assert_eq!(
        read_reference(&[]),
        ReferenceReading {
            number: WRONG_LENGTH,
            ..ReferenceReading::default()
        }
    );
    let too_large = Reference {
        point: 0x4000,
        ..value
    };
    assert_eq!(
        guarded(&mut octets, |buffer| write_reference(buffer, too_large)),
        MALFORMED
    );
    assert_eq!(
        guarded(&mut octets[..4], |buffer| write_reference(
            buffer, too_large
        )),
        WRONG_LENGTH
    );
    assert_eq!(read_reference(&octets).value, value);
}

#[test]
fn lamps_and_check() {
    let mut table = [0; CIRCUITS_MOST * CIRCUIT_SIZE];
    for identity in 1..=3 {
        let mut answer = [0; ANSWER_SIZE];
        assert_eq!(
            apply(
                &mut table,
                &event_of(SET_UP, ROUTINE, call(identity), 0),
                &mut answer
            ),
            SEIZED
        );
    }
    assert_eq!(check(&table), VALID);
    assert_eq!(
        lamps(&table),
        LampsReading {
            number: DONE,
            lit: 253,
            record: NO_PLACE,
            words: [!7, !0, !0, !0]
        }
    );
    assert_eq!(
        lamps(&table[..130 * CIRCUIT_SIZE]),
        LampsReading {
            number: DONE,
            lit: 127,
            record: NO_PLACE,
            words: [!7, !0, 3, 0]
        }
    );
    let (number, record) = (WRONG_LENGTH, NO_PLACE);
    assert_eq!(check(&table[1..]), Check { number, record });
    assert_eq!(lamps(&table[1..]), dark(number, record));
}

// The lamp map of a table that is refused.
fn dark(number: u8, record: u16) -> LampsReading {
    LampsReading {
        number,
        lit: 0,
        record,
        words: [0; 4],
    }
}

// The answer by a refusal that has no cause.
fn refusing(number: u8, place: u16) -> [u8; ANSWER_SIZE] {
    let mut answer = [0; ANSWER_SIZE];
    answer[ANSWER_NUMBER] = number;
    answer[ANSWER_PLACE..ANSWER_PLACE + 2].copy_from_slice(&place.to_le_bytes());
    answer
}

// Every function that takes a table refuses this one by the number and the record.
fn refused_everywhere(table: &[u8], number: u8, record: u16) {
    assert_eq!(check(table), Check { number, record });
    assert_eq!(lamps(table), dark(number, record));
    let events = [event_of(RELEASE, 0, call(1), 0), [0; EVENT_SIZE]];
    let wanted = [refusing(number, record), refusing(MALFORMED, NO_PLACE)];
    for (octets, wanted) in events.iter().zip(wanted) {
        let (mut after, mut answer) = (table.to_vec(), [0xff; ANSWER_SIZE]);
        assert_eq!(apply(&mut after, octets, &mut answer), wanted[0]);
        assert_eq!((&after[..], answer), (table, wanted));
    }
    let (events, wanted) = (events.concat(), wanted.concat());
    let (mut after, mut answers) = (table.to_vec(), vec![0xff; wanted.len()]);
    assert_eq!(list(&mut after, &events, &mut answers), DONE);
    assert_eq!((&after[..], &answers), (table, &wanted));
    answers.fill(0xff);
    let mut totals = [0; FIGURES];
    assert_eq!(add(&mut after, &events, &mut answers, &mut totals), DONE);
    assert_eq!((&after[..], &answers), (table, &wanted));
    for number in [number, MALFORMED] {
        assert_eq!(totals[FIGURE_ANSWERED + usize::from(number)], 1);
    }
}

#[test]
fn bad_record_is_named() {
    let mut sound = [0; 3 * CIRCUIT_SIZE];
    for identity in 1..=2 {
        for (kind, level, number) in [(SET_UP, ROUTINE, SEIZED), (ANSWERED, 0, NOW_ANSWERED)] {
            let octets = event_of(kind, level, call(identity), 0);
            assert_eq!(apply(&mut sound, &octets, &mut [0; ANSWER_SIZE]), number);
        }
    }
    let changed = |record: usize, place: usize, octet: u8| {
        let mut table = sound;
        table[record * CIRCUIT_SIZE + place] = octet;
        table
    };
    let copied = |octets: usize, to: usize| {
        let mut table = sound;
        table.copy_within(..octets, to);
        table
    };
    for (table, number, record) in [
        (changed(1, CIRCUIT_HELD, 2), FLAG_OR_LEVEL, 1),
        (
            changed(1, CIRCUIT_HOLDER_DOMAIN, 0xa0),
            DIGIT_OR_POINT_CODE,
            1,
        ),
        (changed(2, CIRCUIT_ZERO, 1), NOT_ZERO, 2),
        (
            copied(CIRCUIT_RESERVED, CIRCUIT_RESERVED),
            NOT_ABOVE_HOLDER,
            0,
        ),
        (
            copied(CIRCUIT_SIZE, 2 * CIRCUIT_SIZE),
            REPEATED_REFERENCE,
            2,
        ),
    ] {
        refused_everywhere(&table, number, record);
    }
}

// Call 1 holds the only circuit; its called party has answered and is without the service. It was set up at ROUTINE in a domain that is not zero.
fn unmarked() -> [u8; CIRCUIT_SIZE] {
    let mut table = [0; CIRCUIT_SIZE];
    let mut set_up = event_of(SET_UP, ROUTINE, call(1), 0);
    set_up[EVENT_PRECEDENCE + 1..EVENT_REFERENCE].copy_from_slice(&[0, 0x46, 0, 0, 7]);
    for (octets, number) in [
        (set_up, SEIZED),
        (event_of(ANSWERED, 0, call(1), 0), NOW_ANSWERED),
        (event_of(NO_SERVICE, 0, call(1), 0), UNMARKED),
    ] {
        assert_eq!(apply(&mut table, &octets, &mut [0; ANSWER_SIZE]), number);
    }
    table
}

#[test]
fn no_service() {
    let events = [
        event_of(NO_SERVICE, 0, call(1), 0),
        event_of(SET_UP, ROUTINE, call(1), 0),
        event_of(ANSWERED, 0, call(1), 0),
        event_of(LOOK_AHEAD, PRIORITY, call(2), 100),
        event_of(NO_SERVICE, 0, call(2), 0),
        event_of(NO_SERVICE, ROUTINE, call(1), 0),
        event_of(NO_SERVICE, 0, call(1), 0),
        event_of(NO_SERVICE, 0, call(1), 7),
        event_of(SET_UP, FLASH_OVERRIDE, call(3), 0),
        event_of(LOOK_AHEAD, FLASH_OVERRIDE, call(3), 100),
        event_of(SET_UP, ROUTINE, call(1), 0),
        event_of(LOOK_AHEAD, PRIORITY, call(1), 100),
        event_of(CANCEL, 0, call(1), 0),
        event_of(RELEASE, 0, call(1), 0),
        event_of(SET_UP, ROUTINE, call(4), 0),
        event_of(ANSWERED, 0, call(4), 0),
        event_of(SET_UP, PRIORITY, call(3), 0),
    ]
    .concat();
    let mut table = [0; CIRCUIT_SIZE];
    let (mut answers, mut totals) = (vec![0xff; events.len()], [0; FIGURES]);
    assert_eq!(add(&mut table, &events, &mut answers, &mut totals), DONE);
    let lines: Vec<String> = answers
        .chunks(ANSWER_SIZE)
        .enumerate()
        .map(|(i, answer)| line(i + 1, answer))
        .collect();
    // From the seventh event to the release nobody takes the circuit; after that PRIORITY takes it from a ROUTINE call.
    assert_eq!(
        lines,
        [
            "1 27 0 - - -",
            "2 1 0 0 - -",
            "3 9 0 0 - -",
            "4 3 0 0 - -",
            "5 27 0 - - -",
            "6 22 0 - - -",
            "7 8 0 0 - 2/1",
            "8 8 0 0 - -",
            "9 31 46 - - -",
            "10 32 0 - - -",
            "11 25 0 - - -",
            "12 25 0 - - -",
            "13 27 0 - - -",
            "14 5 0 0 - -",
            "15 1 0 0 - -",
            "16 9 0 0 - -",
            "17 2 0 0 4/1 -",
        ]
    );
    assert_eq!(totals[FIGURE_ANSWERED + usize::from(UNMARKED)], 2);
    for (place, total) in [
        (FIGURE_SEIZED, 3),
        (FIGURE_RELEASED, 1),
        (FIGURE_LOST, 1),
        (FIGURE_END, 1),
    ] {
        assert_eq!(totals[place], total);
    }
}

// A circuit with these octets at these places of it.
fn with(circuit: &[u8; CIRCUIT_SIZE], changes: &[(usize, u8)]) -> [u8; CIRCUIT_SIZE] {
    let mut changed = *circuit;
    for &(place, octet) in changes {
        changed[place] = octet;
    }
    changed
}

#[test]
fn level_15_in_a_table() {
    let sound = unmarked();
    assert_eq!(sound[CIRCUIT_HOLDER_LEVEL], NO_PRECEDENCE);
    assert_eq!(
        sound[CIRCUIT_HOLDER_DOMAIN..CIRCUIT_HOLDER_REFERENCE],
        [0; DOMAIN_SIZE]
    );
    assert_eq!(
        read_reference(&sound[CIRCUIT_HOLDER_REFERENCE..CIRCUIT_RESERVED]).value,
        call(1)
    );
    assert_eq!(sound[CIRCUIT_RESERVED..], [0; 20]);
    assert_eq!(check(&sound), VALID);
    assert_eq!(
        lamps(&sound),
        LampsReading::default(),
        "the circuit is held"
    );

    let by_call_2 = (CIRCUIT_RESERVATION_REFERENCE, 2);
    for (changes, number) in [
        (&[(CIRCUIT_HOLDER_LEVEL, 14)][..], FLAG_OR_LEVEL),
        (&[(CIRCUIT_HOLDER_LEVEL, 16)], FLAG_OR_LEVEL),
        (&[(CIRCUIT_HOLDER_DOMAIN + 4, 1)], FLAG_OR_LEVEL),
        (&[(CIRCUIT_HOLDER_DOMAIN, 0xa0)], FLAG_OR_LEVEL),
        (
            &[(CIRCUIT_RESERVED, 1), (CIRCUIT_RESERVATION_LEVEL, 15)],
            FLAG_OR_LEVEL,
        ),
        (&[(CIRCUIT_RESERVATION_LEVEL, 15)], NOT_ZERO),
        (&[(CIRCUIT_RESERVED, 1), by_call_2], NOT_ABOVE_HOLDER),
        (
            &[
                (CIRCUIT_RESERVED, 1),
                (CIRCUIT_RESERVATION_DOMAIN + 4, 1),
                by_call_2,
            ],
            NOT_ABOVE_HOLDER,
        ),
    ] {
        refused_everywhere(&with(&sound, changes), number, 0);
    }
}

// A call rings from its set-up to its answered event: kind, level and call of each event on a route of one circuit, the line that it is answered by,
// and octet 30 of the circuit after it.
#[test]
fn ringing() {
    let script = [
        (ANSWERED, 0, 1, "1 27 0 - - -", 0),
        (SET_UP, ROUTINE, 1, "2 1 0 0 - -", 1),
        // Nobody takes its circuit or reserves above it.
        (SET_UP, FLASH_OVERRIDE, 2, "3 31 46 - - -", 1),
        (LOOK_AHEAD, FLASH_OVERRIDE, 2, "4 32 0 - - -", 1),
        // Its own events are answered as those of any holder.
        (SET_UP, ROUTINE, 1, "5 25 0 - - -", 1),
        (LOOK_AHEAD, PRIORITY, 1, "6 25 0 - - -", 1),
        (LOOK_AHEAD, ROUTINE, 1, "7 24 0 - - -", 1),
        (CANCEL, 0, 1, "8 27 0 - - -", 1),
        (CLOCK, 0, 0, "9 7 0 0 - -", 1),
        (ANSWERED, 0, 1, "10 9 0 0 - -", 0),
        // A second answered event changes nothing, also under a reservation. A call that has only reserved is not there to be answered.
        (ANSWERED, 0, 1, "11 9 0 0 - -", 0),
        (LOOK_AHEAD, PRIORITY, 2, "12 3 0 0 - -", 0),
        (ANSWERED, 0, 2, "13 27 0 - - -", 0),
        (ANSWERED, 0, 1, "14 9 0 0 - -", 0),
        (SET_UP, PRIORITY, 3, "15 31 46 - - -", 0),
        // A call rings on its own reservation, and on the circuit that it takes.
        (SET_UP, PRIORITY, 2, "16 2 0 0 1/1 -", 1),
        (ANSWERED, 0, 1, "17 27 0 - - -", 1),
        (SET_UP, FLASH, 3, "18 31 46 - - -", 1),
        (ANSWERED, 0, 2, "19 9 0 0 - -", 0),
        (SET_UP, FLASH, 3, "20 2 0 0 2/1 -", 1),
        // A ringing call is released. A reservation with no holder is takeable.
        (RELEASE, 0, 3, "21 5 0 0 - -", 0),
        (LOOK_AHEAD, PRIORITY, 4, "22 3 0 0 - -", 0),
        (SET_UP, FLASH, 5, "23 2 0 0 - 4/1", 1),
        // A call whose mark comes off rings on. After it is answered it is not takeable either.
        (NO_SERVICE, 0, 5, "24 8 0 0 - -", 1),
        (ANSWERED, 0, 5, "25 9 0 0 - -", 0),
        (SET_UP, FLASH_OVERRIDE, 6, "26 31 46 - - -", 0),
    ];
    let mut table = [0; CIRCUIT_SIZE];
    for (i, (kind, level, identity, wanted, rings)) in script.into_iter().enumerate() {
        let reference = match kind {
            CLOCK => Reference::default(),
            _ => call(identity),
        };
        let mut answer = [0xff; ANSWER_SIZE];
        let octets = event_of(kind, level, reference, 100);
        apply(&mut table, &octets, &mut answer);
        assert_eq!(line(i + 1, &answer), wanted);
        assert_eq!(table[CIRCUIT_RINGING], rings, "octet 30 after {wanted}");
        assert_eq!(check(&table), VALID);
    }
}

// An answered event makes octet 30 of its call's circuit zero and changes nothing else, whatever its clock and the spare bits of its reference are.
#[test]
fn answered_event() {
    let mut ringing = [0; 3 * CIRCUIT_SIZE];
    for identity in 1..=3 {
        let octets = event_of(SET_UP, ROUTINE, call(identity), 0);
        assert_eq!(apply(&mut ringing, &octets, &mut [0; ANSWER_SIZE]), SEIZED);
    }
    let mut wanted = ringing;
    wanted[CIRCUIT_SIZE + CIRCUIT_RINGING] = 0;
    let event = event_of(ANSWERED, 0, call(2), u32::MAX);
    for spare in [0, 0x40, 0x80, 0xc0] {
        let (mut octets, mut table) = (event, ringing);
        octets[EVENT_REFERENCE + 4] |= spare;
        // The second time the table stays.
        for _ in 0..2 {
            let mut answer = [0xff; ANSWER_SIZE];
            assert_eq!(apply(&mut table, &octets, &mut answer), NOW_ANSWERED);
            assert_eq!(line(1, &answer), "1 9 0 1 - -");
            assert_eq!(table, wanted);
        }
    }
    // Any bit of the parameter is malformed.
    for bit in 0..8 * PRECEDENCE_SIZE {
        let (mut octets, mut table, mut answer) = (event, ringing, [0xff; ANSWER_SIZE]);
        octets[EVENT_PRECEDENCE + bit / 8] = 1 << (bit % 8);
        assert_eq!(apply(&mut table, &octets, &mut answer), MALFORMED);
        assert_eq!((table, answer), (ringing, refusing(MALFORMED, NO_PLACE)));
    }
}

#[test]
fn octet_30_in_a_table() {
    // Call 1 holds the only circuit, and rings.
    let mut held = [0; CIRCUIT_SIZE];
    let set_up = event_of(SET_UP, ROUTINE, call(1), 0);
    assert_eq!(apply(&mut held, &set_up, &mut [0; ANSWER_SIZE]), SEIZED);
    assert_eq!(held[CIRCUIT_RESERVED..CIRCUIT_RINGING], [0; 18]);
    assert_eq!(held[CIRCUIT_RINGING..], [1, 0]);

    let octet_30 = |octet: u8| (CIRCUIT_RINGING, octet);
    let reserved = [
        (CIRCUIT_RESERVED, 1),
        (CIRCUIT_RESERVATION_LEVEL, PRIORITY),
        (CIRCUIT_RESERVATION_REFERENCE, 2),
    ];
    let free = [0; CIRCUIT_SIZE];
    let (bare, above) = (with(&free, &reserved), with(&held, &reserved));
    let mark_off = (CIRCUIT_HOLDER_LEVEL, NO_PRECEDENCE);
    for table in [
        held,
        bare,
        with(&held, &[octet_30(0)]),
        with(&above, &[octet_30(0)]),
        with(&held, &[mark_off]),
    ] {
        assert_eq!(check(&table), VALID);
    }

    let no_digit = (CIRCUIT_HOLDER_DOMAIN, 0xa0);
    let routine = (CIRCUIT_RESERVATION_LEVEL, ROUTINE);
    let domain = (CIRCUIT_RESERVATION_DOMAIN + 4, 1);
    let (wrong_flag, last) = ((CIRCUIT_RESERVED, 2), (CIRCUIT_ZERO + 3, 1));
    for (table, changes, number) in [
        (&held, &[octet_30(2)][..], FLAG_OR_LEVEL),
        (&held, &[octet_30(255)], FLAG_OR_LEVEL),
        (&held, &[octet_30(2), mark_off], FLAG_OR_LEVEL),
        (&held, &[octet_30(2), no_digit], FLAG_OR_LEVEL),
        (&above, &[octet_30(2)], FLAG_OR_LEVEL),
        (&free, &[octet_30(2), wrong_flag], FLAG_OR_LEVEL),
        (&above, &[no_digit], DIGIT_OR_POINT_CODE),
        (&free, &[octet_30(1)], NOT_ZERO),
        (&free, &[octet_30(2)], NOT_ZERO),
        (&free, &[octet_30(255)], NOT_ZERO),
        (&bare, &[octet_30(1)], NOT_ZERO),
        (&bare, &[octet_30(2)], NOT_ZERO),
        (&held, &[(CIRCUIT_ZERO, 1)], NOT_ZERO),
        (&held, &[(CIRCUIT_ZERO + 1, 1)], NOT_ZERO),
        (&held, &[last], NOT_ZERO),
        (&above, &[last], NOT_ZERO),
        (&above, &[], NOT_ABOVE_HOLDER),
        (&above, &[routine], NOT_ABOVE_HOLDER),
        (&above, &[domain], NOT_ABOVE_HOLDER),
        (&above, &[mark_off], NOT_ABOVE_HOLDER),
    ] {
        refused_everywhere(&with(table, changes), number, 0);
    }

    // A holder with 0 there counts as answered, as one of a table that an earlier version kept does.
    let (mut kept, mut answer) = (with(&held, &[octet_30(0)]), [0xff; ANSWER_SIZE]);
    let set_up = event_of(SET_UP, PRIORITY, call(2), 0);
    apply(&mut kept, &set_up, &mut answer);
    assert_eq!(line(1, &answer), "1 2 0 0 1/1 -");
}

// The optional part of an initial address message.
const PART: [u8; 22] = [
    0x0a, 0x07, 0x84, 0x13, 0x64, 0x18, 0x32, 0x54, 0x06, // place 0: a calling party number
    0x39, 0x02, 0x3a, 0xc0, // place 9: what to do with name 58 where it is not known
    0x3a, 0x06, 0x43, 0x04, 0x60, 0x00, 0x00, 0x01, // place 13: precedence
    0x00, // place 21: the end
];

// The same parameters as a list, with a spare bit of precedence set.
const LIST: [u8; 24] = [
    0x0a, 0x07, 0x00, 0x84, 0x13, 0x64, 0x18, 0x32, 0x54, 0x06, // the first
    0x39, 0x02, 0x00, 0x3a, 0xc0, // the second
    0x3a, 0x06, 0x00, 0xc3, 0x04, 0x60, 0x00, 0x00, 0x01, // precedence
];

const PRECEDENCE: [u8; 8] = [58, 6, 0x43, 0x04, 0x60, 0, 0, 1];

// Precedence of another length, of level 5, of LFB 11, and with a digit above 9.
const WRONG_PRECEDENCES: [&[u8]; 6] = [
    &[58, 0],
    &[58, 5, 0x43, 0x04, 0x60, 0, 0],
    &[58, 7, 0x43, 0x04, 0x60, 0, 0, 1, 0],
    &[58, 6, 0x45, 0x04, 0x60, 0, 0, 1],
    &[58, 6, 0x63, 0x04, 0x60, 0, 0, 1],
    &[58, 6, 0x43, 0x04, 0x6a, 0, 0, 1],
];

// A parameter of a part as it stands in a list.
fn listed(parameter: &[u8]) -> Vec<u8> {
    [&parameter[..2], &[0], &parameter[2..]].concat()
}

// What a step gives at the end and at a refusal.
fn stays(number: u8, place: usize) -> ParameterReading {
    ParameterReading {
        number,
        name: NAME_END,
        length: 0,
        start: 0,
        next: place,
    }
}

// What the search gives at a refusal, and, by number 0, in a part of so many octets without precedence.
fn not_found(number: u8, end: usize) -> FoundPrecedence {
    FoundPrecedence {
        number,
        found: 0,
        start: 0,
        end,
        value: Precedence::default(),
    }
}

// What the search gives in `PART`.
const FOUND: FoundPrecedence = FoundPrecedence {
    number: DONE,
    found: 1,
    start: 15,
    end: 22,
    value: Precedence {
        level: PRIORITY,
        lfb: LFB_NOT_ALLOWED,
        digits: [0, 4, 6, 0],
        service: 1,
    },
};

#[test]
fn steps_through_a_part() {
    let mut place = 0;
    for (name, length, start, next) in [(10, 7, 2, 9), (57, 2, 11, 13), (58, 6, 15, 21)] {
        let wanted = ParameterReading {
            number: DONE,
            name,
            length,
            start,
            next,
        };
        assert_eq!(next_parameter(&PART, place), wanted);
        place = next;
    }
    // The walk is over at the end: the next place is the same again.
    assert_eq!(next_parameter(&PART, place), stays(DONE, 21));
    for place in [22, 23, usize::MAX - 1, usize::MAX] {
        assert_eq!(next_parameter(&PART, place), stays(NO_END, place));
    }
    // From a place where no name stands: 0xc0 is taken as a name, and 58 octets of contents are not there.
    assert_eq!(next_parameter(&PART, 12), stays(PARAMETER_CUT_SHORT, 12));

    // Precedence is one parameter among others here.
    let twice = [&PRECEDENCE[..], &[58, 0], &[0]].concat();
    assert_eq!(next_parameter(&twice, 8).number, DONE);
    // Contents of no octets and of 255.
    assert_eq!(next_parameter(&[7, 0, 0], 0).next, 2);
    let longest = [&[7, 255][..], &[0; 255]].concat();
    assert_eq!(next_parameter(&longest, 0).next, 257);
    assert_eq!(
        next_parameter(&longest[..256], 0),
        stays(PARAMETER_CUT_SHORT, 0)
    );
}

#[test]
fn precedence_in_a_part() {
    assert_eq!(find_precedence(&PART), FOUND);
    // Octets behind the end, and spare bits.
    let mut longer = [&PART[..], &PRECEDENCE, &[1]].concat();
    assert_eq!(find_precedence(&longer), FOUND);
    longer[15] |= 0x90;
    assert_eq!(find_precedence(&longer), FOUND);

    // Parts without precedence; the last has a call reference.
    assert_eq!(find_precedence(&[0]), not_found(DONE, 1));
    assert_eq!(find_precedence(&[0, 58, 0]), not_found(DONE, 1));
    let part = [1, 5, 3, 2, 1, 0xde, 0x3f, 7, 0, 0];
    assert_eq!(find_precedence(&part), not_found(DONE, 10));
}

#[test]
fn every_prefix_of_a_part() {
    for length in 0..PART.len() {
        let number = match length {
            0 | 9 | 13 | 21 => NO_END,
            _ => PARAMETER_CUT_SHORT,
        };
        assert_eq!(find_precedence(&PART[..length]), not_found(number, 0));
    }
}

#[test]
fn parts_that_are_refused() {
    let refused = |parts: &[&[u8]], number: u8| {
        assert_eq!(find_precedence(&parts.concat()), not_found(number, 0));
    };
    for part in [&[1][..], &[58], &[1, 1], &[1, 3, 0, 0], &PRECEDENCE[..7]] {
        refused(&[part], PARAMETER_CUT_SHORT);
    }
    // In the last the zeros are contents.
    for part in [&[][..], &PRECEDENCE, &[7, 0], &[1, 2, 0, 0]] {
        refused(&[part], NO_END);
    }
    refused(&[&PRECEDENCE, &PRECEDENCE, &[0]], PRECEDENCE_TWICE);
    // At one parameter 61 goes before 63 and 22, and 63 before 22. The first parameter with a fault decides.
    refused(&[&PRECEDENCE, &PRECEDENCE[..7]], PARAMETER_CUT_SHORT);
    refused(&[&[58, 7, 0xff]], PARAMETER_CUT_SHORT);
    refused(&[&PRECEDENCE, &PRECEDENCE, &[1]], PRECEDENCE_TWICE);
    for wrong in WRONG_PRECEDENCES {
        refused(&[wrong, &[0]], MALFORMED);
        refused(&[wrong, &PRECEDENCE, &[1]], MALFORMED);
        refused(&[&PRECEDENCE, wrong, &[0]], PRECEDENCE_TWICE);
    }
}

fn write(buffer: &mut [u8], list: &[u8]) -> WrittenPart {
    guarded(buffer, |buffer| write_optional(buffer, list))
}

#[test]
fn part_from_a_list() {
    // Buffers of the exact length and longer: octets behind the end stay.
    for room in [22, 23, 40] {
        let mut buffer = vec![0xff; room];
        let written = WrittenPart {
            number: DONE,
            end: 22,
        };
        assert_eq!(write(&mut buffer, &LIST), written);
        assert_eq!(buffer[..22], PART);
        assert!(buffer[22..].iter().all(|&octet| octet == 0xff));
        assert_eq!(find_precedence(&buffer), FOUND);
    }

    let mut buffer = [0xff; 3];
    let written = WrittenPart {
        number: DONE,
        end: 1,
    };
    assert_eq!(write(&mut buffer, &[]), written);
    assert_eq!(buffer, [0, 0xff, 0xff]);

    // Contents of no octets and of 255.
    let longest = [&[7, 0, 0, 7, 255, 0][..], &[1; 255]].concat();
    let mut buffer = [0xff; 260];
    let written = WrittenPart {
        number: DONE,
        end: 260,
    };
    assert_eq!(write(&mut buffer, &longest), written);
    assert_eq!(buffer[..5], [7, 0, 7, 255, 1]);
    assert_eq!(find_precedence(&buffer), not_found(DONE, 260));
}

#[test]
fn lists_that_are_refused() {
    let refused = |parts: &[&[u8]], room: usize, number: u8| {
        let mut buffer = vec![0xff; room];
        let written = WrittenPart { number, end: 0 };
        assert_eq!(write(&mut buffer, &parts.concat()), written);
        assert!(buffer.iter().all(|&octet| octet == 0xff));
    };
    // A list, and the octets that its part would have: with one octet less 20 goes before the number.
    let refused_by = |parts: &[&[u8]], need: usize, number: u8| {
        refused(parts, need, number);
        refused(parts, need + 1, number);
        refused(parts, need - 1, WRONG_LENGTH);
    };
    for room in 0..22 {
        refused(&[&LIST], room, WRONG_LENGTH);
    }
    refused(&[], 0, WRONG_LENGTH);
    // A list that is cut short, whatever the room.
    for length in (1..LIST.len()).filter(|length| ![10, 15].contains(length)) {
        refused(&[&LIST[..length]], 64, WRONG_LENGTH);
    }
    refused(&[&[0, 0, 0, 1]], 64, WRONG_LENGTH);

    refused_by(&[&[0, 0, 0]], 3, MALFORMED);
    refused_by(&[&[7, 0, 1], &[0; 256]], 259, MALFORMED);
    // 22 anywhere in the list goes before 63.
    let precedence = listed(&PRECEDENCE);
    refused_by(&[&precedence, &precedence], 17, PRECEDENCE_TWICE);
    refused_by(&[&precedence, &precedence, &[0, 0, 0]], 19, MALFORMED);
    for wrong in WRONG_PRECEDENCES {
        let need = wrong.len() + 1;
        refused_by(&[&listed(wrong)], need, MALFORMED);
        refused_by(&[&precedence, &listed(wrong)], need + 8, MALFORMED);
    }
}
