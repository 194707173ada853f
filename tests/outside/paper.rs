// P1 to P12 and the paper's other examples, copied from document 01 by hand, the line that document 02's L7 adds to its listing, the figures of these
// ten events, bad tables worked out by the words of L2, L4 and L7, events by those of L4 and L7, optional parts and lists by those of L5, and 01's
// test of 28, which L6 takes out: the independent implementation is held to them first.

use crate::independent::{Call, Check, Circuit, Holder, Mark, Precedence};
use crate::optional::{Found, Step};
use crate::{figures, independent, optional};

const SET_UP: u8 = 1;
const RELEASE: u8 = 2;
const LOOK_AHEAD: u8 = 3;
const CANCEL: u8 = 4;
const CLOCK: u8 = 5;
const NO_SERVICE: u8 = 6;
const ANSWERED: u8 = 7;

// Kind, level, call identity, clock; zero domain, point code 1, LFB allowed.
fn event(kind: u8, level: u8, identity: u8, clock: u32) -> [u8; 16] {
    let mut octets = [0; 16];
    octets[0] = kind;
    octets[1] = level;
    if kind != CLOCK {
        octets[7] = identity;
        octets[10] = 1;
    }
    octets[12..].copy_from_slice(&clock.to_le_bytes());
    octets
}

fn answer(table: &mut [u8], event: [u8; 16]) -> [u8; 16] {
    let mut answer = [0xff; 16];
    let number = independent::event(table, &event, &mut answer);
    assert_eq!(number, answer[0]);
    answer
}

// Answer, cause, number and the lost call's identity, as a line of the program's output has them.
fn line(table: &mut [u8], event: [u8; 16]) -> (u8, u8, u16, u8) {
    let answer = answer(table, event);
    assert!(answer[10..].iter().all(|&o| o == 0));
    (answer[0], answer[1], u16::from_le_bytes([answer[2], answer[3]]), answer[5])
}

// The ten events, each with its line: P1, the one that L7 adds, then P2 to P9.
fn listing() -> [([u8; 16], (u8, u8, u16, u8)); 10] {
    [
        (event(SET_UP, 4, 1, 0), (1, 0, 0, 0)),
        (event(ANSWERED, 0, 1, 0), (9, 0, 0, 0)),
        (event(LOOK_AHEAD, 2, 2, 100), (3, 0, 1, 0)),
        (event(SET_UP, 3, 3, 0), (2, 0, 0, 1)),
        (event(SET_UP, 3, 4, 0), (31, 46, 65535, 0)),
        (event(RELEASE, 0, 1, 0), (27, 0, 65535, 0)),
        (event(CLOCK, 0, 0, 3099), (7, 0, 0, 0)),
        (event(CLOCK, 0, 0, 3100), (7, 0, 1, 0)),
        (event(SET_UP, 3, 4, 0), (1, 0, 1, 0)),
        (event(SET_UP, 4, 5, 0), (30, 34, 65535, 0)),
    ]
}

// Of the ten events three are seizures, and a PRIORITY call took a circuit from a ROUTINE one; two circuits are held at the end.
fn hold_figures() {
    let events = listing().map(|(event, _)| event).concat();
    let mut wanted = [0; figures::TOTALS];
    for (place, total) in [(0, 1), (2, 3), (4, 1), (5, 2), (6 + 5 * 3 + 4, 1)] {
        wanted[place] = total;
    }
    for (number, total) in [(1, 2), (2, 1), (3, 1), (7, 2), (9, 1), (27, 1), (30, 1), (31, 1)] {
        wanted[31 + number] = total;
    }
    let (mut table, mut totals) = ([0; 64], [0; figures::TOTALS]);
    assert_eq!(figures::figures(&mut table, &events, &mut [0; 10 * 16], &mut totals), 0);
    assert_eq!(totals, wanted);
}

// Three records: call 1 holds the first at ROUTINE and call 2 has it reserved at IMMEDIATE, call 3 holds the second at PRIORITY, the third is
// free. Point code 1, zero domain; some octets are changed.
fn three_records(changes: &[(usize, u8)]) -> [u8; 96] {
    let mut table = [0; 96];
    let first = [(0, 1), (1, 4), (7, 1), (10, 1), (12, 1), (13, 2), (19, 2), (22, 1), (24, 100)];
    let second = [(32, 1), (33, 3), (39, 3), (42, 1)];
    for (place, octet) in first.iter().chain(&second).chain(changes) {
        table[*place] = *octet;
    }
    table
}

// What is changed, the number, and the record.
type BadTable = (&'static [(usize, u8)], u8, u16);

// One thing wrong, or what is not wrong.
const ONE_FAULT: &[BadTable] = &[
    (&[], 0, 65535),
    (&[(1, 3)], 0, 65535),
    (&[(13, 3), (2, 0x99), (14, 0x99), (11, 0x3f)], 0, 65535),
    (&[(0, 2)], 41, 0),
    (&[(12, 255)], 41, 0),
    (&[(32, 2)], 41, 1),
    (&[(76, 2)], 41, 2),
    (&[(1, 5)], 41, 0),
    (&[(13, 5)], 41, 0),
    (&[(33, 14)], 41, 1),
    (&[(33, 16)], 41, 1),
    (&[(2, 0xa0)], 42, 0),
    (&[(2, 0x0a)], 42, 0),
    (&[(3, 0xa0)], 42, 0),
    (&[(15, 0x0a)], 42, 0),
    (&[(34, 0xf0)], 42, 1),
    (&[(11, 0x40)], 42, 0),
    (&[(23, 0x80)], 42, 0),
    (&[(0, 0)], 43, 0),
    (&[(12, 0)], 43, 0),
    (&[(65, 5)], 43, 2),
    (&[(66, 0xa0)], 43, 2),
    (&[(75, 0x40)], 43, 2),
    (&[(59, 1)], 43, 1),
    (&[(28, 1)], 43, 0),
    (&[(95, 0x80)], 43, 2),
    (&[(13, 4)], 44, 0),
    (&[(1, 2)], 44, 0),
    (&[(1, 1)], 44, 0),
    (&[(6, 1)], 44, 0),
    (&[(14, 0x10)], 44, 0),
    (&[(39, 1)], 45, 1),
    (&[(39, 2)], 45, 1),
    (&[(19, 1)], 45, 0),
];

// Level 15: in the holder's part, the reservation's and an absent one, in the zero domain and another, with a reservation above and without.
const WITHOUT_MARK: &[BadTable] = &[
    (&[(33, 15)], 0, 65535),
    (&[(33, 15), (38, 1)], 41, 1),
    (&[(33, 15), (34, 0x10)], 41, 1),
    (&[(33, 15), (34, 0xa0)], 41, 1),
    (&[(33, 15), (43, 0x40)], 42, 1),
    (&[(33, 15), (60, 1)], 43, 1),
    (&[(33, 15), (39, 1)], 45, 1),
    (&[(13, 15)], 41, 0),
    (&[(76, 1), (77, 15)], 41, 2),
    (&[(65, 15)], 43, 2),
    (&[(77, 15)], 43, 2),
    (&[(1, 15)], 44, 0),
    (&[(1, 15), (13, 4)], 44, 0),
    (&[(1, 15), (18, 1)], 44, 0),
    (&[(1, 15), (19, 1)], 44, 0),
    (&[(1, 15), (13, 15)], 41, 0),
    (&[(1, 15), (6, 1), (18, 1)], 41, 0),
    (&[(1, 15), (14, 0xa0)], 42, 0),
    (&[(1, 15), (28, 1)], 43, 0),
];

// A third record that is reserved by call 4 at IMMEDIATE, with no holder, and an octet 30.
const fn reserved_alone(ringing: u8) -> [(usize, u8); 5] {
    [(76, 1), (77, 2), (83, 4), (86, 1), (94, ringing)]
}

// Octet 30, by the rows of L7: with a holder and with none, with a reservation and with none; then beside another fault of the record.
const RINGING: &[BadTable] = &[
    (&[(62, 1)], 0, 65535),
    (&[(62, 2)], 41, 1),
    (&[(62, 3)], 41, 1),
    (&[(62, 128)], 41, 1),
    (&[(62, 255)], 41, 1),
    (&[(30, 2)], 41, 0),
    (&[(30, 255)], 41, 0),
    (&[(94, 1)], 43, 2),
    (&[(94, 2)], 43, 2),
    (&[(94, 255)], 43, 2),
    (&reserved_alone(0), 0, 65535),
    (&reserved_alone(1), 43, 2),
    (&reserved_alone(2), 43, 2),
    (&reserved_alone(255), 43, 2),
    (&[(30, 1)], 44, 0),
    // The reservation above the ringing holder at each other level and domain, and above level 15.
    (&[(30, 1), (13, 0)], 44, 0),
    (&[(30, 1), (13, 4)], 44, 0),
    (&[(30, 1), (1, 1)], 44, 0),
    (&[(30, 1), (6, 1)], 44, 0),
    (&[(30, 1), (1, 15)], 44, 0),
    (&[(30, 1), (13, 5)], 41, 0),
    (&[(30, 1), (14, 0xa0)], 42, 0),
    (&[(30, 1), (28, 1)], 43, 0),
    (&[(30, 1), (31, 1)], 43, 0),
    (&[(30, 1), (19, 1)], 44, 0),
    (&[(30, 2), (2, 0xa0)], 41, 0),
    (&[(30, 2), (31, 1)], 41, 0),
    (&[(30, 1), (0, 0)], 43, 0),
    (&[(30, 1), (32, 2)], 44, 0),
    (&[(62, 1), (33, 15)], 0, 65535),
    (&[(62, 1), (33, 15), (38, 1)], 41, 1),
    (&[(62, 2), (33, 15)], 41, 1),
    (&[(62, 1), (43, 0x40)], 42, 1),
    (&[(62, 1), (60, 1)], 43, 1),
    (&[(62, 1), (61, 1)], 43, 1),
    (&[(62, 1), (63, 1)], 43, 1),
    (&[(62, 1), (39, 1)], 45, 1),
    (&[(94, 1), (64, 2)], 41, 2),
    (&[(94, 2), (76, 2)], 41, 2),
    (&[(94, 1), (66, 0xa0)], 43, 2),
];

// Several things wrong: in one record, in two, and references that stand in an earlier part.
const MORE_FAULTS: &[BadTable] = &[
    (&[(2, 0xa0), (13, 5)], 41, 0),
    (&[(14, 0xa0), (1, 5)], 41, 0),
    (&[(28, 1), (14, 0xa0)], 42, 0),
    (&[(12, 0), (2, 0xa0)], 42, 0),
    (&[(28, 1), (13, 4)], 43, 0),
    (&[(28, 1), (32, 2)], 43, 0),
    (&[(13, 4), (32, 2)], 44, 0),
    (&[(34, 0xa0), (76, 2)], 42, 1),
    (&[(19, 1), (13, 4)], 44, 0),
    (&[(19, 1), (28, 1)], 43, 0),
    (&[(39, 1), (66, 1)], 43, 2),
    (&[(19, 1), (34, 0xa0)], 42, 1),
    (&[(19, 1), (76, 2)], 41, 2),
    (&[(19, 1), (39, 1)], 45, 0),
    (&[(64, 1), (71, 1), (74, 1)], 45, 2),
    (&[(64, 1), (71, 3), (74, 1), (39, 2)], 45, 1),
];

// The check names the record; so does each event that is not malformed, and none changes the table.
fn hold_bad_tables() {
    for &(changes, number, record) in ONE_FAULT.iter().chain(WITHOUT_MARK).chain(RINGING).chain(MORE_FAULTS) {
        let mut table = three_records(changes);
        assert_eq!(independent::check(&table), Check { number, record }, "{:?}", changes);
        if number == 0 {
            continue;
        }
        assert_eq!(line(&mut table, event(RELEASE, 0, 1, 0)), (number, 0, record, 0));
        assert_eq!(line(&mut table, event(0, 0, 1, 0)), (22, 0, 65535, 0));
        assert_eq!(table, three_records(changes));
    }
}

// The marks of all three circuits come off, one with the reservation above it, and no call of the zero domain takes them any more.
fn hold_no_service() {
    let table = &mut three_records(&[]);
    assert_eq!(line(table, event(NO_SERVICE, 0, 2, 0)), (27, 0, 65535, 0));
    assert_eq!(line(table, event(NO_SERVICE, 1, 1, 0)), (22, 0, 65535, 0));
    assert_eq!(table, &three_records(&[]));
    assert_eq!(answer(table, event(NO_SERVICE, 0, 1, 0)), [8, 0, 0, 0, 0, 0, 0, 0, 0, 0, 1, 2, 0, 0, 1, 0]);
    let without_mark = three_records(&[(1, 15), (12, 0), (13, 0), (19, 0), (22, 0), (24, 0)]);
    assert_eq!(table, &without_mark);
    assert_eq!(line(table, event(NO_SERVICE, 0, 1, 7)), (8, 0, 0, 0));
    assert_eq!(table, &without_mark);

    let later = [
        (event(SET_UP, 0, 4, 0), (1, 0, 2, 0)),
        (event(SET_UP, 1, 5, 0), (2, 0, 1, 3)),
        (event(NO_SERVICE, 0, 3, 0), (27, 0, 65535, 0)),
        (event(NO_SERVICE, 0, 5, 0), (8, 0, 1, 0)),
        (event(NO_SERVICE, 0, 4, 0), (8, 0, 2, 0)),
        (event(SET_UP, 0, 6, 0), (31, 46, 65535, 0)),
        (event(SET_UP, 4, 6, 0), (30, 34, 65535, 0)),
        (event(LOOK_AHEAD, 0, 6, 0), (32, 0, 65535, 0)),
        (event(SET_UP, 0, 1, 0), (25, 0, 65535, 0)),
        (event(SET_UP, 15, 1, 0), (22, 0, 65535, 0)),
        (event(LOOK_AHEAD, 0, 1, 0), (25, 0, 65535, 0)),
        (event(LOOK_AHEAD, 4, 1, 0), (24, 0, 65535, 0)),
        (event(CANCEL, 0, 1, 0), (27, 0, 65535, 0)),
        (event(RELEASE, 0, 1, 0), (5, 0, 0, 0)),
        (event(SET_UP, 4, 6, 0), (1, 0, 0, 0)),
    ];
    for (event, wanted) in later {
        assert_eq!(line(table, event), wanted);
    }
}

// An event, its answer as number, place, lost call and lost reservation, and octet 30 of both circuits after it.
type Ringing = ([u8; 16], (u8, u16, u8, u8), [u8; 2]);

// A route of two circuits. A call rings from its set-up on, which is on a free circuit, a taken one or its own reservation, with a holder under it and
// without; it rings until it is answered or released, and nobody takes it or reserves above it before.
fn ringing() -> Vec<Ringing> {
    vec![
        (event(SET_UP, 4, 1, 0), (1, 0, 0, 0), [1, 0]),
        (event(LOOK_AHEAD, 3, 2, 0), (3, 1, 0, 0), [1, 0]),
        (event(CANCEL, 0, 2, 0), (6, 1, 0, 0), [1, 0]),
        (event(LOOK_AHEAD, 3, 2, 0), (3, 1, 0, 0), [1, 0]),
        (event(CLOCK, 0, 0, 3000), (7, 1, 0, 0), [1, 0]),
        (event(LOOK_AHEAD, 3, 2, 0), (3, 1, 0, 0), [1, 0]),
        (event(SET_UP, 3, 3, 0), (31, 65535, 0, 0), [1, 0]),
        (event(LOOK_AHEAD, 3, 3, 0), (32, 65535, 0, 0), [1, 0]),
        (event(SET_UP, 4, 1, 0), (25, 65535, 0, 0), [1, 0]),
        (event(LOOK_AHEAD, 0x42, 1, 0), (23, 65535, 0, 0), [1, 0]),
        (event(LOOK_AHEAD, 4, 1, 0), (24, 65535, 0, 0), [1, 0]),
        (event(LOOK_AHEAD, 2, 1, 0), (25, 65535, 0, 0), [1, 0]),
        (event(CANCEL, 0, 1, 0), (27, 65535, 0, 0), [1, 0]),
        (event(ANSWERED, 0, 2, 0), (27, 65535, 0, 0), [1, 0]),
        (event(ANSWERED, 0, 9, 0), (27, 65535, 0, 0), [1, 0]),
        // A reservation with no holder is taken, then the answered FLASH call that took it, before the ringing ROUTINE one.
        (event(SET_UP, 1, 4, 0), (2, 1, 0, 2), [1, 1]),
        (event(ANSWERED, 0, 4, 0), (9, 1, 0, 0), [1, 0]),
        (event(SET_UP, 0, 5, 0), (2, 1, 4, 0), [1, 1]),
        (event(SET_UP, 0, 6, 0), (31, 65535, 0, 0), [1, 1]),
        (event(ANSWERED, 0, 1, 0), (9, 0, 0, 0), [0, 1]),
        (event(ANSWERED, 0, 1, 7), (9, 0, 0, 0), [0, 1]),
        (event(LOOK_AHEAD, 2, 6, 0), (3, 0, 0, 0), [0, 1]),
        (event(LOOK_AHEAD, 1, 7, 0), (4, 0, 0, 6), [0, 1]),
        (event(ANSWERED, 0, 1, 0), (9, 0, 0, 0), [0, 1]),
        (event(ANSWERED, 0, 7, 0), (27, 65535, 0, 0), [0, 1]),
        (event(SET_UP, 1, 7, 0), (2, 0, 1, 0), [1, 1]),
        // The mark comes off while it rings, and again, and then it is answered.
        (event(NO_SERVICE, 0, 7, 0), (8, 0, 0, 0), [1, 1]),
        (event(NO_SERVICE, 0, 7, 0), (8, 0, 0, 0), [1, 1]),
        (event(ANSWERED, 0, 7, 0), (9, 0, 0, 0), [0, 1]),
        (event(SET_UP, 0, 8, 0), (31, 65535, 0, 0), [0, 1]),
        (event(RELEASE, 0, 7, 0), (5, 0, 0, 0), [0, 1]),
        (event(LOOK_AHEAD, 3, 8, 0), (3, 0, 0, 0), [0, 1]),
        (event(SET_UP, 3, 8, 0), (1, 0, 0, 0), [1, 1]),
        (event(CLOCK, 0, 0, 5000), (7, 0, 0, 0), [1, 1]),
        (event(RELEASE, 0, 8, 0), (5, 0, 0, 0), [0, 1]),
        // It is answered first, and then the mark comes off.
        (event(SET_UP, 4, 9, 0), (1, 0, 0, 0), [1, 1]),
        (event(ANSWERED, 0, 9, 0), (9, 0, 0, 0), [0, 1]),
        (event(NO_SERVICE, 0, 9, 0), (8, 0, 0, 0), [0, 1]),
        (event(ANSWERED, 0, 9, 0), (9, 0, 0, 0), [0, 1]),
        (event(RELEASE, 0, 9, 0), (5, 0, 0, 0), [0, 1]),
        (event(RELEASE, 0, 5, 0), (5, 1, 0, 0), [0, 0]),
    ]
}

fn hold_ringing() {
    let table = &mut [0; 64];
    for (event, wanted, rings) in ringing() {
        let answer = answer(table, event);
        assert_eq!((answer[0], u16::from_le_bytes([answer[2], answer[3]]), answer[5], answer[11]), wanted, "{:?}", event);
        assert_eq!([table[30], table[62]], rings, "{:?}", event);
        assert_eq!(independent::check(table).number, 0, "{:?}", event);
    }
    assert_eq!(table, &[0; 64]);

    // Every bit of its parameter makes it malformed; the spare bits of its reference and the clock are ignored; the rest of the record stays.
    let table = &mut three_records(&[(62, 1)]);
    for bit in 0..48 {
        let mut malformed = event(ANSWERED, 0, 3, 0);
        malformed[1 + bit / 8] = 1 << (bit % 8);
        assert_eq!(line(table, malformed), (22, 0, 65535, 0));
        assert_eq!(table, &three_records(&[(62, 1)]));
    }
    let mut spare = event(ANSWERED, 0, 3, u32::MAX);
    spare[11] = 0xc0;
    assert_eq!(answer(table, spare), [9, 0, 1, 0, 0, 0, 0, 0, 0, 0, 0, 0, 0, 0, 0, 0]);
    assert_eq!(table, &three_records(&[]));
    assert_eq!(line(table, event(ANSWERED, 0, 1, 0)), (9, 0, 0, 0));
    assert_eq!(table, &three_records(&[]));
}

// The optional part of an initial address message: calling party number, what to do with name 58, precedence, and the end.
const PART: [u8; 22] =
    [0x0a, 7, 0x84, 0x13, 0x64, 0x18, 0x32, 0x54, 0x06, 0x39, 2, 0x3a, 0xc0, 0x3a, 6, 0x43, 0x04, 0x60, 0, 0, 1, 0];

// The same as a list, with both spare bits of the precedence set.
const LIST: [u8; 24] =
    [0x0a, 7, 0, 0x84, 0x13, 0x64, 0x18, 0x32, 0x54, 0x06, 0x39, 2, 0, 0x3a, 0xc0, 0x3a, 6, 0, 0xd3, 0x04, 0x60, 0, 0, 1];

const P: [u8; 8] = [58, 6, 0x43, 0x04, 0x60, 0, 0, 1];

fn search(pieces: &[&[u8]]) -> Found {
    optional::find_precedence(&pieces.concat())
}

// Parts that are accepted without precedence, in pieces, and how many octets each has with its end.
const WITHOUT_PRECEDENCE: &[(&[&[u8]], usize)] = &[
    (&[&[0]], 1),
    (&[&[0, 58, 6, 0xff]], 1),
    (&[&[0], &P, &[0]], 1),
    (&[&[1, 0, 0]], 3),
    (&[&[57, 6, 0x43, 0x04, 0x60, 0, 0, 1, 0]], 9),
    (&[&[1, 8], &P, &[0]], 11),
    (&[&[1, 0, 1, 0, 59, 1, 58, 0]], 8),
    (&[&[255, 255], &[0; 255], &[0]], 258),
];

// Refused parts, in pieces.
const REFUSED_PARTS: &[(&[&[u8]], u8)] = &[
    (&[], 62),
    (&[&[1, 2, 0, 0]], 62),
    (&[&[1, 0]], 62),
    (&[&P], 62),
    (&[&[1]], 61),
    (&[&[58]], 61),
    (&[&[1, 1]], 61),
    (&[&[1, 3, 0, 0]], 61),
    (&[&[255, 255], &[0; 254]], 61),
    (&[&P, &P, &[0]], 63),
    (&[&P, &[1, 0], &P, &[0]], 63),
    (&[&[58, 0, 0]], 22),
    (&[&[58, 5, 0x43, 0x04, 0x60, 0, 0, 0]], 22),
    (&[&[58, 7, 0x43, 0x04, 0x60, 0, 0, 1, 0, 0]], 22),
    (&[&[58, 6, 0x45, 0x04, 0x60, 0, 0, 1, 0]], 22),
    (&[&[58, 6, 0x63, 0x04, 0x60, 0, 0, 1, 0]], 22),
    (&[&[58, 6, 0x43, 0x0a, 0x60, 0, 0, 1, 0]], 22),
    // Twice, the second malformed; the first malformed; the second cut short.
    (&[&P, &[58, 0, 0]], 63),
    (&[&[58, 0], &P, &[0]], 22),
    (&[&P, &[58]], 61),
    (&[&P, &[58, 6, 0x43]], 61),
    // Malformed before a cut, and before there is no end; cut short itself; twice before a cut.
    (&[&[58, 0, 1, 1]], 22),
    (&[&[58, 0]], 22),
    (&[&[58, 6, 0x4f, 0x04, 0x60, 0, 0]], 61),
    (&[&P, &P, &[1]], 63),
    (&[&P, &P], 63),
];

fn hold_parts() {
    let value = Precedence { level: 3, lfb: 2, digits: [0, 4, 6, 0], service: 1 };
    assert_eq!(search(&[&PART]), Found { number: 0, found: 1, start: 15, end: 22, value });
    assert_eq!(search(&[&PART, &P, &[1]]), search(&[&PART]));
    assert_eq!(search(&[&[58, 6, 0xd3, 0x04, 0x60, 0, 0, 1, 0]]), Found { number: 0, found: 1, start: 2, end: 9, value });
    for length in 0..22 {
        let number = if [0, 9, 13, 21].contains(&length) { 62 } else { 61 };
        assert_eq!(search(&[&PART[..length]]), Found { number, ..Found::default() }, "{} octets", length);
    }
    for &(pieces, end) in WITHOUT_PRECEDENCE {
        assert_eq!(search(pieces), Found { end, ..Found::default() }, "{:?}", pieces);
    }
    for &(pieces, number) in REFUSED_PARTS {
        assert_eq!(search(pieces), Found { number, ..Found::default() }, "{:?}", pieces);
    }
}

// The walk through the part, and places where it does not go.
fn hold_steps() {
    let parameter = |name, length, start, next| Step { number: 0, name, length, start, next };
    let stays = |number, next| Step { number, next, ..Step::default() };
    let wanted = [
        (0, parameter(10, 7, 2, 9)),
        (9, parameter(57, 2, 11, 13)),
        (13, parameter(58, 6, 15, 21)),
        (21, stays(0, 21)),
        (1, stays(61, 1)),
        (11, stays(61, 11)),
        (18, stays(0, 18)),
        (20, parameter(1, 0, 22, 22)),
        (22, stays(62, 22)),
        (23, stays(62, 23)),
        (usize::MAX, stays(62, usize::MAX)),
    ];
    for (place, step) in wanted {
        assert_eq!(optional::next_parameter(&PART, place), step, "place {}", place);
    }
}

// Lists in pieces, each with the room that its part needs and the number that it gets there.
const LISTS: &[(&[&[u8]], usize, u8)] = &[
    (&[], 1, 0),
    (&[&[1, 0, 0]], 3, 0),
    (&[&[1, 255, 0], &[0; 255]], 258, 0),
    (&[&[1, 0, 1], &[0; 256]], 259, 22),
    (&[&[0, 0, 0]], 3, 22),
    (&[&[58, 5, 0, 0x43, 0x04, 0x60, 0, 0]], 8, 22),
    (&[&[58, 7, 0, 0x43, 0x04, 0x60, 0, 0, 1, 0]], 10, 22),
    (&[&[58, 6, 0, 0x4f, 0x04, 0x60, 0, 0, 1]], 9, 22),
    (&[&[58, 6, 0, 4, 0, 0, 0, 0, 0], &[58, 6, 0, 4, 0, 0, 0, 0, 0]], 17, 63),
    (&[&[58, 6, 0, 4, 0, 0, 0, 0, 0], &[58, 0, 0]], 11, 22),
    (&[&[58, 6, 0, 4, 0, 0, 0, 0, 0], &[58, 6, 0, 4, 0, 0, 0, 0, 0], &[0, 0, 0]], 19, 22),
];

fn hold_lists() {
    let mut buffer = [0xee; 24];
    assert_eq!(optional::write_optional(&mut buffer, &LIST), (0, 22));
    assert_eq!((&buffer[..22], &buffer[22..]), (&PART[..], &[0xee; 2][..]));
    for &(pieces, need, number) in LISTS {
        let end = if number == 0 { need } else { 0 };
        for (room, wanted) in [(need - 1, (20, 0)), (need, (number, end)), (need + 1, (number, end))] {
            let mut buffer = vec![0xee; room];
            assert_eq!(optional::write_optional(&mut buffer, &pieces.concat()), wanted, "{:?} into {}", pieces, room);
            assert!(buffer[wanted.1..].iter().all(|&octet| octet == 0xee), "{:?} into {}", pieces, room);
        }
    }
    for length in 0..24 {
        let number = if [0, 10, 15].contains(&length) { 0 } else { 20 };
        assert_eq!(optional::write_optional(&mut [0; 24], &LIST[..length]).0, number, "{} octets", length);
    }
}

// Both sides of 01's test of 28, of a PRIORITY call on its own reservation. Of these circuits the check takes those alone where it does not refuse.
fn hold_twenty_eight() {
    let (domain, another) = ([0; 5], [0, 0, 0, 0, 1]);
    let call = Call { mark: Mark { level: 3, domain }, reference: [2, 0, 0, 1, 0] };
    let refused = |holder| independent::holder_not_lower(&Circuit { holder, reservation: Some((call, 0)) }, &call);
    let held = |mark| Some(Holder { mark, reference: [1, 0, 0, 1, 0], rings: false });
    assert!(!refused(None));
    assert!(!refused(held(Some(Mark { level: 4, domain }))));
    assert!(refused(held(Some(Mark { level: 3, domain }))));
    assert!(refused(held(Some(Mark { level: 2, domain }))));
    assert!(refused(held(Some(Mark { level: 4, domain: another }))));
    assert!(refused(held(None)));
}

pub fn hold() {
    let table = &mut [0; 64];
    for (event, wanted) in listing() {
        assert_eq!(line(table, event), wanted);
    }
    hold_figures();
    hold_bad_tables();
    hold_no_service();
    hold_ringing();
    hold_twenty_eight();
    hold_parts();
    hold_steps();
    hold_lists();

    for (reserved, clock, removed) in [(4294967000, 2703, 0), (4294967000, 2704, 1), (100, 99, 1)] {
        let table = &mut [0; 32];
        assert_eq!(line(table, event(LOOK_AHEAD, 2, 2, reserved)), (3, 0, 0, 0));
        assert_eq!(line(table, event(CLOCK, 0, 0, clock)), (7, 0, removed, 0));
    }

    let (number, value) = independent::read_precedence(&[0x22, 0, 0, 0, 0, 0]);
    assert_eq!((number, value.level, value.lfb), (0, 2, 1));
    assert_eq!(independent::read_precedence(&[0x62, 0, 0, 0, 0, 0]).0, 22);

    let table = &mut [0; 32];
    assert_eq!(line(table, event(SET_UP, 3, 1, 0)), (1, 0, 0, 0));
    assert_eq!(line(table, event(ANSWERED, 0, 1, 0)), (9, 0, 0, 0));
    assert_eq!(line(table, event(SET_UP, 3, 2, 0)), (31, 46, 65535, 0));
    assert_eq!(line(table, event(SET_UP, 3, 1, 0)), (25, 0, 65535, 0));
    let table = &mut [0; 32];
    assert_eq!(line(table, event(SET_UP, 4, 1, 0)), (1, 0, 0, 0));
    assert_eq!(line(table, event(ANSWERED, 0, 1, 0)), (9, 0, 0, 0));
    let mut elsewhere = event(SET_UP, 1, 2, 0);
    elsewhere[6] = 1;
    assert_eq!(line(table, elsewhere), (31, 46, 65535, 0));
    let wrong_length = Check { number: 20, record: 65535 };
    assert_eq!((independent::check(&[]), independent::check(&[0; 257 * 32])), (wrong_length, wrong_length));
}
