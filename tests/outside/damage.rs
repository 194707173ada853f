// Tables with something wrong, or that seems so, at every entry that takes a table.

use crate::case::{self, Application, Case};
use crate::independent::{ANSWER, CIRCUIT, NO_PRECEDENCE, RINGING};
use crate::random::Random;
use crate::traffic::{some_size, Route};

// Where the holder's part and the reservation's begin in a record.
const PARTS: [usize; 2] = [0, 12];

fn wrong_flag_or_level(random: &mut Random, record: &mut [u8]) {
    let part = random.pick(&PARTS);
    if random.once_in(2) {
        record[part] = random.pick(&[2, 3, 16, 128, 254, 255]);
    } else {
        record[part] = 1;
        record[part + 1] = random.pick(&[5, 6, 14, 15, 16, 128, 255]);
    }
}

fn wrong_digit_or_point_code(random: &mut Random, record: &mut [u8]) {
    let part = random.pick(&PARTS);
    let digit = 10 + random.below(6) as u8;
    let octet = part + 2 + random.below(2);
    record[part] = 1;
    match random.below(3) {
        0 => record[octet] = record[octet] & 0x0f | digit << 4,
        1 => record[octet] = record[octet] & 0xf0 | digit,
        _ => record[part + 11] |= random.pick(&[0x40, 0x80, 0xc0]),
    }
}

// A flag that is taken away from its part, an octet that is left in an absent part, or one of the three that are always zero.
fn not_zero(random: &mut Random, record: &mut [u8]) {
    let part = random.pick(&PARTS);
    let end = if part == 0 { 12 } else { 28 };
    match random.below(3) {
        0 => record[part] = 0,
        1 => {
            record[part..end].fill(0);
            record[part + 1 + random.below(end - part - 1)] = 1 << random.below(8);
        }
        _ => record[random.pick(&[28, 29, 31])] = 1 << random.below(8),
    }
}

// Both parts are present, and the reservation's level is not higher, or its domain is another by one bit that leaves its digits decimal.
fn not_above_holder(random: &mut Random, record: &mut [u8]) {
    match (record[0], record[12]) {
        (1, 1) => {}
        (1, _) => record.copy_within(0..12, 12),
        (_, 1) => record.copy_within(12..24, 0),
        _ => PARTS.iter().for_each(|&part| record[part] = 1),
    }
    if random.once_in(2) {
        record[13] = random.pick(&[record[1], record[1], 4]);
    } else {
        record[random.pick(&PARTS) + 2 + random.below(5)] ^= random.pick(&[0x01, 0x10]);
    }
}

// A part with the level of a mark that came off: its flag 1 or 0, its domain zero, zero but for an octet, or as it was. Most often it is the
// holder's, with no reservation above it, with one in the zero domain, or with what was there. Some of these holders are right.
fn without_mark(random: &mut Random, record: &mut [u8]) {
    let part = random.pick(&[0, 0, 0, 12]);
    record[part] = random.pick(&[0, 1, 1, 1]);
    record[part + 1] = NO_PRECEDENCE;
    if !random.once_in(4) {
        record[part + 2..part + 7].fill(0);
    }
    if random.once_in(4) {
        record[part + 2 + random.below(5)] = random.octet();
    }
    match (part, random.below(3)) {
        (0, 0) => record[12..28].fill(0),
        (0, 1) => {
            record[12..14].copy_from_slice(&[1, random.below(5) as u8]);
            record[14..19].fill(0);
        }
        _ => {}
    }
}

// Octet 30 at 1 or above it: with a holder and with none, with a reservation and with none, or with what was there. Some of these holders ring by
// right; a reservation that was above its holder, or at its own level, now stands above one that rings.
fn ringing(random: &mut Random, record: &mut [u8]) {
    record[RINGING] = random.pick(&[1, 1, 1, 1, 2, 3, 128, 254, 255]);
    match random.below(6) {
        0 => record[..12].fill(0),
        1 => record[0] = 1,
        2 => record[12..28].fill(0),
        3 => record[12] = 1,
        4 if record[0] == 1 => record.copy_within(0..7, 12),
        _ => {}
    }
}

fn spoil(random: &mut Random, record: &mut [u8]) {
    match random.below(7) {
        0 => wrong_flag_or_level(random, record),
        1 => wrong_digit_or_point_code(random, record),
        2 => not_zero(random, record),
        3 => not_above_holder(random, record),
        4 => without_mark(random, record),
        5 => ringing(random, record),
        _ => record[random.below(CIRCUIT)] ^= 1 << random.below(8),
    }
}

// A part that is present gets the reference of another, before it or after it, or of itself.
fn repeat_a_reference(random: &mut Random, table: &mut [u8]) {
    let places = (0..table.len()).filter(|place| PARTS.contains(&(place % CIRCUIT)));
    let present: Vec<usize> = places.filter(|&place| table[place] == 1).collect();
    if !present.is_empty() {
        let (from, to) = (random.pick(&present), random.pick(&present));
        table.copy_within(from + 7..from + 12, to + 7);
    }
}

// Up to three faults in one record or in several, and up to two repeated references beside them or alone.
pub fn damage(random: &mut Random, table: &mut [u8]) {
    let circuits = table.len() / CIRCUIT;
    let (faults, repeated) = random.pick(&[(1, 0), (1, 0), (2, 0), (2, 0), (3, 0), (0, 1), (0, 2), (1, 1), (1, 2), (2, 1)]);
    for _ in 0..repeated {
        repeat_a_reference(random, table);
    }
    let mut here = random.below(circuits);
    for _ in 0..faults {
        spoil(random, &mut table[here * CIRCUIT..(here + 1) * CIRCUIT]);
        if random.once_in(2) {
            here = random.below(circuits);
        }
    }
}

// One damaged table: checked, shown as lamps, and given an event and a short list.
pub fn cases(random: &mut Random, give: &mut dyn FnMut(Case)) {
    let mut route = Route::new(random);
    let circuits = some_size(random);
    let (held, reserved) = (1 + random.below(8), 1 + random.below(8));
    let mut table = route.table(random, circuits, held, reserved);
    let mut events = Vec::new();
    for _ in 0..random.below(4) {
        events.extend(route.event(random, &table));
    }
    damage(random, &mut table);
    give(case::check(random, &table));
    match random.below(4) {
        0 => give(case::lamps(random, &table)),
        1 => {
            let event = route.event(random, &table);
            let answer = random.octets(ANSWER);
            give(Application { table: &table, events: &event, answers: &answer }.event(random));
        }
        2 => {
            let answers = random.octets(events.len());
            give(Application { table: &table, events: &events, answers: &answers }.list(random));
        }
        _ => {}
    }
}

// Every octet of a record in turn, with a value at which some rule ends, or any other.
pub fn every_octet(random: &mut Random, give: &mut dyn FnMut(Case)) {
    let circuits = 1 + random.below(3);
    let table = Route::new(random).table(random, circuits, 4, 4);
    let record = random.below(circuits) * CIRCUIT;
    for place in record..record + CIRCUIT {
        let mut damaged = table.clone();
        let any = random.octet();
        damaged[place] = random.pick(&[0, 1, 2, 4, 5, 0x09, 0x0a, 14, 15, 16, 0x3f, 0x40, 0x80, 0x90, 0xa0, 0xff, any]);
        give(case::check(random, &damaged));
    }
}
