// Random octet strings at each entry, of the legal lengths and those around them.

use crate::case::{self, Application, Case};
use crate::independent::{CallReference, Precedence, ANSWER, CIRCUIT, EVENT};
use crate::random::Random;
use crate::traffic::Route;

// n, or a length near it.
fn around(random: &mut Random, n: usize) -> usize {
    match random.below(8) {
        0 => n + 1,
        1 => n.saturating_sub(1),
        2 => random.below(2 * n + 3),
        _ => n,
    }
}

// A number up to `most`, one past it, or anything.
fn number_near(random: &mut Random, most: u64) -> u64 {
    match random.below(8) {
        0 => most + 1,
        1 => most,
        2 => random.next(),
        _ => random.next() % (most + 1),
    }
}

fn precedence(random: &mut Random) -> Precedence {
    let mut value = Precedence {
        level: random.below(5) as u8,
        lfb: random.below(3) as u8,
        digits: [0; 4],
        service: random.next() as u32 & 0xff_ffff,
    };
    for digit in &mut value.digits {
        *digit = random.below(10) as u8;
    }
    match random.below(8) {
        0 if random.once_in(2) => value.level = random.pick(&[14, 15, 16]),
        0 => value.level = number_near(random, 4) as u8,
        1 => value.lfb = number_near(random, 2) as u8,
        2 => value.digits[random.below(4)] = number_near(random, 9) as u8,
        3 => value.service = number_near(random, 0xff_ffff) as u32,
        _ => {}
    }
    value
}

fn fields(random: &mut Random, give: &mut dyn FnMut(Case)) {
    let length = around(random, 6);
    let mut octets = random.octets(length);
    if random.once_in(2) {
        for octet in octets.iter_mut().take(3) {
            *octet &= random.pick(&[0x99, 0x14, 0x77]);
        }
    }
    give(case::read_precedence(random, &octets));
    let buffer = random.octets(length);
    let value = precedence(random);
    give(case::write_precedence_in(random, &buffer, &value));
    let length = around(random, 5);
    let octets = random.octets(length);
    give(case::read_reference(random, &octets));
    let value = CallReference { identity: number_near(random, 0xff_ffff) as u32, point: number_near(random, 0x3fff) as u16 };
    give(case::write_reference_in(random, &octets, &value));
}

// Octets of about a table: a valid one, all zero, or anything; now and then of the greatest length.
fn table(random: &mut Random) -> Vec<u8> {
    let circuits = if random.once_in(64) { random.pick(&[255, 256, 257]) } else { random.below(5) };
    let length = around(random, circuits * CIRCUIT);
    let mut octets = match random.below(4) {
        0 => random.octets(length),
        1 => vec![0; length],
        _ => {
            let (held, reserved) = (random.below(9), random.below(9));
            Route::new(random).table(random, circuits, held, reserved)
        }
    };
    octets.resize(length, 0);
    octets
}

fn event(random: &mut Random, table: &[u8]) -> Vec<u8> {
    if table.len() >= CIRCUIT && random.once_in(2) {
        return Route::new(random).event(random, table).to_vec();
    }
    let mut octets = random.octets(EVENT);
    octets[0] = random.below(9) as u8;
    if random.once_in(2) {
        octets[1] &= 0x97;
        octets[2] &= 0x77;
        octets[3] &= 0x77;
    } else if random.once_in(2) {
        octets[1..7].fill(0);
        if octets[0] == 5 {
            octets[7..12].fill(0);
        }
    }
    octets
}

fn one_event(random: &mut Random) -> Case {
    let table = table(random);
    let mut octets = event(random, &table);
    octets.resize(around(random, EVENT), 0);
    let room = around(random, ANSWER);
    let answer = random.octets(room);
    Application { table: &table, events: &octets, answers: &answer }.event(random)
}

fn list(random: &mut Random) -> Case {
    let table = table(random);
    let count = if table.len() < 4 * CIRCUIT && random.once_in(128) { random.pick(&[4095, 4096, 4097]) } else { random.below(4) };
    let mut events = Vec::new();
    for _ in 0..count {
        events.extend(event(random, &table));
    }
    events.resize(around(random, events.len()), 0);
    let length = events.len();
    let room = around(random, length);
    let answers = random.octets(room);
    Application { table: &table, events: &events, answers: &answers }.list(random)
}

// One string, or one set of them, at each entry.
pub fn cases(random: &mut Random, give: &mut dyn FnMut(Case)) {
    fields(random, give);
    let octets = table(random);
    give(case::check(random, &octets));
    give(case::lamps(random, &octets));
    give(one_event(random));
    give(list(random));
}
