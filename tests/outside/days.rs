// Days of lists that are added to the same totals: from zeros over one table and more, and from totals at which a list is refused or
// nearly so.

use crate::case::{self, Case};
use crate::damage::damage;
use crate::figures::{self, MOST_LISTS, TOTALS};
use crate::independent::{CIRCUIT, EVENT};
use crate::random::Random;
use crate::traffic::{some_size, Route};

// The table and the totals as the last list left them.
struct Day {
    table: Vec<u8>,
    totals: Vec<u64>,
}

impl Day {
    fn new(table: Vec<u8>, totals: Vec<u64>) -> Day {
        Day { table, totals }
    }

    // One more list, with room for so many octets of answers.
    fn lend(&mut self, random: &mut Random, events: &[u8], room: usize, give: &mut dyn FnMut(Case)) {
        let answers = random.octets(room);
        give(case::figures(random, &mut self.table, events, &answers, &mut self.totals));
    }

    fn add(&mut self, random: &mut Random, events: &[u8], give: &mut dyn FnMut(Case)) {
        self.lend(random, events, events.len(), give);
    }
}

// A table, valid or with one thing wrong, and the route that it is of.
fn some_route(random: &mut Random) -> (Route, Vec<u8>) {
    let route = Route::new(random);
    let circuits = some_size(random);
    let (held, reserved) = (random.below(9), random.below(5));
    let mut table = route.table(random, circuits, held, reserved);
    if random.once_in(4) {
        damage(random, &mut table);
    }
    (route, table)
}

// From zeros: one table over many lists, then another, all added up. Whatever comes, the figures close.
fn from_zeros(random: &mut Random, give: &mut dyn FnMut(Case)) {
    let mut day = Day::new(Vec::new(), vec![0; TOTALS]);
    for _ in 0..1 + random.below(3) {
        let (mut route, table) = some_route(random);
        day.table = table;
        for _ in 0..1 + random.below(4) {
            let count = match random.below(8) {
                0 | 1 => 0,
                2 => random.below(400),
                _ => random.below(48),
            };
            let events = route.events(random, &day.table, count);
            day.add(random, &events, give);
            assert!(figures::close(&day.totals), "the independent figures do not close");
        }
    }
}

// The last lists of a day of 65,536: the next one is refused, and the one after it too.
fn to_the_last_list(random: &mut Random, give: &mut dyn FnMut(Case)) {
    let (mut route, table) = some_route(random);
    let mut day = Day::new(table, vec![0; TOTALS]);
    day.totals[0] = MOST_LISTS - 2;
    for _ in 0..4 {
        let count = random.below(3);
        let events = route.events(random, &day.table, count);
        day.add(random, &events, give);
    }
}

// Totals with numbers near 2^64, at which a list is refused, or near enough that it still fits.
fn some_totals(random: &mut Random) -> Vec<u64> {
    let shift = random.pick(&[1, 8, 40, 63]);
    let mut totals: Vec<u64> = (0..TOTALS).map(|_| random.next() >> shift).collect();
    totals[0] = random.pick(&[0, 1, MOST_LISTS - 2, MOST_LISTS - 1, MOST_LISTS - 1, MOST_LISTS, MOST_LISTS + 1, 1 << 32]);
    for _ in 0..random.below(4) {
        let place = if random.once_in(4) { TOTALS - 1 } else { random.below(TOTALS) };
        totals[place] = u64::MAX - random.pick(&[0, 1, 4094, 4095, 4096, 4096, 4097]);
    }
    totals
}

fn near_the_end(random: &mut Random, give: &mut dyn FnMut(Case)) {
    let (mut route, table) = some_route(random);
    let totals = some_totals(random);
    let count = random.below(8);
    let events = route.events(random, &table, count);
    Day::new(table, totals).add(random, &events, give);
}

// 4,096 events that are answered alike, over a circuit that is free or held: at 2^64 - 4,097 their total comes to the greatest number there is.
fn to_the_greatest_number(random: &mut Random, give: &mut dyn FnMut(Case)) {
    let (kind, held, number) = random.pick(&[(0, 0, 22), (5, 0, 7), (6, 0, 27), (6, 1, 8), (7, 0, 27), (7, 1, 9)]);
    let mut event = [0; EVENT];
    event[0] = kind;
    let mut day = Day::new(vec![0; CIRCUIT], vec![0; TOTALS]);
    day.table[0] = held;
    day.totals[31 + number] = u64::MAX - random.pick(&[4095, 4096]);
    day.add(random, &event.repeat(4096), give);
    day.add(random, &[], give);
}

// Lengths around the right ones at each buffer, over totals that may be full too: 20 goes before 60.
fn lengths(random: &mut Random, give: &mut dyn FnMut(Case)) {
    let (mut route, mut table) = some_route(random);
    let count = random.below(3);
    let mut events = route.events(random, &table, count);
    let mut totals = if random.once_in(2) { some_totals(random) } else { vec![0; TOTALS] };
    let mut room = events.len();
    match random.below(6) {
        0 => totals.resize(random.pick(&[0, 1, 31, 94, 94, 96, 96, 190]), 0),
        1 => table.resize(random.pick(&[0, 1, CIRCUIT - 1, CIRCUIT + 1, 257 * CIRCUIT]), 0),
        2 => events.push(0),
        3 => room += random.pick(&[1, 16]),
        4 => room = room.saturating_sub(1),
        _ => totals[0] = MOST_LISTS,
    }
    if random.once_in(4) {
        totals.resize(random.pick(&[94, 96]), 0);
    }
    Day::new(table, totals).lend(random, &events, room, give);
}

// One list too long, which is refused by 20, and its 4,096 events, which are not.
fn longest(random: &mut Random, give: &mut dyn FnMut(Case)) {
    let (_, table) = some_route(random);
    let mut day = Day::new(table, vec![0; TOTALS]);
    let events = random.octets(4097 * EVENT);
    day.add(random, &events, give);
    day.add(random, &events[EVENT..], give);
}

pub fn cases(random: &mut Random, give: &mut dyn FnMut(Case)) {
    from_zeros(random, give);
    to_the_last_list(random, give);
    for _ in 0..8 {
        near_the_end(random, give);
        lengths(random, give);
    }
    if random.once_in(16) {
        to_the_greatest_number(random, give);
        longest(random, give);
    }
}
