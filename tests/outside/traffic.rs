// Routes near saturation: valid tables of any size, and events that meet the calls in them.

use std::collections::BTreeSet;

use crate::case::{Application, Case};
use crate::independent::{self, five, Call, Circuit, Domain, Holder, Mark, Reference};
use crate::independent::{ANSWER, CIRCUIT, EVENT, NO_PRECEDENCE, RESERVATION_LIMIT, RINGING, ROUTINE};
use crate::random::Random;
use crate::ringing::Ringing;

// What the calls of one route have in common.
pub struct Route {
    domains: Vec<Domain>,
    clock: u32,
    set_ups_in_ten: usize,
    highest: u8,
    // Of ten holders that a table begins with, so many have their mark off; of ten events about calls that are there, so many take it off.
    without_service_in_ten: usize,
    // Of ten holders that a table begins with, so many ring.
    ringing_in_ten: usize,
    // Of ten events, so many say that a call was answered.
    answered_in_ten: usize,
}

fn some_domain(random: &mut Random) -> Domain {
    let mut domain = [0; 5];
    for octet in &mut domain[..2] {
        *octet = (random.below(10) << 4 | random.below(10)) as u8;
    }
    for octet in &mut domain[2..] {
        *octet = random.octet();
    }
    domain
}

// Domains that differ in one octet only, and by one there.
fn next_domain(random: &mut Random, domain: Domain) -> Domain {
    let mut next = domain;
    let place = random.below(5);
    next[place] = if place < 2 { domain[place] ^ if domain[place] & 0x0f < 8 { 0x01 } else { 0x08 } } else { domain[place] ^ 0x01 };
    next
}

impl Route {
    pub fn new(random: &mut Random) -> Route {
        let mut domains = vec![if random.once_in(4) { [0; 5] } else { some_domain(random) }];
        for _ in 0..random.below(4) {
            let known = random.pick(&domains);
            domains.push(match random.below(4) {
                0 => [0; 5],
                1 => some_domain(random),
                _ => next_domain(random, known),
            });
        }
        let clock = if random.once_in(2) { u32::MAX - random.below(9000) as u32 } else { random.next() as u32 };
        let (set_ups_in_ten, highest) = (4 + random.below(5), random.below(4) as u8);
        let without_service_in_ten = random.pick(&[0, 1, 2, 5]);
        let (ringing_in_ten, answered_in_ten) = (random.pick(&[0, 0, 2, 5]), random.pick(&[1, 1, 2, 3]));
        Route { domains, clock, set_ups_in_ten, highest, without_service_in_ten, ringing_in_ten, answered_in_ten }
    }

    // The first domain is the commonest.
    fn domain(&self, random: &mut Random) -> Domain {
        if random.once_in(2) {
            self.domains[0]
        } else {
            random.pick(&self.domains)
        }
    }

    fn level(&self, random: &mut Random) -> u8 {
        match random.below(4) {
            0 => ROUTINE,
            1 => random.below(5) as u8,
            _ => self.highest + random.below(5 - self.highest as usize) as u8,
        }
    }

    // A valid table with about `held` circuits in eight held and `reserved` in eight reserved, none above a holder that rings.
    pub fn table(&self, random: &mut Random, circuits: usize, held: usize, reserved: usize) -> Vec<u8> {
        let mut seen = BTreeSet::new();
        let mut new_reference = |random: &mut Random| loop {
            let reference = some_reference(random);
            if seen.insert(reference) {
                return reference;
            }
        };
        let table: Vec<Circuit> = (0..circuits)
            .map(|_| {
                let (level, domain) = (self.level(random), self.domain(random));
                let (held, without_mark) = (random.below(8) < held, random.below(10) < self.without_service_in_ten);
                let rings = random.below(10) < self.ringing_in_ten;
                let mark = if without_mark { None } else { Some(Mark { level, domain }) };
                let holder = if held { Some(Holder { mark, reference: new_reference(random), rings }) } else { None };
                let reserved = random.below(8) < reserved && (!held || !without_mark && !rings && level > 0);
                let reserver = if held { random.below(level.max(1) as usize) as u8 } else { level };
                let clock = self.clock.wrapping_sub(random.below(4000) as u32);
                let mark = Mark { level: reserver, domain };
                let reservation = if reserved { Some((Call { mark, reference: new_reference(random) }, clock)) } else { None };
                Circuit { holder, reservation }
            })
            .collect();
        independent::write_table(&table)
    }

    // The clock of a reservation and what lies at the limit after it; or the route's own, which goes on.
    fn clock(&mut self, random: &mut Random, table: &[u8]) -> u32 {
        self.clock = self.clock.wrapping_add(random.below(100) as u32);
        let stored = some_part(random, table, 12).map_or(0, |part| u32::from_le_bytes([part[12], part[13], part[14], part[15]]));
        match random.below(24) {
            0 => stored.wrapping_add(RESERVATION_LIMIT - 1),
            1 => stored.wrapping_add(RESERVATION_LIMIT),
            2 => stored.wrapping_add(RESERVATION_LIMIT + 1),
            3 => stored.wrapping_sub(1),
            4 => stored,
            5 => stored.wrapping_add(1 << 31),
            6 => random.next() as u32,
            _ => self.clock,
        }
    }

    pub fn event(&mut self, random: &mut Random, table: &[u8]) -> [u8; EVENT] {
        let mut event = [0; EVENT];
        let kind = match random.below(10) {
            _ if random.below(10) < self.answered_in_ten => 7,
            n if n < self.set_ups_in_ten => random.pick(&[1, 1, 1, 3, 3]),
            _ if random.below(10) < self.without_service_in_ten => 6,
            _ => random.pick(&[2, 2, 2, 2, 2, 4, 4, 3, 3, 5]),
        };
        let clock = self.clock(random, table);
        event[0] = kind;
        event[12..].copy_from_slice(&clock.to_le_bytes());
        if kind == 1 || kind == 3 {
            let level = self.level(random);
            let routine_look_ahead = kind == 3 && level == ROUTINE && !random.once_in(12);
            let lfb = if kind == 1 || random.once_in(12) { random.pick(&[0x00, 0x20, 0x40]) } else { 0 };
            event[1] = lfb | if routine_look_ahead { self.highest } else { level };
            event[2..7].copy_from_slice(&self.domain(random));
        }
        if kind != 5 {
            self.name_a_call(random, table, &mut event);
        }
        if kind == 1 || kind == 3 {
            event[1] |= random.pick(&[0x00, 0x00, 0x80, 0x10, 0x90]);
        }
        if random.once_in(24) {
            spoil(random, &mut event);
        }
        event
    }

    // A set-up or look-ahead is most often of a new call, or on its own reservation; others are of a call that is there, answered most often one that
    // rings. The level of a holder whose mark is off goes into a set-up seldom: it is no call's, and makes the event malformed.
    fn name_a_call(&self, random: &mut Random, table: &[u8], event: &mut [u8; EVENT]) {
        let there = match (event[0], random.below(8)) {
            (1, 0) | (3, 0) => Some(0),
            (1, 1) | (1, 2) | (3, 1) => Some(12),
            (1, _) | (3, _) | (_, 0) => None,
            (2 | 6 | 7, 1) => Some(12),
            (2 | 6 | 7, _) => Some(0),
            (_, 1) => Some(0),
            (_, _) => Some(12),
        };
        let ringing = if event[0] == 7 && there == Some(0) && !random.once_in(4) { some_ringing(random, table) } else { None };
        match ringing.or_else(|| some_part(random, table, there?)) {
            None => event[7..12].copy_from_slice(&some_reference(random)),
            Some(part) => {
                event[7..12].copy_from_slice(&part[7..12]);
                if event[0] == 1 && random.below(4) < if part[1] == NO_PRECEDENCE { 1 } else { 3 } {
                    event[1] = event[1] & 0xf0 | part[1];
                    event[2..7].copy_from_slice(&part[2..7]);
                    if random.once_in(8) {
                        event[2..7].copy_from_slice(&next_domain(random, five(&part[2..7])));
                    }
                }
                if random.once_in(12) {
                    event[7 + random.below(5)] ^= 1;
                }
            }
        }
        event[11] |= random.pick(&[0x00, 0x00, 0x40, 0x80, 0xc0]);
    }

    // Clock events over a large route that is reserved throughout: up to all of 256 reservations go at once.
    pub fn clocks(&self, random: &mut Random) -> Case {
        let circuits = random.pick(&[254, 255, 256, 256]);
        let table = self.table(random, circuits, 0, 8);
        let mut events = Vec::new();
        for _ in 0..1 + random.below(3) {
            let clock = self.clock.wrapping_add(random.pick(&[0, RESERVATION_LIMIT / 3, RESERVATION_LIMIT]));
            events.extend([5, 0, 0, 0, 0, 0, 0, 0, 0, 0, 0, 0]);
            events.extend(clock.to_le_bytes());
        }
        let room = random.octets(events.len());
        Application { table: &table, events: &events, answers: &room }.list(random)
    }

    // So many events, made one by one over the table as it then stands.
    pub fn events(&mut self, random: &mut Random, table: &[u8], count: usize) -> Vec<u8> {
        let (mut after, mut events) = (table.to_vec(), Vec::new());
        for _ in 0..count {
            let event = self.event(random, &after);
            independent::event(&mut after, &event, &mut [0; ANSWER]);
            events.extend(event);
        }
        events
    }

    // A list made event by event over the table as it then stands, with an eye on who rings.
    pub fn list(&mut self, random: &mut Random, table: &[u8], count: usize) -> Case {
        let (mut after, mut events, mut answers, mut ringing) = (table.to_vec(), Vec::new(), Vec::new(), Ringing::new(table));
        for _ in 0..count {
            let event = self.event(random, &after);
            let mut answer = [0; ANSWER];
            independent::event(&mut after, &event, &mut answer);
            ringing.heed(&event, &answer);
            events.extend(event);
            answers.extend(answer);
        }
        ringing.hold(&after);
        let room = random.octets(answers.len());
        Application { table, events: &events, answers: &room }.list_carried_out(random, &after, &answers)
    }
}

// References from few octets, so that many differ in one place only.
fn some_reference(random: &mut Random) -> Reference {
    let mut reference = [0; 5];
    for octet in &mut reference {
        *octet = random.pick(&[0, 1, 2, 3, 4, 8, 16, 32]);
    }
    if random.once_in(2) {
        reference[random.below(4)] = random.octet();
    }
    reference[4] &= 0x3f;
    reference
}

fn some_circuit<'a>(random: &mut Random, table: &'a [u8]) -> &'a [u8] {
    let place = random.below(table.len() / CIRCUIT);
    &table[place * CIRCUIT..(place + 1) * CIRCUIT]
}

// A part that is present, at octet `part` of some circuit, where one is met soon.
fn some_part<'a>(random: &mut Random, table: &'a [u8], part: usize) -> Option<&'a [u8]> {
    (0..8).map(|_| &some_circuit(random, table)[part..]).find(|octets| octets[0] == 1)
}

// A circuit whose holder rings, where one is met soon.
fn some_ringing<'a>(random: &mut Random, table: &'a [u8]) -> Option<&'a [u8]> {
    (0..8).map(|_| some_circuit(random, table)).find(|circuit| circuit[RINGING] == 1)
}

// An event with something wrong, or that seems so.
fn spoil(random: &mut Random, event: &mut [u8; EVENT]) {
    match random.below(7) {
        0 => event[0] = random.octet(),
        1 => event[1] = random.octet(),
        2 => event[1] |= random.pick(&[0x60, 0x80, 0x10]),
        3 => event[2 + random.below(2)] = random.octet(),
        4 => event[1 + random.below(11)] ^= 1 << random.below(8),
        5 => event[1] |= NO_PRECEDENCE,
        _ => event[0] = random.below(9) as u8,
    }
}

pub fn some_size(random: &mut Random) -> usize {
    match random.below(4) {
        0 => 1 + random.below(4),
        1 => random.pick(&[16, 63, 64, 65, 128, 255, 256]),
        _ => 1 + random.below(96),
    }
}
