// One call of the library: the request as the serving program takes it, and the response that the independent implementation expects.

use std::ops::Range;

use crate::figures;
use crate::independent::{self, CallReference, Check, Precedence};
use crate::optional::{self, Found, Step};
use crate::random::Random;

const AT_END: u8 = 255;
const FLUSH: u8 = 12;

// How many buffers a request may have.
const BUFFERS: usize = 4;

// The octets of the response before the buffers: number, guards, lamps lit, precedence, reference, record, name, length, whether precedence was
// found, words, the place of contents and the place after what was read or written.
pub const RESPONSE: usize = 80;

// Where the record stands among them.
pub const RECORD: Range<usize> = 24..26;

pub struct Case {
    pub what: &'static str,
    pub request: Vec<u8>,
    pub expected: Vec<u8>,
}

// What goes out beside the buffers: values to be written, and the place that a step is asked for.
#[derive(Default)]
struct Given {
    precedence: Precedence,
    reference: CallReference,
    asked: usize,
}

// What comes back beside the number.
#[derive(Default)]
struct Values {
    precedence: Precedence,
    reference: CallReference,
    record: u16,
    lit: u16,
    words: [u64; 4],
    name: u8,
    length: u8,
    found: u8,
    start: usize,
    after: usize,
}

fn write_precedence(octets: &mut Vec<u8>, value: &Precedence) {
    octets.extend([value.level, value.lfb]);
    octets.extend(value.digits);
    octets.extend([0; 2]);
    octets.extend(value.service.to_le_bytes());
}

fn write_reference(octets: &mut Vec<u8>, value: &CallReference) {
    octets.extend(value.identity.to_le_bytes());
    octets.extend(value.point.to_le_bytes());
    octets.extend([0; 2]);
}

fn write_place(octets: &mut Vec<u8>, place: usize) {
    octets.extend((place as u64).to_le_bytes());
}

fn request(random: &mut Random, entry: u8, given: &Given, buffers: &[&[u8]]) -> Vec<u8> {
    let mut octets = vec![entry];
    for _ in 0..BUFFERS - 1 {
        octets.push(if random.once_in(3) { AT_END } else { random.below(16) as u8 });
    }
    // The last buffer is of numbers, which have to be aligned.
    octets.push(if random.once_in(3) { AT_END } else { random.pick(&[0, 8]) });
    octets.extend([0; 3]);
    for i in 0..BUFFERS {
        octets.extend((buffers.get(i).map_or(0, |b| b.len()) as u32).to_le_bytes());
    }
    write_precedence(&mut octets, &given.precedence);
    write_reference(&mut octets, &given.reference);
    octets.extend([0; 4]);
    write_place(&mut octets, given.asked);
    buffers.iter().for_each(|b| octets.extend(*b));
    octets
}

fn response(number: u8, values: &Values, buffers: &[&[u8]]) -> Vec<u8> {
    let mut octets = vec![number, 1];
    octets.extend(values.lit.to_le_bytes());
    write_precedence(&mut octets, &values.precedence);
    write_reference(&mut octets, &values.reference);
    octets.extend(values.record.to_le_bytes());
    octets.extend([values.name, values.length, values.found]);
    octets.extend([0; 3]);
    values.words.iter().for_each(|w| octets.extend(w.to_le_bytes()));
    write_place(&mut octets, values.start);
    write_place(&mut octets, values.after);
    buffers.iter().for_each(|b| octets.extend(*b));
    octets
}

// The serving program writes out what it holds back.
pub fn flush() -> Vec<u8> {
    request(&mut Random::new(0), FLUSH, &Given::default(), &[])
}

// A call that takes one buffer which stays as it is.
fn reading(random: &mut Random, what: &'static str, entry: u8, octets: &[u8], number: u8, values: Values) -> Case {
    Case {
        what,
        request: request(random, entry, &Given::default(), &[octets]),
        expected: response(number, &values, &[octets]),
    }
}

pub fn read_precedence(random: &mut Random, octets: &[u8]) -> Case {
    let (number, precedence) = independent::read_precedence(octets);
    reading(random, "read precedence", 0, octets, number, Values { precedence, ..Values::default() })
}

pub fn write_precedence_in(random: &mut Random, buffer: &[u8], value: &Precedence) -> Case {
    let mut after = buffer.to_vec();
    let number = independent::write_precedence(&mut after, value);
    Case {
        what: "write precedence",
        request: request(random, 1, &Given { precedence: *value, ..Given::default() }, &[buffer]),
        expected: response(number, &Values::default(), &[&after]),
    }
}

pub fn read_reference(random: &mut Random, octets: &[u8]) -> Case {
    let (number, reference) = independent::read_reference(octets);
    reading(random, "read reference", 2, octets, number, Values { reference, ..Values::default() })
}

pub fn write_reference_in(random: &mut Random, buffer: &[u8], value: &CallReference) -> Case {
    let mut after = buffer.to_vec();
    let number = independent::write_reference(&mut after, value);
    Case {
        what: "write reference",
        request: request(random, 3, &Given { reference: *value, ..Given::default() }, &[buffer]),
        expected: response(number, &Values::default(), &[&after]),
    }
}

pub fn check(random: &mut Random, table: &[u8]) -> Case {
    let Check { number, record } = independent::check(table);
    reading(random, "check", 4, table, number, Values { record, ..Values::default() })
}

pub fn lamps(random: &mut Random, table: &[u8]) -> Case {
    let (Check { number, record }, lit, words) = independent::lamps(table);
    reading(random, "lamps", 7, table, number, Values { record, lit, words, ..Values::default() })
}

// A call that takes a table, one or more events and room for the answers, with what it is expected to leave.
pub struct Application<'a> {
    pub table: &'a [u8],
    pub events: &'a [u8],
    pub answers: &'a [u8],
}

impl Application<'_> {
    fn case(&self, random: &mut Random, what: &'static str, entry: u8, number: u8, table: &[u8], answers: &[u8]) -> Case {
        let before = [self.table, self.events, self.answers];
        Case {
            what,
            request: request(random, entry, &Given::default(), &before),
            expected: response(number, &Values::default(), &[table, self.events, answers]),
        }
    }

    pub fn event(&self, random: &mut Random) -> Case {
        let (mut table, mut answer) = (self.table.to_vec(), self.answers.to_vec());
        let number = independent::event(&mut table, self.events, &mut answer);
        self.case(random, "event", 5, number, &table, &answer)
    }

    pub fn list(&self, random: &mut Random) -> Case {
        let (mut table, mut answers) = (self.table.to_vec(), self.answers.to_vec());
        let number = independent::list(&mut table, self.events, &mut answers);
        self.case(random, "list", 6, number, &table, &answers)
    }

    // A list whose events were applied one by one already, as it was made.
    pub fn list_carried_out(&self, random: &mut Random, table: &[u8], answers: &[u8]) -> Case {
        self.case(random, "list", 6, 0, table, answers)
    }
}

fn number_octets(numbers: &[u64]) -> Vec<u8> {
    numbers.iter().flat_map(|number| number.to_le_bytes()).collect()
}

// A list that is added to totals. Table and totals become what it leaves.
pub fn figures(random: &mut Random, table: &mut [u8], events: &[u8], answers: &[u8], totals: &mut [u64]) -> Case {
    let before: [&[u8]; BUFFERS] = [table, events, answers, &number_octets(totals)];
    let request = request(random, 8, &Given::default(), &before);
    let mut told = answers.to_vec();
    let number = figures::figures(table, events, &mut told, totals);
    let expected = response(number, &Values::default(), &[table, events, &told, &number_octets(totals)]);
    Case { what: "figures", request, expected }
}

pub fn next_parameter(random: &mut Random, part: &[u8], place: usize) -> Case {
    let Step { number, name, length, start, next } = optional::next_parameter(part, place);
    let values = Values { name, length, start, after: next, ..Values::default() };
    Case {
        what: "next parameter",
        request: request(random, 9, &Given { asked: place, ..Given::default() }, &[part]),
        expected: response(number, &values, &[part]),
    }
}

pub fn find_precedence(random: &mut Random, part: &[u8]) -> Case {
    let Found { number, found, start, end, value } = optional::find_precedence(part);
    let values = Values { precedence: value, found, start, after: end, ..Values::default() };
    reading(random, "find precedence", 10, part, number, values)
}

// A list that is written into a buffer, which becomes what that leaves.
pub fn write_optional(random: &mut Random, buffer: &mut [u8], list: &[u8]) -> Case {
    let request = request(random, 11, &Given::default(), &[buffer, list]);
    let (number, after) = optional::write_optional(buffer, list);
    Case { what: "write optional", request, expected: response(number, &Values { after, ..Values::default() }, &[buffer, list]) }
}
