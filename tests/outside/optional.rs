// Document 02's L5, the fields of a message, read a second time: a part is taken apart into its parameters as far as they go, every fault is
// gathered, and the first of them decides, by place and at one parameter by the order of the numbers. A list becomes plain values first.

use crate::independent::{read_precedence, write_precedence, Precedence};

// "name 0 ends the part"
pub const END: u8 = 0;
// "MLPP precedence (name 58)"
pub const PRECEDENCE: u8 = 58;

// "each parameter is a name octet, a length octet and contents": no contents where the octets run out inside it.
#[derive(Clone, Copy)]
struct Parameter<'a> {
    place: usize,
    name: u8,
    contents: Option<&'a [u8]>,
}

// What stands where a name should.
enum Standing<'a> {
    Nothing,
    End,
    Parameter(Parameter<'a>),
}

fn standing(part: &[u8], place: usize) -> Standing<'_> {
    match part.get(place..).unwrap_or(&[]) {
        [] => Standing::Nothing,
        [END, ..] => Standing::End,
        [name] => Standing::Parameter(Parameter { place, name: *name, contents: None }),
        [name, length, rest @ ..] => Standing::Parameter(Parameter { place, name: *name, contents: rest.get(..*length as usize) }),
    }
}

// One step of a walk: a parameter, or the end or a refusal, where it stays at its place.
#[derive(Clone, Copy, PartialEq, Eq, Debug, Default)]
pub struct Step {
    pub number: u8,
    pub name: u8,
    pub length: u8,
    pub start: usize,
    pub next: usize,
}

pub fn next_parameter(part: &[u8], place: usize) -> Step {
    let stays = |number| Step { number, next: place, ..Step::default() };
    match standing(part, place) {
        Standing::Nothing => stays(62),
        Standing::End => stays(0),
        Standing::Parameter(Parameter { contents: None, .. }) => stays(61),
        Standing::Parameter(Parameter { name, contents: Some(contents), .. }) => {
            let start = place + 2;
            Step { number: 0, name, length: contents.len() as u8, start, next: start + contents.len() }
        }
    }
}

// All that stands in a part up to its end, if it has one; "octets behind it are neither read nor refused".
struct Apart<'a> {
    parameters: Vec<Parameter<'a>>,
    end: Option<usize>,
}

fn take_apart(part: &[u8]) -> Apart<'_> {
    let (mut parameters, mut place) = (Vec::new(), 0);
    loop {
        match standing(part, place) {
            Standing::Nothing => return Apart { parameters, end: None },
            Standing::End => return Apart { parameters, end: Some(place) },
            Standing::Parameter(parameter) => {
                parameters.push(parameter);
                match parameter.contents {
                    None => return Apart { parameters, end: None },
                    Some(contents) => place += 2 + contents.len(),
                }
            }
        }
    }
}

// "precedence that isn't six well-formed octets"
fn malformed(contents: &[u8]) -> bool {
    read_precedence(contents).0 != 0
}

// "61 octets run out inside a parameter, 62 they run out before a name, 63 twice, 22 precedence malformed": every fault with its place.
fn faults(part: &[u8], apart: &Apart) -> Vec<(usize, u8)> {
    let (mut faults, mut before) = (Vec::new(), 0);
    for parameter in &apart.parameters {
        if parameter.contents.is_none() {
            faults.push((parameter.place, 61));
        }
        if parameter.name == PRECEDENCE {
            if before > 0 {
                faults.push((parameter.place, 63));
            }
            if parameter.contents.map_or(false, malformed) {
                faults.push((parameter.place, 22));
            }
            before += 1;
        }
    }
    if apart.end.is_none() {
        faults.push((part.len(), 62));
    }
    faults
}

// "by place, at one parameter 61, 63, 22"
fn first_fault(part: &[u8], apart: &Apart) -> Option<u8> {
    let order = |number: u8| [61, 63, 22, 62].iter().position(|&n| n == number);
    faults(part, apart).into_iter().min_by_key(|&(place, number)| (place, order(number))).map(|(_, number)| number)
}

// "No precedence at all is accepted and said."
#[derive(Clone, Copy, PartialEq, Eq, Debug, Default)]
pub struct Found {
    pub number: u8,
    pub found: u8,
    pub start: usize,
    pub end: usize,
    pub value: Precedence,
}

pub fn find_precedence(part: &[u8]) -> Found {
    let apart = take_apart(part);
    if let Some(number) = first_fault(part, &apart) {
        return Found { number, ..Found::default() };
    }
    let end = apart.end.expect("a part without a fault has an end") + 1;
    match apart.parameters.iter().find(|parameter| parameter.name == PRECEDENCE) {
        None => Found { end, ..Found::default() },
        Some(parameter) => {
            let (number, value) = read_precedence(parameter.contents.expect("a part without a fault is not cut short"));
            Found { number, found: 1, start: parameter.place + 2, end, value }
        }
    }
}

// A list as it is lent: for each parameter its name, how many contents in two octets, the low one first, and these. None where it is cut short.
fn read_list(list: &[u8]) -> Option<Vec<(u8, &[u8])>> {
    let (mut parameters, mut left) = (Vec::new(), list);
    while let [name, low, high, rest @ ..] = left {
        let count = u16::from_le_bytes([*low, *high]) as usize;
        parameters.push((*name, rest.get(..count)?));
        left = &rest[count..];
    }
    left.is_empty().then(|| parameters)
}

// "a name 0, a content over 255 octets or a malformed precedence"
fn cannot_stand(name: u8, contents: &[u8]) -> bool {
    name == END || contents.len() > 255 || name == PRECEDENCE && malformed(contents)
}

// "with the precedence's spare bits 0"
fn as_written(name: u8, contents: &[u8]) -> Vec<u8> {
    let mut octets = contents.to_vec();
    if name == PRECEDENCE {
        write_precedence(&mut octets, &read_precedence(contents).1);
    }
    octets
}

// The number, and how many octets were written: "20 for too little room, then 22 [..], then 63".
pub fn write_optional(buffer: &mut [u8], list: &[u8]) -> (u8, usize) {
    let parameters = match read_list(list) {
        Some(parameters) => parameters,
        None => return (20, 0),
    };
    let need = parameters.iter().map(|(_, contents)| 2 + contents.len()).sum::<usize>() + 1;
    if buffer.len() < need {
        return (20, 0);
    }
    if parameters.iter().any(|&(name, contents)| cannot_stand(name, contents)) {
        return (22, 0);
    }
    if parameters.iter().filter(|&&(name, _)| name == PRECEDENCE).count() > 1 {
        return (63, 0);
    }
    let mut part = Vec::new();
    for (name, contents) in parameters {
        part.extend([name, contents.len() as u8]);
        part.extend(as_written(name, contents));
    }
    part.push(END);
    buffer[..need].copy_from_slice(&part);
    (0, need)
}

// "reading what it wrote gives the list, with the precedence's spare bits 0": bits 8 and 5 of its first octet.
pub fn reads_back(part: &[u8], list: &[u8]) -> bool {
    let read = take_apart(part).parameters.into_iter().map(|p| (p.name, p.contents.expect("whole parameters").to_vec()));
    let mut lent: Vec<(u8, Vec<u8>)> = read_list(list).expect("a whole list").iter().map(|&(name, c)| (name, c.to_vec())).collect();
    for (_, contents) in lent.iter_mut().filter(|(name, _)| *name == PRECEDENCE) {
        contents[0] &= 0x6f;
    }
    read.eq(lent)
}
