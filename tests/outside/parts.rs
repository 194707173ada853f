// Optional parts and lists of parameters: every short part, parts from lists, damaged or not, walks from every place, and lists that are written
// into buffers of every length around the need and read back.

use crate::case::{self, Case};
use crate::optional::{self, END, PRECEDENCE};
use crate::random::Random;

// What a round holds.
const PARTS: usize = 32;
const RANDOM_PARTS: usize = 32;
const LISTS: usize = 16;

// A name and contents.
type Parameter = (u8, Vec<u8>);

// Names and lengths that mean something where a reader stands at the wrong place.
fn some_octet(random: &mut Random) -> u8 {
    let any = random.octet();
    random.pick(&[0, 0, 1, 2, 3, 6, 57, 58, 58, 59, any, any])
}

fn some_name(random: &mut Random) -> u8 {
    let any = random.octet().max(1);
    random.pick(&[1, 57, 59, any, any])
}

fn some_contents(random: &mut Random) -> Vec<u8> {
    let length = match random.below(24) {
        0..=4 => 0,
        5..=8 => 1,
        9 => random.pick(&[127, 128, 254, 255, 255]),
        _ => random.below(12),
    };
    (0..length).map(|_| some_octet(random)).collect()
}

// Six well-formed octets, with any spare bits.
fn precedence(random: &mut Random) -> Vec<u8> {
    let mut octets = random.octets(6);
    octets[0] = random.pick(&[0x00, 0x20, 0x40]) | random.pick(&[0x00, 0x80, 0x10, 0x90]) | random.below(5) as u8;
    for octet in &mut octets[1..3] {
        *octet = (random.below(10) << 4 | random.below(10)) as u8;
    }
    octets
}

// Precedence with one thing wrong: its length, its level, its LFB indicator or a digit.
fn malformed_precedence(random: &mut Random) -> Vec<u8> {
    let mut octets = precedence(random);
    match random.below(6) {
        0 => octets.truncate(random.pick(&[0, 1, 5, 5])),
        1 => octets.push(random.octet()),
        2 => octets.resize(random.pick(&[8, 12, 255]), 0),
        3 => octets[0] = octets[0] & 0xf0 | random.pick(&[5, 6, 8, 15]),
        4 => octets[0] |= 0x60,
        _ => octets[1 + random.below(2)] |= random.pick(&[0xa0, 0x0a]),
    }
    octets
}

// Up to five parameters of other names, and among them precedence: none, one, two or three, most often well-formed.
fn some_list(random: &mut Random) -> Vec<Parameter> {
    let mut list: Vec<Parameter> = Vec::new();
    for _ in 0..random.below(6) {
        let name = some_name(random);
        let contents = if name == PRECEDENCE { precedence(random) } else { some_contents(random) };
        list.push((name, contents));
    }
    for _ in 0..random.pick(&[0, 1, 1, 1, 1, 2, 2, 3]) {
        let contents = if random.once_in(5) { malformed_precedence(random) } else { precedence(random) };
        list.insert(random.below(list.len() + 1), (PRECEDENCE, contents));
    }
    list
}

// The list as a part with its end, and sometimes octets behind that.
fn as_part(random: &mut Random, list: &[Parameter]) -> Vec<u8> {
    let mut octets = Vec::new();
    for (name, contents) in list {
        octets.extend([*name, contents.len() as u8]);
        octets.extend(contents);
    }
    octets.push(END);
    if random.once_in(3) {
        let behind = 1 + random.below(12);
        octets.extend((0..behind).map(|_| some_octet(random)));
    }
    octets
}

// The list as it is lent.
fn as_lent(list: &[Parameter]) -> Vec<u8> {
    let mut octets = Vec::new();
    for (name, contents) in list {
        octets.push(*name);
        octets.extend((contents.len() as u16).to_le_bytes());
        octets.extend(contents);
    }
    octets
}

// How many octets the part of a list has.
fn need(list: &[Parameter]) -> usize {
    list.iter().map(|(_, contents)| 2 + contents.len()).sum::<usize>() + 1
}

// Searched, and gone through as a host does: by `next` from place 0 to the end or a refusal.
fn read(random: &mut Random, part: &[u8], give: &mut dyn FnMut(Case)) {
    give(case::find_precedence(random, part));
    let mut place = 0;
    loop {
        give(case::next_parameter(random, part, place));
        match optional::next_parameter(part, place).next {
            next if next == place => return,
            next => place = next,
        }
    }
}

// A step from every place of a part, and from places at its length and behind it, up to the greatest that there is.
fn from_every_place(random: &mut Random, part: &[u8], give: &mut dyn FnMut(Case)) {
    for place in 0..part.len() + 3 {
        give(case::next_parameter(random, part, place));
    }
    for far in [1 << 8, 1 << 16, 1 << 32, 1 << 63] {
        let place = far + random.below(part.len() + 1);
        give(case::next_parameter(random, part, place));
    }
    for before in [part.len(), 258, 2, 1, 0] {
        give(case::next_parameter(random, part, usize::MAX - before));
    }
}

fn cut_at_each_length(random: &mut Random, part: &[u8], give: &mut dyn FnMut(Case)) {
    for length in 0..part.len() {
        give(case::find_precedence(random, &part[..length]));
        let place = random.below(length + 1);
        give(case::next_parameter(random, &part[..length], place));
    }
}

// The places of the names in a part, the end's last.
fn places(part: &[u8]) -> Vec<usize> {
    let mut places = vec![0];
    loop {
        let last = places[places.len() - 1];
        match optional::next_parameter(part, last).next {
            next if next == last => return places,
            next => places.push(next),
        }
    }
}

// One thing changed in a part that has its end: an octet anywhere, a cut, the end, a name or a length.
fn damage(random: &mut Random, part: &mut Vec<u8>) {
    let names = places(part);
    let (place, name, end) = (random.below(part.len()), random.pick(&names), names[names.len() - 1]);
    match random.below(9) {
        0 => part[place] ^= 1 << random.below(8),
        1 => part[place] = some_octet(random),
        2 => part.insert(place, some_octet(random)),
        3 => drop(part.remove(place)),
        4 => part.truncate(place),
        5 => part.truncate(end),
        6 => drop(part.remove(end)),
        7 if name < end => {
            let (length, any) = (part[name + 1], random.octet());
            part[name + 1] = random.pick(&[length.wrapping_add(1), length.wrapping_sub(1), 0, 5, 6, 7, 255, any]);
        }
        _ => part[name] = some_octet(random),
    }
}

fn parts(random: &mut Random, give: &mut dyn FnMut(Case)) {
    for _ in 0..PARTS {
        let list = some_list(random);
        let mut part = as_part(random, &list);
        read(random, &part, give);
        damage(random, &mut part);
        read(random, &part, give);
    }
    for _ in 0..RANDOM_PARTS {
        let length = random.below(24);
        let part: Vec<u8> = (0..length).map(|_| some_octet(random)).collect();
        read(random, &part, give);
    }
    let list = some_list(random);
    let part = as_part(random, &list);
    from_every_place(random, &part, give);
    cut_at_each_length(random, &part, give);
}

// A name 0, or contents around the greatest length; contents that cannot stand in a part need room at their real length.
fn spoil(random: &mut Random, list: &mut [Parameter]) {
    if list.is_empty() {
        return;
    }
    let place = random.below(list.len());
    match random.below(4) {
        0 => list[place].0 = END,
        1 if list[place].0 != PRECEDENCE => list[place].1 = random.octets(255),
        _ => {
            let length = random.pick(&[256, 256, 257, 262, 300, 512, 515]);
            list[place].1.resize(length, 0);
        }
    }
}

// One list into one buffer; where it was written, the buffer is read.
fn write(random: &mut Random, list: &[u8], room: usize, give: &mut dyn FnMut(Case)) {
    let mut buffer = random.octets(room);
    let case = case::write_optional(random, &mut buffer, list);
    let written = case.expected[0] == 0;
    give(case);
    if written {
        assert!(optional::reads_back(&buffer, list), "what the independent writer wrote is not the list");
        read(random, &buffer, give);
    }
}

// Buffers of every length around the need, one of no octet and one with room for more.
fn into_every_room(random: &mut Random, list: &[Parameter], give: &mut dyn FnMut(Case)) {
    let (lent, need) = (as_lent(list), need(list));
    let more = need + random.below(300);
    for room in (need.saturating_sub(2)..=need + 3).chain([0, more]) {
        write(random, &lent, room, give);
    }
}

// A lent list that is cut short, lacks an octet, or has another octet or one more: into about as much room as it needed before, and into room for
// any list of its length.
fn damaged_list(random: &mut Random, list: &[Parameter], give: &mut dyn FnMut(Case)) {
    let (mut lent, room) = (as_lent(list), need(list) + random.below(8));
    if lent.is_empty() {
        return;
    }
    let place = random.below(lent.len());
    match random.below(4) {
        0 => lent.truncate(place),
        1 => lent.insert(place, some_octet(random)),
        2 => drop(lent.remove(place)),
        _ => lent[place] = some_octet(random),
    }
    write(random, &lent, room, give);
    write(random, &lent, lent.len() + 1, give);
}

fn list_cut_at_each_length(random: &mut Random, list: &[Parameter], give: &mut dyn FnMut(Case)) {
    let (lent, room) = (as_lent(list), need(list));
    for length in 0..lent.len().min(64) {
        write(random, &lent[..length], room, give);
    }
}

fn lists(random: &mut Random, give: &mut dyn FnMut(Case)) {
    for _ in 0..LISTS {
        let mut list = some_list(random);
        if random.once_in(3) {
            spoil(random, &mut list);
        }
        into_every_room(random, &list, give);
        damaged_list(random, &list, give);
    }
    into_every_room(random, &[], give);
    let list = some_list(random);
    list_cut_at_each_length(random, &list, give);
}

// More octets than two octets can count, with precedence behind them, in a part and in a list; and contents of the greatest length that a list can
// say.
fn long(random: &mut Random, give: &mut dyn FnMut(Case)) {
    let mut list: Vec<Parameter> = (0..256).map(|_| (some_name(random) | 0x80, random.octets(255))).collect();
    list.push((PRECEDENCE, precedence(random)));
    let part = as_part(random, &list);
    give(case::find_precedence(random, &part));
    give(case::next_parameter(random, &part, need(&list) - 9));
    let (lent, room) = (as_lent(&list), need(&list));
    for room in [room - 1, room] {
        let mut buffer = random.octets(room);
        give(case::write_optional(random, &mut buffer, &lent));
    }
    let longest = [(1, random.octets(65_535))];
    write(random, &as_lent(&longest), need(&longest), give);
    write(random, &as_lent(&longest), need(&longest) - 1, give);
}

// Every part of up to two octets whose first is one of two that the seed names, and the empty part: 128 rounds in a row have all 65,793.
fn short(random: &mut Random, seed: u64, give: &mut dyn FnMut(Case)) {
    give(case::find_precedence(random, &[]));
    give(case::next_parameter(random, &[], 0));
    let first = (seed % 128 * 2) as u8;
    for name in [first, first + 1] {
        give(case::find_precedence(random, &[name]));
        give(case::next_parameter(random, &[name], 0));
        for second in 0..=255 {
            give(case::find_precedence(random, &[name, second]));
            give(case::next_parameter(random, &[name, second], 0));
        }
    }
}

pub fn cases(random: &mut Random, seed: u64, give: &mut dyn FnMut(Case)) {
    short(random, seed, give);
    parts(random, give);
    lists(random, give);
    if random.once_in(16) {
        long(random, give);
    }
}
