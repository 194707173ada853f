// Document 01 and document 02's L2, L4, L6 and L7 read a second time: an implementation that shares nothing with the library, in the words of the
// documents and with no eye on cost. Tables and events become plain values, the rules work on these, and the result becomes octets again.

use std::cmp::Reverse;
use std::collections::BTreeSet;

pub const ROUTINE: u8 = 4;
// The level of a holder whose mark came off.
pub const NO_PRECEDENCE: u8 = 15;
pub const RESERVATION_LIMIT: u32 = 3000;
pub const CIRCUIT: usize = 32;
// Where a record says whether its holder rings.
pub const RINGING: usize = 30;
pub const EVENT: usize = 16;
pub const ANSWER: usize = 16;

// The place in an answer, and the record of a check, where there is none.
pub const NOWHERE: u16 = 65535;

pub type Domain = [u8; 5];
pub type Reference = [u8; 5];

#[derive(Clone, Copy, PartialEq, Eq, Debug)]
pub struct Mark {
    pub level: u8,
    pub domain: Domain,
}

#[derive(Clone, Copy, PartialEq, Eq, Debug)]
pub struct Call {
    pub mark: Mark,
    pub reference: Reference,
}

// By 02's L4 "the circuits' marks come off" where the called party is without the service: then a holder has none. By L7 a holder rings from its
// set-up until it is answered.
#[derive(Clone, Copy, PartialEq, Eq, Debug)]
pub struct Holder {
    pub mark: Option<Mark>,
    pub reference: Reference,
    pub rings: bool,
}

#[derive(Clone, Copy, PartialEq, Eq, Debug, Default)]
pub struct Circuit {
    pub holder: Option<Holder>,
    pub reservation: Option<(Call, u32)>,
}

impl Mark {
    // Strictly higher in the same domain: 0 is the highest level.
    fn above(&self, other: &Mark) -> bool {
        self.domain == other.domain && self.level < other.level
    }

    // Above no holder without a mark, "also where the call's domain is zero".
    fn above_holder(&self, holder: &Holder) -> bool {
        holder.mark.map_or(false, |mark| self.above(&mark))
    }
}

impl Circuit {
    // None where the circuit is free, and where its holder "stands there under no precedence that a call could beat".
    fn standing(&self) -> Option<Mark> {
        match (self.reservation, self.holder) {
            (Some((call, _)), _) => Some(call.mark),
            (None, Some(holder)) => holder.mark,
            (None, None) => None,
        }
    }

    fn is_free(&self) -> bool {
        self.holder.is_none() && self.reservation.is_none()
    }

    fn rings(&self) -> bool {
        self.holder.map_or(false, |holder| holder.rings)
    }

    fn held_by(&self, reference: Reference) -> bool {
        self.holder.map_or(false, |holder| holder.reference == reference)
    }

    fn reserved_by(&self, reference: Reference) -> bool {
        self.reservation.map_or(false, |(call, _)| call.reference == reference)
    }

    // The holder's, then the reservation's.
    fn references(&self) -> impl Iterator<Item = Reference> {
        self.holder.map(|holder| holder.reference).into_iter().chain(self.reservation.map(|(call, _)| call.reference))
    }
}

pub fn five(octets: &[u8]) -> [u8; 5] {
    [octets[0], octets[1], octets[2], octets[3], octets[4]]
}

fn four_octet_number(octets: &[u8]) -> u32 {
    u32::from_le_bytes([octets[0], octets[1], octets[2], octets[3]])
}

fn zero(octets: &[u8]) -> bool {
    octets.iter().all(|&o| o == 0)
}

// The four network identity digits, each 0 to 9.
fn digits(domain: &[u8]) -> [u8; 4] {
    [domain[0] >> 4, domain[0] & 0x0f, domain[1] >> 4, domain[1] & 0x0f]
}

fn decimal(domain: &[u8]) -> bool {
    digits(domain).iter().all(|&d| d <= 9)
}

// Message fields.

#[derive(Clone, Copy, PartialEq, Eq, Debug, Default)]
pub struct Precedence {
    pub level: u8,
    pub lfb: u8,
    pub digits: [u8; 4],
    pub service: u32,
}

#[derive(Clone, Copy, PartialEq, Eq, Debug, Default)]
pub struct CallReference {
    pub identity: u32,
    pub point: u16,
}

pub fn read_precedence(octets: &[u8]) -> (u8, Precedence) {
    if octets.len() != 6 {
        return (20, Precedence::default());
    }
    let value = Precedence {
        level: octets[0] & 0x0f,
        lfb: (octets[0] >> 5) & 0x03,
        digits: digits(&octets[1..3]),
        service: u32::from_be_bytes([0, octets[3], octets[4], octets[5]]),
    };
    if value.level > 4 || value.lfb == 3 || !decimal(&octets[1..3]) {
        return (22, Precedence::default());
    }
    (0, value)
}

pub fn write_precedence(buffer: &mut [u8], value: &Precedence) -> u8 {
    if buffer.len() != 6 {
        return 20;
    }
    if value.level > 4 || value.lfb > 2 || value.digits.iter().any(|&d| d > 9) || value.service > 0xff_ffff {
        return 22;
    }
    let service = value.service.to_be_bytes();
    buffer[0] = value.lfb << 5 | value.level;
    buffer[1] = value.digits[0] << 4 | value.digits[1];
    buffer[2] = value.digits[2] << 4 | value.digits[3];
    buffer[3..].copy_from_slice(&service[1..]);
    0
}

pub fn read_reference(octets: &[u8]) -> (u8, CallReference) {
    if octets.len() != 5 {
        return (20, CallReference::default());
    }
    let identity = u32::from_le_bytes([octets[0], octets[1], octets[2], 0]);
    let point = u16::from_le_bytes([octets[3], octets[4] & 0x3f]);
    (0, CallReference { identity, point })
}

pub fn write_reference(buffer: &mut [u8], value: &CallReference) -> u8 {
    if buffer.len() != 5 {
        return 20;
    }
    if value.identity > 0xff_ffff || value.point > 0x3fff {
        return 22;
    }
    buffer[..3].copy_from_slice(&value.identity.to_le_bytes()[..3]);
    buffer[3..].copy_from_slice(&value.point.to_le_bytes());
    0
}

// Tables.

fn table_length_is_right(octets: usize) -> bool {
    octets % CIRCUIT == 0 && (1..=256).contains(&(octets / CIRCUIT))
}

// A table that is not valid: by 02's L2 the reason, 41 to 45, and the record that is bad.
#[derive(Clone, Copy, PartialEq, Eq, Debug)]
pub struct Bad {
    pub reason: u8,
    pub record: usize,
}

// The holder's part but for octet 30, and the reservation's, with the clock.
fn parts(record: &[u8]) -> [&[u8]; 2] {
    [&record[..12], &record[12..28]]
}

fn is_present(part: &[u8]) -> bool {
    part[0] == 1
}

fn read_call(part: &[u8]) -> Call {
    Call { mark: Mark { level: part[1], domain: five(&part[2..7]) }, reference: five(&part[7..12]) }
}

fn read_holder(record: &[u8]) -> Holder {
    let [holder, _] = parts(record);
    let Call { mark, reference } = read_call(holder);
    Holder { mark: (mark.level != NO_PRECEDENCE).then(|| mark), reference, rings: record[RINGING] == 1 }
}

// "a flag wrong, or the level of a present part"; "A table may hold level 15 with zero domain in the holder part only (else 41)"; octet 30 "above 1
// in a present one 41"
fn flag_or_level_wrong(record: &[u8]) -> bool {
    let [holder, reservation] = parts(record);
    let flag_wrong = |part: &[u8]| ![0, 1].contains(&part[0]);
    let level_wrong = |part: &[u8]| is_present(part) && ![0, 1, 2, 3, 4].contains(&part[1]);
    let without_mark = holder[1] == NO_PRECEDENCE && zero(&holder[2..7]);
    let ringing_wrong = is_present(holder) && ![0, 1].contains(&record[RINGING]);
    flag_wrong(holder) || flag_wrong(reservation) || level_wrong(holder) && !without_mark || level_wrong(reservation) || ringing_wrong
}

// "a digit or point code of a present part wrong"
fn digit_or_point_code_wrong(part: &[u8]) -> bool {
    is_present(part) && (!decimal(&part[2..4]) || part[11] & 0xc0 != 0)
}

// "an absent part or spare octet not zero"; "Octet 30 belongs to the holder's part: not zero in an absent one is reason 43", and it "is out of the
// zero rule"
fn not_zero(record: &[u8]) -> bool {
    let left_behind = parts(record).iter().any(|part| part[0] == 0 && !zero(part)) || record[0] == 0 && record[RINGING] != 0;
    left_behind || !zero(&record[28..RINGING]) || !zero(&record[RINGING + 1..])
}

// "a reservation not strictly above its holder in the same domain"; level 15 "with no reservation above (else 44)"; "a reservation above a ringing
// holder 44"
fn not_above_holder(record: &[u8]) -> bool {
    let [holder, reservation] = parts(record);
    let may_stand_above = |holder: Holder| !holder.rings && read_call(reservation).mark.above_holder(&holder);
    is_present(holder) && is_present(reservation) && !may_stand_above(read_holder(record))
}

// Every reason that a record has by itself.
fn reasons(record: &[u8]) -> impl Iterator<Item = u8> {
    let has = [
        (41, flag_or_level_wrong(record)),
        (42, parts(record).into_iter().any(digit_or_point_code_wrong)),
        (43, not_zero(record)),
        (44, not_above_holder(record)),
    ];
    has.into_iter().filter(|(_, has)| *has).map(|(reason, _)| reason)
}

// "Reasons within records come first, lowest record first, in that order": the least by record, then by reason.
fn bad_by_itself(table: &[u8]) -> Option<Bad> {
    let faults = table.chunks(CIRCUIT).enumerate().flat_map(|(place, record)| reasons(record).map(move |reason| (place, reason)));
    faults.min().map(|(record, reason)| Bad { reason, record })
}

// A record that is not bad by itself.
fn read_circuit(record: &[u8]) -> Circuit {
    let [holder, reservation] = parts(record);
    let clock = four_octet_number(&reservation[12..]);
    Circuit {
        holder: is_present(holder).then(|| read_holder(record)),
        reservation: is_present(reservation).then(|| (read_call(reservation), clock)),
    }
}

// "the repeated reference comes after all of them and names the later record, the lowest such if several": a holder's part is earlier than the
// reservation's of the same record.
fn repeated_reference(circuits: &[Circuit]) -> Option<Bad> {
    let mut earlier = BTreeSet::new();
    for (record, circuit) in circuits.iter().enumerate() {
        for reference in circuit.references() {
            if !earlier.insert(reference) {
                return Some(Bad { reason: 45, record });
            }
        }
    }
    None
}

// The circuits of a table of right length, if it is valid.
pub fn read_table(table: &[u8]) -> Result<Vec<Circuit>, Bad> {
    if let Some(bad) = bad_by_itself(table) {
        return Err(bad);
    }
    let circuits: Vec<Circuit> = table.chunks(CIRCUIT).map(read_circuit).collect();
    match repeated_reference(&circuits) {
        Some(bad) => Err(bad),
        None => Ok(circuits),
    }
}

// "the holder's level becomes 15 and its domain zero": so a mark that came off stands in a table.
const WITHOUT_MARK: Mark = Mark { level: NO_PRECEDENCE, domain: [0; 5] };

fn write_part(octets: &mut Vec<u8>, part: Option<(Mark, Reference)>) {
    match part {
        None => octets.extend([0; 12]),
        Some((mark, reference)) => {
            octets.extend([1, mark.level]);
            octets.extend(mark.domain);
            octets.extend(reference);
        }
    }
}

pub fn write_table(circuits: &[Circuit]) -> Vec<u8> {
    let mut octets = Vec::new();
    for circuit in circuits {
        write_part(&mut octets, circuit.holder.map(|holder| (holder.mark.unwrap_or(WITHOUT_MARK), holder.reference)));
        write_part(&mut octets, circuit.reservation.map(|(call, _)| (call.mark, call.reference)));
        octets.extend(circuit.reservation.map_or(0, |(_, clock)| clock).to_le_bytes());
        octets.extend([0, 0, circuit.rings() as u8, 0]);
    }
    octets
}

// What the check gives: the number, and the record or 65535.
#[derive(Clone, Copy, PartialEq, Eq, Debug)]
pub struct Check {
    pub number: u8,
    pub record: u16,
}

pub fn check(table: &[u8]) -> Check {
    if !table_length_is_right(table.len()) {
        return Check { number: 20, record: NOWHERE };
    }
    match read_table(table) {
        Err(bad) => Check { number: bad.reason, record: bad.record as u16 },
        Ok(_) => Check { number: 0, record: NOWHERE },
    }
}

// What the check gives, how many are lit, and the four words.
pub fn lamps(table: &[u8]) -> (Check, u16, [u64; 4]) {
    let check = check(table);
    let mut words = [0; 4];
    let mut lit = 0;
    if check.number == 0 {
        for (place, circuit) in read_table(table).unwrap().iter().enumerate() {
            if circuit.is_free() {
                words[place / 64] |= 1 << (place % 64);
                lit += 1;
            }
        }
    }
    (check, lit, words)
}

// Events.

#[derive(Clone, Copy, Debug)]
enum Event {
    SetUp(Call),
    Release(Reference),
    LookAhead(Call, u8, u32),
    Cancel(Reference),
    Clock(u32),
    NoService(Reference),
    Answered(Reference),
}

// None where the event is malformed.
fn read_event(octets: &[u8]) -> Option<Event> {
    let parameter = &octets[1..7];
    let mut reference = five(&octets[7..12]);
    reference[4] &= 0x3f;
    let clock = four_octet_number(&octets[12..]);
    let (number, precedence) = read_precedence(parameter);
    let call = Call { mark: Mark { level: precedence.level, domain: five(&parameter[1..]) }, reference };
    match octets[0] {
        1 if number == 0 => Some(Event::SetUp(call)),
        2 if zero(parameter) => Some(Event::Release(reference)),
        3 if number == 0 => Some(Event::LookAhead(call, precedence.lfb, clock)),
        4 if zero(parameter) => Some(Event::Cancel(reference)),
        5 if zero(&octets[1..12]) => Some(Event::Clock(clock)),
        6 if zero(parameter) => Some(Event::NoService(reference)),
        7 if zero(parameter) => Some(Event::Answered(reference)),
        _ => None,
    }
}

#[derive(Clone, Copy, Default)]
struct Answer {
    number: u8,
    place: Option<usize>,
    lost_call: Option<Reference>,
    lost_reservation: Option<Reference>,
}

fn refused(number: u8) -> Answer {
    Answer { number, ..Answer::default() }
}

fn write_lost(octets: &mut [u8], lost: Option<Reference>) {
    if let Some(reference) = lost {
        octets[0] = 1;
        octets[1..6].copy_from_slice(&reference);
    }
}

fn write_answer(octets: &mut [u8], answer: &Answer) {
    octets.fill(0);
    octets[0] = answer.number;
    octets[1] = match answer.number {
        30 => 34,
        31 => 46,
        _ => 0,
    };
    octets[2..4].copy_from_slice(&answer.place.map_or(NOWHERE, |place| place as u16).to_le_bytes());
    write_lost(&mut octets[4..10], answer.lost_call);
    write_lost(&mut octets[10..16], answer.lost_reservation);
}

// The lowest-numbered free circuit; else of the takeable ones the greatest level number, one with no holder first, the lowest number. A circuit whose
// holder rings is not takeable.
fn choose(circuits: &[Circuit], mark: &Mark) -> Option<usize> {
    circuits.iter().position(Circuit::is_free).or_else(|| {
        let takeable = circuits.iter().enumerate().filter(|(_, circuit)| !circuit.rings()).filter_map(|(place, circuit)| {
            let standing = circuit.standing()?;
            mark.above(&standing).then(|| (standing.level, circuit.holder.is_none(), Reverse(place)))
        });
        takeable.max().map(|(_, _, Reverse(place))| place)
    })
}

// 01's 28: "set-up on its reservation, holder there not strictly lower in the same domain". By 02's L6 no input gives it, so one that would get it ends
// the test.
pub fn holder_not_lower(circuit: &Circuit, call: &Call) -> bool {
    circuit.holder.map_or(false, |holder| !call.mark.above_holder(&holder))
}

fn set_up(circuits: &mut [Circuit], call: Call) -> Answer {
    if circuits.iter().any(|c| c.held_by(call.reference)) {
        return refused(25);
    }
    let own = circuits.iter().position(|c| c.reserved_by(call.reference));
    if let Some(place) = own {
        let (reserver, _) = circuits[place].reservation.unwrap();
        if reserver.mark != call.mark {
            return refused(26);
        }
        if holder_not_lower(&circuits[place], &call) {
            panic!("01 refuses this by 28, which no input was to give: {:?} on {:?}", call, circuits[place]);
        }
    }
    let place = match own.or_else(|| choose(circuits, &call.mark)) {
        Some(place) => place,
        None => return refused(if call.mark.level == ROUTINE { 30 } else { 31 }),
    };
    let holder = Holder { mark: Some(call.mark), reference: call.reference, rings: true };
    let before = std::mem::replace(&mut circuits[place], Circuit { holder: Some(holder), reservation: None });
    // "no reservation may stand above it in a valid table": so a call that rings is not taken on a call's own reservation either.
    assert!(!before.rings(), "a call that rings was taken: {:?} by {:?}", before, call);
    let lost_call = before.holder.map(|holder| holder.reference);
    let lost_reservation = before.reservation.map(|(reserver, _)| reserver.reference).filter(|&r| r != call.reference);
    let number = if lost_call.is_some() || lost_reservation.is_some() { 2 } else { 1 };
    Answer { number, place: Some(place), lost_call, lost_reservation }
}

fn look_ahead(circuits: &mut [Circuit], call: Call, lfb: u8, clock: u32) -> Answer {
    if lfb != 0 {
        return refused(23);
    }
    if call.mark.level == ROUTINE {
        return refused(24);
    }
    if circuits.iter().any(|c| c.held_by(call.reference) || c.reserved_by(call.reference)) {
        return refused(25);
    }
    let place = match choose(circuits, &call.mark) {
        Some(place) => place,
        None => return refused(32),
    };
    let before = circuits[place].reservation.replace((call, clock));
    let lost_reservation = before.map(|(reserver, _)| reserver.reference);
    let number = if lost_reservation.is_some() { 4 } else { 3 };
    Answer { number, place: Some(place), lost_call: None, lost_reservation }
}

fn release(circuits: &mut [Circuit], reference: Reference) -> Answer {
    match circuits.iter().position(|c| c.held_by(reference)) {
        None => refused(27),
        Some(place) => {
            circuits[place].holder = None;
            Answer { number: 5, place: Some(place), ..Answer::default() }
        }
    }
}

fn cancel(circuits: &mut [Circuit], reference: Reference) -> Answer {
    match circuits.iter().position(|c| c.reserved_by(reference)) {
        None => refused(27),
        Some(place) => {
            circuits[place].reservation = None;
            Answer { number: 6, place: Some(place), ..Answer::default() }
        }
    }
}

// "a reservation above it is lost and named in octets 10-15. A second such event changes nothing and is accepted."
fn no_service(circuits: &mut [Circuit], reference: Reference) -> Answer {
    match circuits.iter().position(|c| c.held_by(reference)) {
        None => refused(27),
        Some(place) => {
            circuits[place].holder = circuits[place].holder.map(|holder| Holder { mark: None, ..holder });
            let lost_reservation = circuits[place].reservation.take().map(|(reserver, _)| reserver.reference);
            Answer { number: 8, place: Some(place), lost_call: None, lost_reservation }
        }
    }
}

// "A second kind 7 changes nothing and is accepted."
fn answered(circuits: &mut [Circuit], reference: Reference) -> Answer {
    match circuits.iter().position(|c| c.held_by(reference)) {
        None => refused(27),
        Some(place) => {
            circuits[place].holder = circuits[place].holder.map(|holder| Holder { rings: false, ..holder });
            Answer { number: 9, place: Some(place), ..Answer::default() }
        }
    }
}

fn take_clock(circuits: &mut [Circuit], clock: u32) -> Answer {
    let mut removed = 0;
    for circuit in circuits {
        if circuit.reservation.map_or(false, |(_, stored)| clock.wrapping_sub(stored) >= RESERVATION_LIMIT) {
            circuit.reservation = None;
            removed += 1;
        }
    }
    Answer { number: 7, place: Some(removed), ..Answer::default() }
}

// One event whose lengths are right.
fn apply(table: &mut [u8], event: &[u8], answer: &mut [u8]) {
    let given = match (read_event(event), read_table(table)) {
        (None, _) => refused(22),
        (Some(_), Err(bad)) => Answer { number: bad.reason, place: Some(bad.record), ..Answer::default() },
        (Some(event), Ok(mut circuits)) => {
            let given = match event {
                Event::SetUp(call) => set_up(&mut circuits, call),
                Event::Release(reference) => release(&mut circuits, reference),
                Event::LookAhead(call, lfb, clock) => look_ahead(&mut circuits, call, lfb, clock),
                Event::Cancel(reference) => cancel(&mut circuits, reference),
                Event::Clock(clock) => take_clock(&mut circuits, clock),
                Event::NoService(reference) => no_service(&mut circuits, reference),
                Event::Answered(reference) => answered(&mut circuits, reference),
            };
            table.copy_from_slice(&write_table(&circuits));
            given
        }
    };
    write_answer(answer, &given);
}

pub fn event(table: &mut [u8], event: &[u8], answer: &mut [u8]) -> u8 {
    if !table_length_is_right(table.len()) || event.len() != EVENT || answer.len() != ANSWER {
        return 20;
    }
    apply(table, event, answer);
    answer[0]
}

// A list is its events applied one by one.
pub fn list(table: &mut [u8], events: &[u8], answers: &mut [u8]) -> u8 {
    let count = events.len() / EVENT;
    if !table_length_is_right(table.len()) || events.len() % EVENT != 0 || count > 4096 || answers.len() != count * ANSWER {
        return 20;
    }
    for (event, answer) in events.chunks(EVENT).zip(answers.chunks_mut(ANSWER)) {
        apply(table, event, answer);
    }
    0
}
