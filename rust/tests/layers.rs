// Random events through both layers: the typed one answers what the functions over slices answer, and leaves the same table. Random optional parts
// likewise: the iterator gives what a walk by single steps gives, and a list put together by parameters is read back from the part written of it.

use naustvri::*;
use std::iter::FusedIterator;

// Numbers that look random (xorshift).
struct Random(u64);

impl Random {
    fn below(&mut self, bound: u32) -> u32 {
        self.0 ^= self.0 << 13;
        self.0 ^= self.0 >> 7;
        self.0 ^= self.0 << 17;
        (self.0 >> 32) as u32 % bound
    }

    // Rarely what is too large, else below the bound.
    fn mostly_below(&mut self, bound: u32, too_large: u32) -> u32 {
        if self.below(64) == 0 {
            too_large
        } else {
            self.below(bound)
        }
    }
}

// The fields of an event, with values that may be too large.
struct Drawn {
    kind: u8,
    precedence: Precedence,
    call: Reference,
    clock: u32,
}

fn draw(random: &mut Random, clock: u32) -> Drawn {
    let first_digit = random.mostly_below(2, 10) as u8;
    Drawn {
        kind: [
            SET_UP, SET_UP, RELEASE, LOOK_AHEAD, LOOK_AHEAD, CANCEL, CLOCK, NO_SERVICE, ANSWERED,
            ANSWERED, ANSWERED, ANSWERED,
        ][random.below(12) as usize],
        precedence: Precedence {
            level: random.below(5) as u8,
            lfb: [LFB_ALLOWED, LFB_ALLOWED, LFB_PATH_RESERVED, LFB_NOT_ALLOWED]
                [random.below(4) as usize],
            digits: [first_digit, 0, 4, 6],
            service: random.mostly_below(1, 1 << 24),
        },
        call: Reference {
            identity: random.mostly_below(12, 1 << 24),
            point: random.mostly_below(2, 1 << 14) as u16,
        },
        clock,
    }
}

fn typed(drawn: &Drawn) -> Event {
    let Drawn {
        precedence,
        call,
        clock,
        ..
    } = *drawn;
    let level = Level::from_number(precedence.level).unwrap();
    let lfb = Lfb::from_number(precedence.lfb).unwrap();
    let domain = Domain {
        digits: precedence.digits,
        service: precedence.service,
    };
    match drawn.kind {
        SET_UP => Event::SetUp {
            call,
            level,
            domain,
            lfb,
        },
        RELEASE => Event::Release { call },
        LOOK_AHEAD => Event::LookAhead {
            call,
            level,
            domain,
            lfb,
            clock,
        },
        CANCEL => Event::Cancel { call },
        NO_SERVICE => Event::NoService { call },
        ANSWERED => Event::Answered { call },
        _ => Event::Clock { clock },
    }
}

// The octets by the writing functions, or the number by which one of them refuses.
fn octets(drawn: &Drawn) -> Result<[u8; EVENT_SIZE], u8> {
    let mut octets = [0; EVENT_SIZE];
    octets[0] = drawn.kind;
    octets[12..].copy_from_slice(&drawn.clock.to_le_bytes());
    if drawn.kind == SET_UP || drawn.kind == LOOK_AHEAD {
        match write_precedence(&mut octets[1..7], drawn.precedence) {
            DONE => (),
            number => return Err(number),
        }
    }
    if drawn.kind != CLOCK {
        match write_reference(&mut octets[7..12], drawn.call) {
            DONE => (),
            number => return Err(number),
        }
    }
    Ok(octets)
}

// The octets that an answer came from.
fn octets_of(answer: Answer) -> [u8; ANSWER_SIZE] {
    let mut octets = [0; ANSWER_SIZE];
    octets[0] = answer.number;
    octets[1] = answer.cause;
    octets[2..4].copy_from_slice(&answer.place.unwrap_or(NO_PLACE).to_le_bytes());
    for (flag, lost) in [(4, answer.lost.call), (10, answer.lost.reservation)] {
        if let Some(reference) = lost {
            octets[flag] = 1;
            assert_eq!(
                write_reference(&mut octets[flag + 1..flag + 6], reference),
                DONE
            );
        }
    }
    octets
}

// What the typed layer gives, as the answer that says the same.
fn as_answer(result: Result<Done, Refusal>) -> Answer {
    let nobody = Lost::default();
    let (number, cause, place, lost) = match result {
        Ok(Done::Seized { circuit, lost }) => {
            (if lost == nobody { 1 } else { 2 }, 0, Some(circuit), lost)
        }
        Ok(Done::Reserved { circuit, lost }) => {
            (if lost == nobody { 3 } else { 4 }, 0, Some(circuit), lost)
        }
        Ok(Done::Released { circuit }) => (5, 0, Some(circuit), nobody),
        Ok(Done::Cancelled { circuit }) => (6, 0, Some(circuit), nobody),
        Ok(Done::ClockTaken { removed }) => (7, 0, Some(removed), nobody),
        Ok(Done::Unmarked { circuit, lost }) => (8, 0, Some(circuit), lost),
        Ok(Done::NowAnswered { circuit }) => (9, 0, Some(circuit), nobody),
        Err(refusal) => (refusal.number(), refusal.cause(), refusal.record(), nobody),
        other => panic!("not looked at: {:?}", other),
    };
    Answer {
        number,
        cause,
        place,
        lost,
    }
}

// The same events as a list, added to the day's figures in both layers.
fn add_to_figures(events: &[u8], answers: &[u8], table: &[u8], day: &mut Figures) {
    let (mut listed, mut lent) = (vec![0; table.len()], vec![0; table.len()]);
    let (mut told, mut said) = (vec![0; answers.len()], vec![0; answers.len()]);
    let mut totals = *day.totals();
    assert_eq!(figures(&mut listed, events, &mut told, &mut totals), DONE);
    assert_eq!((&listed[..], &told[..]), (table, answers));
    let mut route = Route::new(&mut lent).unwrap();
    assert_eq!(route.figures(events, &mut said, day), Ok(()));
    assert_eq!((route.table(), &said[..]), (table, answers));
    assert_eq!(day.totals(), &totals);
    assert_eq!(Figures::from_totals(totals), *day);
}

// The figures of the whole day: each event stands under its number, and each lost holder under its taker and itself.
fn figures_close(day: &Figures, rounds: u64, seen: &[u64; 256]) {
    assert_eq!((day.lists(), day.start()), (rounds, 0));
    for number in 0..=255 {
        assert_eq!(day.answered(number), seen[usize::from(number)]);
    }
    assert_eq!(day.seized(), seen[1] + seen[2]);
    assert_eq!(day.released(), seen[5]);
    assert_eq!(
        day.start() + day.seized(),
        day.released() + day.lost() + day.end()
    );
    let mut lost = 0;
    for &taker in Level::ALL {
        for &loser in Level::ALL {
            let times = day.lost_by_level(taker, loser);
            assert_eq!(times > 0, taker.number() < loser.number());
            lost += times;
        }
    }
    assert_eq!(lost, day.lost());
}

#[test]
fn random_events() {
    let mut random = Random(0x9e37_79b9_7f4a_7c15);
    let (mut seen, mut counted) = ([0u32; 256], [0; 256]);
    let mut day = Figures::default();
    let mut unmarked_with_loss = 0;
    for round in 0..200 {
        let size = (1 + round % 5) * CIRCUIT_SIZE;
        let (mut table, mut lent) = (vec![0; size], vec![0; size]);
        let mut route = Route::new(&mut lent).unwrap();
        let (mut events, mut answers) = (Vec::new(), Vec::new());
        let mut clock = random.below(u32::MAX);
        for _ in 0..300 {
            clock = clock.wrapping_add(random.below(1500));
            let drawn = draw(&mut random, clock);
            let given = as_answer(route.apply(&typed(&drawn)));
            seen[usize::from(given.number)] += 1;
            if given.number == UNMARKED && given.lost.reservation.is_some() {
                unmarked_with_loss += 1;
            }
            match octets(&drawn) {
                Err(number) => assert_eq!(given.number, number),
                Ok(octets) => {
                    let mut answer = [0xff; ANSWER_SIZE];
                    assert_eq!(event(&mut table, &octets, &mut answer), given.number);
                    assert_eq!(octets_of(given), answer);
                    assert_eq!(Answer::from_octets(&answer), given);
                    events.extend(octets);
                    answers.extend(answer);
                }
            }
            assert_eq!(route.table(), table);
            assert_eq!(check(&table).number, DONE);
        }
        assert_eq!(route.lamps(), lamps(&table));

        // The same events as a list.
        let mut listed = vec![0; size];
        let mut told = vec![0; answers.len()];
        assert_eq!(
            Route::new(&mut listed).unwrap().list(&events, &mut told),
            Ok(())
        );
        assert_eq!((&listed, &told), (&table, &answers));
        add_to_figures(&events, &answers, &table, &mut day);
        for answer in answers.chunks(ANSWER_SIZE) {
            counted[usize::from(answer[0])] += 1;
        }
    }
    figures_close(&day, 200, &counted);
    // Every number that an event over a valid table can have.
    for number in [
        1, 2, 3, 4, 5, 6, 7, 8, 9, 22, 23, 24, 25, 26, 27, 30, 31, 32,
    ] {
        assert!(seen[number] > 0, "no event was answered by {number}");
    }
    assert!(unmarked_with_loss > 0, "no reservation was lost by 8");
}

#[test]
fn tables_that_are_refused() {
    let refusal = |table: &mut [u8]| Route::new(table).map(|_| ()).unwrap_err();
    assert_eq!(refusal(&mut []), Refusal::WrongLength);
    assert_eq!(refusal(&mut [0; CIRCUIT_SIZE + 1]), Refusal::WrongLength);
    assert_eq!(
        refusal(&mut [1; CIRCUIT_SIZE]),
        Refusal::BadRecord {
            reason: Reason::NotZero,
            record: 0
        }
    );
    let mut table = [0; CIRCUIT_SIZE];
    let mut route = Route::new(&mut table).unwrap();
    assert_eq!(
        route.list(&[0; EVENT_SIZE], &mut []),
        Err(Refusal::WrongLength)
    );
    let mut totals = [0; FIGURES];
    totals[FIGURE_LISTS] = LISTS_MOST;
    let mut full = Figures::from_totals(totals);
    assert_eq!(
        route.figures(&[], &mut [], &mut full),
        Err(Refusal::TooManyLists)
    );
    assert_eq!(
        route.figures(&[0; EVENT_SIZE], &mut [], &mut full),
        Err(Refusal::WrongLength)
    );
    assert_eq!(full.totals(), &totals);
}

// A route with calls on it, of which octets were changed, or a part or a whole circuit copied elsewhere.
fn damaged(random: &mut Random) -> Vec<u8> {
    let mut table = vec![0; (1 + random.below(5) as usize) * CIRCUIT_SIZE];
    let mut route = Route::new(&mut table).unwrap();
    for _ in 0..20 {
        // What the event does is of no matter here.
        let _ = route.apply(&typed(&draw(random, 0)));
    }
    let mut place = |size: usize| size * random.below((table.len() / size) as u32) as usize;
    let (octet, from, to) = (place(1), place(CIRCUIT_SIZE), place(CIRCUIT_SIZE));
    match random.below(4) {
        0 => table.copy_within(from..from + CIRCUIT_SIZE, to),
        1 => table.copy_within(from..from + CIRCUIT_RESERVED, to + CIRCUIT_RESERVED),
        _ => table[octet] = random.below(256) as u8,
    }
    table
}

// Over a table that is not valid both layers name the same record by the same reason, whoever is asked.
#[test]
fn damaged_tables() {
    let mut random = Random(0x2545_f491_4f6c_dd1d);
    let mut seen = [0; 256];
    for _ in 0..4000 {
        let mut table = damaged(&mut random);
        let Check { number, record } = check(&table);
        seen[usize::from(number)] += 1;
        let shown = lamps(&table);
        assert_eq!((shown.number, shown.record), (number, record));
        let made = Route::new(&mut table).map(|_| ());
        if number == DONE {
            assert_eq!((made, record), (Ok(()), NO_PLACE));
            continue;
        }
        let refusal = Refusal::from_number(number, record);
        assert_eq!(made, Err(refusal));
        let octets = Event::Clock { clock: 0 }.to_octets().unwrap();
        let (mut answer, mut told) = ([0xff; ANSWER_SIZE], [0xff; ANSWER_SIZE]);
        assert_eq!(event(&mut table, &octets, &mut answer), number);
        assert_eq!(Answer::from_octets(&answer), as_answer(Err(refusal)));
        assert_eq!(Answer::from_octets(&answer).result(), Err(refusal));
        assert_eq!(list(&mut table, &octets, &mut told), DONE);
        assert_eq!(told, answer);
    }
    for reason in Reason::ALL {
        assert!(
            seen[usize::from(reason.number())] > 0,
            "no table was refused by {reason}"
        );
    }
}

// The optional part of an initial address message, and its parameters.
const PART: [u8; 22] = [
    0x0a, 0x07, 0x84, 0x13, 0x64, 0x18, 0x32, 0x54, 0x06, // place 0
    0x39, 0x02, 0x3a, 0xc0, // place 9
    0x3a, 0x06, 0x43, 0x04, 0x60, 0x00, 0x00, 0x01, // place 13
    0x00, // place 21
];
const PARAMETERS: [Parameter; 3] = [
    Parameter {
        name: 10,
        contents: &[0x84, 0x13, 0x64, 0x18, 0x32, 0x54, 0x06],
    },
    Parameter {
        name: 57,
        contents: &[0x3a, 0xc0],
    },
    Parameter {
        name: NAME_PRECEDENCE,
        contents: &[0x43, 0x04, 0x60, 0x00, 0x00, 0x01],
    },
];

// Everything that the iterator gives. After that it gives nothing, however often it is asked.
fn all<I: FusedIterator>(mut items: I) -> Vec<I::Item> {
    let given = items.by_ref().collect();
    assert!((0..3).all(|_| items.next().is_none()));
    given
}

#[test]
fn parameters_of_a_part() {
    assert_eq!(all(parameters(&PART)), PARAMETERS.map(Ok));
    // Octets behind the end are not looked at.
    let longer = [&PART[..], &[7]].concat();
    assert_eq!(all(parameters(&longer)), PARAMETERS.map(Ok));
    assert_eq!(all(parameters(&[0, 7])), []);
    // A copy of the iterator goes on by itself.
    let mut items = parameters(&PART);
    assert_eq!(items.next(), Some(Ok(PARAMETERS[0])));
    assert_eq!(all(items.clone()), all(items));

    // Of each prefix: the parameters that are whole, and one refusal.
    for length in 0..PART.len() {
        let whole = [9, 13, 21].iter().filter(|&&next| next <= length).count();
        let number = match length {
            0 | 9 | 13 | 21 => NO_END,
            _ => PARAMETER_CUT_SHORT,
        };
        let mut wanted: Vec<_> = PARAMETERS[..whole].iter().copied().map(Ok).collect();
        wanted.push(Err(number));
        assert_eq!(all(parameters(&PART[..length])), wanted);
    }
}

#[test]
fn parameters_of_a_list() {
    let mut list = [0xff; 13];
    assert_eq!(push_parameter(&mut list, 0, 7, &[1, 2]), Some(5));
    assert_eq!(push_parameter(&mut list, 5, 8, &[]), Some(8));
    let wanted = [7, 2, 0, 1, 2, 8, 0, 0, 0xff, 0xff, 0xff, 0xff, 0xff];
    assert_eq!(list, wanted);

    // Too little room, by one octet and by any number of them.
    for (at, contents) in [
        (8, &[0; 3][..]),
        (11, &[]),
        (12, &[]),
        (13, &[]),
        (14, &[]),
        (usize::MAX - 3, &[]),
        (usize::MAX, &[]),
        (usize::MAX - 8, &[0; 5]),
    ] {
        assert_eq!(push_parameter(&mut list, at, 9, contents), None);
    }
    assert_eq!(push_parameter(&mut [], 0, 9, &[]), None);
    assert_eq!(list, wanted);
    assert_eq!(push_parameter(&mut list, 8, 9, &[3, 4]), Some(13));
    assert_eq!(list[8..], [9, 2, 0, 3, 4]);
}

#[test]
fn long_parameters_of_a_list() {
    // As many octets as two octets can count, and one more.
    let (contents, mut list) = (vec![1; 65536], vec![0xff; 65540]);
    assert_eq!(push_parameter(&mut list, 0, 7, &contents), None);
    assert!(list.iter().all(|&octet| octet == 0xff));
    let end = push_parameter(&mut list, 0, 7, &contents[1..]);
    assert_eq!(end, Some(65538));
    assert_eq!(list[..4], [7, 0xff, 0xff, 1]);
    assert_eq!(list[65537..], [1, 0xff, 0xff]);

    // A name 0 and 256 octets of contents are for the writer to refuse.
    for (name, contents) in [(NAME_END, &[][..]), (7, &[0; 256])] {
        let end = push_parameter(&mut list, 0, name, contents).unwrap();
        let written = write_optional(&mut [0; 300], &list[..end]);
        assert_eq!((written.number, written.end), (MALFORMED, 0));
    }
}

#[test]
fn part_with_another_precedence() {
    let (mut list, mut end) = ([0; 64], 0);
    for parameter in parameters(&PART) {
        let Parameter { name, contents } = parameter.unwrap();
        let mut changed = contents.to_vec();
        if name == NAME_PRECEDENCE {
            changed[0] = 0xc3;
        }
        end = push_parameter(&mut list, end, name, &changed).unwrap();
    }
    let mut buffer = [0xff; 32];
    let written = write_optional(&mut buffer, &list[..end]);
    assert_eq!((written.number, written.end), (DONE, 22));
    assert_eq!(buffer[..22], PART);
}

// The name and the contents of a parameter. Precedence has any spare bits and is mostly well formed; other contents are short.
fn draw_parameter(random: &mut Random) -> (u8, Vec<u8>) {
    let name = [1, 10, 57, 58, 58, 255][random.below(6) as usize];
    let length = match name {
        NAME_PRECEDENCE => random.mostly_below(1, 1) + 6,
        _ => random.below(4),
    };
    let mut contents: Vec<u8> = (0..length).map(|_| random.below(10) as u8).collect();
    if name == NAME_PRECEDENCE {
        let (spare, lfb, level) = (random.below(4), random.below(3), random.below(5));
        contents[0] = (spare % 2 * 0x80 + spare / 2 * 0x10 + lfb * 0x20 + level) as u8;
    }
    (name, contents)
}

// The octets of a part with a few parameters, of which one octet was changed or which was cut.
fn damaged_part(random: &mut Random) -> Vec<u8> {
    let mut part = Vec::new();
    for _ in 0..random.below(4) {
        let (name, contents) = draw_parameter(random);
        part.extend([name, contents.len() as u8]);
        part.extend(contents);
    }
    part.push(NAME_END);
    let place = random.below(part.len() as u32) as usize;
    match random.below(4) {
        0 => part.truncate(place),
        1 => part[place] = random.below(64) as u8,
        _ => (),
    }
    part
}

// A walk by single steps: what the iterator gives, and what the search makes of it.
fn walk(part: &[u8]) -> (Vec<Result<Parameter<'_>, u8>>, u8) {
    let (mut items, mut place) = (Vec::new(), 0);
    let (mut had, mut fault) = (false, DONE);
    loop {
        let reading = next_parameter(part, place);
        if reading.number != DONE {
            items.push(Err(reading.number));
            return (items, if fault == DONE { reading.number } else { fault });
        }
        if reading.name == NAME_END {
            assert_eq!(reading.next, place);
            return (items, fault);
        }
        let (name, contents) = (reading.name, &part[reading.start..reading.next]);
        assert_eq!(contents.len(), usize::from(reading.length));
        items.push(Ok(Parameter { name, contents }));
        if name == NAME_PRECEDENCE && fault == DONE {
            if had {
                fault = PRECEDENCE_TWICE;
            } else if read_precedence(contents).number != DONE {
                fault = MALFORMED;
            }
            had = true;
        }
        place = reading.next;
    }
}

#[test]
fn random_parts() {
    let mut random = Random(0x0139_408d_cbbf_7a44);
    let mut seen = [0; 256];
    for _ in 0..4000 {
        let part = damaged_part(&mut random);
        let (items, number) = walk(&part);
        assert_eq!(all(parameters(&part)), items);
        let found = find_precedence(&part);
        assert_eq!(found.number, number);
        seen[usize::from(number)] += 1;
        if found.found == 1 {
            let octets = &part[found.start..found.start + PRECEDENCE_SIZE];
            assert_eq!(read_precedence(octets).value, found.value);
        }
        if number == DONE {
            assert_eq!(part[found.end - 1], NAME_END);
            assert_eq!(all(parameters(&part[..found.end])), items);
        }
    }
    for number in [0, 22, 61, 62, 63] {
        assert!(seen[number] > 0, "no part was answered by {number}");
    }
}

#[test]
fn lists_there_and_back() {
    let mut random = Random(0x6a09_e667_f3bc_c908);
    let mut seen = [0; 256];
    for _ in 0..4000 {
        let drawn: Vec<_> = (0..random.below(5))
            .map(|_| draw_parameter(&mut random))
            .collect();
        let (mut list, mut end, mut need) = ([0; 64], 0, 1);
        for (name, contents) in &drawn {
            end = push_parameter(&mut list, end, *name, contents).unwrap();
            need += 2 + contents.len();
        }
        let mut buffer = vec![0xff; need + 1 - random.mostly_below(2, 2) as usize];
        let room = buffer.len();
        let written = write_optional(&mut buffer, &list[..end]);
        seen[usize::from(written.number)] += 1;
        if written.number != DONE {
            assert_eq!((written.end, buffer), (0, vec![0xff; room]));
            assert_eq!(written.number == WRONG_LENGTH, room < need);
            continue;
        }
        assert_eq!(written.end, need);
        assert!(buffer[need..].iter().all(|&octet| octet == 0xff));
        let read: Result<Vec<Parameter>, u8> = parameters(&buffer).collect();
        let mut wanted = drawn;
        for (name, contents) in &mut wanted {
            if *name == NAME_PRECEDENCE {
                contents[0] &= 0x6f;
            }
        }
        let wanted: Vec<Parameter> = wanted
            .iter()
            .map(|&(name, ref contents)| Parameter { name, contents })
            .collect();
        assert_eq!(read, Ok(wanted));
    }
    for number in [0, 20, 22, 63] {
        assert!(seen[number] > 0, "no list was answered by {number}");
    }
}
