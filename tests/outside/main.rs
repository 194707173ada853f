// Holds the library, which a program serves over pipes, to an independent implementation of document 01 and of document 02's L1, L2 and L4
// to L7.
//
//   outside SEED rounds COUNT SERVER..      so many rounds
//   outside SEED seconds COUNT SERVER..     rounds for so long, with a line now and then
//
// Round i has the seed SEED + i and draws on nothing else, so that a difference comes again with `outside ITS-SEED rounds 1 SERVER..`.

mod case;
mod damage;
mod days;
mod exchange;
mod figures;
mod independent;
mod optional;
mod paper;
mod parts;
mod random;
mod ringing;
mod strings;
mod traffic;

use std::process::exit;
use std::thread::panicking;
use std::time::{Duration, Instant};

use case::{Application, Case};
use exchange::Exchange;
use independent::ANSWER;
use random::Random;
use traffic::{some_size, Route};

// What a round holds.
const EVENTS_IN_LISTS: usize = 1024;
const EVENTS_ALONE: usize = 128;
const DAMAGED: usize = 256;
const DAMAGED_BY_OCTET: usize = 8;
const STRINGS: usize = 256;

struct Tally {
    rounds: u64,
    calls: usize,
    events: usize,
    // How often each number stood in an answer of a list.
    numbers: [usize; 256],
    // How often each number was given to the check of a damaged table.
    checked: [usize; 256],
    // How often each number was given to a list that was to be added to totals.
    added: [usize; 256],
    // How often each number was given to the search for precedence in an optional part.
    searched: [usize; 256],
    // How often each number was given to a list of parameters that was to be written.
    written: [usize; 256],
}

impl Tally {
    fn new() -> Tally {
        let none = [0; 256];
        Tally { rounds: 0, calls: 0, events: 0, numbers: none, checked: none, added: none, searched: none, written: none }
    }
}

fn lists(random: &mut Random, tally: &mut Tally, give: &mut dyn FnMut(Case)) {
    let mut left = if random.once_in(16) { 4096 } else { EVENTS_IN_LISTS };
    while left > 0 {
        let count = if random.once_in(2) { left } else { 1 + random.below(left) };
        let mut route = Route::new(random);
        let (circuits, held, reserved) = (some_size(random), random.below(9), random.below(9));
        let table = route.table(random, circuits, held, reserved);
        let case = route.list(random, &table, count);
        let answers = &case.expected[case.expected.len() - count * ANSWER..];
        answers.chunks(ANSWER).for_each(|answer| tally.numbers[answer[0] as usize] += 1);
        give(case);
        tally.events += count;
        left -= count;
    }
    give(Route::new(random).clocks(random));
}

fn events_alone(random: &mut Random, give: &mut dyn FnMut(Case)) {
    let mut route = Route::new(random);
    let circuits = some_size(random);
    let mut table = route.table(random, circuits, 7, 4);
    for _ in 0..EVENTS_ALONE {
        let event = route.event(random, &table);
        let mut answer = random.octets(ANSWER);
        give(Application { table: &table, events: &event, answers: &answer }.event(random));
        independent::event(&mut table, &event, &mut answer);
    }
}

fn damaged(random: &mut Random, tally: &mut Tally, give: &mut dyn FnMut(Case)) {
    let mut count = |case: Case| {
        if case.what == "check" {
            tally.checked[case.expected[0] as usize] += 1;
        }
        give(case);
    };
    for _ in 0..DAMAGED {
        damage::cases(random, &mut count);
    }
    for _ in 0..DAMAGED_BY_OCTET {
        damage::every_octet(random, &mut count);
    }
}

fn days(random: &mut Random, tally: &mut Tally, give: &mut dyn FnMut(Case)) {
    days::cases(random, &mut |case| {
        tally.added[case.expected[0] as usize] += 1;
        give(case);
    });
}

fn parts(random: &mut Random, seed: u64, tally: &mut Tally, give: &mut dyn FnMut(Case)) {
    parts::cases(random, seed, &mut |case| {
        match case.what {
            "find precedence" => tally.searched[case.expected[0] as usize] += 1,
            "write optional" => tally.written[case.expected[0] as usize] += 1,
            _ => {}
        }
        give(case);
    });
}

// Says the seed of a round that a panic ends, so that the round can be played again.
struct Watched(u64);

impl Drop for Watched {
    fn drop(&mut self) {
        if panicking() {
            println!("seed {}: the round ended before its time", self.0);
        }
    }
}

fn round(seed: u64, tally: &mut Tally, exchange: &mut Exchange) -> bool {
    let _watched = Watched(seed);
    let mut random = Random::new(seed);
    let (mut going, mut calls) = (true, 0);
    let mut give = |case: Case| {
        calls += 1;
        going = going && exchange.send(seed, case);
    };
    lists(&mut random, tally, &mut give);
    events_alone(&mut random, &mut give);
    damaged(&mut random, tally, &mut give);
    for _ in 0..STRINGS {
        strings::cases(&mut random, &mut give);
    }
    days(&mut random, tally, &mut give);
    parts(&mut random, seed, tally, &mut give);
    tally.rounds += 1;
    tally.calls += calls;
    going
}

fn say(tally: &Tally, since: Instant, end: &str) {
    let seconds = since.elapsed().as_secs();
    let [added, searched, written] = [tally.added, tally.searched, tally.written].map(|numbers| numbers.iter().sum::<usize>());
    println!(
        "outside: {} s, {} rounds, {} calls, {} events in lists, {} lists for figures, {} optional parts, {} lists of parameters{}",
        seconds, tally.rounds, tally.calls, tally.events, added, searched, written, end
    );
}

// How fast it goes: a case is one call, a whole list too.
fn pace(tally: &Tally, since: Instant) -> String {
    format!(", {:.0} cases a second", tally.calls as f64 / since.elapsed().as_secs_f64())
}

// How many times which number was met.
fn met(numbers: &[usize; 256]) -> String {
    let met = numbers.iter().enumerate().filter(|(_, times)| **times > 0);
    met.map(|(number, times)| format!("{} × {}", times, number)).collect::<Vec<_>>().join(", ")
}

fn say_numbers(tally: &Tally) {
    println!(
        "outside: answers {}; damaged tables {}; lists for figures {}; optional parts {}; lists of parameters {}",
        met(&tally.numbers),
        met(&tally.checked),
        met(&tally.added),
        met(&tally.searched),
        met(&tally.written)
    );
}

fn main() {
    let words: Vec<String> = std::env::args().skip(1).collect();
    let number = |i: usize| words.get(i).and_then(|w| w.parse::<u64>().ok());
    let (seed, count, by_time) = match (number(0), number(2), words.get(1).map(String::as_str)) {
        (Some(seed), Some(count), Some("rounds")) if words.len() > 3 => (seed, count, false),
        (Some(seed), Some(count), Some("seconds")) if words.len() > 3 => (seed, count, true),
        _ => {
            eprintln!("usage: outside SEED rounds|seconds COUNT SERVER..");
            exit(2);
        }
    };
    paper::hold();
    let began = Instant::now();
    let mut said = began;
    let mut tally = Tally::new();
    let mut exchange = Exchange::start(&words[3..]);
    loop {
        let done = if by_time { began.elapsed() >= Duration::from_secs(count) } else { tally.rounds == count };
        if done || !round(seed.wrapping_add(tally.rounds), &mut tally, &mut exchange) {
            break;
        }
        if by_time && said.elapsed() >= Duration::from_secs(10) {
            said = Instant::now();
            say(&tally, began, &pace(&tally, began));
        }
    }
    if let Err(difference) = exchange.end() {
        say(&tally, began, "");
        println!("{}", difference);
        exit(1);
    }
    say_numbers(&tally);
    say(&tally, began, ": no difference");
}
