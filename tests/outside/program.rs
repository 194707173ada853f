// What the programs decide and panel should write, by document 01, document 02's L2, L4 and L7 and the independent implementation; and cases for
// them.
//
//   program decide | panel           the whole output, by the file circuits.bin and standard input
//   program table CIRCUITS SEED      a valid table
//   program events COUNT SEED        events that meet the calls in circuits.bin
//   program drip                     standard input again, in odd pieces with pauses between

#![allow(dead_code)]

mod case;
mod figures;
mod independent;
mod optional;
mod random;
mod ringing;
mod table_file;
mod traffic;

use std::io::{self, Read, Write};
use std::time::Duration;
use std::{env, fs, thread};

use independent::{ANSWER, EVENT};
use random::Random;
use traffic::Route;

fn input() -> Vec<u8> {
    let mut octets = Vec::new();
    io::stdin().read_to_end(&mut octets).expect("standard input");
    octets
}

// Identity/point code or `-`, by the octets from the flag on.
fn party(octets: &[u8]) -> String {
    if octets[0] == 0 {
        return "-".to_string();
    }
    let (_, reference) = independent::read_reference(&octets[1..6]);
    format!("{}/{}", reference.identity, reference.point)
}

fn line(event: usize, answer: &[u8]) -> String {
    let number = match u16::from_le_bytes([answer[2], answer[3]]) {
        65535 => "-".to_string(),
        number => number.to_string(),
    };
    format!("{} {} {} {} {} {}\n", event, answer[0], answer[1], number, party(&answer[4..]), party(&answer[10..]))
}

fn short(input: &[u8]) -> String {
    match input.len() % EVENT {
        0 => String::new(),
        left => format!("short {}\n", left),
    }
}

fn decide() -> String {
    let (mut table, input) = match table_file::read("circuits.bin") {
        Ok(table) => (table, input()),
        Err(line) => return line,
    };
    let mut text = "event answer cause number call reservation\n".to_string();
    for (place, event) in input.chunks_exact(EVENT).enumerate() {
        let mut answer = [0; ANSWER];
        independent::event(&mut table, event, &mut answer);
        text += &line(place + 1, &answer);
    }
    text + &short(&input)
}

fn drawing(table: &[u8]) -> String {
    let (_, lit, words) = independent::lamps(table);
    let lamp = |word: u64, bit: usize| if word >> bit & 1 == 1 { '*' } else { '.' };
    let rows: String = words.iter().map(|&word| (0..64).map(|bit| lamp(word, bit)).collect::<String>() + "\n").collect();
    let first = rows.replace('\n', "").find('*').map_or(String::new(), |circuit| format!(", first {}", circuit));
    format!("{}lit {}{}\n", rows, lit, first)
}

fn panel() -> String {
    let (mut table, input) = match table_file::read("circuits.bin") {
        Ok(table) => (table, input()),
        Err(line) => return line,
    };
    let mut text = drawing(&table);
    if input.len() >= EVENT {
        for event in input.chunks_exact(EVENT) {
            independent::event(&mut table, event, &mut [0; ANSWER]);
        }
        text += "\n";
        text += &drawing(&table);
    }
    text + &short(&input)
}

fn events(count: usize, seed: u64) -> Vec<u8> {
    let mut random = Random::new(seed);
    let mut route = Route::new(&mut random);
    let mut table = fs::read("circuits.bin").expect("circuits.bin");
    let mut octets = Vec::new();
    for _ in 0..count {
        let event = route.event(&mut random, &table);
        independent::event(&mut table, &event, &mut [0; ANSWER]);
        octets.extend(event);
    }
    octets
}

fn drip() {
    let octets = input();
    let mut rest = &octets[..];
    for size in [1, 15, 7, 4096, 17, 333, 2, 1009].iter().cycle() {
        let (piece, later) = rest.split_at(rest.len().min(*size));
        io::stdout().write_all(piece).and_then(|_| io::stdout().flush()).expect("standard output");
        thread::sleep(Duration::from_millis(1));
        rest = later;
        if rest.is_empty() {
            return;
        }
    }
}

fn main() {
    let words: Vec<String> = env::args().skip(1).collect();
    let number = |i: usize| words.get(i).and_then(|w| w.parse::<u64>().ok()).expect("a number");
    let octets = match words.first().map(String::as_str) {
        Some("decide") => decide().into_bytes(),
        Some("panel") => panel().into_bytes(),
        Some("table") => {
            let mut random = Random::new(number(2));
            Route::new(&mut random).table(&mut random, number(1) as usize, 4, 2)
        }
        Some("events") => events(number(1) as usize, number(2)),
        Some("drip") => return drip(),
        _ => panic!("usage: program decide | panel | table CIRCUITS SEED | events COUNT SEED | drip"),
    };
    io::stdout().write_all(&octets).expect("standard output");
}
