// What the program figures should write, by document 02's L1, L2, L4 and L7 and the independent implementation.
//
//   figures                    the whole output, by the file circuits.bin and standard input
//   figures TABLE EVENTS ..    the whole output, by these files

#![allow(dead_code)]

#[path = "outside/figures.rs"]
mod figures;
#[path = "outside/independent.rs"]
mod independent;
#[path = "outside/table_file.rs"]
mod table_file;

use std::io::{self, Read};
use std::{env, fs};

use figures::TOTALS;
use independent::{CIRCUIT, EVENT};

const LEVELS: [&str; 5] = ["FLASH_OVERRIDE", "FLASH", "IMMEDIATE", "PRIORITY", "ROUTINE"];
const LIST: usize = 4096 * EVENT;

struct Day {
    start: u64,
    end: u64,
    totals: [u64; TOTALS],
    shorts: String,
    full: bool,
}

fn holders(table: &[u8]) -> u64 {
    table.chunks(CIRCUIT).filter(|circuit| circuit[0] == 1).count() as u64
}

impl Day {
    fn new() -> Day {
        Day { start: 0, end: 0, totals: [0; TOTALS], shorts: String::new(), full: false }
    }

    // One table and its events, until the totals take no more.
    fn add(&mut self, mut table: Vec<u8>, events: &[u8]) {
        let left = events.len() % EVENT;
        let whole = &events[..events.len() - left];
        let lists: Vec<&[u8]> = if whole.is_empty() { vec![whole] } else { whole.chunks(LIST).collect() };
        let start = holders(&table);
        let before = self.totals[0];
        for list in lists {
            self.full |= figures::figures(&mut table, list, &mut vec![0; list.len()], &mut self.totals) == 60;
        }
        // A list that is refused adds nothing, so a table of which no list was added counts for nothing.
        if self.totals[0] > before {
            self.start += start;
            self.end += holders(&table);
        }
        if left > 0 && !self.full {
            self.shorts += &format!("short {}\n", left);
        }
    }

    fn text(&self) -> String {
        let sum = |word: &str, total: u64| format!("{} {}\n", word, total);
        let mut text = sum("start", self.start) + &sum("seized", self.totals[2]) + &sum("released", self.totals[3]);
        text += &(sum("lost", self.totals[4]) + &sum("end", self.end));
        for (number, total) in self.totals[31..].iter().enumerate().filter(|(_, total)| **total > 0) {
            text += &format!("answer {} {}\n", number, total);
        }
        text += &format!("taker {}\n", LEVELS.join(" "));
        for (level, row) in LEVELS.iter().zip(self.totals[6..31].chunks(5)) {
            text += &row.iter().fold(level.to_string(), |line, total| format!("{} {}", line, total));
            text += "\n";
        }
        text + &self.shorts + if self.full { "60\n" } else { "" }
    }
}

fn input() -> Vec<u8> {
    let mut octets = Vec::new();
    io::stdin().read_to_end(&mut octets).expect("standard input");
    octets
}

// The whole output, or the only line; nothing where an events file cannot be read.
fn output(names: &[String]) -> Result<String, String> {
    let mut day = Day::new();
    if names.is_empty() {
        day.add(table_file::read("circuits.bin")?, &input());
    }
    for pair in names.chunks(2) {
        let table = table_file::read(&pair[0])?;
        let events = fs::read(&pair[1]).map_err(|_| String::new())?;
        day.add(table, &events);
        if day.full {
            break;
        }
    }
    Ok(day.text())
}

fn main() {
    let names: Vec<String> = env::args().skip(1).collect();
    print!("{}", output(&names).unwrap_or_else(|line| line));
}
