// Document 02's L1, the day's figures, read a second time: what a list adds to the totals is counted in its table before it and after it,
// in its events and in their answers. The loser's level stands in no answer: it is kept here by the call's reference, from the table at the
// start or from the call's own set-up on. A holder whose mark came off is never lost, so what level is kept of it does not matter.

use std::collections::BTreeMap;

use crate::independent::{self, five, Reference, ANSWER, CIRCUIT, EVENT};

pub const TOTALS: usize = 95;
pub const MOST_LISTS: u64 = 65_536;

// The level of each holder, by its reference.
type Levels = BTreeMap<Reference, u8>;

// The records with a holder, in a table that need not be valid.
fn held(table: &[u8]) -> impl Iterator<Item = &[u8]> {
    table.chunks(CIRCUIT).filter(|record| record[0] == 1)
}

fn holders(table: &[u8]) -> u64 {
    held(table).count() as u64
}

// Whether another list can be added, whatever it adds.
fn have_room(totals: &[u64]) -> bool {
    totals[0] < MOST_LISTS && totals.iter().all(|total| total.checked_add(4096).is_some())
}

fn count(totals: &mut [u64], levels: &mut Levels, event: &[u8], answer: &[u8]) {
    let (kind, level, number) = (event[0], event[1] & 0x0f, answer[0]);
    totals[31 + number as usize] += 1;
    if number == 5 {
        totals[3] += 1;
    }
    if answer[4] == 1 {
        let loser = levels.remove(&five(&answer[5..10])).expect("who loses a circuit held it");
        totals[4] += 1;
        totals[6 + 5 * level as usize + loser as usize] += 1;
    }
    if kind == 1 && (number == 1 || number == 2) {
        let mut reference = five(&event[7..12]);
        reference[4] &= 0x3f;
        totals[2] += 1;
        levels.insert(reference, level);
    }
}

// A list carried out and added: 0, or 20 or 60 with nothing written.
pub fn figures(table: &mut [u8], events: &[u8], answers: &mut [u8], totals: &mut [u64]) -> u8 {
    let (mut after, mut told) = (table.to_vec(), answers.to_vec());
    if independent::list(&mut after, events, &mut told) == 20 || totals.len() != TOTALS {
        return 20;
    }
    if !have_room(totals) {
        return 60;
    }
    let mut levels: Levels = held(table).map(|record| (five(&record[7..12]), record[1])).collect();
    totals[0] += 1;
    totals[1] += holders(table);
    for (event, answer) in events.chunks(EVENT).zip(told.chunks(ANSWER)) {
        count(totals, &mut levels, event, answer);
    }
    totals[5] += holders(&after);
    table.copy_from_slice(&after);
    answers.copy_from_slice(&told);
    0
}

// Holders at the start and seizures equal releases, lost holders and holders at the end.
pub fn close(totals: &[u64]) -> bool {
    totals[1] + totals[2] == totals[3] + totals[4] + totals[5]
}
