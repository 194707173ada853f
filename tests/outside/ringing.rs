// Who rings, by document 02's L7 over events and answers alone: a call from the set-up that was answered by 1 or 2 until its own kind 7 that was
// answered by 9, or its release. What the independent implementation answers and leaves in a table is held to that, so that octet 30 is read
// twice.

use std::collections::BTreeSet;

use crate::independent::{five, Reference, CIRCUIT, RINGING};

// The calls that ring.
pub struct Ringing(BTreeSet<Reference>);

impl Ringing {
    // Those of a valid table.
    pub fn new(table: &[u8]) -> Ringing {
        Ringing(table.chunks(CIRCUIT).filter(|record| record[RINGING] == 1).map(|record| five(&record[7..12])).collect())
    }

    // An event and its answer: who loses a circuit does not ring.
    pub fn heed(&mut self, event: &[u8], answer: &[u8]) {
        let lost = five(&answer[5..10]);
        assert!(answer[4] == 0 || !self.0.contains(&lost), "call {:?} rang and lost its circuit", lost);
        let mut reference = five(&event[7..12]);
        reference[4] &= 0x3f;
        match answer[0] {
            1 | 2 => self.0.insert(reference),
            5 | 9 => self.0.remove(&reference),
            _ => false,
        };
    }

    pub fn hold(&self, table: &[u8]) {
        assert_eq!(self.0, Ringing::new(table).0, "octet 30 says otherwise than the events and answers");
    }
}
