// An answer in its own words.

use crate::{
    read_reference, Reference, Refusal, ANSWER_CALL_LOST, ANSWER_CAUSE, ANSWER_LOST_CALL,
    ANSWER_LOST_RESERVATION, ANSWER_NUMBER, ANSWER_PLACE, ANSWER_RESERVATION_LOST, ANSWER_SIZE,
    CANCELLED, CLOCK_TAKEN, NOW_ANSWERED, NO_PLACE, REFERENCE_SIZE, RELEASED, RESERVED,
    RESERVED_WITH_LOSS, SEIZED, SEIZED_WITH_LOSS, UNMARKED,
};

/// Who lost something by a set-up, a look-ahead or a no-service event. Only a set-up costs a call its circuit.
#[derive(Clone, Copy, Debug, Default, PartialEq, Eq, Hash)]
pub struct Lost {
    /// The holder that lost its circuit. The host releases it: with cause 9 on the circuit, and with cause 8 on its other side.
    pub call: Option<Reference>,
    /// The call whose reservation was lost. It needs no release, and may look ahead again.
    pub reservation: Option<Reference>,
}

/// What an accepted event did. Later versions have more.
#[derive(Clone, Copy, Debug, PartialEq, Eq, Hash)]
#[non_exhaustive]
pub enum Done {
    /// The call holds the circuit: [`SEIZED`](crate::SEIZED) or [`SEIZED_WITH_LOSS`](crate::SEIZED_WITH_LOSS).
    Seized {
        /// The circuit.
        circuit: u16,
        /// Who lost something.
        lost: Lost,
    },
    /// The circuit is reserved: [`RESERVED`](crate::RESERVED) or [`RESERVED_WITH_LOSS`](crate::RESERVED_WITH_LOSS).
    Reserved {
        /// The circuit.
        circuit: u16,
        /// Who lost something.
        lost: Lost,
    },
    /// The holder is gone: [`RELEASED`](crate::RELEASED).
    Released {
        /// The circuit.
        circuit: u16,
    },
    /// The reservation is gone: [`CANCELLED`](crate::CANCELLED).
    Cancelled {
        /// The circuit.
        circuit: u16,
    },
    /// The clock was looked at: [`CLOCK_TAKEN`](crate::CLOCK_TAKEN).
    ClockTaken {
        /// How many reservations went.
        removed: u16,
    },
    /// The holder stays, without a precedence: [`UNMARKED`](crate::UNMARKED).
    Unmarked {
        /// The circuit.
        circuit: u16,
        /// Who lost something: the call that had the circuit reserved, if there was one.
        lost: Lost,
    },
    /// The holder stays, and rings no more: [`NOW_ANSWERED`](crate::NOW_ANSWERED).
    NowAnswered {
        /// The circuit.
        circuit: u16,
    },
}

/// An answer as its octets have it.
#[derive(Clone, Copy, Debug, PartialEq, Eq, Hash)]
#[must_use]
pub struct Answer {
    /// The number.
    pub number: u8,
    /// The cause for the asking party.
    pub cause: u8,
    /// The circuit, or how many reservations a clock event removed; at a refusal the bad record, where one is named.
    pub place: Option<u16>,
    /// Who lost something.
    pub lost: Lost,
}

impl Answer {
    /// Reads an answer that the library has written.
    pub fn from_octets(octets: &[u8; ANSWER_SIZE]) -> Answer {
        let place = u16::from_le_bytes([octets[ANSWER_PLACE], octets[ANSWER_PLACE + 1]]);
        let lost = |flag: usize, at: usize| match octets[flag] {
            0 => None,
            _ => Some(read_reference(&octets[at..at + REFERENCE_SIZE]).value),
        };
        Answer {
            number: octets[ANSWER_NUMBER],
            cause: octets[ANSWER_CAUSE],
            place: if place == NO_PLACE { None } else { Some(place) },
            lost: Lost {
                call: lost(ANSWER_CALL_LOST, ANSWER_LOST_CALL),
                reservation: lost(ANSWER_RESERVATION_LOST, ANSWER_LOST_RESERVATION),
            },
        }
    }

    /// What the event did, or why it was refused.
    pub fn result(self) -> Result<Done, Refusal> {
        let lost = self.lost;
        match (self.number, self.place) {
            (SEIZED | SEIZED_WITH_LOSS, Some(circuit)) => Ok(Done::Seized { circuit, lost }),
            (RESERVED | RESERVED_WITH_LOSS, Some(circuit)) => Ok(Done::Reserved { circuit, lost }),
            (RELEASED, Some(circuit)) => Ok(Done::Released { circuit }),
            (CANCELLED, Some(circuit)) => Ok(Done::Cancelled { circuit }),
            (CLOCK_TAKEN, Some(removed)) => Ok(Done::ClockTaken { removed }),
            (UNMARKED, Some(circuit)) => Ok(Done::Unmarked { circuit, lost }),
            (NOW_ANSWERED, Some(circuit)) => Ok(Done::NowAnswered { circuit }),
            (number, record) => Err(Refusal::from_number(number, record.unwrap_or(NO_PLACE))),
        }
    }
}
