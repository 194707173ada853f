// An event in its own words.

use crate::{
    write_precedence, write_reference, Kind, Level, Lfb, Precedence, Reference, Refusal,
    EVENT_CLOCK, EVENT_KIND, EVENT_PRECEDENCE, EVENT_REFERENCE, EVENT_SIZE, NO_PLACE,
    PRECEDENCE_SIZE, REFERENCE_SIZE,
};

/// Where a precedence counts: a call takes no circuit from a call of another domain.
#[derive(Clone, Copy, Debug, Default, PartialEq, Eq, Hash)]
pub struct Domain {
    /// The network identity, first digit first, each 0 to 9.
    pub digits: [u8; 4],
    /// The service domain, 24 bits.
    pub service: u32,
}

/// What happens on the route. Later versions have more.
#[derive(Clone, Copy, Debug, PartialEq, Eq, Hash)]
#[non_exhaustive]
pub enum Event {
    /// A call asks for a circuit. If it gets one, it rings until it is answered, and until then nobody takes the circuit from it.
    SetUp {
        /// The call.
        call: Reference,
        /// Its level.
        level: Level,
        /// Its domain.
        domain: Domain,
        /// Its LFB indicator; the choice is the same for each.
        lfb: Lfb,
    },
    /// A call gives its circuit up.
    Release {
        /// The call.
        call: Reference,
    },
    /// A call asks for a reservation.
    LookAhead {
        /// The call.
        call: Reference,
        /// Its level.
        level: Level,
        /// Its domain.
        domain: Domain,
        /// Its LFB indicator.
        lfb: Lfb,
        /// The clock now, in steps of 10 ms.
        clock: u32,
    },
    /// A call gives its reservation up.
    Cancel {
        /// The call.
        call: Reference,
    },
    /// Reservations that are old enough go.
    Clock {
        /// The clock now, in steps of 10 ms.
        clock: u32,
    },
    /// The called party of a call that holds a circuit is without the service: nobody takes the circuit from it any more.
    NoService {
        /// The call.
        call: Reference,
    },
    /// The called party of a call that holds a circuit has answered: the call rings no more.
    Answered {
        /// The call.
        call: Reference,
    },
}

impl Event {
    /// The kind of the event.
    #[must_use]
    pub const fn kind(&self) -> Kind {
        match self {
            Event::SetUp { .. } => Kind::SetUp,
            Event::Release { .. } => Kind::Release,
            Event::LookAhead { .. } => Kind::LookAhead,
            Event::Cancel { .. } => Kind::Cancel,
            Event::Clock { .. } => Kind::Clock,
            Event::NoService { .. } => Kind::NoService,
            Event::Answered { .. } => Kind::Answered,
        }
    }

    fn precedence(&self) -> Option<Precedence> {
        match *self {
            Event::SetUp {
                level, domain, lfb, ..
            }
            | Event::LookAhead {
                level, domain, lfb, ..
            } => Some(Precedence {
                level: level.number(),
                lfb: lfb.number(),
                digits: domain.digits,
                service: domain.service,
            }),
            _ => None,
        }
    }

    fn call(&self) -> Option<Reference> {
        match *self {
            Event::SetUp { call, .. }
            | Event::Release { call }
            | Event::LookAhead { call, .. }
            | Event::Cancel { call }
            | Event::NoService { call }
            | Event::Answered { call } => Some(call),
            Event::Clock { .. } => None,
        }
    }

    fn clock(&self) -> u32 {
        match *self {
            Event::LookAhead { clock, .. } | Event::Clock { clock } => clock,
            _ => 0,
        }
    }

    /// The event's octets. [`Refusal::Malformed`] for a digit above 9, a service domain or an identity of more than 24 bits, or a point
    /// code of more than 14, as the library's writing functions say.
    pub fn to_octets(&self) -> Result<[u8; EVENT_SIZE], Refusal> {
        let mut octets = [0; EVENT_SIZE];
        octets[EVENT_KIND] = self.kind().number();
        if let Some(precedence) = self.precedence() {
            let at = &mut octets[EVENT_PRECEDENCE..EVENT_PRECEDENCE + PRECEDENCE_SIZE];
            Refusal::unless_done(write_precedence(at, precedence), NO_PLACE)?;
        }
        if let Some(call) = self.call() {
            let at = &mut octets[EVENT_REFERENCE..EVENT_REFERENCE + REFERENCE_SIZE];
            Refusal::unless_done(write_reference(at, call), NO_PLACE)?;
        }
        octets[EVENT_CLOCK..].copy_from_slice(&self.clock().to_le_bytes());
        Ok(octets)
    }
}
