// The version, sizes, limits and offsets of include/naustvri.h, by its names without their prefix. A test compares the two.

/// The major part of [`VERSION`]: it grows where a host that ignores the change would be wrong.
pub const VERSION_MAJOR: u32 = 3;
/// The minor part of [`VERSION`]: it grows with any other change that a host sees.
pub const VERSION_MINOR: u32 = 0;
/// The patch part of [`VERSION`].
pub const VERSION_PATCH: u32 = 0;
/// The version of this package, one number that grows; [`version()`](crate::version) is the archive's.
pub const VERSION: u32 = VERSION_MAJOR * 10000 + VERSION_MINOR * 100 + VERSION_PATCH;

/// The size of a precedence parameter in octets.
pub const PRECEDENCE_SIZE: usize = 6;
/// The size of a domain in octets.
pub const DOMAIN_SIZE: usize = 5;
/// The size of a call reference in octets.
pub const REFERENCE_SIZE: usize = 5;
/// The size of a circuit in octets.
pub const CIRCUIT_SIZE: usize = 32;
/// The size of an event in octets.
pub const EVENT_SIZE: usize = 16;
/// The size of an answer in octets.
pub const ANSWER_SIZE: usize = 16;

/// A table has 1 to 256 circuits.
pub const CIRCUITS_MOST: usize = 256;
/// A list has 0 to 4,096 events.
pub const EVENTS_MOST: usize = 4096;
/// At most 65,536 lists are added to the same totals.
pub const LISTS_MOST: u64 = 65536;
/// A reservation of this age or more, in steps of 10 ms, goes at a clock event.
pub const RESERVATION_STEPS: u32 = 3000;

/// In a circuit: the flag of the holder's part, octets 0 to 11 and 30. A part whose flag is 0 is all zero.
pub const CIRCUIT_HELD: usize = 0;
/// In a circuit: the holder's level, 0 to 4; or [`NO_PRECEDENCE`](crate::NO_PRECEDENCE), where the domain is zero and the circuit not reserved.
pub const CIRCUIT_HOLDER_LEVEL: usize = 1;
/// In a circuit: the holder's domain, octets 2 to 6 of the precedence parameter.
pub const CIRCUIT_HOLDER_DOMAIN: usize = 2;
/// In a circuit: the holder's call reference.
pub const CIRCUIT_HOLDER_REFERENCE: usize = 7;
/// In a circuit: the flag of the reservation's part, octets 12 to 27.
pub const CIRCUIT_RESERVED: usize = 12;
/// In a circuit: the reservation's level, 0 to 4.
pub const CIRCUIT_RESERVATION_LEVEL: usize = 13;
/// In a circuit: the reservation's domain.
pub const CIRCUIT_RESERVATION_DOMAIN: usize = 14;
/// In a circuit: the reservation's call reference.
pub const CIRCUIT_RESERVATION_REFERENCE: usize = 19;
/// In a circuit: four octets, the clock at reservation.
pub const CIRCUIT_RESERVATION_CLOCK: usize = 24;
/// In a circuit: octets 28, 29 and 31, zero.
pub const CIRCUIT_ZERO: usize = 28;
/// In a circuit: an octet of the holder's part, 1 while the holder rings (the circuit is then not reserved), 0 when it is answered.
pub const CIRCUIT_RINGING: usize = 30;

/// In an event: its kind.
pub const EVENT_KIND: usize = 0;
/// In an event: the precedence parameter; zero, spare bits too, in every event but a set-up and a look-ahead.
pub const EVENT_PRECEDENCE: usize = 1;
/// In an event: the call reference; zero, spare bits too, in a clock event.
pub const EVENT_REFERENCE: usize = 7;
/// In an event: four octets, the clock in steps of 10 ms, read in a look-ahead and a clock event.
pub const EVENT_CLOCK: usize = 12;

/// In an answer: its number.
pub const ANSWER_NUMBER: usize = 0;
/// In an answer: the cause for the asking party.
pub const ANSWER_CAUSE: usize = 1;
/// In an answer: two octets, the circuit; of a clock event how many reservations it removed; at 41 to 45 the bad record.
pub const ANSWER_PLACE: usize = 2;
/// In an answer: a holder lost its circuit, at 2 alone.
pub const ANSWER_CALL_LOST: usize = 4;
/// In an answer: the call reference of that holder.
pub const ANSWER_LOST_CALL: usize = 5;
/// In an answer: a reservation was lost, at 2, 4 and 8 alone.
pub const ANSWER_RESERVATION_LOST: usize = 10;
/// In an answer: the call reference of that reservation.
pub const ANSWER_LOST_RESERVATION: usize = 11;
/// [`ANSWER_PLACE`] where there is none, and the record where none is named.
pub const NO_PLACE: u16 = 65535;

/// In a parameter of a lent list: its name.
pub const LISTED_NAME: usize = 0;
/// In a parameter of a lent list: two octets, the low one first, how many octets of contents follow.
pub const LISTED_LENGTH: usize = 1;
/// In a parameter of a lent list: its contents.
pub const LISTED_CONTENTS: usize = 3;

/// How many totals the day's figures have, 64 bits each.
pub const FIGURES: usize = 95;
/// In the figures: lists added.
pub const FIGURE_LISTS: usize = 0;
/// In the figures: holders in the table before each list, that is circuits whose octet 0 is 1.
pub const FIGURE_START: usize = 1;
/// In the figures: set-ups answered by 1 or 2.
pub const FIGURE_SEIZED: usize = 2;
/// In the figures: events answered by 5.
pub const FIGURE_RELEASED: usize = 3;
/// In the figures: holders that lost their circuit.
pub const FIGURE_LOST: usize = 4;
/// In the figures: holders in the table after each list, counted so too.
pub const FIGURE_END: usize = 5;
/// In the figures: 25 totals, the holders that lost their circuit, at + 5 × the taker's level + the loser's level, each 0 to 4.
pub const FIGURE_LOST_BY_LEVEL: usize = 6;
/// In the figures: 64 totals, the events by the number that they were answered by, at + that number.
pub const FIGURE_ANSWERED: usize = 31;
