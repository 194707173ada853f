//! Naustvri for Rust: which circuit of a trunk route a call with a precedence gets, who loses one, and what the refused party hears.
//!
//! ```
//! use naustvri::{Domain, Done, Event, Level, Lfb, Lost, Reference, Refusal, Route, CIRCUIT_SIZE};
//!
//! fn set_up(identity: u32, level: Level) -> Event {
//!     let call = Reference { identity, point: 1 };
//!     Event::SetUp { call, level, domain: Domain::default(), lfb: Lfb::Allowed }
//! }
//!
//! fn main() -> Result<(), Refusal> {
//!     let mut table = [0; CIRCUIT_SIZE]; // one circuit, free
//!     let mut route = Route::new(&mut table)?;
//!
//!     // A ROUTINE call gets the circuit. While it rings nobody takes it.
//!     let nobody = Lost::default();
//!     assert_eq!(route.apply(&set_up(1, Level::Routine))?, Done::Seized { circuit: 0, lost: nobody });
//!     assert_eq!(route.apply(&set_up(2, Level::Priority)), Err(Refusal::NoCircuitPrecedence));
//!
//!     // It is answered; now the PRIORITY call takes the circuit.
//!     let first = Reference { identity: 1, point: 1 };
//!     assert_eq!(route.apply(&Event::Answered { call: first })?, Done::NowAnswered { circuit: 0 });
//!     let lost = Lost { call: Some(first), reservation: None };
//!     assert_eq!(route.apply(&set_up(2, Level::Priority))?, Done::Seized { circuit: 0, lost });
//!     Ok(())
//! }
//! ```
//!
//! There are two layers over the archive that C links:
//!
//! - The functions of `include/naustvri.h` over slices: [`event()`], [`list`], [`check`] and so on. Records stay octets; the constants say
//!   where their fields stand. Each takes any octets of any length, ends, and allocates nothing.
//! - [`Route`], [`Event`], [`Answer`], [`Done`], [`Refusal`] and [`Figures`], in which a record that cannot be meant cannot be written. They
//!   decide nothing: every octet is made and judged by those functions, and every total is theirs. Where a table is not valid,
//!   [`Refusal::BadRecord`] says which record is bad and by which [`Reason`].
//!
//! The optional part of a message stays octets: [`find_precedence`] says whether it carries MLPP precedence, and [`parameters`] goes through it, each
//! contents a slice of it. [`push_parameter`] makes the list of parameters from which [`write_optional`] writes a part.
//!
//! What a host in C must do by itself, a borrow does here: a buffer that is written overlaps no other, and no other thread uses it meanwhile.
//!
//! Clocks and places have their low octet first; precedence, domain and reference stand as in their messages.
//!
//! The package needs no standard library: without its feature `std`, which is on by default, a [`Refusal`] is no `std::error::Error`, and
//! nothing else differs.

#![no_std]
#![deny(missing_docs)]

#[cfg(feature = "std")]
extern crate std;

mod answer;
mod constants;
mod event;
mod figures;
mod functions;
mod numbered;
mod optional;
mod raw;
mod refusal;
mod route;
mod tables;
mod values;

pub use answer::{Answer, Done, Lost};
pub use constants::*;
pub use event::{Domain, Event};
pub use figures::Figures;
pub use functions::*;
pub use numbered::{Kind, Level, Lfb, Reason};
pub use optional::{parameters, push_parameter, Parameter, Parameters};
pub use refusal::Refusal;
pub use route::Route;
pub use tables::*;
pub use values::*;
