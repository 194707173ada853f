// Why the library refuses.

use core::fmt;

use crate::tables::*;
use crate::Reason;

// An enum whose variants stand for the numbers of refusals, with the bad record in its place among them, and one for any other number.
macro_rules! refusals {
    ({ $($before:ident = $of_before:ident,)* } BadRecord { $($after:ident = $of_after:ident,)* }) => {
        /// Why the library refuses, in the order in which refusals are tried; [`write_optional`](crate::write_optional) alone tries
        /// [`PrecedenceTwice`](Refusal::PrecedenceTwice) after [`Malformed`](Refusal::Malformed). Later versions may have others.
        #[derive(Clone, Copy, Debug, PartialEq, Eq, Hash)]
        #[non_exhaustive]
        pub enum Refusal {
            $(
                #[doc = concat!("[`", stringify!($of_before), "`](crate::", stringify!($of_before), ")")]
                $before,
            )*
            /// The table is not valid: [`FLAG_OR_LEVEL`](crate::FLAG_OR_LEVEL) to [`REPEATED_REFERENCE`](crate::REPEATED_REFERENCE).
            BadRecord {
                /// Why the record is bad.
                reason: Reason,
                /// The record, from 0 as circuits are numbered.
                record: u16,
            },
            $(
                #[doc = concat!("[`", stringify!($of_after), "`](crate::", stringify!($of_after), ")")]
                $after,
            )*
            /// A number that this package does not know: the archive is of another version.
            Unknown(u8),
        }

        impl Refusal {
            /// Every refusal that has a name and no record, in the order in which they are tried. [`Reason::ALL`] has the reasons of the others.
            pub const ALL: &'static [Refusal] = &[$(Refusal::$before,)* $(Refusal::$after,)*];

            /// The number that the library gives.
            #[must_use]
            pub const fn number(self) -> u8 {
                match self {
                    $(Refusal::$before => $of_before,)*
                    Refusal::BadRecord { reason, .. } => reason.number(),
                    $(Refusal::$after => $of_after,)*
                    Refusal::Unknown(number) => number,
                }
            }

            /// The refusal of a number, and of the record that the library names beside it: at [`FLAG_OR_LEVEL`](crate::FLAG_OR_LEVEL) to
            /// [`REPEATED_REFERENCE`](crate::REPEATED_REFERENCE) the bad one, at the others [`NO_PLACE`](crate::NO_PLACE), which is not kept.
            #[must_use]
            pub const fn from_number(number: u8, record: u16) -> Refusal {
                match number {
                    $($of_before => Refusal::$before,)*
                    $($of_after => Refusal::$after,)*
                    _ => match Reason::from_number(number) {
                        Some(reason) => Refusal::BadRecord { reason, record },
                        None => Refusal::Unknown(number),
                    },
                }
            }
        }
    };
}

refusals! {
    {
        WrongLength = WRONG_LENGTH,
        TooManyLists = TOO_MANY_LISTS,
        ParameterCutShort = PARAMETER_CUT_SHORT,
        NoEnd = NO_END,
        PrecedenceTwice = PRECEDENCE_TWICE,
        Malformed = MALFORMED,
    }
    BadRecord
    {
        LookAheadNotAllowed = LOOK_AHEAD_NOT_ALLOWED,
        LookAheadByRoutine = LOOK_AHEAD_BY_ROUTINE,
        AlreadyPresent = ALREADY_PRESENT,
        ReservationDiffers = RESERVATION_DIFFERS,
        NotPresent = NOT_PRESENT,
        NoCircuitRoutine = NO_CIRCUIT_ROUTINE,
        NoCircuitPrecedence = NO_CIRCUIT_PRECEDENCE,
        NoCircuitLookAhead = NO_CIRCUIT_LOOK_AHEAD,
    }
}

impl Refusal {
    /// The cause that the asking party hears, as the answer has it; [`CAUSE_NONE`](crate::CAUSE_NONE) where there is none.
    #[must_use]
    pub const fn cause(self) -> u8 {
        match self {
            Refusal::NoCircuitRoutine => CAUSE_NO_CIRCUIT,
            Refusal::NoCircuitPrecedence => CAUSE_PRECEDENCE_CALL_BLOCKED,
            _ => CAUSE_NONE,
        }
    }

    /// The bad record, where the refusal names one.
    #[must_use]
    pub const fn record(self) -> Option<u16> {
        match self {
            Refusal::BadRecord { record, .. } => Some(record),
            _ => None,
        }
    }

    /// Nothing at number 0, else the refusal of the number and of the record named beside it.
    pub(crate) fn unless_done(number: u8, record: u16) -> Result<(), Refusal> {
        match number {
            DONE => Ok(()),
            _ => Err(Refusal::from_number(number, record)),
        }
    }
}

/// Its number, the name of its constant, its meaning in words, and the record where it names one.
impl fmt::Display for Refusal {
    fn fmt(&self, f: &mut fmt::Formatter<'_>) -> fmt::Result {
        let number = self.number();
        write!(
            f,
            "{} {}: {}",
            number,
            number_name(number),
            number_meaning(number)
        )?;
        match self.record() {
            Some(record) => write!(f, ", in record {}", record),
            None => Ok(()),
        }
    }
}

#[cfg(feature = "std")]
impl std::error::Error for Refusal {}
