// The values of a level, of the LFB indicator, of a kind and of a reason, as enums.

use core::fmt;

use crate::tables::*;

// An enum whose variants have the values of constants.
macro_rules! numbered {
    ($(#[$of:meta])* $type:ident, $name_of:ident, $meaning_of:ident; $($variant:ident = $constant:ident,)*) => {
        $(#[$of])*
        #[derive(Clone, Copy, Debug, PartialEq, Eq, Hash)]
        #[repr(u8)]
        pub enum $type {
            $(
                #[doc = concat!("[`", stringify!($constant), "`](crate::", stringify!($constant), ")")]
                $variant = $constant,
            )*
        }

        impl $type {
            /// Every value, in the table's order.
            pub const ALL: &'static [$type] = &[$($type::$variant,)*];

            /// The number that stands in octets.
            #[must_use]
            pub const fn number(self) -> u8 {
                self as u8
            }

            /// The value of a number, if there is one.
            #[must_use]
            pub const fn from_number(number: u8) -> Option<$type> {
                match number {
                    $($constant => Some($type::$variant),)*
                    _ => None,
                }
            }

            /// The name of its constant.
            #[must_use]
            pub const fn name(self) -> &'static str {
                $name_of(self.number())
            }
        }

        /// Its meaning in words.
        impl fmt::Display for $type {
            fn fmt(&self, f: &mut fmt::Formatter<'_>) -> fmt::Result {
                f.pad($meaning_of(self.number()))
            }
        }
    };
}

numbered! {
    /// A precedence level. They have no order here: number 0 is the highest, and who may take whose circuit is for the library to say.
    ///
    /// [`NO_PRECEDENCE`](crate::NO_PRECEDENCE) is no level of a call, so [`from_number`](Level::from_number) gives `None` for it. Of the octet
    /// [`CIRCUIT_HOLDER_LEVEL`](crate::CIRCUIT_HOLDER_LEVEL) of a held circuit in a valid table it gives the holder's level, and `None` where the
    /// holder has none.
    Level, level_name, level_meaning;
    FlashOverride = FLASH_OVERRIDE,
    Flash = FLASH,
    Immediate = IMMEDIATE,
    Priority = PRIORITY,
    Routine = ROUTINE,
}

numbered! {
    /// The look-ahead (LFB) indicator.
    Lfb, lfb_name, lfb_meaning;
    Allowed = LFB_ALLOWED,
    PathReserved = LFB_PATH_RESERVED,
    NotAllowed = LFB_NOT_ALLOWED,
}

numbered! {
    /// The kind of an event. Later versions have more.
    #[non_exhaustive]
    Kind, kind_name, kind_meaning;
    SetUp = SET_UP,
    Release = RELEASE,
    LookAhead = LOOK_AHEAD,
    Cancel = CANCEL,
    Clock = CLOCK,
    NoService = NO_SERVICE,
    Answered = ANSWERED,
}

numbered! {
    /// Why a record of a table is bad, in the order in which the reasons are tried.
    Reason, number_name, number_meaning;
    FlagOrLevel = FLAG_OR_LEVEL,
    DigitOrPointCode = DIGIT_OR_POINT_CODE,
    NotZero = NOT_ZERO,
    NotAboveHolder = NOT_ABOVE_HOLDER,
    RepeatedReference = REPEATED_REFERENCE,
}
