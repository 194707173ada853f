// The tables of include/naustvri.h, row by row: constant, value and meaning. A test compares the two.

// A table's constants, and the functions that give the name and the meaning of a value. A comment above a row goes to its constant too.
macro_rules! table {
    ($what:literal, $name_of:ident, $meaning_of:ident; $($(#[$more:meta])* $name:ident = $value:literal, $meaning:literal;)*) => {
        $(
            #[doc = concat!("The ", $what, " ", $value, ": ", $meaning, ".")]
            $(#[$more])*
            pub const $name: u8 = $value;
        )*

        #[doc = concat!("The name of the constant for a ", $what, "; `UNKNOWN` where there is none.")]
        #[must_use]
        pub const fn $name_of(value: u8) -> &'static str {
            match value {
                $($name => stringify!($name),)*
                _ => "UNKNOWN",
            }
        }

        #[doc = concat!("The meaning of a ", $what, " in words; `unknown ", $what, "` where the table does not have it.")]
        #[must_use]
        pub const fn $meaning_of(value: u8) -> &'static str {
            match value {
                $($name => $meaning,)*
                _ => concat!("unknown ", $what),
            }
        }
    };
}

// The numbers given back, in the order in which refusals are tried. At 20 and 60 nothing is written. 61 to 63 are of the optional part alone, where
// the place decides before the number; its writer tries 63 after 22. 41 to 45 say why a table is not valid, and come with the record that is bad.
table! {
    "number", number_name, number_meaning;
    DONE = 0, "list carried out, table valid, or field or optional part read or written";
    SEIZED = 1, "the call holds the circuit, nobody lost one";
    SEIZED_WITH_LOSS = 2, "the call holds the circuit; a holder, a reservation or both lost it";
    RESERVED = 3, "the circuit is reserved, nobody lost a reservation";
    RESERVED_WITH_LOSS = 4, "the circuit is reserved, another's reservation was lost";
    RELEASED = 5, "the holder is gone";
    CANCELLED = 6, "the reservation is gone, a holder stays";
    CLOCK_TAKEN = 7, "the clock was looked at";
    UNMARKED = 8, "the holder stays, without a precedence; a reservation above it, if there was one, is lost";
    NOW_ANSWERED = 9, "the holder stays, and rings no more";
    WRONG_LENGTH = 20, "a length is wrong";
    TOO_MANY_LISTS = 60, "a list too many: the totals take no more";
    PARAMETER_CUT_SHORT = 61, "the octets of the optional part run out inside a parameter";
    NO_END = 62, "the octets of the optional part run out before a name";
    PRECEDENCE_TWICE = 63, "precedence is given twice in one optional part or list";
    MALFORMED = 22, "the event, field or parameter is malformed";
    FLAG_OR_LEVEL = 41, "a flag or a holder's octet 30 is above 1, or a present part's level above 4 (a holder's may be 15 in the zero domain)";
    DIGIT_OR_POINT_CODE = 42, "a digit of a present part is above 9, or a spare bit of its point code is set";
    NOT_ZERO = 43, "an octet of an absent part, or octet 28, 29 or 31, is not zero";
    NOT_ABOVE_HOLDER = 44, "the reservation is not strictly above the holder in the same domain, or the holder has level 15 or rings";
    REPEATED_REFERENCE = 45, "the reference of a present part stands in an earlier present part";
    LOOK_AHEAD_NOT_ALLOWED = 23, "a look-ahead whose LFB is not \"allowed\"";
    LOOK_AHEAD_BY_ROUTINE = 24, "a look-ahead by ROUTINE";
    ALREADY_PRESENT = 25, "set-up by a call that holds a circuit; look-ahead by one that holds or has reserved one";
    RESERVATION_DIFFERS = 26, "set-up whose level or domain is not its reservation's";
    NOT_PRESENT = 27, "release, no-service or answered without a holder, cancel without a reservation";
    NO_CIRCUIT_ROUTINE = 30, "set-up by ROUTINE, no circuit free";
    NO_CIRCUIT_PRECEDENCE = 31, "set-up by a higher level, no circuit free or takeable";
    NO_CIRCUIT_LOOK_AHEAD = 32, "look-ahead, no circuit free or takeable";
}

// Causes of Q.850: for the asking party in an answer (34 with number 30, 46 with 31), and those that the host gives to the two sides of a
// holder that lost its circuit.
table! {
    "cause", cause_name, cause_meaning;
    CAUSE_NONE = 0, "none";
    CAUSE_PREEMPTION = 8, "preemption, on the other side of the call that lost its circuit";
    CAUSE_PREEMPTION_CIRCUIT_REUSE = 9, "preemption, on the circuit that was lost, which is used again";
    CAUSE_NO_CIRCUIT = 34, "no circuit available, for a ROUTINE call";
    CAUSE_PRECEDENCE_CALL_BLOCKED = 46, "precedence call blocked, for a higher level";
}

// Precedence levels: 0 is the highest.
table! {
    "level", level_name, level_meaning;
    FLASH_OVERRIDE = 0, "FLASH OVERRIDE";
    FLASH = 1, "FLASH";
    IMMEDIATE = 2, "IMMEDIATE";
    PRIORITY = 3, "PRIORITY";
    ROUTINE = 4, "ROUTINE";
    /// It stands in a table's holder part only: a holder has it after a no-service event, and no call can take its circuit.
    NO_PRECEDENCE = 15, "NO PRECEDENCE";
}

// The look-ahead (LFB) indicator.
table! {
    "LFB", lfb_name, lfb_meaning;
    LFB_ALLOWED = 0, "allowed";
    LFB_PATH_RESERVED = 1, "path reserved";
    LFB_NOT_ALLOWED = 2, "not allowed";
}

// The kind of an event.
table! {
    "kind", kind_name, kind_meaning;
    SET_UP = 1, "set-up";
    RELEASE = 2, "release";
    LOOK_AHEAD = 3, "look-ahead";
    CANCEL = 4, "cancel";
    CLOCK = 5, "clock";
    NO_SERVICE = 6, "no-service";
    ANSWERED = 7, "answered";
}

// The names of parameters that the library knows. Name 0 ends an optional part. Any other name is passed over in a part that is read, and written as
// it stands in a list.
table! {
    "name", name_name, name_meaning;
    NAME_END = 0, "end of optional parameters";
    NAME_PRECEDENCE = 58, "MLPP precedence";
}
