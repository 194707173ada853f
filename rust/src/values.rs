// The values that cross the line to the archive, laid out as C has them.

use crate::{DONE, NO_PLACE};

/// The values of a precedence parameter.
#[repr(C)]
#[derive(Clone, Copy, Debug, Default, PartialEq, Eq, Hash)]
pub struct Precedence {
    /// The level, 0 to 4: 0 is the highest.
    pub level: u8,
    /// The LFB indicator, 0 to 2.
    pub lfb: u8,
    /// The network identity, first digit first, each 0 to 9.
    pub digits: [u8; 4],
    /// The service domain, 24 bits.
    pub service: u32,
}

/// What [`read_precedence`](crate::read_precedence) gives.
#[repr(C)]
#[derive(Clone, Copy, Debug, Default, PartialEq, Eq)]
#[must_use]
pub struct PrecedenceReading {
    /// 0, or why nothing was read.
    pub number: u8,
    /// The values; zero where nothing was read.
    pub value: Precedence,
}

/// The values of a call reference.
#[repr(C)]
#[derive(Clone, Copy, Debug, Default, PartialEq, Eq, Hash)]
pub struct Reference {
    /// The call identity, 24 bits.
    pub identity: u32,
    /// The point code, 14 bits.
    pub point: u16,
}

/// What [`read_reference`](crate::read_reference) gives.
#[repr(C)]
#[derive(Clone, Copy, Debug, Default, PartialEq, Eq)]
#[must_use]
pub struct ReferenceReading {
    /// 0, or why nothing was read.
    pub number: u8,
    /// The values; zero where nothing was read.
    pub value: Reference,
}

/// What [`next_parameter`](crate::next_parameter) gives: a parameter, whose name is not 0; or the end or a refusal, where name, length and start
/// are 0 and next is the place asked for.
#[repr(C)]
#[derive(Clone, Copy, Debug, PartialEq, Eq)]
#[must_use]
pub struct ParameterReading {
    /// 0, or 61 or 62.
    pub number: u8,
    /// The name; 0 at the end and at a refusal.
    pub name: u8,
    /// How many octets of contents there are.
    pub length: u8,
    /// The place behind the length octet, where the contents start, even if there are none.
    pub start: usize,
    /// The place of the next name.
    pub next: usize,
}

/// What [`find_precedence`](crate::find_precedence) gives. At a refusal every value is zero. Look at `number` and `found` before `value`: a level of 0
/// is FLASH OVERRIDE.
#[repr(C)]
#[derive(Clone, Copy, Debug, PartialEq, Eq)]
#[must_use]
pub struct FoundPrecedence {
    /// 0, or 61, 62, 63 or 22.
    pub number: u8,
    /// 1 where there is precedence, else 0.
    pub found: u8,
    /// The place of its six octets; 0 where there is none.
    pub start: usize,
    /// How many octets the part has, its end octet with them.
    pub end: usize,
    /// What the six octets say; zero where there is none.
    pub value: Precedence,
}

/// What [`write_optional`](crate::write_optional) gives.
#[repr(C)]
#[derive(Clone, Copy, Debug, PartialEq, Eq)]
#[must_use]
pub struct WrittenPart {
    /// 0, or 20, 22 or 63.
    pub number: u8,
    /// How many octets were written, the end octet with them; 0 at a refusal.
    pub end: usize,
}

/// What [`check`](crate::check) gives.
#[repr(C)]
#[derive(Clone, Copy, Debug, PartialEq, Eq, Hash)]
#[must_use]
pub struct Check {
    /// 0, or why the table was refused.
    pub number: u8,
    /// At 41 to 45 the bad record, from 0 as circuits are numbered; else [`NO_PLACE`].
    pub record: u16,
}

/// What [`lamps`](crate::lamps) gives: four words of 64 lamps. Circuit 64 × j + i is bit i of `words[j]`, lit where it is free, dark past
/// the table's end.
#[repr(C)]
#[derive(Clone, Copy, Debug, PartialEq, Eq)]
#[must_use]
pub struct LampsReading {
    /// 0, or why the table was refused.
    pub number: u8,
    /// How many are lit; 0 where the table was refused.
    pub lit: u16,
    /// The bad record, as [`check`](crate::check) gives it.
    pub record: u16,
    /// The lamps; all dark where the table was refused.
    pub words: [u64; 4],
}

/// The lamps of a table with no free circuit.
impl Default for LampsReading {
    fn default() -> LampsReading {
        LampsReading {
            number: DONE,
            lit: 0,
            record: NO_PLACE,
            words: [0; 4],
        }
    }
}
