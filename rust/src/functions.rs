// The functions of include/naustvri.h over slices.

use crate::{
    raw, Check, FoundPrecedence, LampsReading, ParameterReading, Precedence, PrecedenceReading,
    Reference, ReferenceReading, WrittenPart,
};

/// The version of the archive, as [`VERSION`](crate::VERSION) is this package's.
#[must_use]
pub fn version() -> u32 {
    // SAFETY: the function takes nothing and reads nothing.
    unsafe { raw::naustvri_version() }
}

/// Number 0 and the values of six octets; 20 for another length, 22 for a level above 4, LFB 11 or a digit above 9. At 20 and 22 all
/// values are zero. Spare bits are ignored.
pub fn read_precedence(octets: &[u8]) -> PrecedenceReading {
    // SAFETY, here and below: each pointer and length are those of one borrowed slice, and the function uses nothing else.
    unsafe { raw::naustvri_read_precedence(octets.as_ptr(), octets.len()) }
}

/// 0 with the six octets written, spare bits 0; 20 for a buffer of another length, 22 for a value that is too large. At 20 and 22 the
/// buffer is as it was.
#[must_use]
pub fn write_precedence(buffer: &mut [u8], value: Precedence) -> u8 {
    unsafe { raw::naustvri_write_precedence(buffer.as_mut_ptr(), buffer.len(), value) }
}

/// Number 0 and the values of five octets; 20 for another length, with zero values. Spare bits are ignored.
pub fn read_reference(octets: &[u8]) -> ReferenceReading {
    unsafe { raw::naustvri_read_reference(octets.as_ptr(), octets.len()) }
}

/// 0 with the five octets written, spare bits 0; 20 for a buffer of another length, 22 for a value that is too large. At 20 and 22 the
/// buffer is as it was.
#[must_use]
pub fn write_reference(buffer: &mut [u8], value: Reference) -> u8 {
    unsafe { raw::naustvri_write_reference(buffer.as_mut_ptr(), buffer.len(), value) }
}

/// One step through the optional part of a message: what stands at a place of it, for a walk from place 0 by `next`, as
/// [`parameters`](crate::parameters) goes. Each parameter is a name octet, a length octet and as many octets of contents, and the first name 0 ends
/// the part; octets behind it are neither read nor refused. A message whose pointer to the optional part is 0 has none: do not call, since an empty
/// part is refused by 62.
///
/// Number 0 with a name that is not 0: a parameter. 0 with name 0: the end, where the walk is over. 61: the part is cut short inside a parameter.
/// 62: no octet is left where a name should stand, so at any place from `part.len()` on. At the end and at a refusal `next` is the same place again.
/// It looks at one parameter, so it gives no 63 and no 22, and the contents are the sender's octets, spare bits and all.
pub fn next_parameter(part: &[u8], place: usize) -> ParameterReading {
    unsafe { raw::naustvri_next_parameter(part.as_ptr(), part.len(), place) }
}

/// MLPP precedence ([`NAME_PRECEDENCE`](crate::NAME_PRECEDENCE)) in an optional part, which is gone through from place 0 to its end or to its first
/// fault; other names are passed over, whatever they hold. 0: the part is whole, and `found` says whether it has precedence. 61 and 62: as
/// [`next_parameter`] gives them. 63: precedence a second time. 22: precedence that is not six well-formed octets; a wrong length is 22
/// too. The first parameter with a fault decides, at one parameter in the order 61, 63, 22. At a refusal every value is zero.
pub fn find_precedence(part: &[u8]) -> FoundPrecedence {
    unsafe { raw::naustvri_find_precedence(part.as_ptr(), part.len()) }
}

/// An optional part from a list of parameters: 0, with the parameters written in their order, each by name, length and contents, precedence with its
/// spare bits 0, then one octet 0 as the end; octets of the buffer behind it stay. 20: the buffer has too little room, that is 2 octets a parameter,
/// its contents, and 1 for the end; or the lent list is cut short inside a parameter. Then 22: a name 0, contents of more than 255 octets, or
/// precedence that is not six well-formed octets. Then 63: precedence twice. Each is looked for in the whole list before the next, so precedence
/// twice, the second malformed, is 22 here, and 63 where it is read. At a refusal the buffer is as it was. A buffer of `list.len() + 1`
/// octets has room for every list: 20 is then a list that is cut short.
///
/// The list is lent as octets, parameter after parameter: its name, how many octets of contents in two octets, the low one first, and the contents.
/// It has no end octet. An empty list gives a part of one octet 0. [`push_parameter`](crate::push_parameter) puts a parameter into a list.
pub fn write_optional(buffer: &mut [u8], list: &[u8]) -> WrittenPart {
    unsafe {
        raw::naustvri_write_optional(buffer.as_mut_ptr(), buffer.len(), list.as_ptr(), list.len())
    }
}

/// Number 0 for a valid table, 20 for a length that is not 1 to 256 whole circuits; else 41 to 45 and the record that is bad. That is the lowest
/// record that has any of 41 to 44, with the first of them that it has: 41 of either part goes before 42 of either, and so on. Where no record
/// has any of them it is the lowest at 45: a present part of it has a reference that stands in an earlier present part, of a lower record or, for
/// the reservation's part, of the same record.
pub fn check(table: &[u8]) -> Check {
    unsafe { raw::naustvri_check(table.as_ptr(), table.len()) }
}

/// One event applied to a table: the answer's number. At 20 (a length is wrong) no buffer is written; at any other refusal the answer is
/// written and the table is as it was. Over a table that is not valid a malformed event is answered by 22, and any other by the number that
/// [`check`] gives, 41 to 45, with its record at [`ANSWER_PLACE`](crate::ANSWER_PLACE).
#[must_use]
pub fn event(table: &mut [u8], event: &[u8], answer: &mut [u8]) -> u8 {
    unsafe {
        raw::naustvri_event(
            table.as_mut_ptr(),
            table.len(),
            event.as_ptr(),
            event.len(),
            answer.as_mut_ptr(),
            answer.len(),
        )
    }
}

/// A list of events applied in order, one answer for each: 0, or 20 where a length is wrong and no buffer is written. It equals its
/// events applied one by one; over a table that is not valid each answer is 22, or the number and record that [`check`] gives, which stay the
/// same to the end of the list.
#[must_use]
pub fn list(table: &mut [u8], events: &[u8], answers: &mut [u8]) -> u8 {
    unsafe {
        raw::naustvri_list(
            table.as_mut_ptr(),
            table.len(),
            events.as_ptr(),
            events.len(),
            answers.as_mut_ptr(),
            answers.len(),
        )
    }
}

/// A list carried out as [`list`] does it, and added to the totals in `figures`, which are all zero before the first list: 0, with the table
/// and the answers that [`list`] leaves. 20 where a length is wrong (`figures` has to have [`FIGURES`](crate::FIGURES) numbers); then 60 where no
/// list can be added, since `figures[FIGURE_LISTS]` is 65,536 or more, or any of the totals is 2^64 - 4,096 or more. At 20 and 60 no buffer is
/// written. A list over a table that is not valid is added too: its events count under 22 and the number that [`check`] gives.
#[must_use]
pub fn figures(table: &mut [u8], events: &[u8], answers: &mut [u8], figures: &mut [u64]) -> u8 {
    unsafe {
        raw::naustvri_figures(
            table.as_mut_ptr(),
            table.len(),
            events.as_ptr(),
            events.len(),
            answers.as_mut_ptr(),
            answers.len(),
            figures.as_mut_ptr(),
            figures.len(),
        )
    }
}

/// The lamp map of a valid table with number 0; else the number and record that [`check`] gives, with no lamp lit.
pub fn lamps(table: &[u8]) -> LampsReading {
    unsafe { raw::naustvri_lamps(table.as_ptr(), table.len()) }
}
