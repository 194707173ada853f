// The parameters of an optional part one after another, and of a list that is lent to its writer.

use core::iter::FusedIterator;

use crate::{next_parameter, DONE, LISTED_CONTENTS, LISTED_LENGTH, LISTED_NAME, NAME_END};

/// A parameter of an optional part.
#[derive(Clone, Copy, Debug, PartialEq, Eq, Hash)]
pub struct Parameter<'a> {
    /// The name, which is not 0.
    pub name: u8,
    /// The contents: the sender's octets, spare bits and all.
    pub contents: &'a [u8],
}

/// The parameters of an optional part in their order, as [`parameters`] gives them.
#[derive(Clone, Debug)]
#[must_use]
pub struct Parameters<'a> {
    part: &'a [u8],
    // The place of the next name, until the walk is over.
    place: Option<usize>,
}

/// The parameters of an optional part, from place 0 to its end; octets behind the end are not looked at. Where the part is cut short inside a
/// parameter or has no end, the last item is the number 61 or 62 by which [`next_parameter`] refuses. After the end and after a refusal there is
/// none. That precedence is malformed or given twice is for [`find_precedence`](crate::find_precedence) to say.
///
/// ```
/// use naustvri::{parameters, Parameter, Refusal, NAME_PRECEDENCE, NO_PLACE};
///
/// // Two octets under name 57, precedence, and the end.
/// let part = [57, 2, 0x3a, 0xc0, 58, 6, 0x43, 0x04, 0x60, 0, 0, 1, 0];
/// let all: Result<Vec<Parameter>, u8> = parameters(&part).collect();
/// let all = all.unwrap();
/// assert_eq!(all.len(), 2);
/// assert_eq!(all[0], Parameter { name: 57, contents: &[0x3a, 0xc0] });
/// assert_eq!(all[1], Parameter { name: NAME_PRECEDENCE, contents: &part[6..12] });
///
/// // Without its last octet the part has no end.
/// let number = parameters(&part[..12]).find_map(Result::err).unwrap();
/// assert_eq!(Refusal::from_number(number, NO_PLACE), Refusal::NoEnd);
/// ```
pub fn parameters(part: &[u8]) -> Parameters<'_> {
    Parameters {
        part,
        place: Some(0),
    }
}

impl<'a> Iterator for Parameters<'a> {
    type Item = Result<Parameter<'a>, u8>;

    fn next(&mut self) -> Option<Result<Parameter<'a>, u8>> {
        let reading = next_parameter(self.part, self.place.take()?);
        match (reading.number, reading.name) {
            (DONE, NAME_END) => None,
            (DONE, name) => {
                self.place = Some(reading.next);
                let contents = &self.part[reading.start..][..usize::from(reading.length)];
                Some(Ok(Parameter { name, contents }))
            }
            (number, _) => Some(Err(number)),
        }
    }
}

impl FusedIterator for Parameters<'_> {}

/// Puts one parameter more into a list that is to be lent to [`write_optional`](crate::write_optional), at the place `at`: its name, how many octets
/// of contents in two octets, the low one first, and the contents. It gives the place after them; `None`, with nothing written, for more than 65,535
/// octets of contents or too little room. It takes a name 0 and contents of 256 octets too, which the writer refuses.
///
/// ```
/// use naustvri::{parameters, push_parameter, write_optional, DONE, NAME_PRECEDENCE};
///
/// // A part with one parameter, to which a host adds precedence. It sets a spare bit, and the writer clears it.
/// let part = [10, 3, 0x84, 0x13, 0x64, 0];
/// let (mut list, mut end) = ([0; 64], 0);
/// for parameter in parameters(&part) {
///     let parameter = parameter.unwrap();
///     end = push_parameter(&mut list, end, parameter.name, parameter.contents).unwrap();
/// }
/// let precedence = [0xc3, 0x04, 0x60, 0, 0, 1];
/// end = push_parameter(&mut list, end, NAME_PRECEDENCE, &precedence).unwrap();
///
/// let mut buffer = [0xff; 32];
/// let written = write_optional(&mut buffer, &list[..end]);
/// assert_eq!(written.number, DONE);
/// assert_eq!(
///     buffer[..written.end],
///     [10, 3, 0x84, 0x13, 0x64, 58, 6, 0x43, 0x04, 0x60, 0, 0, 1, 0]
/// );
/// ```
#[must_use]
pub fn push_parameter(list: &mut [u8], at: usize, name: u8, contents: &[u8]) -> Option<usize> {
    let length = u16::try_from(contents.len()).ok()?;
    let end = at
        .checked_add(LISTED_CONTENTS)?
        .checked_add(contents.len())?;
    let listed = list.get_mut(at..end)?;
    listed[LISTED_NAME] = name;
    listed[LISTED_LENGTH..LISTED_CONTENTS].copy_from_slice(&length.to_le_bytes());
    listed[LISTED_CONTENTS..].copy_from_slice(contents);
    Some(end)
}
