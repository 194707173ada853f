// The version, the numbers of the enums, and text for a value.

use naustvri::*;
use std::error::Error;

#[test]
fn version_of_package_and_archive() {
    assert_eq!(version(), VERSION);
    let parts = [VERSION_MAJOR, VERSION_MINOR, VERSION_PATCH].map(|part| part.to_string());
    assert_eq!(env!("CARGO_PKG_VERSION"), parts.join("."));
}

// The value that has a number, if there is one.
fn of_number<T: Copy>(all: &[T], number_of: impl Fn(T) -> u8, number: u8) -> Option<T> {
    all.iter()
        .copied()
        .find(|&value| number_of(value) == number)
}

#[test]
fn enums_there_and_back() {
    for number in 0..=255 {
        let level = of_number(Level::ALL, Level::number, number);
        assert_eq!(Level::from_number(number), level);
        let lfb = of_number(Lfb::ALL, Lfb::number, number);
        assert_eq!(Lfb::from_number(number), lfb);
        let kind = of_number(Kind::ALL, Kind::number, number);
        assert_eq!(Kind::from_number(number), kind);
        let reason = of_number(Reason::ALL, Reason::number, number);
        assert_eq!(Reason::from_number(number), reason);
        let refusal = of_number(Refusal::ALL, Refusal::number, number)
            .or(reason.map(|reason| Refusal::BadRecord { reason, record: 7 }));
        let made = Refusal::from_number(number, 7);
        assert_eq!(made, refusal.unwrap_or(Refusal::Unknown(number)));
        assert_eq!((made.number(), made.record()), (number, reason.map(|_| 7)));
    }
    assert_eq!(
        (
            Level::ALL.len(),
            Lfb::ALL.len(),
            Kind::ALL.len(),
            Reason::ALL.len(),
            Refusal::ALL.len()
        ),
        (5, 3, 7, 5, 14)
    );
    assert_eq!(Level::from_number(NO_PRECEDENCE), None);
}

#[test]
fn texts() {
    assert_eq!(
        (number_name(2), number_meaning(7)),
        ("SEIZED_WITH_LOSS", "the clock was looked at")
    );
    for (number, name, meaning) in [
        (
            0,
            "DONE",
            "list carried out, table valid, or field or optional part read or written",
        ),
        (
            8,
            "UNMARKED",
            "the holder stays, without a precedence; a reservation above it, if there was one, is lost",
        ),
        (9, "NOW_ANSWERED", "the holder stays, and rings no more"),
        (
            22,
            "MALFORMED",
            "the event, field or parameter is malformed",
        ),
        (
            27,
            "NOT_PRESENT",
            "release, no-service or answered without a holder, cancel without a reservation",
        ),
        (
            41,
            "FLAG_OR_LEVEL",
            "a flag or a holder's octet 30 is above 1, or a present part's level above 4 (a holder's may be 15 in the zero domain)",
        ),
        (
            44,
            "NOT_ABOVE_HOLDER",
            "the reservation is not strictly above the holder in the same domain, or the holder has level 15 or rings",
        ),
        (
            60,
            "TOO_MANY_LISTS",
            "a list too many: the totals take no more",
        ),
        (
            61,
            "PARAMETER_CUT_SHORT",
            "the octets of the optional part run out inside a parameter",
        ),
        (
            62,
            "NO_END",
            "the octets of the optional part run out before a name",
        ),
        (
            63,
            "PRECEDENCE_TWICE",
            "precedence is given twice in one optional part or list",
        ),
    ] {
        assert_eq!(
            (number_name(number), number_meaning(number)),
            (name, meaning)
        );
    }
    assert_eq!(
        (cause_name(46), cause_meaning(46)),
        (
            "CAUSE_PRECEDENCE_CALL_BLOCKED",
            "precedence call blocked, for a higher level"
        )
    );
    assert_eq!(
        (level_name(0), level_meaning(0)),
        ("FLASH_OVERRIDE", "FLASH OVERRIDE")
    );
    assert_eq!(
        (lfb_name(1), lfb_meaning(1)),
        ("LFB_PATH_RESERVED", "path reserved")
    );
    assert_eq!(
        (kind_name(3), kind_meaning(3)),
        ("LOOK_AHEAD", "look-ahead")
    );
    assert_eq!(
        (level_name(15), level_meaning(15)),
        ("NO_PRECEDENCE", "NO PRECEDENCE")
    );
    assert_eq!(
        (kind_name(6), kind_meaning(6)),
        ("NO_SERVICE", "no-service")
    );
    assert_eq!((kind_name(7), kind_meaning(7)), ("ANSWERED", "answered"));
    assert_eq!(
        (name_name(0), name_meaning(0)),
        ("NAME_END", "end of optional parameters")
    );
    assert_eq!(
        (name_name(58), name_meaning(58)),
        ("NAME_PRECEDENCE", "MLPP precedence")
    );
    assert_eq!(
        (number_name(21), number_meaning(21)),
        ("UNKNOWN", "unknown number")
    );
    assert_eq!(
        (cause_name(1), cause_meaning(1)),
        ("UNKNOWN", "unknown cause")
    );
    assert_eq!(
        (level_name(5), level_meaning(5)),
        ("UNKNOWN", "unknown level")
    );
    assert_eq!((lfb_name(3), lfb_meaning(3)), ("UNKNOWN", "unknown LFB"));
    assert_eq!((kind_name(0), kind_meaning(0)), ("UNKNOWN", "unknown kind"));
    assert_eq!((name_name(1), name_meaning(1)), ("UNKNOWN", "unknown name"));
    assert_eq!(
        (Level::Routine.name(), Kind::SetUp.to_string()),
        ("ROUTINE", String::from("set-up"))
    );
    assert_eq!(format!("[{:>9}]", Level::Flash), "[    FLASH]");
}

#[test]
fn refusals_are_errors() {
    let error: Box<dyn Error> = Box::new(Refusal::BadRecord {
        reason: Reason::NotZero,
        record: 7,
    });
    assert_eq!(
        error.to_string(),
        "43 NOT_ZERO: an octet of an absent part, or octet 28, 29 or 31, is not zero, in record 7"
    );
    assert_eq!(Reason::NotZero.name(), "NOT_ZERO");
    assert_eq!(
        Reason::RepeatedReference.to_string(),
        "the reference of a present part stands in an earlier present part"
    );
    assert_eq!(
        Refusal::WrongLength.to_string(),
        "20 WRONG_LENGTH: a length is wrong"
    );
    assert_eq!(
        Refusal::NoEnd.to_string(),
        "62 NO_END: the octets of the optional part run out before a name"
    );
    assert_eq!(
        Refusal::Unknown(99).to_string(),
        "99 UNKNOWN: unknown number"
    );
}
