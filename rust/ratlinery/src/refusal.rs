//! Why something is refused, and where.

use std::fmt;

/// Why something is refused. The numbers are those of `include/ratlinery.h`.
#[derive(Clone, Copy, Debug, PartialEq, Eq, PartialOrd, Ord, Hash)]
#[repr(u8)]
pub enum Reason {
    TableNotSound = 1,
    RootNotAllowed = 2,
    TooManyBytes = 3,
    TooManyHandles = 4,
    TooDeep = 5,
    DoesNotFit = 6,
    FillNotZero = 7,
    BadBool = 8,
    BadPresence = 9,
    RequiredAbsent = 10,
    AbsentNotZero = 11,
    CountTooLarge = 12,
    NotUtf8 = 13,
    TooFewHandles = 14,
    BadEnvelope = 15,
    BadByteNumber = 16,
    UnknownOrdinal = 17,
    UnionWithoutContent = 18,
    LastEnvelopeAbsent = 19,
    BytesLeft = 20,
    HandlesLeft = 21,
    RoomTooSmall = 22,
    BadMagic = 23,
    OrdinalZero = 24,
    EpitaphTransaction = 25,
    NotAValue = 26,
    BadHandleNumber = 28,
    UnknownValue = 29,
    #[cfg(feature = "prepared")]
    StateDisagrees = 34,
    ImpossibleHandles = 35,
}

use Reason::*;

/// Each reason, in the order of the numbers, with a sentence for a person.
const SENTENCES: &[(Reason, &str)] = &[
    (TableNotSound, "the type table is not sound"),
    (RootNotAllowed, "there is no such row, or it may not be a root"),
    (TooManyBytes, "the message has more than 65,536 bytes"),
    (TooManyHandles, "the message has more than 64 handles"),
    (TooDeep, "the message is more than 32 deep"),
    (DoesNotFit, "the header or an object does not fit into the message"),
    (FillNotZero, "a byte of fill is not zero"),
    (BadBool, "a bool is neither 0 nor 1"),
    (BadPresence, "a presence is neither zero nor all ones"),
    (RequiredAbsent, "something required is absent"),
    (AbsentNotZero, "something absent has a count or an envelope that is not zero"),
    (CountTooLarge, "a count is larger than its type allows"),
    (NotUtf8, "a string is not UTF-8"),
    (TooFewHandles, "too few handles are left"),
    (
        BadEnvelope,
        "an envelope's flags are wrong, or its payload is in line and should not be, or the other way round",
    ),
    (BadByteNumber, "an envelope's byte number is wrong"),
    (UnknownOrdinal, "a strict union has an ordinal that its type does not know"),
    (UnionWithoutContent, "a union has an ordinal and no content"),
    (LastEnvelopeAbsent, "a table's last envelope is absent"),
    (BytesLeft, "bytes are left after the message's value"),
    (HandlesLeft, "handles are left after the message's value"),
    (RoomTooSmall, "the room is too small"),
    (BadMagic, "the header's magic byte is not 1"),
    (OrdinalZero, "the header's ordinal is 0"),
    (EpitaphTransaction, "an epitaph has a transaction number"),
    (NotAValue, "the list is not a value of the root's type"),
    (BadHandleNumber, "an envelope's handle number is wrong"),
    (UnknownValue, "a strict enum or strict bits have a value that their type does not know"),
    #[cfg(feature = "prepared")]
    (StateDisagrees, "the prepared state does not agree with the type table"),
    (ImpossibleHandles, "unknown content claims more handles than its bytes have room for"),
];

impl Reason {
    /// The number: 1 to 26, 28, 29 or 35.
    pub fn number(self) -> u32 {
        self as u32
    }

    /// The reason with a number, if there is one.
    pub fn from_number(number: u32) -> Option<Self> {
        SENTENCES.iter().map(|&(reason, _)| reason).find(|reason| reason.number() == number)
    }

    /// What is wrong, as a sentence for a person.
    pub fn sentence(self) -> &'static str {
        SENTENCES.iter().find(|&&(reason, _)| reason == self).map_or("", |&(_, sentence)| sentence)
    }
}

/// What was judged.
#[derive(Clone, Copy, Debug, PartialEq, Eq, Hash)]
pub enum Place {
    /// A row of the type table; 256 stands for the length of a list.
    Row(u64),
    /// A byte of the message, or of a text by itself.
    Byte(u64),
    /// A number of the value list.
    Index(u64),
    /// How much: handles used, or the bytes or numbers that are needed.
    Amount(u64),
}

impl Place {
    /// The bare number.
    pub fn number(self) -> u64 {
        match self {
            Place::Row(number) | Place::Byte(number) | Place::Index(number) | Place::Amount(number) => number,
        }
    }
}

/// A refusal: why, and where.
///
/// ```
/// use ratlinery::{Place, Reason, TypeTable, row};
///
/// // a struct of one bool
/// let rows = [row::BOOL, row::structure(0, 1)];
/// let table = TypeTable::new(&rows, &[[1, 0]]);
/// let refusal = table.check(1, &[2, 0, 0, 0, 0, 0, 0, 0], 0).unwrap_err();
/// assert_eq!(refusal.reason, Reason::BadBool);
/// assert_eq!(refusal.place, Place::Byte(0));
/// assert_eq!(refusal.to_string(), "refusal 8: a bool is neither 0 nor 1 (byte 0)");
/// ```
#[derive(Clone, Copy, Debug, PartialEq, Eq, Hash)]
pub struct Refusal {
    pub reason: Reason,
    pub place: Place,
}

impl Refusal {
    /// The number: 1 to 26, 28, 29 or 35.
    pub fn number(&self) -> u32 {
        self.reason.number()
    }

    /// How much is needed, where the room is too small.
    pub fn needed(&self) -> Option<usize> {
        match (self.reason, self.place) {
            (RoomTooSmall, Place::Amount(needed)) => usize::try_from(needed).ok(),
            _ => None,
        }
    }
}

impl fmt::Display for Refusal {
    fn fmt(&self, f: &mut fmt::Formatter) -> fmt::Result {
        let sentence = self.reason.sentence();
        write!(f, "refusal {}: {sentence}", self.number())?;
        match (self.reason, self.place) {
            (TableNotSound, Place::Row(256)) => write!(f, " (the length of a list is wrong)"),
            (_, Place::Row(row)) => write!(f, " (row {row})"),
            (TooManyBytes, Place::Byte(_)) => Ok(()),
            (_, Place::Byte(byte)) => write!(f, " (byte {byte})"),
            (_, Place::Index(index)) => write!(f, " (index {index} of the value list)"),
            (RoomTooSmall, Place::Amount(needed)) => write!(f, " ({needed} needed)"),
            (HandlesLeft, Place::Amount(used)) => write!(f, " ({used} used)"),
            (_, Place::Amount(_)) => Ok(()),
        }
    }
}

impl std::error::Error for Refusal {}

/// Which side a refusal comes from: the writer's 3, 4 and 5 name an index, those of the readers a place in the message.
#[derive(Clone, Copy)]
pub(crate) enum Side {
    Reader,
    Writer,
}

/// The refusal that a number returned and a place stand for; 0 is accepted.
pub(crate) fn judged(side: Side, number: u32, place: u64) -> Result<(), Refusal> {
    if number == 0 {
        return Ok(());
    }
    let reason = Reason::from_number(number).expect("a number of the library's");
    let place = match (reason, side) {
        (TableNotSound | RootNotAllowed, _) => Place::Row(place),
        (HandlesLeft | RoomTooSmall, _) | (TooManyHandles, Side::Reader) => Place::Amount(place),
        #[cfg(feature = "prepared")]
        (StateDisagrees, _) => Place::Amount(place),
        (NotAValue, _) | (TooManyBytes | TooManyHandles | TooDeep, Side::Writer) => Place::Index(place),
        _ => Place::Byte(place),
    };
    Err(Refusal { reason, place })
}

#[cfg(test)]
mod tests {
    use super::*;

    #[test]
    fn reasons_and_numbers_go_together() {
        let numbers: Vec<u32> = (0..100).filter(|&number| Reason::from_number(number).is_some()).collect();
        let of_states = cfg!(feature = "prepared").then_some(34);
        assert_eq!(numbers, (1..=26).chain([28, 29]).chain(of_states).chain([35]).collect::<Vec<_>>());
        for number in numbers {
            let reason = Reason::from_number(number).unwrap();
            assert_eq!(reason.number(), number);
            assert!(!reason.sentence().is_empty());
        }
    }
}
