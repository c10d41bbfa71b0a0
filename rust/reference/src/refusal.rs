//! Document 01, "Numbers and places", and the numbers of document 02.

/// A refusal: its number and its place.
#[derive(Clone, Copy, Debug, PartialEq, Eq)]
pub struct Refusal {
    pub number: u32,
    pub place: u64,
}

/// What a test answers: something, or the refusal.
pub type Answer<T> = Result<T, Refusal>;

/// The refusal with this number at this place.
pub(crate) fn refuse<T>(number: u32, place: usize) -> Answer<T> {
    Err(Refusal { number, place: place as u64 })
}

/// Refuses with this number at this place where the test fails.
pub(crate) fn require(holds: bool, number: u32, place: usize) -> Answer<()> {
    if holds { Ok(()) } else { refuse(number, place) }
}
