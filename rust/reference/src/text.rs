//! Text, by RFC 3629 as the standard library reads it.

use crate::refusal::{Answer, refuse};

/// The text that bytes are. 13 where the first sequence starts that is not allowed; the bytes start at a place.
pub(crate) fn text(bytes: &[u8], at: usize) -> Answer<&str> {
    std::str::from_utf8(bytes).or_else(|broken| refuse(13, at + broken.valid_up_to()))
}
