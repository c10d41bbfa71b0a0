//! Text by itself.

use crate::call;
use crate::refusal::Refusal;

/// Are bytes UTF-8, as the strings of a message are? The place of a refusal is the offset of the first byte of the first
/// sequence that RFC 3629 doesn't allow.
///
/// ```
/// use ratlinery::{Place, Reason, check_utf8};
///
/// assert_eq!(check_utf8("pad é".as_bytes()), Ok(()));
///
/// // the last sequence is cut off
/// let refusal = check_utf8(b"pad \xe2\x82").unwrap_err();
/// assert_eq!(refusal.reason, Reason::NotUtf8);
/// assert_eq!(refusal.place, Place::Byte(4));
/// ```
pub fn check_utf8(text: &[u8]) -> Result<(), Refusal> {
    call::utf8(text)
}
