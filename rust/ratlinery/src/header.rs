//! The transactional header, and epitaphs.

use crate::call;
use crate::refusal::Refusal;

/// A transactional header. Its magic byte is always 1, so it is no field.
///
/// ```
/// use ratlinery::Header;
///
/// let header = Header { transaction: 7, flags: [2, 0, 0], ordinal: 0x5ce4c23c86c5d471, status: 0 };
/// let mut message = header.to_bytes()?.to_vec();
/// message.extend(b"the body");
///
/// let (read, body) = Header::read(&message)?;
/// assert_eq!(read, header);
/// assert_eq!(body, b"the body");
///
/// message[7] = 0; // the magic byte
/// assert_eq!(Header::read(&message).unwrap_err().number(), 23);
/// # Ok::<(), ratlinery::Refusal>(())
/// ```
#[derive(Clone, Copy, Debug, PartialEq, Eq, Hash)]
pub struct Header {
    pub transaction: u32,
    /// Never judged.
    pub flags: [u8; 3],
    /// All ones for an epitaph, whose body is its status and four zero bytes.
    pub ordinal: u64,
    /// The status in an epitaph's body, 0 for every other message. It is read with the header and not written with it:
    /// [`Epitaph`] writes both.
    pub status: i32,
}

impl Header {
    /// The header of a message, and the message's body: a part of the message itself.
    pub fn read(message: &[u8]) -> Result<(Self, &[u8]), Refusal> {
        let [transaction, flags, ordinal, start, length, status] = call::header_read(message)?;
        let [flag0, flag1, flag2, ..] = flags.to_le_bytes();
        let header = Header {
            transaction: transaction as u32,
            flags: [flag0, flag1, flag2],
            ordinal,
            status: status as i32,
        };
        let (start, length) = (start as usize, length as usize);
        Ok((header, &message[start..start + length]))
    }

    /// The header's 16 bytes.
    pub fn to_bytes(self) -> Result<[u8; 16], Refusal> {
        let mut bytes = [0; 16];
        self.write_into(&mut bytes)?;
        Ok(bytes)
    }

    /// Writes the header to the start of an output and answers its length, 16.
    pub fn write_into(self, out: &mut [u8]) -> Result<usize, Refusal> {
        call::header_write(self, out).map(|bytes| bytes as usize)
    }
}

/// An epitaph: a whole message, whose header has transaction number 0 and an ordinal of all ones, and whose body is a status.
///
/// ```
/// use ratlinery::{Epitaph, Header};
///
/// let mut message = Epitaph { flags: [2, 0, 0], status: -24 }.to_bytes();
///
/// let (header, body) = Header::read(&message)?;
/// assert_eq!(header, Header { transaction: 0, flags: [2, 0, 0], ordinal: u64::MAX, status: -24 });
/// assert_eq!(body, [0xe8, 0xff, 0xff, 0xff, 0, 0, 0, 0]);
///
/// message[22] = 1; // behind the status
/// let refusal = Header::read(&message).unwrap_err();
/// assert_eq!(refusal.to_string(), "refusal 7: a byte of fill is not zero (byte 22)");
/// # Ok::<(), ratlinery::Refusal>(())
/// ```
#[derive(Clone, Copy, Debug, PartialEq, Eq, Hash)]
pub struct Epitaph {
    /// Never judged.
    pub flags: [u8; 3],
    pub status: i32,
}

impl Epitaph {
    /// The epitaph's 24 bytes.
    pub fn to_bytes(self) -> [u8; 24] {
        let mut bytes = [0; 24];
        self.write_into(&mut bytes).expect("24 bytes are enough");
        bytes
    }

    /// Writes the epitaph to the start of an output and answers its length, 24. It is refused only where the output is
    /// shorter.
    pub fn write_into(self, out: &mut [u8]) -> Result<usize, Refusal> {
        call::epitaph_write(self, out).map(|bytes| bytes as usize)
    }
}
