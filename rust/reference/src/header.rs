//! Document 01, "The header", and document 02's W-203 for epitaphs.

use crate::refusal::{Answer, refuse, require};

const EPITAPH: u64 = u64::MAX;

/// A transactional header.
#[derive(Clone, Copy, Debug, PartialEq, Eq)]
pub struct Header {
    pub transaction: u32,
    pub flags: [u8; 3],
    pub ordinal: u64,
}

impl Header {
    /// The header of a message, its status if it is an epitaph and else 0, and its body.
    pub fn read(message: &[u8]) -> Answer<(Header, i32, &[u8])> {
        require(message.len() <= 65_536, 3, 0)?;
        require(message.len() >= 16, 6, 0)?;
        let (bytes, body) = message.split_at(16);
        let header = Header {
            transaction: u32::from_le_bytes(bytes[..4].try_into().expect("four bytes")),
            flags: bytes[4..7].try_into().expect("three bytes"),
            ordinal: u64::from_le_bytes(bytes[8..].try_into().expect("eight bytes")),
        };
        require(bytes[7] == 1, 23, 7)?;
        header.judge()?;
        let status = if header.ordinal == EPITAPH { status(body)? } else { 0 };
        Ok((header, status, body))
    }

    /// The header's bytes.
    pub fn bytes(&self) -> Answer<[u8; 16]> {
        self.judge()?;
        let mut bytes = [0; 16];
        bytes[..4].copy_from_slice(&self.transaction.to_le_bytes());
        bytes[4..7].copy_from_slice(&self.flags);
        bytes[7] = 1;
        bytes[8..].copy_from_slice(&self.ordinal.to_le_bytes());
        Ok(bytes)
    }

    fn judge(&self) -> Answer<()> {
        require(self.ordinal != 0, 24, 8)?;
        require(self.ordinal != EPITAPH || self.transaction == 0, 25, 0)
    }
}

/// The status that an epitaph's body holds, with four bytes of fill behind it; places count from the header.
fn status(body: &[u8]) -> Answer<i32> {
    require(body.len() >= 8, 6, 16)?;
    if let Some(unclean) = (4..8).find(|&at| body[at] != 0) {
        return refuse(7, 16 + unclean);
    }
    require(body.len() == 8, 20, 24)?;
    Ok(i32::from_le_bytes(body[..4].try_into().expect("four bytes")))
}

/// A whole epitaph.
#[derive(Clone, Copy, Debug, PartialEq, Eq)]
pub struct Epitaph {
    pub flags: [u8; 3],
    pub status: i32,
}

impl Epitaph {
    /// The epitaph's bytes.
    pub fn bytes(&self) -> [u8; 24] {
        let [flag0, flag1, flag2] = self.flags;
        let mut bytes = [0; 24];
        bytes[4..8].copy_from_slice(&[flag0, flag1, flag2, 1]);
        bytes[8..16].fill(0xff);
        bytes[16..20].copy_from_slice(&self.status.to_le_bytes());
        bytes
    }
}
