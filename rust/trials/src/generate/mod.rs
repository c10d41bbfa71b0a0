//! What the fuzz puts in: type tables, prepared states, value lists, texts, headers and epitaphs, and damage to them.

pub mod damage;
pub mod header;
#[cfg(feature = "prepared")]
pub mod state;
pub mod strict;
pub mod table;
pub mod text;
pub mod values;
