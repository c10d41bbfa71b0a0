//! Ratlinery, a proved codec for FIDL messages with 8-byte envelopes, under a type table that is handed in at run time.
//!
//! Every function here is safe and total: any table, message, list and number gets an answer. What is refused gets a
//! [`Refusal`]: its number, the place that was judged, and a sentence for a person.
//!
//! ```
//! use ratlinery::{Content, Object, ObjectKind, Refusal, TypeTable, Value, row};
//!
//! // A table with three members: a number of one byte, a struct of two numbers, and an optional string.
//! const ROWS: [[u32; 4]; 5] = [
//!     row::number(1),
//!     row::number(2),
//!     row::string(8, true),
//!     row::structure(0, 2),
//!     row::table(2, 3),
//! ];
//! // A member is its ordinal and its row: two of the struct, three of the table.
//! const MEMBERS: [[u32; 2]; 5] = [[1, 1], [2, 1], [1, 0], [2, 3], [3, 2]];
//! const ROOT: u32 = 4;
//!
//! fn main() -> Result<(), Refusal> {
//!     let table = TypeTable::new(&ROWS, &MEMBERS);
//!     let message = [
//!         0x02, 0, 0, 0, 0, 0, 0, 0, // the highest ordinal that is present
//!         0xff, 0xff, 0xff, 0xff, 0xff, 0xff, 0xff, 0xff, // the table's envelopes follow
//!         0x02, 0, 0, 0, 0, 0, 0x01, 0, // ordinal 1, in line: 2
//!         0x64, 0, 0xfd, 0xff, 0, 0, 0x01, 0, // ordinal 2, in line: 100 and 65533
//!     ];
//!     table.check(ROOT, &message, 0)?;
//!
//!     let reading = table.read(ROOT, &message, 0)?;
//!     assert_eq!(reading.values, [2, 1, 2, 1, 100, 65533]);
//!     let envelopes = Object { kind: ObjectKind::Envelopes, row: ROOT, offset: 16, length: 16 };
//!     assert_eq!(reading.objects[1], envelopes);
//!
//!     // the value list as a tree
//!     let tree = table.tree(ROOT, &reading.values)?;
//!     let Value::Table(members) = tree.root() else { unreachable!() };
//!     assert!(matches!(members.get(1), Some(Content::Known(Value::Number(2)))));
//!     let Some(Content::Known(Value::Struct(parts))) = members.get(2) else { unreachable!() };
//!     assert!(matches!(parts.get(1), Some(Value::Number(65533))));
//!     assert!(members.get(3).is_none());
//!
//!     // what was read is written as it was
//!     let written = table.write(ROOT, &reading.values)?;
//!     assert_eq!(written.bytes, message);
//!
//!     // a byte of fill that is not zero
//!     let mut damaged = message;
//!     damaged[17] = 1;
//!     let refusal = table.check(ROOT, &damaged, 0).unwrap_err();
//!     assert_eq!(refusal.to_string(), "refusal 7: a byte of fill is not zero (byte 17)");
//!     Ok(())
//! }
//! ```
#![forbid(unsafe_code)]

mod call;
mod header;
#[cfg(feature = "prepared")]
mod prepared;
mod refusal;
pub mod row;
mod table;
mod text;
mod tree;

pub use header::{Epitaph, Header};
#[cfg(feature = "prepared")]
pub use prepared::Prepared;
pub use refusal::{Place, Reason, Refusal};
pub use table::{Layout, Object, ObjectKind, Reading, TypeTable, Written};
pub use text::check_utf8;
pub use tree::{Content, Member, Members, Parts, Raw, Tree, Unknown, Value};
