//! Ratlinery tried from a host: the vectors and the deepest message (tests), a differential fuzz against the reference
//! (`fuzz`), and a benchmark (`bench`).

pub mod bench;
pub mod cases;
pub mod compare;
pub mod generate;
pub mod library;
pub mod random;
