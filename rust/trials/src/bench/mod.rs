//! The benchmark: workloads, how they are timed, and what is printed and plotted.

pub mod measure;
pub mod plot;
#[cfg(feature = "prepared")]
pub mod prepared;
pub mod report;
pub mod texts;
pub mod workloads;
