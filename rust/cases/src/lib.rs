//! Cases for tests and benchmarks of the Attachment H settlement.
//!
//! - [`calendar`]: days, windows and capability periods.
//! - [`case`]: a case as typed records, and its bytes in either version of the case file.
//! - [`generator`]: random cases that break nothing, and random bytes.
//! - [`growth`]: the cases that the benchmark times in turn, by their number of events.
//! - [`faults`]: faults of every number, as functions on bytes.
//! - [`worse`]: the worsening changes of demand 3, as functions on bytes.
//! - [`random`]: the seeded sequence behind them.

pub mod calendar;
pub mod case;
pub mod faults;
pub mod generator;
pub mod growth;
pub mod random;
pub mod worse;

pub use attachment_h::{Component, Kind, Market, Row};
pub use case::{Case, Conduct, Event, Input, Past, Reference, Unit, Version};
pub use generator::{Generated, Size, Wanted};
pub use random::Random;
pub use worse::Change;
