//! Plain Rust model of a shared EEG test bench: of one ADS1299, and of the
//! four that a bench has (`bench`); and of an ADS7953 (`ads7953`).
//!
//! Written from the text of document 01 and of document 02's No. 1 to No. 4
//! and No. 6 alone, the ADS7953 with document 001 beside them. Their words map
//! to these terms: keeper = administrator, workshop = tenant, slip = setting
//! request, sheet = transmit buffer.
//!
//! Every entry point answers with a refusal number first (0 is success); a
//! refused call hands back the state it was given and leaves buffers alone.

#![forbid(unsafe_code)]

pub mod access;
pub mod ads7953;
pub mod bench;
pub mod console;
pub mod fields;
pub mod frame;
pub mod planner;
pub mod refusal;
pub mod registers;
pub mod request;
pub mod state;
pub mod step;

pub use access::{channel_bytes, grant, read_channel};
pub use ads7953::Ads7953;
pub use bench::Bench;
pub use console::console;
pub use frame::{sample, Rail};
pub use planner::plan;
pub use refusal::Refusal;
pub use request::{request_read, request_write, Request, WHOLE_CHANNEL};
pub use state::{power_up, Converter, Direction, Phase, Transfer};
pub use step::{deselect, step};
