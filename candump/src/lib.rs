//! Recordings of can-utils' `candump -L` as night logs (02, Req 01), and night logs as such recordings.

mod arguments;
mod clock;
mod fields;
mod files;
mod frame;
mod interfaces;
mod log;
mod numbers;
pub mod program;
mod stamp;
mod stamps;
pub mod to_candump;
pub mod to_log;
