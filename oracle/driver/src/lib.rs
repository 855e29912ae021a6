//! What the Rust and the port answer to the same request, in one form, and what makes requests.
//!
//! - `leaf`: the conversions that are compared, and what they answer
//! - `request`: the line format of requests and answers
//! - `rust_side`, `port_side`: the two that answer
//! - `replaced`: how many characters a conversion replaces, which the Rust does not say
//! - `releases`: what a host's release changes, which the Rust does not know
//! - `random`, `inputs`: bytes to ask about
//! - `blocks`: the same for texts that go by blocks, and a model of what is tested and counted in these
//! - `packed_whole`: the same for packed decimals as whole numbers, which the Rust does not read so, and what they must be
//! - `compare`: the differential run
//! - `faults`: wrong libraries, to see that the run notices them
//! - `descriptions`, `rows`: all of this for descriptions and types, and for rows
//! - `recordings`: result sets that a server sent, beside what its client shows
//!
//! And what all three share:
//!
//! - `command`: the command line, and what a run prints
//! - `run`: when a run ends, and with what
//! - `lent`: memory to lend to a call, and to look at afterwards
//! - `shrink`: the smallest input that differs
//!
//! And what the programs share that take times:
//!
//! - `samples`: texts of every class
//! - `timing`: the time that calls take
pub mod blocks;
pub mod command;
pub mod compare;
pub mod descriptions;
pub mod faults;
pub mod inputs;
pub mod leaf;
pub mod lent;
pub mod packed_whole;
pub mod port_side;
pub mod random;
pub mod recordings;
pub mod releases;
pub mod replaced;
pub mod request;
pub mod rows;
pub mod run;
pub mod rust_side;
pub mod samples;
pub mod shrink;
pub mod timing;
