//! Texts that are long enough for the port to go through them by blocks.
//!
//! - `inputs`: texts in which something stands at every place around the edges of blocks
//! - `model`: what is tested and counted in a block, with a switch for each of its conditions
pub mod inputs;
pub mod model;
