//! Shim. Of the published folder's files the two that are at hand.

pub mod sqlcard;
pub mod sqldard;
