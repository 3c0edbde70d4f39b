//! The model disk, and the check that the player agrees with it. They use the player, and nothing else of this crate.

pub mod accounts;
pub mod answers;
pub mod consistency;
pub mod model;
pub mod truth;
