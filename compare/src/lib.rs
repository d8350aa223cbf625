//! The proved library beside plain Rust.

#[cfg(feature = "library")]
pub mod check;
pub mod client;
pub mod command;
pub mod differ;
pub mod events;
pub mod frames;
pub mod hex;
#[cfg(feature = "library")]
pub mod library;
pub mod manager;
pub mod met;
pub mod node;
pub mod plain;
pub mod player;
pub mod random;
#[cfg(feature = "library")]
pub mod reading;
pub mod scripts;
pub mod show;
pub mod speed;
pub mod table;
pub mod tuned;
pub mod typed;
#[cfg(feature = "library")]
pub mod writing;
