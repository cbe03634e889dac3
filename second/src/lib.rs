//! An independent second implementation of the floor control desk of document 01, with what
//! has landed of document 02: the packet reader and writer, the desk's steps and the saved
//! sheet.
//!
//! It was written from the papers alone, to be compared line by line with the first
//! implementation by way of scripts. `FORMAT.md` says what a script is.

#![forbid(unsafe_code)]

pub mod desk;
pub mod hex;
pub mod line;
pub mod maker;
pub mod packet;
pub mod refusal;
pub mod report;
pub mod script;
pub mod seats;
pub mod settings;
pub mod sheet;
mod slices;
pub mod timers;
pub mod usage;
pub mod words;
