//! Reads cases, lets an engine answer them, writes the answers.

pub mod checking;
pub mod engine;
pub mod entered;
pub mod format;
pub mod library;
pub mod long;
pub mod reading;
pub mod reference;
pub mod report;
pub mod run;
