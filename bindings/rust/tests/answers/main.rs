//! The crate held to known answers, and at its limits.

mod attributes;
mod claims;
mod flags;
mod known;
mod nans;
mod numerals;
mod parts;
mod refusals;
