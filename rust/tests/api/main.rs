//! Tests of what the crate's calls do, and of the types of its items.
mod bounds;
mod examples;
#[allow(clippy::upper_case_acronyms, clippy::wrong_self_convention)]
mod names;
mod panics;
mod places;
mod prints;
mod reads;
mod texts;
mod threads;
#[allow(clippy::extra_unused_lifetimes, clippy::needless_lifetimes, clippy::type_complexity)]
mod typed;
mod writes;
