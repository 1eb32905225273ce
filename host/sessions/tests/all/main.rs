//! The tests of the reference, in one program so that they build quickly.

mod audits;
mod causes;
mod ceiling;
mod common;
mod driver;
mod feed;
mod layer;
mod moments;
mod page;
mod random_sessions;
mod ratios;
mod refusals;
mod report_memory;
mod reserve;
mod rules;
mod sets;
mod settings;
mod short_sessions;
mod soundness;
mod trials;
