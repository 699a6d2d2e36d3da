//! The built program, run on pages of every kind.

mod bands;
mod commands;
mod common;
mod cut;
mod dark;
mod examples;
mod memory;
mod pfm;
mod refusals;
mod sample;
mod usage;
mod white;
