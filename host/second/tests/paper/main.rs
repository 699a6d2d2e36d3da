//! The papers' figures and rules, through the public calls.

mod bands;
mod changes;
mod dark_pages;
mod examples;
mod extremes;
mod helpers;
mod nearest_steps;
mod nearness;
mod refusals;
mod white;
mod whole_numbers;
