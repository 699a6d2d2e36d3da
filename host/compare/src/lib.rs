//! The proved library held against the second tone step, call by call, through the C interface. Generators of pages, sources, faults and
//! damage; comparisons that see every field and every element of lent memory; demand 3 of document 01 on each accepted page.

pub mod band_faults;
pub mod bands;
pub mod calls;
pub mod compare;
mod compare_bands;
pub mod counts;
pub mod damage;
pub mod elements;
pub mod lent;
pub mod light;
pub mod limits;
pub mod pages;
pub mod planted;
pub mod powers;
pub mod program;
pub mod random;
pub mod rounds;
pub mod scaled;
pub mod source_faults;
pub mod steps;
pub mod strip_faults;
pub mod values;

pub use calls::{Calls, Library};
pub use compare::{same, Compare, Difference, Told};
pub use elements::{Elements, Kind};
pub use random::Random;
