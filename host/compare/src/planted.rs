//! Mistakes for a self-check to plant.

use crate::calls::Calls;
use crate::compare::{told, Difference};
use dofnihet::raw::Outcome;
use second::Refusal;
use std::fmt::Debug;

/// The enum of these mistakes with `Nothing` beside them, and the list of them.
#[macro_export]
macro_rules! planted {
    ($($planted:ident)*) => {
        #[derive(Clone, Copy, Debug, PartialEq, Eq)]
        enum Planted {
            Nothing,
            $($planted),*
        }

        const PLANTED: &[Planted] = &[$($planted),*];
    };
}

/// Fails unless the comparison passes where nothing is planted and notices each mistake of the list. It tells how many.
#[track_caller]
pub fn each_noticed<T: Calls + Debug>(nothing: T, list: &[T], compared: impl Fn(&dyn Calls) -> Result<(), Difference>) -> usize {
    compared(&nothing).unwrap();
    for planted in list {
        assert!(compared(planted).is_err(), "{planted:?} was not noticed");
    }
    list.len()
}

/// A second step's levels in the library's place: put in the output's front, and what is told of them.
pub fn mapped(answer: &Result<Vec<u8>, Refusal>, output: &mut [u8]) -> Outcome {
    let levels = answer.as_deref().unwrap_or_default();
    output[..levels.len()].copy_from_slice(levels);
    let (number, place) = told(answer);
    Outcome { number, place }
}
