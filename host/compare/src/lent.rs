//! Memory lent as an output: filled with a pattern, and with guards of the same pattern on both sides of what is lent.

/// An element that a pattern can be made of.
pub trait Element: Copy + PartialEq + std::fmt::Debug {
    fn cut(mixed: u64) -> Self;
}

impl Element for u8 {
    fn cut(mixed: u64) -> u8 {
        mixed as u8
    }
}

impl Element for u16 {
    fn cut(mixed: u64) -> u16 {
        mixed as u16
    }
}

impl Element for u32 {
    fn cut(mixed: u64) -> u32 {
        mixed as u32
    }
}

const GUARD: usize = 8;

pub struct Lent<T> {
    memory: Vec<T>,
    salt: u64,
}

impl<T: Element> Lent<T> {
    /// Room for so many elements; another salt makes another pattern.
    pub fn new(room: usize, salt: u64) -> Lent<T> {
        let memory = (0..room + 2 * GUARD).map(|i| pattern(i, salt)).collect();
        Lent { memory, salt }
    }

    /// The part that is lent.
    pub fn output(&mut self) -> &mut [T] {
        let end = self.memory.len() - GUARD;
        &mut self.memory[GUARD..end]
    }

    /// The front of the lent part.
    pub fn front(&self, count: usize) -> &[T] {
        &self.memory[GUARD..GUARD + count]
    }

    /// Whether the lent part begins with `front`, and all other memory is as it was.
    pub fn holds(&self, front: &[T]) -> Result<(), String> {
        let end = GUARD + front.len();
        if self.memory.len() < end + GUARD {
            return Err(format!("an outcome of {} elements does not fit", front.len()));
        }
        if self.memory[GUARD..end] != *front {
            let i = (0..front.len()).find(|&i| self.memory[GUARD + i] != front[i]).unwrap();
            return Err(format!("output element {i} is {:?}, not {:?}", self.memory[GUARD + i], front[i]));
        }
        let kept = |i: &usize| self.memory[*i] == pattern(*i, self.salt);
        match (0..GUARD).chain(end..self.memory.len()).find(|i| !kept(i)) {
            None => Ok(()),
            Some(i) => Err(format!("memory at {} of the output was changed", i as i64 - GUARD as i64)),
        }
    }
}

fn pattern<T: Element>(i: usize, salt: u64) -> T {
    T::cut((i as u64 ^ salt).wrapping_mul(0x9E37_79B9_7F4A_7C15) >> 29)
}

#[cfg(test)]
mod tests {
    use super::*;

    /// Any element that is not as it should be is seen, in the front, behind it and in both guards.
    #[test]
    fn every_element_counts() {
        let front = [7, 8, 9];
        let sound = || {
            let mut lent = Lent::<u32>::new(5, 42);
            lent.output()[..3].copy_from_slice(&front);
            lent
        };
        assert!(sound().holds(&front).is_ok());
        for place in 0..sound().memory.len() {
            let mut changed = sound();
            changed.memory[place] ^= 1;
            assert!(changed.holds(&front).is_err(), "element {place}");
        }
        assert!(sound().holds(&[7, 8]).is_err());
        assert!(Lent::<u32>::new(2, 42).holds(&front).is_err());
    }
}
