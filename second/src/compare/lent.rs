//! A buffer lent to one side, with random content and a guard zone before and after it.

use crate::random::Random;
use crate::search::Record;

/// The most elements of one guard zone.
const MOST_GUARD: u64 = 9;

/// What can be filled with random content.
pub trait Noise: Copy + PartialEq {
    fn draw(random: &mut Random) -> Self;
}

impl Noise for u8 {
    fn draw(random: &mut Random) -> u8 {
        random.number() as u8
    }
}

impl Noise for u64 {
    fn draw(random: &mut Random) -> u64 {
        random.number()
    }
}

impl Noise for Record {
    fn draw(random: &mut Random) -> Record {
        let set = random.number();
        let rest = random.number();
        Record {
            set,
            parent: rest as u32,
            command: (rest >> 32) as u8,
        }
    }
}

/// The lent part and its guard zones. Two of them are equal only if the guard zones are, too.
#[derive(Clone, Debug, PartialEq, Eq)]
pub struct Lent<T> {
    whole: Vec<T>,
    start: usize,
    length: usize,
}

impl<T: Noise> Lent<T> {
    /// A buffer of this length full of random content. A guard zone may be empty.
    pub fn filled(random: &mut Random, length: usize) -> Lent<T> {
        let start = random.below(MOST_GUARD + 1) as usize;
        let after = random.below(MOST_GUARD + 1) as usize;
        let whole = (0..start + length + after)
            .map(|_| T::draw(random))
            .collect();
        Lent {
            whole,
            start,
            length,
        }
    }

    /// A buffer with this content.
    pub fn holding(random: &mut Random, content: &[T]) -> Lent<T> {
        let mut lent = Lent::filled(random, content.len());
        lent.part_mut().copy_from_slice(content);
        lent
    }

    /// The lent part.
    pub fn part(&self) -> &[T] {
        &self.whole[self.start..self.start + self.length]
    }

    /// The lent part, to be written to.
    pub fn part_mut(&mut self) -> &mut [T] {
        &mut self.whole[self.start..self.start + self.length]
    }

    /// The lent part as an array of this length.
    pub fn array_mut<const N: usize>(&mut self) -> &mut [T; N] {
        self.part_mut()
            .try_into()
            .expect("the lent part has this length")
    }

    /// The first element that differs: its index from the start of the lent part (negative in the
    /// guard zone before it), and both contents.
    pub fn difference(&self, other: &Lent<T>) -> Option<(isize, T, T)> {
        let mut pairs = self.whole.iter().zip(&other.whole);
        let at = pairs.position(|(one, two)| one != two)?;
        let index = at as isize - self.start as isize;
        Some((index, self.whole[at], other.whole[at]))
    }
}

#[cfg(test)]
mod tests {
    use super::*;

    /// A buffer with both guard zones, of the same content each time.
    fn guarded() -> Lent<u8> {
        let lents = (0..50).map(|seed| Lent::filled(&mut Random::new(seed), 4));
        let mut both = lents.filter(|lent| lent.start > 0 && lent.whole.len() > lent.start + 4);
        both.next().expect("some buffer has both guard zones")
    }

    #[test]
    fn harm_to_a_guard_zone_is_seen() {
        let lent = guarded();
        assert_eq!(lent.difference(&guarded()), None);
        for at in [0, lent.start - 1, lent.start + 4, lent.whole.len() - 1] {
            let mut harmed = guarded();
            harmed.whole[at] ^= 1;
            assert_eq!(harmed.part(), lent.part());
            assert_ne!(harmed, lent);
            let (index, _, _) = lent.difference(&harmed).expect("it differs");
            assert!(!(0..4).contains(&index));
        }
    }

    #[test]
    fn content_is_held_between_the_guard_zones() {
        let lent = Lent::holding(&mut Random::new(1), &[1u8, 2, 3]);
        assert_eq!(lent.part(), [1, 2, 3]);
    }
}
