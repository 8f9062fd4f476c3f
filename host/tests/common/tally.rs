//! What the tests met, counted by name. Every tally adds up and is printed in the same way.

use std::fmt;
use std::marker::PhantomData;
use std::ops::{AddAssign, Index, IndexMut};
use std::time::Duration;

/// What a test counts; `counts!` declares it.
pub trait Counts: Copy {
    /// The words that are printed after each number.
    const NAMES: &'static [&'static str];
    /// So many of them, from the first on, add up; of the others the greatest stays.
    const SUMS: usize;

    fn place(self) -> usize;
}

/// Declares an enum of what a test counts, each with the words that are printed after its number; under `greatest` stands what does not add up.
macro_rules! counts {
    ($(#[$about:meta])* $name:ident {
        $($(#[$doc:meta])* $count:ident: $words:literal,)*
    } $(greatest { $($great:ident: $great_words:literal,)* })?) => {
        $(#[$about])*
        #[derive(Clone, Copy, Debug, PartialEq, Eq)]
        enum $name {
            $($(#[$doc])* $count,)*
            $($($great,)*)?
        }

        impl $crate::common::tally::Counts for $name {
            const NAMES: &'static [&'static str] = &[$($words,)* $($($great_words,)*)?];
            const SUMS: usize = [$($words),*].len();

            fn place(self) -> usize {
                self as usize
            }
        }
    };
}
pub(crate) use counts;

/// A number for each of the counts.
#[derive(Clone)]
pub struct Tally<C> {
    numbers: Vec<u64>,
    of: PhantomData<C>,
}

impl<C: Counts> Tally<C> {
    /// Counts one more, where the fact holds.
    pub fn count(&mut self, what: C, holds: bool) {
        self[what] += u64::from(holds);
    }

    /// Fails unless each of these was met.
    pub fn assert_met(&self, counts: &[C]) {
        for &count in counts {
            assert!(self[count] > 0, "no {}: {self}", C::NAMES[count.place()]);
        }
    }

    /// Prints what was compared. A comparison ends at the first difference, so there was none.
    pub fn say(&self, what: &str) {
        println!("{what}: {self}; 0 differences");
    }

    /// The same of a long run.
    pub fn say_after(&self, what: &str, time: Duration) {
        println!("{what}: {self}; 0 differences; {} s", time.as_secs());
    }
}

impl<C: Counts> Default for Tally<C> {
    fn default() -> Tally<C> {
        Tally {
            numbers: vec![0; C::NAMES.len()],
            of: PhantomData,
        }
    }
}

impl<C: Counts> Index<C> for Tally<C> {
    type Output = u64;

    fn index(&self, count: C) -> &u64 {
        &self.numbers[count.place()]
    }
}

impl<C: Counts> IndexMut<C> for Tally<C> {
    fn index_mut(&mut self, count: C) -> &mut u64 {
        &mut self.numbers[count.place()]
    }
}

impl<C: Counts> AddAssign<&Tally<C>> for Tally<C> {
    fn add_assign(&mut self, other: &Tally<C>) {
        for (place, (number, other)) in self.numbers.iter_mut().zip(&other.numbers).enumerate() {
            *number = if place < C::SUMS {
                *number + other
            } else {
                *other.max(number)
            };
        }
    }
}

/// What was met, in the order of the counts.
impl<C: Counts> fmt::Display for Tally<C> {
    fn fmt(&self, f: &mut fmt::Formatter<'_>) -> fmt::Result {
        let met = self.numbers.iter().zip(C::NAMES);
        let met = met.filter(|(number, _)| **number > 0);
        let words: Vec<String> = met
            .map(|(number, name)| format!("{number} {name}"))
            .collect();
        f.write_str(&words.join(", "))
    }
}

/// A tally for each of several kinds.
pub struct Each<C, const N: usize>(pub [Tally<C>; N]);

impl<C: Counts, const N: usize> Each<C, N> {
    /// All kinds together.
    pub fn all(&self) -> Tally<C> {
        let mut all = Tally::default();
        self.0.iter().for_each(|tally| all += tally);
        all
    }
}

impl<C: Counts, const N: usize> Default for Each<C, N> {
    fn default() -> Each<C, N> {
        Each(std::array::from_fn(|_| Tally::default()))
    }
}

impl<C: Counts, const N: usize> AddAssign<&Each<C, N>> for Each<C, N> {
    fn add_assign(&mut self, other: &Each<C, N>) {
        for (tally, other) in self.0.iter_mut().zip(&other.0) {
            *tally += other;
        }
    }
}
