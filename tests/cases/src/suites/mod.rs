//! The suites.

mod addresses;
mod bench_bits;
mod bench_lengths;
mod bench_pairs;
mod both;
mod indexes;
mod interrupts;
mod register_bounds;
mod rights;
mod self_referring;
mod table_bounds;
mod walks;
mod windows;

use crate::world::World;

/// Worlds of one kind, by number.
#[derive(Clone, Copy)]
pub struct Suite {
    /// Its name.
    pub name: &'static str,
    /// How many worlds it has.
    pub worlds: u64,
    /// Builds the world of a number below that.
    pub build: fn(u64, &mut World),
}

/// All of them.
pub const SUITES: &[Suite] = &[
    bench_bits::SUITE,
    bench_pairs::SUITE,
    bench_lengths::SUITE,
    register_bounds::SUITE,
    table_bounds::SUITE,
    addresses::SUITE,
    rights::SUITE,
    walks::SUITE,
    self_referring::SUITE,
    interrupts::SUITE,
    indexes::SUITE,
    both::SUITE,
    windows::SUITE,
];

/// Digits of a number in mixed bases, the lowest first: a number of a suite as a point of a grid.
struct Digits(u64);

impl Digits {
    /// The next digit, below a base.
    fn below(&mut self, base: u64) -> u64 {
        let digit = self.0 % base;
        self.0 /= base;
        digit
    }

    /// The next digit as one of some values.
    fn pick<T: Copy>(&mut self, from: &[T]) -> T {
        from[self.below(from.len() as u64) as usize]
    }

    /// The next digit as a flag.
    fn flag(&mut self) -> bool {
        self.below(2) == 1
    }
}
