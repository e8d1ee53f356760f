//! Numerical semigroups, counted by genus.
//!
//! The children of a semigroup take out one minimal generator above the Frobenius number. A child keeps the greater
//! generators of its parent, and of the other numbers only the one taken out plus the multiplicity can become a
//! generator (Bras-Amorós and Fernández-González, The right-generators descendant of a numerical semigroup, 2020).
//! The semigroups of the last genus are counted by the generators of their parents, which are counted by those of theirs
//! with one test a semigroup; none of the last two levels is made.

use crate::report::Totals;
use std::fmt::Write;

const MOST_GENUS: usize = 40;

/// The number of semigroups of each genus up to the given one, and the report.
pub fn count(genus: u64) -> Result<String, String> {
    if genus > MOST_GENUS as u64 {
        return Err(format!("{genus} is past {MOST_GENUS}"));
    }
    let counts = counts(genus as usize);
    let mut answer = String::new();
    for (genus, count) in counts.iter().enumerate() {
        let _ = writeln!(answer, "{genus} {count}");
    }
    let totals = Totals {
        visited: counts.iter().sum(),
        cut: 0,
    };
    Ok(totals.report(&answer))
}

/// The number of semigroups of each genus up to the given one.
fn counts(genus: usize) -> Vec<u64> {
    let mut search = Search {
        last: genus,
        counts: [0; MOST_GENUS + 1],
    };
    search.ordinary();
    search.counts[..=genus].to_vec()
}

/// A semigroup. All numbers that count are below 128.
#[derive(Clone, Copy)]
struct Semigroup {
    /// Bit x is set where x, from 1 on, is a member.
    members: u128,
    /// Bit 127 - x is set where x, from 1 on, is a member.
    mirror: u128,
}

impl Semigroup {
    #[inline(always)]
    fn without(self, generator: u32) -> Semigroup {
        Semigroup {
            members: self.members & !(1 << generator),
            mirror: self.mirror & !(1 << (127 - generator)),
        }
    }

    /// Whether a number from 1 on is no sum of two members from 1 on.
    #[inline(always)]
    fn is_no_sum(self, number: u32) -> bool {
        self.members & (self.mirror >> (127 - number)) == 0
    }
}

struct Search {
    last: usize,
    counts: [u64; MOST_GENUS + 1],
}

impl Search {
    /// Counts from the ordinary semigroups, which have all numbers from their multiplicity on; those below twice the
    /// multiplicity are their generators. Taking out the least gives the next ordinary one. The others keep the multiplicity.
    fn ordinary(&mut self) {
        self.counts[0] = 1;
        let mut semigroup = Semigroup {
            members: !1,
            mirror: u128::MAX >> 1,
        };
        for genus in 0..self.last {
            let multiplicity = genus as u32 + 1;
            self.counts[genus + 1] += 1;
            let others = ((1 << multiplicity) - 2) << multiplicity;
            self.children(genus, semigroup, multiplicity, others, genus as u64);
            semigroup = semigroup.without(multiplicity);
        }
    }

    /// Counts what is below a semigroup of a genus less than the last, given the generators that are taken out of it and
    /// how many they are. None of them is the multiplicity.
    fn children(
        &mut self,
        genus: usize,
        parent: Semigroup,
        multiplicity: u32,
        generators: u128,
        number: u64,
    ) {
        self.counts[genus + 1] += number;
        if genus + 2 >= self.last {
            if genus + 2 == self.last {
                let kept = number * number.saturating_sub(1) / 2;
                self.counts[genus + 2] += kept + gained(parent, multiplicity, generators);
            }
            return;
        }
        let mut left = generators;
        let mut kept = number;
        while left != 0 {
            let generator = left.trailing_zeros();
            left &= left - 1;
            kept -= 1;
            let child = parent.without(generator);
            let candidate = generator + multiplicity;
            let gained = child.is_no_sum(candidate);
            let number = kept + u64::from(gained);
            if number > 0 {
                let generators = left | u128::from(gained) << candidate;
                self.children(genus + 1, child, multiplicity, generators, number);
            }
        }
    }
}

/// How many generators the children of a semigroup have that it has not.
fn gained(parent: Semigroup, multiplicity: u32, generators: u128) -> u64 {
    let mut gained = 0;
    let mut left = generators;
    while left != 0 {
        let generator = left.trailing_zeros();
        left &= left - 1;
        gained += u64::from(
            parent
                .without(generator)
                .is_no_sum(generator + multiplicity),
        );
    }
    gained
}
