// SPDX-License-Identifier: MIT
//! Which causes were seen, and in which company.

use comparison::number::DONE;
use comparison::{compare, Call};
use std::collections::BTreeSet;

/// The causes of one call that were seen alone, and the pairs seen together.
pub struct Seen {
    order: &'static [u32],
    alone: BTreeSet<u32>,
    pairs: BTreeSet<(u32, u32)>,
}

impl Seen {
    /// For a call that tries its causes in this order.
    pub fn new(order: &'static [u32]) -> Self {
        Seen {
            order,
            alone: BTreeSet::new(),
            pairs: BTreeSet::new(),
        }
    }

    /// Makes a call for which exactly those causes hold that are given with
    /// `true`, and checks its answer.
    #[track_caller]
    pub fn check<const N: usize>(&mut self, store: &[u8], call: Call, causes: [(u32, bool); N]) {
        let holds = |cause: &u32| causes.contains(&(*cause, true));
        let holding: Vec<u32> = self.order.iter().copied().filter(holds).collect();
        let first = holding.first().copied().unwrap_or(DONE);
        let number = compare(store, call).number;
        assert_eq!(number, first, "{call}: {holding:?} hold");
        if let [only] = holding[..] {
            self.alone.insert(only);
        }
        self.pairs.extend(pairs(&holding));
    }

    /// Checks that each cause was seen alone, and each pair of causes except
    /// those that exclude each other.
    #[track_caller]
    pub fn finish(self, exclusive: &[(u32, u32)]) {
        assert_eq!(self.alone, self.order.iter().copied().collect());
        let mut possible: BTreeSet<_> = pairs(self.order).collect();
        for pair in exclusive {
            assert!(possible.remove(pair), "{pair:?} is no pair of the order");
        }
        assert_eq!(self.pairs, possible);
    }
}

/// Every pair of causes, in their order.
fn pairs(causes: &[u32]) -> impl Iterator<Item = (u32, u32)> + '_ {
    causes.iter().enumerate().flat_map(|(at, &first)| {
        let behind = &causes[at + 1..];
        behind.iter().map(move |&second| (first, second))
    })
}
