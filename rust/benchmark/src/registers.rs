//! The registers on which the calls are timed: 8 x 16, capacity 500, 499 entries, each held by
//! several clients.

use plan_register::numbers::DONE;
use plan_register::represent;
use reference::grid::compare;
use reference::holdings::Holdings;
use reference::layout::{Contents, Entry};
use reference::random::Random;
use std::collections::BTreeSet;

pub const M: usize = 8;
pub const N: usize = 16;
const CAPACITY: usize = 500;

/// The client whose calls are timed.
pub const CLIENT: u64 = 3;

/// What the clients hold of each entry.
const HELD: Holdings = Holdings([0, 12, 1, 0, 999, 0, 0, 3]);

/// Entries for a register.
pub struct Entries {
    pub name: String,
    pub top: u8,
    /// One fewer than the capacity, ascending.
    listed: Vec<Vec<u8>>,
    /// The place among them of one that is a representative. The others need not be.
    pub place: u32,
    /// A representative that comes before all of them. Only the client holds one.
    pub first: Vec<u8>,
}

/// All registers, the same in every run.
pub fn inputs() -> Vec<Entries> {
    vec![
        Entries::random(1, 15),
        Entries::random(2, 1),
        Entries::alike(3, 15),
        Entries::alike(4, 1),
    ]
}

impl Entries {
    /// Representatives of random grids.
    fn random(seed: u64, top: u8) -> Entries {
        let mut listed = representatives(&mut Random::new(seed), top, CAPACITY);
        let first = listed.remove(0);
        Entries {
            name: format!("random entries, top {top}"),
            top,
            place: listed.len() as u32 / 2,
            listed,
            first,
        }
    }

    /// A representative and grids that differ from it in their last nine cells alone.
    fn alike(seed: u64, top: u8) -> Entries {
        let mut random = Random::new(seed);
        let mut two = representatives(&mut random, top, 2);
        let (held, first) = (two.remove(1), two.remove(0));
        let common = &held[..held.len() - 9];
        let mut listed = BTreeSet::from([held.clone()]);
        while listed.len() < CAPACITY - 1 {
            listed.insert([common, &random.cells(9, top)].concat());
        }
        let listed = sorted(listed);
        let before = |entry: &&Vec<u8>| compare(entry, &held).is_lt();
        Entries {
            name: format!("alike but for their last cells, top {top}"),
            top,
            place: 1 + listed.iter().filter(before).count() as u32,
            listed,
            first,
        }
    }

    /// The entry at `place`.
    pub fn held(&self) -> &[u8] {
        &self.listed[self.place as usize - 1]
    }

    /// How many are listed.
    pub fn count(&self) -> u32 {
        self.listed.len() as u32
    }

    /// The register with all but `first`.
    pub fn without_first(&self) -> Vec<u8> {
        self.register(self.entries())
    }

    /// The register with `first`, and without the last.
    pub fn with_first(&self) -> Vec<u8> {
        let mut entries = self.entries();
        entries.pop();
        let first = Entry {
            grid: self.first.clone(),
            holdings: Holdings::one_of(CLIENT),
        };
        entries.insert(0, first);
        self.register(entries)
    }

    fn entries(&self) -> Vec<Entry> {
        let entry = |grid: &Vec<u8>| Entry {
            grid: grid.clone(),
            holdings: HELD,
        };
        self.listed.iter().map(entry).collect()
    }

    fn register(&self, entries: Vec<Entry>) -> Vec<u8> {
        let contents = Contents {
            rows: M as u64,
            columns: N as u64,
            top: self.top.into(),
            capacity: CAPACITY as u64,
            entries,
        };
        contents.bytes()
    }
}

/// So many representatives of random grids, ascending.
fn representatives(random: &mut Random, top: u8, count: usize) -> Vec<Vec<u8>> {
    let mut found = BTreeSet::new();
    while found.len() < count {
        let mut out = vec![0; M * N];
        let grid = random.cells(M * N, top);
        assert_eq!(represent(M, N, top.into(), &grid, &mut out).number, DONE);
        found.insert(out);
    }
    sorted(found)
}

fn sorted(grids: BTreeSet<Vec<u8>>) -> Vec<Vec<u8>> {
    let mut grids: Vec<Vec<u8>> = grids.into_iter().collect();
    grids.sort_by(|a, b| compare(a, b));
    grids
}
