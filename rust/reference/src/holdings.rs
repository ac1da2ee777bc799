//! What the eight clients hold of a class.

/// The number of clients.
pub const CLIENTS: u64 = 8;

/// The most that a client holds of a class.
pub const MOST: u64 = 999;

/// The eight holdings of a class, client 1's first.
#[derive(Clone, Copy, Debug, Default, PartialEq, Eq)]
pub struct Holdings(pub [u64; CLIENTS as usize]);

impl Holdings {
    /// One held by this client, and nothing by the others.
    pub fn one_of(client: u64) -> Holdings {
        Holdings::default().with_one_more(client)
    }

    /// What this client, 1 to 8, holds.
    pub fn of(self, client: u64) -> u64 {
        self.0[client as usize - 1]
    }

    /// This client holds one more.
    pub fn with_one_more(mut self, client: u64) -> Holdings {
        self.0[client as usize - 1] += 1;
        self
    }

    /// This client, who holds some, holds one less.
    pub fn with_one_less(mut self, client: u64) -> Holdings {
        self.0[client as usize - 1] -= 1;
        self
    }

    /// Nobody holds any.
    pub fn are_all_0(self) -> bool {
        self.0.iter().all(|&holding| holding == 0)
    }
}
