//! What entering a class into a `Register` comes to.

/// Was the class new? Either way the client holds one more of it. With its place: the line of its
/// entry, the first entry's being 1.
#[must_use]
#[derive(Clone, Copy, Debug, PartialEq, Eq)]
pub enum Entered {
    /// The class was new, and is now held.
    New { place: usize },
    /// Some client held the class already, number 101. The client's holding is written.
    Held { place: usize },
}

impl Entered {
    /// The line of the class's entry, the first entry's being 1.
    ///
    /// ```
    /// use plan_register::Entered;
    ///
    /// assert_eq!(Entered::New { place: 3 }.place(), 3);
    /// assert_eq!(Entered::Held { place: 3 }.place(), 3);
    /// ```
    #[must_use]
    pub fn place(self) -> usize {
        match self {
            Entered::New { place } | Entered::Held { place } => place,
        }
    }
}
