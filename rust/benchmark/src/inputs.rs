//! What the timing needs of the inputs of a call.

/// Cases that are timed together: a line of the table.
pub trait Input {
    /// The call, as each implementation answers it.
    type Call: Copy;

    /// The line's name, which begins with the call's.
    fn name(&self) -> &str;

    /// How many calls a pass makes.
    fn calls(&self) -> u32;

    /// Panics unless all implementations give the same answer on each case.
    fn check_equal_outputs(&self, calls: &[Self::Call]);

    /// Makes the call on each case, once.
    fn pass(&self, call: Self::Call);
}

/// Panics unless the outputs on a case of this name are equal.
pub fn check_equal<Output: PartialEq>(name: &str, mut outputs: impl Iterator<Item = Output>) {
    let first = outputs.next();
    assert!(outputs.all(|output| Some(output) == first), "{name}");
}
