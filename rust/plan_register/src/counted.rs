//! What prune and count return.

/// A number and a count.
///
/// By prune the count is that of the values removed, summed over the cells:
///
/// | `number` | what prune means by it                                    |
/// |----------|-----------------------------------------------------------|
/// | 0        | done: the bounds are pruned                               |
/// | 1        | refused: the rows are not 1 to 8                          |
/// | 2        | refused: the columns are not 1 to 16                      |
/// | 3        | refused: top is not 0 to 15                               |
/// | 6        | refused: a slice has not exactly rows times columns bytes |
/// | 7        | refused: a bound is above top                             |
/// | 8        | refused: a low is above its high                          |
/// | 102      | no grid within the bounds has allperm; this is no refusal |
///
/// By count it is that of the entries within the bounds:
///
/// | `number` | what count means by it                                    |
/// |----------|-----------------------------------------------------------|
/// | 0        | done: the entries are counted                             |
/// | 5        | refused: the bytes are not laid out as a register         |
/// | 6        | refused: a slice has not exactly rows times columns bytes |
/// | 7        | refused: a bound is above top                             |
/// | 8        | refused: a low is above its high                          |
///
/// Of several refusals the first in the call's list is returned. With any number but 0 the
/// count is 0, and every slice is unchanged. Count writes nothing with any number.
#[repr(C)]
#[must_use]
#[derive(Clone, Copy, Debug, PartialEq, Eq)]
pub struct Counted {
    /// 0, or what kept the call from its work.
    pub number: u32,
    /// The count of values removed, or of entries.
    pub count: u32,
}
