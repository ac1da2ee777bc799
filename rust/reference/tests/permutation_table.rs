//! The table that the verified program `permutation_table` prints, made by the reference.

use reference::permutation::{
    ColumnPermutation, Permutation, RowPermutation, TerminalRowPermutation,
};

fn line<const LIMIT: usize>(label: &str, p: Permutation<LIMIT>) -> String {
    let numbers: Vec<String> = p.at.iter().map(u8::to_string).collect();
    format!("{label:<24} {}\n", numbers.join(" "))
}

fn listed<const LIMIT: usize>(numbers: &[u8], size: usize) -> Permutation<LIMIT> {
    let mut p = Permutation::listed(numbers);
    p.size = size;
    p
}

#[test]
fn the_program_prints_what_the_reference_makes() {
    let p: RowPermutation = listed(&[1, 0], 2);
    let q: ColumnPermutation = listed(&[2, 0, 1], 3);
    let r: ColumnPermutation = listed(&[1, 0, 2], 3);
    let t: TerminalRowPermutation = listed(&[2, 0, 1], 3);
    let table = [
        line("P", p),
        line("P inverse", p.inverse()),
        line("P followed by P", p.composed(p)),
        line("a row twice, inverse", listed::<8>(&[1, 1], 2).inverse()),
        line(
            "a row too large, inverse",
            listed::<8>(&[2, 0], 2).inverse(),
        ),
        line("sizes that differ", p.composed(listed(&[1, 0], 3))),
        line("Q", q),
        line("Q inverse", q.inverse()),
        line("Q followed by Q", q.composed(q)),
        line("Q followed by Q inverse", q.composed(q.inverse())),
        line("Q, then 1 0 2", q.composed(r)),
        line("1 0 2, then Q", r.composed(q)),
        line("size 17", listed::<16>(&[2, 0, 1], 17).inverse()),
        line("T, at a terminal", t),
        line("T inverse", t.inverse()),
        line("T followed by T", t.composed(t)),
        line("T followed by T inverse", t.composed(t.inverse())),
        line("T, then 1 0 2", t.composed(listed(&[1, 0, 2], 3))),
        line("sizes that differ", t.composed(listed(&[2, 0, 1], 4))),
        line(
            "a row too large, inverse",
            listed::<5>(&[3, 0, 1], 3).inverse(),
        ),
        line("size 5, inverse", listed::<5>(&[2, 0, 1], 5).inverse()),
        line("size 6", listed::<5>(&[2, 0, 1], 6).inverse()),
        line("starting", TerminalRowPermutation::identity(5)),
    ];
    let printed = include_str!("../../../crates/permutation_table/stdout");
    assert_eq!(table.concat(), printed);
}
