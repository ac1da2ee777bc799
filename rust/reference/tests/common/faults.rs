//! Calls that fail any set of questions.

use reference::register::Answer;

/// Every set of the questions, and the number that a call answers that fails these: the
/// first of them, or 0.
pub fn sets_of(questions: &[u32]) -> Vec<(Vec<u32>, u32)> {
    let set = |bits: u32| -> Vec<u32> {
        let chosen = |k: &usize| bits >> k & 1 == 1;
        (0..questions.len())
            .filter(chosen)
            .map(|k| questions[k])
            .collect()
    };
    (0..1 << questions.len())
        .map(set)
        .map(|failed| (failed.clone(), failed.first().copied().unwrap_or(0)))
        .collect()
}

/// Numbers that pass questions 1 to 4 and 14, those of `failed` excepted.
pub fn numbers(failed: &[u32]) -> (u64, u64, u64, u64) {
    let pick = |number: u32, bad: u64, good: u64| match failed.contains(&number) {
        true => bad,
        false => good,
    };
    (
        pick(1, 9, pick(14, 7, 2)),
        pick(2, 17, 3),
        pick(3, 16, 3),
        pick(4, 501, 2),
    )
}

/// Cells 1 of the length m * n; one too many where 6 is to fail, one above top where 7 is.
pub fn slice(failed: &[u32], m: u64, n: u64, top: u64) -> Vec<u8> {
    let extra = usize::from(failed.contains(&6));
    let mut slice = vec![1; (m * n) as usize + extra];
    if failed.contains(&7) {
        slice[1] = top as u8 + 1;
    }
    slice
}

/// Client 2, or one that is no client where 15 is to fail.
pub fn client(failed: &[u32]) -> u64 {
    match failed.contains(&15) {
        true => 9,
        false => 2,
    }
}

/// Client 2's holding of a class: 999 where 16 is to fail, none where 10 is.
pub fn holding(failed: &[u32]) -> u64 {
    match (failed.contains(&16), failed.contains(&10)) {
        (true, _) => 999,
        (_, true) => 0,
        _ => 5,
    }
}

/// Those of the sets that a call can fail: no rows fail both 1 and 14, and a class that fails 9 is
/// held by nobody, so that it cannot fail 16.
pub fn possible(sets: Vec<(Vec<u32>, u32)>) -> Vec<(Vec<u32>, u32)> {
    let both = |failed: &[u32], two: [u32; 2]| two.iter().all(|number| failed.contains(number));
    let can_fail = |failed: &[u32]| !both(failed, [1, 14]) && !both(failed, [9, 16]);
    let sets = sets.into_iter();
    sets.filter(|(failed, _)| can_fail(failed)).collect()
}

/// The answer of a call that is refused by this number, or of an open.
pub fn refusal(number: u32) -> Answer {
    Answer { number, place: 0 }
}
