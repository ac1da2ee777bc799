//! Bounds that are pruned once and counted in several registers. On registers that only calls wrote
//! the count is that of the bounds as sent, and 0 where prune says 102. On others it may be less.

mod common;

use common::calls::{answer, check_count, contents_of, distinct_grids, made, opened};
use common::forms::form_for;
use common::met::Met;
use common::pruned::{entries, reached, Outcome, Pruned, REACHED};
use reference::bounds::{allperm, lies_in};
use reference::calls::Call;
use reference::examples::{cells, every_grid, shapes_up_to};
use reference::forms::{every_form, Form};
use reference::lists::Pool;
use reference::machine::Machine;
use reference::random::Random;

#[test]
fn every_form_of_tiny_shapes_on_several_registers() {
    let mut random = Random::new(241);
    let mut met = Met::default();
    for (m, n, top) in [
        (1, 1, 15),
        (1, 3, 2),
        (2, 1, 5),
        (2, 2, 2),
        (2, 3, 1),
        (3, 1, 3),
        (3, 2, 1),
        (6, 1, 1),
    ] {
        let grids = every_grid(m * n, top);
        let pool = Pool { m, n, top, grids };
        let registers = [(1, 0), (1, 1), (1, 3), (2, 3), (4, 12), (500, 1000)]
            .map(|(capacity, calls)| reached(&mut random, &pool, capacity, calls));
        for form in every_form(m * n, top) {
            let form = Pruned::once(m, n, top, form);
            for register in &registers {
                form.check_reached(register, &mut met);
            }
        }
    }
    met.check(&REACHED, 100);
}

#[test]
fn forms_of_every_shape_on_several_registers() {
    let mut random = Random::new(242);
    let mut met = Met::default();
    for (m, n) in shapes_up_to(128) {
        let top = random.between(0, 15) as u8;
        let pool = Pool::drawn(&mut random, m, n, top, 12);
        let registers = [1, 4, 16].map(|capacity| reached(&mut random, &pool, capacity, 30));
        let held = registers.iter().flat_map(|register| entries(register));
        let held: Vec<Vec<u8>> = held.chain([vec![0; m * n]]).collect();
        for _ in 0..16 {
            let form = form_for(&mut random, m, n, top, &held);
            let form = Pruned::once(m, n, top, form);
            for register in &registers {
                form.check_reached(register, &mut met);
            }
        }
    }
    met.check(&REACHED, 50);
}

/// Checks a list of so many calls, each followed by counts of a few forms that are pruned once.
fn check_list(
    random: &mut Random,
    pool: &Pool,
    capacity: usize,
    calls: usize,
    met: &mut Met<Outcome>,
) {
    let (m, n, top) = (pool.m, pool.n, pool.top);
    let forms: Vec<Pruned> = (0..4)
        .map(|_| Pruned::once(m, n, top, pool.form(random)))
        .collect();
    let mut register = opened(m, n, top, capacity);
    let mut machine = Machine::opened(m as u64, n as u64, top.into(), capacity as u64);
    for _ in 0..calls {
        let call = pool.call_of_either_set(random);
        let made = made(&mut register, &call);
        assert_eq!(made, call.on_machine(&mut machine), "{call:?}");
        assert_eq!(register, machine.bytes(), "{call:?}");
        for form in &forms {
            let count = form.check_reached(&register, met);
            let by_machine = machine.count(&form.sent.0, &form.sent.1);
            assert_eq!(by_machine, answer(0, count as u32));
        }
    }
}

#[test]
fn forms_pruned_before_a_list_and_counted_after_each_of_its_calls() {
    let mut random = Random::new(243);
    let mut met = Met::default();
    for _ in 0..200 {
        let (m, n) = (random.between(1, 5) as usize, random.between(1, 3) as usize);
        let (top, capacity) = (random.between(0, 3) as u8, random.between(1, 6) as usize);
        let pool = Pool::drawn(&mut random, m, n, top, capacity + 3);
        check_list(&mut random, &pool, capacity, 30, &mut met);
    }
    met.check(&REACHED, 100);
}

/// The numbers of a register that bounds are counted in which were pruned with other numbers.
struct Other {
    which: &'static str,
    m: usize,
    n: usize,
    top: u8,
}

/// Registers with another size, with another shape of the same size, or with another top.
fn others(m: usize, n: usize, top: u8) -> Vec<Other> {
    let other = |which, m, n, top| Other { which, m, n, top };
    let mut others = vec![
        other("another size", m % 8 + 1, n, top),
        other("another size", m, n % 16 + 1, top),
        other("another top", m, n, top - 1),
        other("another top", m, n, top + 1),
    ];
    for (rows, columns) in shapes_up_to(m * n) {
        if rows * columns == m * n && rows != m {
            let tops = [top - 1, top, top + 1];
            others.extend(tops.map(|top| other("another shape", rows, columns, top)));
        }
    }
    others
}

impl Other {
    /// A register with these numbers that only calls wrote.
    fn reached(&self, random: &mut Random) -> Vec<u8> {
        let pool = Pool::drawn(random, self.m, self.n, self.top, 8);
        reached(random, &pool, 6, 12)
    }

    /// The number that count must answer to these bounds.
    fn number(&self, (low, high): &Form) -> u32 {
        let above = |bound: &u8| *bound > self.top;
        match self.m * self.n == low.len() {
            false => 6,
            true if low.iter().chain(high).any(above) => 7,
            true => 0,
        }
    }
}

/// Bounds of so many rows and columns and this top, near entries of the register if these are such
/// grids.
fn form_near(random: &mut Random, m: usize, n: usize, top: u8, register: &[u8]) -> Form {
    let mut grids = entries(register);
    grids.retain(|grid| grid.len() == m * n && grid.iter().all(|&cell| cell <= top));
    grids.extend(Pool::drawn(random, m, n, top, 1).grids);
    form_for(random, m, n, top, &grids)
}

#[test]
fn forms_on_registers_of_other_shapes_and_tops() {
    let mut random = Random::new(244);
    let mut met = Met::default();
    for (m, n) in shapes_up_to(12) {
        for top in 1..=4 {
            for other in others(m, n, top) {
                let register = other.reached(&mut random);
                for _ in 0..30 {
                    let form = form_near(&mut random, m, n, top, &register);
                    let Pruned { sent, pruned } = Pruned::once(m, n, top, form);
                    let Some(pruned) = pruned else {
                        continue;
                    };
                    let [as_sent, answer] = [sent, pruned].map(|form| {
                        let answer = check_count(&register, &form);
                        assert_eq!(answer.number, other.number(&form));
                        answer
                    });
                    let found = match (answer.number, answer.place) {
                        (6, _) => "6",
                        (7, _) => "7",
                        (_, count) if count < as_sent.place => "fewer than as sent",
                        (_, 0) => "no entry",
                        _ => "entries",
                    };
                    met.note((other.which, found));
                }
            }
        }
    }
    let kinds = [
        ("another shape", "7"),
        ("another shape", "entries"),
        ("another shape", "fewer than as sent"),
        ("another shape", "no entry"),
        ("another size", "6"),
        ("another top", "7"),
        ("another top", "entries"),
        ("another top", "no entry"),
    ];
    met.check(&kinds, 20);
}

#[test]
fn bounds_pruned_with_other_rows_and_columns_may_lose_an_entry() {
    // 01/20/20 is least in its class. Read as 012/020 it has no allperm.
    let mut register = opened(3, 2, 2, 1);
    let entered = made(&mut register, &Call::Enter(5, cells("01/20/20")));
    assert_eq!(entered, answer(0, 1));
    assert_eq!(entries(&register), [cells("01/20/20")]);
    let sent = (cells("012/000"), cells("012/022"));
    let own = Pruned::once(3, 2, 2, sent.clone());
    assert_eq!(own.counts(&register), (1, Some(1)));
    let other = Pruned::once(2, 3, 2, sent);
    assert_eq!(other.pruned, Some((cells("012/011"), cells("012/022"))));
    assert_eq!(other.counts(&register), (1, Some(0)));
}

#[test]
fn forms_on_registers_with_any_entries() {
    let mut random = Random::new(245);
    let mut met = Met::default();
    for _ in 0..600 {
        let (m, n) = (random.between(2, 4) as usize, random.between(1, 4) as usize);
        let top = random.between(1, 3) as u8;
        let entries = distinct_grids(&mut random, m * n, top, 4);
        let register = contents_of(m, n, top, 6, &entries).bytes();
        for _ in 0..8 {
            let form = form_for(&mut random, m, n, top, &entries);
            let form = Pruned::once(m, n, top, form);
            let (sent, pruned) = form.counts(&register);
            let (low, high) = &form.sent;
            let has = |entry: &&Vec<u8>| lies_in(low, high, entry) && allperm(m, n, entry);
            let with_allperm = entries.iter().filter(has).count() as u64;
            let counted = pruned.unwrap_or(0);
            assert!((with_allperm..=sent).contains(&counted), "{:?}", form.sent);
            let found = match pruned {
                None if sent > 0 => "entries",
                None => "no entry",
                Some(count) if count < sent => "fewer than as sent",
                Some(_) => "one number",
            };
            met.note((form.removed(), found));
        }
    }
    let kinds = [
        ("no grid", "entries"),
        ("no grid", "no entry"),
        ("nothing", "one number"),
        ("values", "fewer than as sent"),
        ("values", "one number"),
    ];
    met.check(&kinds, 100);
}

/// Spoils the register or the bounds, or neither.
fn spoil(random: &mut Random, top: u8, register: &mut [u8], (low, high): &mut Form) {
    let k = random.below(low.len() as u64) as usize;
    match random.below(7) {
        0 => register[random.below(31) as usize] = b'#',
        1 => _ = low.pop(),
        2 => high.push(0),
        3 => low[k] = top + 1,
        4 => high[k] = 255,
        5 => std::mem::swap(low, high),
        _ => {}
    }
}

#[test]
fn no_count_changes_a_byte_of_the_register_or_the_bounds() {
    // Looked at by check_count, also where the count is refused.
    let mut random = Random::new(246);
    let mut met = Met::default();
    for (m, n) in shapes_up_to(128) {
        let top = random.between(1, 15) as u8;
        let pool = Pool::drawn(&mut random, m, n, top, 6);
        let register = reached(&mut random, &pool, 5, 12);
        for _ in 0..12 {
            let form = form_for(&mut random, m, n, top, &pool.grids);
            let Pruned { sent, pruned } = Pruned::once(m, n, top, form);
            for mut form in [Some(sent), pruned].into_iter().flatten() {
                let mut register = register.clone();
                spoil(&mut random, top, &mut register, &mut form);
                met.note(check_count(&register, &form).number);
            }
        }
    }
    met.check(&[0, 5, 6, 7, 8], 101);
}
