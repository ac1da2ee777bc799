//! The implementations of prune that the library is compared with do what it does.

use benchmark::bounds::inputs;
use benchmark::call::Prune;
use benchmark::implementations::PRUNE;
use benchmark::inputs::Input;
use benchmark::{same_pruning, value_by_value};
use reference::examples::shapes_up_to;
use reference::forms::{
    around, close, drawn, every_form, grid_with_allperm, wide, without_allperm, Form,
};
use reference::random::Random;

const WRITTEN_HERE: [Prune; 2] = [same_pruning::prune, value_by_value::prune];

/// Checks each on this form, against the reference.
fn check(m: usize, n: usize, top: usize, (low, high): &Form) {
    let (mut expected_low, mut expected_high) = (low.clone(), high.clone());
    let expected = reference::bounds::prune(
        m as u64,
        n as u64,
        top as u64,
        &mut expected_low,
        &mut expected_high,
    );
    for prune in WRITTEN_HERE {
        let (mut new_low, mut new_high) = (low.clone(), high.clone());
        let found = prune(m, n, top, &mut new_low, &mut new_high);
        assert_eq!(found.number, expected.number, "{m}x{n}: {low:?} {high:?}");
        assert_eq!(u64::from(found.count), expected.count);
        assert_eq!((&new_low, &new_high), (&expected_low, &expected_high));
    }
}

#[test]
fn every_form_of_tiny_shapes() {
    for (m, n, top) in [
        (1, 3, 2),
        (2, 1, 15),
        (4, 1, 2),
        (2, 2, 3),
        (4, 2, 1),
        (2, 4, 1),
    ] {
        for form in every_form(m * n, top) {
            check(m, n, top.into(), &form);
        }
    }
}

#[test]
fn random_forms_of_every_shape() {
    let mut random = Random::new(71);
    for (m, n) in shapes_up_to(128) {
        for top in [1, 3, 15] {
            let grid = grid_with_allperm(&mut random, m, n, top);
            let mut forms = vec![
                drawn(&mut random, m * n, top),
                wide(&mut random, m * n, top),
                around(&mut random, top, &grid),
                (grid.clone(), grid),
            ];
            forms.extend((0..4).map(|_| close(&mut random, m, n, top)));
            if m > 1 {
                forms.push(without_allperm(&mut random, m, n, top));
            }
            for form in forms {
                check(m, n, top.into(), &form);
            }
        }
    }
}

#[test]
fn refusals() {
    for (m, n, top, low, high) in [
        (0, 0, 16, vec![], vec![]),
        (9, 17, 16, vec![9], vec![]),
        (8, 0, 16, vec![9], vec![]),
        (8, 17, 16, vec![9; 136], vec![8; 136]),
        (2, 3, 16, vec![99; 6], vec![98; 6]),
        (2, 3, 15, vec![99; 5], vec![98; 6]),
        (2, 3, 15, vec![99; 6], vec![98; 7]),
        (2, 3, 15, vec![16; 6], vec![15; 6]),
        (2, 3, 15, vec![15; 6], vec![16; 6]),
        (2, 3, 15, vec![15; 6], vec![14; 6]),
        (2, 3, 15, vec![15; 6], vec![15; 6]),
    ] {
        check(m, n, top, &(low, high));
    }
}

#[test]
fn the_inputs_have_equal_outputs() {
    let inputs = inputs();
    assert_eq!(inputs.len(), 6);
    for input in inputs {
        input.check_equal_outputs(&PRUNE.calls());
    }
}
