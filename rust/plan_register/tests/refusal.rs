//! `Refusal`, the numbers of refusals as errors.

use plan_register::{Client, Refusal, Register};
use std::collections::BTreeSet;
use std::error::Error;

#[test]
fn the_numbers_are_1_to_10_and_14_to_16() {
    let numbers = Refusal::ALL.map(Refusal::number);
    assert_eq!(numbers, [1, 2, 3, 4, 5, 6, 7, 8, 9, 10, 14, 15, 16]);
}

#[test]
fn a_number_names_one_refusal_or_none() {
    for number in (0..1000).chain([u32::MAX]) {
        let named = Refusal::numbered(number);
        let is_refusal = (1..=10).contains(&number) || (14..=16).contains(&number);
        assert_eq!(named.is_some(), is_refusal);
        assert!(named.is_none_or(|refusal| refusal.number() == number));
    }
}

#[test]
fn the_words_say_what_was_asked() {
    let words = Refusal::ALL.map(|refusal| refusal.to_string());
    let expected = [
        "the rows are not 1 to 8 (number 1)",
        "the columns are not 1 to 16 (number 2)",
        "top is not 0 to 15 (number 3)",
        "the capacity is not 1 to 500 (number 4)",
        "the bytes are not laid out as a register (number 5)",
        "a slice has not its exact length (number 6)",
        "a cell or a bound is above top (number 7)",
        "a low is above its high (number 8)",
        "nobody holds the class, and the register is full (number 9)",
        "this client holds none of the class (number 10)",
        "a terminal's rows are 6 to 8 (number 14)",
        "the client is not 1 to 8 (number 15)",
        "this client's holding of the class is 999 already (number 16)",
    ];
    assert_eq!(words, expected);
}

#[test]
fn a_refusal_is_an_error() {
    fn opened(rows: usize) -> Result<Register, Box<dyn Error>> {
        Ok(Register::open(rows, 16, 15, 500)?)
    }
    assert!(opened(8).is_ok());
    let error = opened(9).unwrap_err();
    assert_eq!(error.to_string(), "the rows are not 1 to 8 (number 1)");
    assert_eq!(error.downcast_ref(), Some(&Refusal::Rows));
}

#[test]
fn every_refusal_is_met() {
    let open = |m, n, top, capacity| Register::open(m, n, top, capacity).unwrap_err();
    let mut register = Register::open(1, 2, 3, 1).unwrap();
    let [client, ..] = Client::ALL;
    for _ in 0..999 {
        assert!(register.enter(client, &[0, 0]).is_ok());
    }
    let mut large = Register::open(6, 1, 3, 1).unwrap();
    let refusals = [
        open(0, 1, 1, 1),
        open(1, 0, 1, 1),
        open(1, 1, 16, 1),
        open(1, 1, 1, 0),
        Register::from_bytes(vec![]).unwrap_err(),
        register.enter(client, &[0]).unwrap_err(),
        register.strike(client, &[0, 4]).unwrap_err(),
        register.count_within(&[0, 1], &[0, 0]).unwrap_err(),
        register.enter(client, &[0, 1]).unwrap_err(),
        register.strike(client, &[0, 1]).unwrap_err(),
        large.terminal_enter(client, &[0; 6]).unwrap_err(),
        Client::numbered(9).unwrap_err(),
        register.enter(client, &[0, 0]).unwrap_err(),
    ];
    assert_eq!(refusals, Refusal::ALL);
    assert_eq!(BTreeSet::from(refusals).len(), 13);
}
