//! What was answered, summed up and compared with the register.

use super::orders::Order;
use plan_register::Register;
use std::collections::BTreeMap;

#[derive(Default)]
pub struct Tally {
    /// What each client is to hold of each class.
    held: BTreeMap<(Vec<u8>, usize), i32>,
    /// How often each class was charged.
    charged: BTreeMap<Vec<u8>, usize>,
    /// Orders that a killed program may have settled without an answer, by client and class.
    open: BTreeMap<(Vec<u8>, usize), i32>,
}

impl Tally {
    /// Takes the answers to these orders in, one each, from the first on.
    pub fn take(&mut self, orders: &[Order], answers: &[String]) {
        assert!(answers.len() <= orders.len());
        for (line, (order, answer)) in (1..).zip(orders.iter().zip(answers)) {
            let head = format!("line {line}: {:?} ", order.plan);
            let answer = answer.strip_prefix(&head).expect("the order's line");
            self.take_one(order, answer);
        }
    }

    fn take_one(&mut self, order: &Order, answer: &str) {
        let change = match answer.split(' ').next() {
            Some("charged") => {
                *self.charged.entry(order.class()).or_default() += 1;
                1
            }
            Some("withdrawn") => -1,
            _ if answer.starts_with("not charged") => 1,
            _ => 0,
        };
        let held = self.held.entry((order.class(), order.client));
        *held.or_default() += change;
    }

    /// An order that was sent, and not answered before its program was killed.
    pub fn leave_open(&mut self, order: &Order) {
        let open = self.open.entry((order.class(), order.client));
        *open.or_default() += 1;
    }

    /// Checks that each client holds what was answered, and no more than what is open.
    pub fn check_holdings(&self, register: &Register) {
        let mut held = self.held.clone();
        held.retain(|_, count| *count != 0);
        for entry in register.entries() {
            for (client, holding) in (1..).zip(entry.holdings) {
                let key = (entry.grid.clone(), client);
                let answered = held.remove(&key).unwrap_or(0);
                let most = answered + self.open.get(&key).unwrap_or(&0);
                let holding = i32::from(holding);
                assert!(
                    (answered..=most).contains(&holding),
                    "{key:?} is held {holding} times: answered {answered}, at most {most}"
                );
            }
        }
        assert!(held.is_empty(), "answered and not held: {held:?}");
    }

    /// Checks that each class in the register was charged once. Where an order of it is open, that
    /// one may have been the first.
    pub fn check_charges(&self, register: &Register) {
        for entry in register.entries() {
            let charged = self.charged.get(&entry.grid).copied().unwrap_or(0);
            let is_open = self.open.keys().any(|(class, _)| *class == entry.grid);
            let least = usize::from(!is_open);
            assert!(
                (least..=1).contains(&charged),
                "{:?} charged {charged} times",
                entry.grid
            );
        }
        assert!(self.charged.len() <= register.count());
    }
}
