//! Orders drawn at random, and what the program answers them.

use plan_register::{Client, Entered, Register};
use reference::grid::least;
use reference::random::Random;
use std::collections::BTreeSet;

/// An order of a plan of 2 by 3 with cells of 0 to 3.
#[derive(Clone, Debug)]
pub struct Order {
    pub enters: bool,
    pub client: usize,
    pub plan: Vec<u8>,
}

/// This many classes, each by its least arrangement.
pub fn classes(random: &mut Random, count: usize) -> Vec<Vec<u8>> {
    let mut classes = BTreeSet::new();
    while classes.len() < count {
        classes.insert(least(2, 3, &random.cells(6, 3)));
    }
    classes.into_iter().collect()
}

/// Orders to enter some arrangement of one of these classes for one of these clients.
pub fn enters(
    random: &mut Random,
    classes: &[Vec<u8>],
    clients: [u64; 2],
    count: usize,
) -> Vec<Order> {
    let mut enter = || {
        let class = &classes[random.below(classes.len() as u64) as usize];
        Order {
            enters: true,
            client: random.between(clients[0], clients[1]) as usize,
            plan: random.shuffled(2, 3, class),
        }
    };
    (0..count).map(|_| enter()).collect()
}

/// As [`enters`], but about one in three is a withdrawal.
pub fn mixed(
    random: &mut Random,
    classes: &[Vec<u8>],
    clients: [u64; 2],
    count: usize,
) -> Vec<Order> {
    let mut orders = enters(random, classes, clients, count);
    for order in &mut orders {
        order.enters = !random.once_in(3);
    }
    orders
}

impl Order {
    pub fn class(&self) -> Vec<u8> {
        least(2, 3, &self.plan)
    }

    pub fn line(&self) -> String {
        let call = if self.enters { "enter" } else { "strike" };
        let cells: Vec<String> = self.plan.iter().map(u8::to_string).collect();
        format!("{call} {} {}\n", self.client, cells.join(" "))
    }

    /// Makes the call on this register. Returns what the program answers to the line.
    pub fn settled(&self, line: usize, register: &mut Register) -> String {
        let (number, plan) = (self.client, &self.plan);
        let client = Client::numbered(number).expect("a client");
        let answer = if self.enters {
            match register.enter(client, plan) {
                Ok(Entered::New { place }) => {
                    format!("charged to client {number}, at place {place}")
                }
                Ok(Entered::Held { place }) => {
                    format!("not charged to client {number}, held at place {place}")
                }
                Err(refusal) => format!("refused: {refusal}"),
            }
        } else {
            match register.strike(client, plan) {
                Ok(place) => format!("withdrawn by client {number} from place {place}"),
                Err(refusal) => format!("not withdrawn by client {number}: {refusal}"),
            }
        };
        format!("line {line}: {plan:?} {answer}")
    }
}

pub fn lines(orders: &[Order]) -> String {
    orders.iter().map(Order::line).collect()
}
