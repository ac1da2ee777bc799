//! The registers that open is timed on.

use crate::call::Open;
use crate::inputs::{check_equal, Input};
use plan_register::numbers::DONE;
use reference::layout::register_length;
use std::cell::RefCell;
use std::hint::black_box;

/// A register to be opened.
pub struct Opening {
    name: String,
    m: usize,
    n: usize,
    capacity: usize,
    bytes: RefCell<Vec<u8>>,
}

const TOP: usize = 15;

/// All inputs, the same in every run.
pub fn inputs() -> Vec<Opening> {
    vec![Opening::new(8, 16, 500), Opening::new(2, 3, 500)]
}

impl Opening {
    fn new(m: usize, n: usize, capacity: usize) -> Opening {
        let length = register_length(m as u64, n as u64, capacity as u64);
        Opening {
            name: format!("open: {m}x{n}, capacity {capacity}"),
            m,
            n,
            capacity,
            bytes: RefCell::new(vec![0; length as usize]),
        }
    }

    /// Opens the register, and sees to it that the call is made.
    fn open(&self, open: Open, bytes: &mut [u8]) -> u32 {
        let (m, n, top, capacity) = black_box((self.m, self.n, TOP, self.capacity));
        black_box(open(m, n, top, capacity, black_box(bytes))).number
    }
}

impl Input for Opening {
    type Call = Open;

    fn name(&self) -> &str {
        &self.name
    }

    fn calls(&self) -> u32 {
        1
    }

    /// The answer is number 0 and a register.
    fn check_equal_outputs(&self, calls: &[Open]) {
        let outputs = calls.iter().map(|&open| {
            let mut bytes = vec![0; self.bytes.borrow().len()];
            assert_eq!(self.open(open, &mut bytes), DONE, "{}", self.name);
            bytes
        });
        check_equal(&self.name, outputs);
    }

    fn pass(&self, open: Open) {
        self.open(open, &mut self.bytes.borrow_mut());
    }
}
