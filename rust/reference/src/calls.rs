//! The calls of a list, as values.

use crate::forms::Form;
use crate::machine::Machine;
use crate::register::{count, enter, strike, terminal_enter, Answer};

/// A call on an opened register: a client and a grid, or the bounds of a form.
#[derive(Clone, Debug, PartialEq, Eq)]
pub enum Call {
    Enter(u64, Vec<u8>),
    Strike(u64, Vec<u8>),
    Count(Form),
    TerminalEnter(u64, Vec<u8>),
}

impl Call {
    /// The name of the call.
    pub fn name(&self) -> &'static str {
        match self {
            Call::Enter(..) => "enter",
            Call::Strike(..) => "strike",
            Call::Count(_) => "count",
            Call::TerminalEnter(..) => "terminal enter",
        }
    }

    /// The client that the call names, if it names one.
    pub fn client(&self) -> Option<u64> {
        match self {
            Call::Enter(client, _) | Call::Strike(client, _) | Call::TerminalEnter(client, _) => {
                Some(*client)
            }
            Call::Count(_) => None,
        }
    }

    /// The call as a terminal makes it: enter is another call there, and the others have no other.
    pub fn at_terminal(self) -> Call {
        match self {
            Call::Enter(client, grid) => Call::TerminalEnter(client, grid),
            other => other,
        }
    }

    /// Makes the call on a register's bytes.
    pub fn on_register(&self, register: &mut [u8]) -> Answer {
        match self {
            Call::Enter(client, grid) => enter(register, *client, grid),
            Call::Strike(client, grid) => strike(register, *client, grid),
            Call::Count((low, high)) => count(register, low, high),
            Call::TerminalEnter(client, grid) => terminal_enter(register, *client, grid),
        }
    }

    /// Makes the call on the plain machine.
    pub fn on_machine(&self, machine: &mut Machine) -> Answer {
        match self {
            Call::Enter(client, grid) => machine.enter(*client, grid),
            Call::Strike(client, grid) => machine.strike(*client, grid),
            Call::Count((low, high)) => machine.count(low, high),
            Call::TerminalEnter(client, grid) => machine.terminal_enter(*client, grid),
        }
    }
}
