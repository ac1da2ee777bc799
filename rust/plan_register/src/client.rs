//! The eight clients of a register.

use crate::Refusal;

/// A client of a register, 1 to 8. A call for it is never refused by number 15.
#[derive(Clone, Copy, Debug, PartialEq, Eq, PartialOrd, Ord, Hash)]
pub struct Client(u8);

impl Client {
    /// Every client, by number.
    pub const ALL: [Client; 8] = [
        Client(1),
        Client(2),
        Client(3),
        Client(4),
        Client(5),
        Client(6),
        Client(7),
        Client(8),
    ];

    /// The client with this number. Refused by number 15 where it is not 1 to 8.
    ///
    /// ```
    /// use plan_register::{Client, Refusal};
    ///
    /// assert_eq!(Client::numbered(8), Ok(Client::ALL[7]));
    /// assert_eq!(Client::numbered(0), Err(Refusal::Client));
    /// assert_eq!(Client::numbered(9), Err(Refusal::Client));
    /// ```
    pub fn numbered(number: usize) -> Result<Client, Refusal> {
        let mut clients = Client::ALL.into_iter();
        clients
            .find(|client| client.number() == number)
            .ok_or(Refusal::Client)
    }

    /// The client's number, 1 to 8.
    #[must_use]
    pub fn number(self) -> usize {
        self.0.into()
    }
}
