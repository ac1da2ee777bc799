//! The book and its calls.

use crate::error::failed;
use crate::locked::Locked;
use crate::{names, new_book, Error, Fault};
use plan_register::{Client, Entered, Refusal, Register};
use std::fs;
use std::path::{Path, PathBuf};

/// A register in a file, which any number of processes and threads may use at once.
///
/// ```
/// use order_system::{Book, Fault};
/// use plan_register::{Client, Entered, Refusal};
///
/// # fn main() -> Result<(), order_system::Error> {
/// # let folder = std::env::temp_dir().join(format!("book.{}", std::process::id()));
/// # std::fs::create_dir_all(&folder).unwrap();
/// # let path = folder.join("book.txt");
/// let [anna, ben, ..] = Client::ALL;
/// let book = Book::open_or_create(&path, 2, 2, 1, 1)?; // rows, columns, top, capacity
/// assert_eq!(book.enter(anna, &[1, 0, 0, 1])?, Entered::New { place: 1 });
///
/// let same_book = Book::open(&path)?;
/// assert_eq!(same_book.enter(ben, &[0, 1, 1, 0])?, Entered::Held { place: 1 });
/// let full = same_book.enter(ben, &[0, 0, 1, 1]).unwrap_err();
/// assert!(matches!(full.fault, Fault::Refused(Refusal::Full)));
///
/// assert_eq!(book.strike(anna, &[0, 1, 1, 0])?, 1);
/// assert_eq!(book.register()?.entry(1).unwrap().held_by(ben), 1);
/// # std::fs::remove_dir_all(&folder).unwrap();
/// # Ok(())
/// # }
/// ```
#[derive(Clone, Debug)]
pub struct Book {
    path: PathBuf,
    plans: Plans,
}

/// Rows, columns and the greatest cell.
type Plans = (usize, usize, usize);

impl Book {
    /// The book in this file, for the plans that its register is for.
    pub fn open(path: impl Into<PathBuf>) -> Result<Book, Error> {
        let path = path.into();
        match read(&path) {
            Ok(register) => Ok(Book {
                path,
                plans: plans(&register),
            }),
            Err(fault) => Err(Error { path, fault }),
        }
    }

    /// The book in this file, which must be for these plans, whatever its capacity. Where there is
    /// no file, a new one with an empty register.
    pub fn open_or_create(
        path: impl Into<PathBuf>,
        rows: usize,
        columns: usize,
        top: usize,
        capacity: usize,
    ) -> Result<Book, Error> {
        let path = path.into();
        let plans = (rows, columns, top);
        let book = Book { path, plans };
        book.named(book.make(capacity))?;
        book.register()?;
        Ok(book)
    }

    #[must_use]
    pub fn path(&self) -> &Path {
        &self.path
    }

    /// The whole register as it is now. This waits for nobody, and so may show a change that is not
    /// answered yet.
    pub fn register(&self) -> Result<Register, Error> {
        let register = read(&self.path).and_then(|register| self.expected(register));
        self.named(register)
    }

    /// Enters the plan's class for this client. When this answers, it is on the disk.
    pub fn enter(&self, client: Client, plan: &[u8]) -> Result<Entered, Error> {
        self.change(|register| register.enter(client, plan))
    }

    /// Strikes the plan's class for this client: the place that its entry had. When this answers,
    /// it is on the disk.
    pub fn strike(&self, client: Client, plan: &[u8]) -> Result<usize, Error> {
        self.change(|register| register.strike(client, plan))
    }

    fn change<T>(
        &self,
        call: impl FnOnce(&mut Register) -> Result<T, Refusal>,
    ) -> Result<T, Error> {
        self.named(self.transaction(call))
    }

    /// One transaction: the file is locked for the whole of it. A refusal writes nothing.
    fn transaction<T>(
        &self,
        call: impl FnOnce(&mut Register) -> Result<T, Refusal>,
    ) -> Result<T, Fault> {
        let mut file = Locked::at(&self.path)?;
        let mut register = self.expected(checked(file.read()?)?)?;
        let answer = call(&mut register)?;
        file.replace(register.bytes())?;
        Ok(answer)
    }

    fn make(&self, capacity: usize) -> Result<(), Fault> {
        let (rows, columns, top) = self.plans;
        let empty = Register::open(rows, columns, top, capacity)?;
        match names::found(&self.path) {
            Err(fault) if names::is_missing(&fault) => new_book::make(&self.path, empty.bytes()),
            found => found.map(|_| ()),
        }
    }

    fn expected(&self, register: Register) -> Result<Register, Fault> {
        let (rows, columns, top) = plans(&register);
        if (rows, columns, top) == self.plans {
            Ok(register)
        } else {
            Err(Fault::OtherPlans { rows, columns, top })
        }
    }

    /// With the file's name where it is an error.
    fn named<T>(&self, result: Result<T, Fault>) -> Result<T, Error> {
        result.map_err(|fault| Error {
            path: self.path.clone(),
            fault,
        })
    }
}

fn plans(register: &Register) -> Plans {
    (register.rows(), register.columns(), register.top())
}

/// A file is replaced as a whole, so that without a lock, too, it is one register.
fn read(path: &Path) -> Result<Register, Fault> {
    let bytes = fs::read(names::found(path)?);
    checked(bytes.map_err(failed("cannot be read"))?)
}

fn checked(bytes: Vec<u8>) -> Result<Register, Fault> {
    Register::from_bytes(bytes).map_err(|_| Fault::NoRegister)
}
