//! Why a call on a book was not done.

use plan_register::Refusal;
use std::path::PathBuf;
use std::{error, fmt, io};

/// Why a call was not done. It names the file, as the caller named it.
#[derive(Debug)]
pub struct Error {
    pub path: PathBuf,
    pub fault: Fault,
}

/// What was in the way. With each but `Unsure` the file is as it was.
#[derive(Debug)]
pub enum Fault {
    /// The register refuses the call. The next one may be made.
    Refused(Refusal),
    /// The bytes are not laid out as a register.
    NoRegister,
    /// The register is of plans with other rows, columns or greatest cell.
    OtherPlans {
        rows: usize,
        columns: usize,
        top: usize,
    },
    /// The file has this many names, hard links. A new file would take one of them alone.
    SeveralNames(u64),
    /// A symbolic link that points nowhere.
    LinkToNothing,
    /// A folder, a device or a pipe.
    NoFile,
    /// The system fails to do what is needed.
    Failed {
        what: &'static str,
        error: io::Error,
    },
    /// The file is replaced, but its folder cannot be synced: it may be the former one again after
    /// the machine stops.
    Unsure(io::Error),
}

/// For an error of the system: what it was that failed.
pub(crate) fn failed(what: &'static str) -> impl FnOnce(io::Error) -> Fault {
    move |error| Fault::Failed { what, error }
}

impl From<Refusal> for Fault {
    fn from(refusal: Refusal) -> Fault {
        Fault::Refused(refusal)
    }
}

impl fmt::Display for Error {
    fn fmt(&self, formatter: &mut fmt::Formatter) -> fmt::Result {
        write!(formatter, "{}: {}", self.path.display(), self.fault)
    }
}

impl fmt::Display for Fault {
    fn fmt(&self, formatter: &mut fmt::Formatter) -> fmt::Result {
        match self {
            Fault::Refused(refusal) => write!(formatter, "refused: {refusal}"),
            Fault::NoRegister => write!(formatter, "{}", Refusal::Layout),
            Fault::OtherPlans { rows, columns, top } => write!(
                formatter,
                "the register is for other plans: {rows} by {columns}, cells of 0 to {top}"
            ),
            Fault::SeveralNames(names) => write!(
                formatter,
                "the file has {names} names (hard links), and only one would be changed"
            ),
            Fault::LinkToNothing => write!(formatter, "the link points nowhere"),
            Fault::NoFile => write!(formatter, "this is not a plain file"),
            Fault::Failed { what, error } => write!(formatter, "{what}: {error}"),
            Fault::Unsure(error) => write!(
                formatter,
                "changed, but the folder cannot be synced, so the change may be lost: {error}"
            ),
        }
    }
}

impl error::Error for Error {
    fn source(&self) -> Option<&(dyn error::Error + 'static)> {
        match &self.fault {
            Fault::Refused(refusal) => Some(refusal),
            Fault::Failed { error, .. } | Fault::Unsure(error) => Some(error),
            _ => None,
        }
    }
}
