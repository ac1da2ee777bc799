//! What the errors say: each names the file.

use order_system::{Error, Fault};
use plan_register::Refusal;
use std::error::Error as _;
use std::io;

/// What the error of this kind says of the file book.txt, and whether it has a source.
fn said(fault: Fault) -> (String, bool) {
    let path = "book.txt".into();
    let error = Error { path, fault };
    (error.to_string(), error.source().is_some())
}

fn disk() -> io::Error {
    io::Error::from_raw_os_error(5)
}

#[test]
fn every_error_names_the_file() {
    let (rows, columns, top) = (3, 2, 1);
    let what = "cannot be locked";
    let error = disk();
    let faults = [
        (
            Fault::Refused(Refusal::Full),
            "refused: nobody holds the class, and the register is full (number 9)",
            true,
        ),
        (
            Fault::NoRegister,
            "the bytes are not laid out as a register (number 5)",
            false,
        ),
        (
            Fault::OtherPlans { rows, columns, top },
            "the register is for other plans: 3 by 2, cells of 0 to 1",
            false,
        ),
        (
            Fault::SeveralNames(2),
            "the file has 2 names (hard links), and only one would be changed",
            false,
        ),
        (Fault::LinkToNothing, "the link points nowhere", false),
        (Fault::NoFile, "this is not a plain file", false),
        (
            Fault::Failed { what, error },
            "cannot be locked: Input/output error (os error 5)",
            true,
        ),
        (
            Fault::Unsure(disk()),
            "changed, but the folder cannot be synced, so the change may be lost: \
             Input/output error (os error 5)",
            true,
        ),
    ];
    for (fault, words, has_source) in faults {
        assert_eq!(said(fault), (format!("book.txt: {words}"), has_source));
    }
}
