//! The static library's declarations, and what the unsafe calls of them rest on.
//!
//! A slice is passed as its pointer and then its length. A test compares these declarations with
//! the library's source.
//!
//! SAFETY, of every call: the library is declared as it is compiled. It takes any numbers and any
//! slices; it reads and writes no byte but those of the slices and writes only to those lent
//! mutably; it keeps no pointer, has no state of its own, and does not unwind. Pointer and length
//! come from one slice, which is lent until the call returns. A slice lent mutably overlaps no
//! other.

use crate::{Arranged, Counted, Matched, Placed, TerminalArranged, TerminalMatched};
use std::mem::{align_of, offset_of, size_of};

unsafe extern "C" {
    pub fn plan_register_represent(
        m: usize,
        n: usize,
        top: usize,
        grid: *const u8,
        grid_length: usize,
        out: *mut u8,
        out_length: usize,
    ) -> Arranged;

    pub fn plan_register_same(
        m: usize,
        n: usize,
        top: usize,
        a: *const u8,
        a_length: usize,
        b: *const u8,
        b_length: usize,
    ) -> Matched;

    pub fn plan_register_prune(
        m: usize,
        n: usize,
        top: usize,
        low: *mut u8,
        low_length: usize,
        high: *mut u8,
        high_length: usize,
    ) -> Counted;

    pub fn plan_register_open(
        m: usize,
        n: usize,
        top: usize,
        capacity: usize,
        register: *mut u8,
        register_length: usize,
    ) -> Placed;

    pub fn plan_register_enter(
        register: *mut u8,
        register_length: usize,
        client: usize,
        grid: *const u8,
        grid_length: usize,
    ) -> Placed;

    pub fn plan_register_strike(
        register: *mut u8,
        register_length: usize,
        client: usize,
        grid: *const u8,
        grid_length: usize,
    ) -> Placed;

    pub fn plan_register_count(
        register: *const u8,
        register_length: usize,
        low: *const u8,
        low_length: usize,
        high: *const u8,
        high_length: usize,
    ) -> Counted;

    pub fn plan_register_terminal_represent(
        m: usize,
        n: usize,
        top: usize,
        grid: *const u8,
        grid_length: usize,
        out: *mut u8,
        out_length: usize,
    ) -> TerminalArranged;

    pub fn plan_register_terminal_same(
        m: usize,
        n: usize,
        top: usize,
        a: *const u8,
        a_length: usize,
        b: *const u8,
        b_length: usize,
    ) -> TerminalMatched;

    pub fn plan_register_terminal_enter(
        register: *mut u8,
        register_length: usize,
        client: usize,
        grid: *const u8,
        grid_length: usize,
    ) -> Placed;
}

// The structs as C lays them out.
const _: () = {
    assert!(size_of::<Arranged>() == 28 && align_of::<Arranged>() == 4);
    assert!(offset_of!(Arranged, number) == 0);
    assert!(offset_of!(Arranged, rows) == 4);
    assert!(offset_of!(Arranged, columns) == 12);

    assert!(size_of::<Matched>() == 32 && align_of::<Matched>() == 4);
    assert!(offset_of!(Matched, number) == 0);
    assert!(offset_of!(Matched, agreed) == 4);
    assert!(offset_of!(Matched, rows) == 8);
    assert!(offset_of!(Matched, columns) == 16);

    assert!(size_of::<Placed>() == 8 && align_of::<Placed>() == 4);
    assert!(offset_of!(Placed, number) == 0);
    assert!(offset_of!(Placed, place) == 4);

    assert!(size_of::<Counted>() == 8 && align_of::<Counted>() == 4);
    assert!(offset_of!(Counted, number) == 0);
    assert!(offset_of!(Counted, count) == 4);

    assert!(size_of::<TerminalArranged>() == 28 && align_of::<TerminalArranged>() == 4);
    assert!(offset_of!(TerminalArranged, number) == 0);
    assert!(offset_of!(TerminalArranged, rows) == 4);
    assert!(offset_of!(TerminalArranged, columns) == 9);

    assert!(size_of::<TerminalMatched>() == 32 && align_of::<TerminalMatched>() == 4);
    assert!(offset_of!(TerminalMatched, number) == 0);
    assert!(offset_of!(TerminalMatched, agreed) == 4);
    assert!(offset_of!(TerminalMatched, rows) == 8);
    assert!(offset_of!(TerminalMatched, columns) == 13);
};
