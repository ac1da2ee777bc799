//! Registers with other cells, other holdings, other limits, and fields that are not laid out.

mod common;

use common::calls::contents_of;
use common::question_5::{check, check_layout};
use reference::examples::register;
use reference::holdings::Holdings;
use reference::layout::number;

#[test]
fn cells_of_every_value_with_every_top() {
    for top in 0..=15 {
        for value in 0..=999 {
            for k in 0..3 {
                let mut bytes = contents_of(1, 3, top, 1, &[vec![0; 3]]).bytes();
                bytes[31 + 3 * k..34 + 3 * k].copy_from_slice(&number(value, 3));
                assert_eq!(check(&bytes), value <= top.into());
            }
        }
    }
}

#[test]
fn holdings_of_every_value() {
    // A holding is 0 to 999, whatever top is, and one at least is not 0.
    for (k, others) in (0..8).flat_map(|k| [(k, 0), (k, 999)]) {
        let mut contents = contents_of(1, 3, 0, 1, &[vec![0; 3]]);
        for value in 0..=999 {
            let mut holdings = [others; 8];
            holdings[k] = value;
            contents.entries[0].holdings = Holdings(holdings);
            assert_eq!(check(&contents.bytes()), value + others > 0);
        }
    }
}

#[test]
fn an_entry_that_nobody_holds() {
    // In any line, and also where the entry is no representative.
    let grids: Vec<Vec<u8>> = (0..4).map(|first| vec![first, 3 - first]).collect();
    for which in 0..16u8 {
        let mut contents = contents_of(1, 2, 3, 5, &grids);
        for (k, entry) in contents.entries.iter_mut().enumerate() {
            if which >> k & 1 == 1 {
                entry.holdings = Holdings::default();
            }
        }
        assert_eq!(check(&contents.bytes()), which == 0);
    }
}

#[test]
fn holdings_that_reach_into_the_next_field() {
    let whole = contents_of(1, 1, 9, 1, &[vec![5]]).bytes();
    for shifted in [
        "1000 0", "100 0 ", "  1000", " 1 000", "1    0", "10   0", "    01",
    ] {
        for k in 0..7 {
            let mut bytes = whole.clone();
            bytes[34 + 3 * k..40 + 3 * k].copy_from_slice(shifted.as_bytes());
            assert!(!check(&bytes), "{shifted:?} at {k}");
        }
    }
}

/// Fields that are no numbers as a register has them: a space or a zero too many, and others.
fn not_laid_out(width: usize) -> Vec<Vec<u8>> {
    let endings = [
        "", "1 ", "01", "00", "001", "000", " 0 ", "1 1", "+1", "-1", "-0", "1.", ".1", "\t1",
        "1\t", "1\r", "1\n", "\n1", "1\0", "\x001", "1a", "x", "0x1", "1e1", "１", "²",
    ];
    let padded = |ending: &str| {
        let mut field = vec![b' '; width.saturating_sub(ending.len())];
        field.extend(ending.bytes());
        field.truncate(width);
        field
    };
    let mut fields: Vec<Vec<u8>> = endings.iter().map(|ending| padded(ending)).collect();
    fields.push([b"1", &vec![b' '; width - 1][..]].concat());
    fields.push([&vec![b'0'; width - 1][..], b"1"].concat());
    fields.push(vec![0; width]);
    fields.push(vec![255; width]);
    fields
}

#[test]
fn fields_that_are_not_laid_out() {
    let entries = [vec![1, 1, 1], vec![1, 1, 2]];
    let whole = contents_of(1, 3, 15, 3, &entries).bytes();
    for width in [6, 3] {
        let starts: Vec<usize> = match width {
            6 => (0..5).map(|k| 6 * k).collect(),
            // Three cells and eight holdings on each of two lines.
            _ => (0..22).map(|k| 31 + 34 * (k / 11) + 3 * (k % 11)).collect(),
        };
        for start in starts {
            for field in not_laid_out(width) {
                let mut bytes = whole.clone();
                bytes[start..start + width].copy_from_slice(&field);
                assert!(!check(&bytes), "{field:?} at {start}");
            }
        }
    }
}

#[test]
fn limits_in_line_1() {
    // The bytes are laid out as line 1 states.
    for (rows, columns, top, capacity) in [
        (1, 1, 0, 1),
        (8, 1, 15, 2),
        (1, 16, 15, 2),
        (8, 16, 15, 2),
        (1, 1, 15, 500),
    ] {
        let past = [
            (0, columns, top, capacity),
            (9, columns, top, capacity),
            (rows, 0, top, capacity),
            (rows, 17, top, capacity),
            (rows, columns, 16, capacity),
            (rows, columns, top, 0),
            (rows, columns, top, 501),
        ];
        assert!(check_layout(&register(rows, columns, top, capacity, &[])));
        for (rows, columns, top, capacity) in past {
            assert!(!check(&register(rows, columns, top, capacity, &[])));
        }
    }
}

/// The register with these numbers in line 1.
fn with_line_1(mut register: Vec<u8>, numbers: [u64; 5]) -> Vec<u8> {
    let fields = numbers.map(|value| number(value, 6));
    register[..30].copy_from_slice(&fields.concat());
    register
}

#[test]
fn other_numbers_in_line_1() {
    // The bytes are as long as before, whatever line 1 states.
    let whole = register(2, 2, 3, 4, &["00/01", "01/10"]);
    let numbers = (0..600).chain([999, 1000, 32_768, 65_536, 65_538, 99_999, 100_000, 999_999]);
    let mut still_registers = Vec::new();
    for value in numbers {
        for field in 0..5 {
            let mut bytes = whole.clone();
            bytes[6 * field..6 * field + 6].copy_from_slice(&number(value, 6));
            if check(&bytes) && bytes != whole {
                still_registers.push((field, value));
            }
        }
    }
    let tops = (1..=15).filter(|&top| top != 3).map(|top| (2, top));
    assert_eq!(still_registers, tops.collect::<Vec<_>>());
    // The same length with other rows and columns, or with fewer and longer lines.
    for (m, n, capacity) in [(1, 4, 4), (4, 1, 4), (2, 2, 4), (1, 41, 1), (41, 1, 1)] {
        let bytes = with_line_1(register(2, 2, 3, 4, &[]), [m, n, 3, capacity, 0]);
        assert_eq!(check(&bytes), m * n == 4);
    }
    // Four lines of 31 bytes, or one of 124.
    let four = register(1, 2, 3, 4, &[]);
    let one = register(3, 11, 3, 1, &[]);
    assert_eq!(four.len(), one.len());
    assert!(!check(&with_line_1(four, [3, 11, 3, 1, 0])));
    assert!(!check(&with_line_1(one, [1, 2, 3, 4, 0])));
}
