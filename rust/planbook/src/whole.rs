//! Whether an output of planbook is whole. Where the program fails, it ends with status 1 and its
//! output ends too soon, or is empty.

/// The bytes of a printed line.
const ANSWER: usize = 19;

/// Whether the output is a whole one for this input: an answer for each command line and a register
/// of its length, or the one line of a run that ended before any command.
pub fn is_whole(input: &[u8], output: &[u8]) -> bool {
    let mut lines = input.split_inclusive(|&byte| byte == b'\n');
    let shape = lines.next().and_then(read_shape);
    if output.len() == ANSWER {
        return ends_run(output, shape.is_none());
    }
    shape.is_some_and(|[rows, columns, _top, capacity]| {
        let register = 31 + capacity * (3 * rows * columns + 25);
        output.len() == ANSWER * lines.count() + register
    })
}

/// Whether the line ends a run before any command: 11, 13, 1 to 4, and 12 where line 1 is not laid
/// out as it should be. Otherwise 12 answers a command, and the run goes on.
fn ends_run(line: &[u8], malformed: bool) -> bool {
    let numbers: &[u8] = if malformed {
        &[11, 12]
    } else {
        &[11, 13, 1, 2, 3, 4]
    };
    let mut printed = numbers.iter().map(|k| format!("     0{k:>6}     0\n"));
    printed.any(|printed| printed.as_bytes() == line)
}

/// The four numbers of line 1: rows, columns, top and capacity, each 6 wide.
fn read_shape(line: &[u8]) -> Option<[usize; 4]> {
    let fields = line
        .strip_suffix(b"\n")
        .filter(|fields| fields.len() == 24)?;
    let numbers: Option<Vec<usize>> = fields.chunks(6).map(read_number).collect();
    numbers?.try_into().ok()
}

/// The number of a field: spaces, and then digits without a leading zero.
fn read_number(field: &[u8]) -> Option<usize> {
    let number: usize = std::str::from_utf8(field)
        .ok()?
        .trim_start_matches(' ')
        .parse()
        .ok()?;
    (format!("{number:>6}").as_bytes() == field).then_some(number)
}
