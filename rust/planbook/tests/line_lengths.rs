//! Lines cut, lengthened, removed, doubled, joined and parted.

use planbook::lines::{count, count_all, enter, line_1, strike};
use planbook::outputs::{refusal, Output};
use planbook::{check, check_each};

/// The input of the printed run, as request 4 makes it.
const INPUT: &[u8] = include_bytes!("../../../crates/planbook/stdin");

/// The lines of the printed input.
fn lines() -> Vec<Vec<u8>> {
    let lines = INPUT.split_inclusive(|&byte| byte == b'\n');
    lines.map(<[u8]>::to_vec).collect()
}

/// What a line may be lengthened by.
const FILLERS: [&[u8; 7]; 7] = [
    b"       ",
    b"0000000",
    b"  0  0 ",
    b"     1 ",
    b"\r\r\r\r\r\r\r",
    b"\0\0\0\0\0\0\0",
    b"xyzxyzx",
];

/// The line, without its line feed, cut at each place from the end and from the front, and
/// lengthened at both by 1 to 7 bytes.
fn cut_and_lengthened(line: &[u8]) -> Vec<Vec<u8>> {
    let bytes = line.strip_suffix(b"\n").expect("the line is ended");
    let mut others = Vec::new();
    for k in 0..bytes.len() {
        others.push(bytes[..k].to_vec());
        others.push(bytes[k + 1..].to_vec());
    }
    for filler in FILLERS {
        for count in 1..=7 {
            others.push([bytes, &filler[..count]].concat());
            others.push([&filler[7 - count..], bytes].concat());
        }
    }
    others
}

/// Checks the command line cut and lengthened, ended and as the input's last line without a line
/// feed. Behind each ended one, the entries are counted.
fn check_command(head: &[u8], line: &[u8], count_all: &[u8]) {
    let others = cut_and_lengthened(line);
    let mut all = head.to_vec();
    for other in &others {
        all.extend([other, &b"\n"[..], count_all].concat());
    }
    let printed = Output::read(&all, &check(&all)).printed;
    assert_eq!(printed.len(), 2 * others.len());
    assert!(printed.chunks(2).all(|two| two[0] == [0, 12, 0]));
    assert!(printed.chunks(2).all(|two| two[1] == [3, 0, 0]));
    let unended = |other: &Vec<u8>| [head, other].concat();
    check_each(&others.iter().map(unended).collect::<Vec<_>>());
}

#[test]
fn command_lines_of_another_length() {
    for (m, n) in [(1, 1), (2, 2), (3, 4)] {
        let (head, zeros) = (line_1([m, n, 1, 2]), vec![0; (m * n) as usize]);
        for line in [enter(1, &zeros), strike(1, &zeros), count(&zeros, &zeros)] {
            check_command(&head, &line, &count_all(zeros.len(), 1));
        }
    }
}

#[test]
fn lines_1_of_another_length() {
    let line = line_1([2, 2, 1, 2]);
    let mut inputs = Vec::new();
    for other in cut_and_lengthened(&line) {
        inputs.push([&other[..], b"\n     1     1  1  0  0  1\n"].concat());
        inputs.push(other);
    }
    for output in check_each(&inputs) {
        assert_eq!(output, refusal(12));
    }
}

#[test]
fn every_beginning_and_every_end_of_the_printed_input() {
    let beginnings = (0..=INPUT.len()).map(|k| INPUT[..k].to_vec());
    let ends = (1..=INPUT.len()).map(|k| INPUT[k..].to_vec());
    let outputs = check_each(&beginnings.chain(ends).collect::<Vec<_>>());
    assert!(outputs[..25].iter().all(|output| *output == refusal(12)));
    assert!(outputs[INPUT.len() + 1..]
        .iter()
        .all(|output| *output == refusal(12)));
}

#[test]
fn a_missing_line_feed_at_the_end_is_12() {
    let head = line_1([2, 2, 1, 2]);
    let zeros = [0; 4];
    for line in [enter(1, &zeros), strike(1, &zeros), count(&zeros, &zeros)] {
        let ended = check(&[&head[..], &line].concat());
        let unended = check(&[&head[..], &line[..line.len() - 1]].concat());
        assert_ne!(ended[..19], refusal(12));
        assert_eq!(unended[..19], refusal(12));
        assert_eq!(unended[19..], check(&head));
    }
    assert_eq!(check(&head[..24]), refusal(12));
}

/// The change made at each line of the printed input, in an input for each.
fn at_each_line(change: impl Fn(&mut Vec<Vec<u8>>, usize)) -> Vec<Vec<u8>> {
    let changed = |k| {
        let mut lines = lines();
        change(&mut lines, k);
        lines.concat()
    };
    (0..lines().len()).map(changed).collect()
}

#[test]
fn lines_removed_doubled_and_exchanged() {
    let removed = at_each_line(|lines, k| drop(lines.remove(k)));
    let doubled = at_each_line(|lines, k| lines.insert(k, lines[k].clone()));
    let exchanged = at_each_line(|lines, k| lines.swap(0, k));
    let outputs = check_each(&[removed, doubled, exchanged].concat());
    // Without line 1, and with a command before it.
    assert_eq!(outputs[0], refusal(12));
    assert!(outputs[15..].iter().all(|output| *output == refusal(12)));
}

#[test]
fn lines_joined() {
    let joined = at_each_line(|lines, k| _ = lines[k].pop());
    let by_carriage_return = at_each_line(|lines, k| *lines[k].last_mut().expect("a line") = b'\r');
    let outputs = check_each(&[joined, by_carriage_return].concat());
    assert_eq!(outputs[0], refusal(12));
    assert_eq!(outputs[7], refusal(12));
}

#[test]
fn lines_between() {
    for more in [
        "\n",
        " \n",
        "      \n",
        "                  \n",
        "                        \n",
        "\r\n",
        "\t\n",
        "\n\n\n",
        "\0\n",
    ] {
        let before = at_each_line(|lines, k| lines.insert(k, more.into()));
        let outputs = check_each(&before);
        assert_eq!(outputs[0], refusal(12));
        let behind = [INPUT, more.as_bytes()].concat();
        assert_ne!(check(&behind), check(INPUT));
    }
}

/// Puts a carriage return before the line feed of the line.
fn add_carriage_return(line: &mut Vec<u8>) {
    line.insert(line.len() - 1, b'\r');
}

#[test]
fn carriage_returns_before_line_feeds() {
    let each = at_each_line(|lines, k| add_carriage_return(&mut lines[k]));
    assert_eq!(check_each(&each)[0], refusal(12));
    let mut all = lines();
    all[1..].iter_mut().for_each(add_carriage_return);
    let input = all.concat();
    let printed = Output::read(&input, &check(&input)).printed;
    assert_eq!(printed, [[0, 12, 0]; 6]);
}

#[test]
fn lines_parted() {
    // A line feed put in at each place.
    let parted = |k| [&INPUT[..k], b"\n", &INPUT[k..]].concat();
    let outputs = check_each(&(0..=INPUT.len()).map(parted).collect::<Vec<_>>());
    assert!(outputs[..24].iter().all(|output| *output == refusal(12)));
    // Behind line 1 it is an empty line.
    assert_eq!(outputs[25][..19], refusal(12));
    assert_eq!(outputs[25].len(), check(INPUT).len() + 19);
}
