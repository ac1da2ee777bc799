//! Records read from the lists of an antt file.

/// The text without its comments.
pub fn without_comments(text: &str) -> String {
    let lines = text.lines();
    lines
        .filter(|line| !line.trim_start().starts_with("--"))
        .map(|line| format!("{line}\n"))
        .collect()
}

/// How deep in braces each byte stands; a byte of a quoted text counts as deeper than all.
fn depths(text: &str) -> Vec<usize> {
    let (mut depth, mut quoted) = (0, false);
    let step = |byte: u8| {
        match byte {
            b'"' => quoted = !quoted,
            b'{' if !quoted => depth += 1,
            b'}' if !quoted => depth -= 1,
            _ => {}
        }
        if quoted {
            usize::MAX
        } else {
            depth
        }
    };
    text.bytes().map(step).collect()
}

/// What stands in the braces of each record of the list that is defined under the name.
pub fn records(text: &str, name: &str) -> Vec<String> {
    let start = text.find(&format!("\n{name} =\n")).expect("the list") + 1;
    let list = &text[start..];
    let list = &list[..list.find("∷ []\n\n").expect("the list's end")];
    let depths = depths(list);
    let opening = |&i: &usize| depths[i] == 1 && (i == 0 || depths[i - 1] == 0);
    let bodies = (0..list.len()).filter(opening).map(|i| {
        let end = (i..list.len()).find(|&j| depths[j] == 0).expect("a brace");
        list[i + 1..end].to_string()
    });
    bodies.collect()
}

/// The value of a record's field.
pub fn field<'a>(record: &'a str, name: &str) -> &'a str {
    let depths = depths(record);
    let named = format!("{name} = ");
    let outside = |i: usize| depths[i] == 0;
    let start = record
        .match_indices(&named)
        .find(|&(i, _)| outside(i) && (i == 0 || record[..i].ends_with([' ', '\n'])))
        .unwrap_or_else(|| panic!("no field {name} in {record}"))
        .0
        + named.len();
    let end = (start..record.len()).find(|&i| outside(i) && record.as_bytes()[i] == b';');
    record[start..end.unwrap_or(record.len())].trim()
}

/// The bytes of quoted texts, each as often as `replicate` says.
pub fn text_bytes(value: &str) -> Vec<u8> {
    let mut bytes = Vec::new();
    let mut parts = value.split('"');
    while let (Some(before), Some(quoted)) = (parts.next(), parts.next()) {
        let times = match before.trim().rsplit_once("replicate ") {
            Some((_, times)) => times.trim().parse().expect("a number of times"),
            None => 1,
        };
        let escapes = [("\\n", "\n"), ("\\r", "\r"), ("\\t", "\t")];
        let plain = |text: String, (escape, byte): (&str, &str)| text.replace(escape, byte);
        let quoted = escapes.into_iter().fold(quoted.to_string(), plain);
        bytes.extend(quoted.repeat(times).into_bytes());
    }
    bytes
}

/// The numbers in a text, in order.
pub fn numbers(value: &str) -> Vec<u64> {
    let digits = value.split(|c: char| !c.is_ascii_digit());
    let digits = digits.filter(|part| !part.is_empty());
    digits.map(|part| part.parse().expect("a number")).collect()
}
