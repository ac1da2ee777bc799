//! An order, as a line of text.

/// `enter CLIENT CELLS..` or `strike CLIENT CELLS..`, the cells row after row, with blanks between.
#[derive(Debug, PartialEq, Eq)]
pub struct Order {
    pub call: Call,
    pub client: usize,
    pub plan: Vec<u8>,
}

#[derive(Debug, PartialEq, Eq)]
pub enum Call {
    Enter,
    Strike,
}

impl Order {
    /// The order in this line, or why it is none. `None` where the line is empty or a remark.
    pub fn read(line: &str) -> Result<Option<Order>, String> {
        let mut words = line.split_whitespace();
        let call = match words.next() {
            None => return Ok(None),
            Some(word) if word.starts_with('#') => return Ok(None),
            Some("enter") => Call::Enter,
            Some("strike") => Call::Strike,
            Some(other) => return Err(format!("{other:?} is neither enter nor strike")),
        };
        let client = client(words.next())?;
        let plan = words.map(cell).collect::<Result<Vec<u8>, String>>()?;
        Ok(Some(Order { call, client, plan }))
    }
}

fn client(word: Option<&str>) -> Result<usize, String> {
    let word = word.ok_or("the client is missing")?;
    let client = word.parse();
    client.map_err(|_| format!("{word:?} is not a client's number"))
}

fn cell(word: &str) -> Result<u8, String> {
    let cell = word.parse();
    cell.map_err(|_| format!("{word:?} is not a cell, 0 to 255"))
}
