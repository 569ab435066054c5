//! A small reader of comma-separated values (RFC 4180, lines ended by a line feed).

/// The rows of a text, the first with the names.
pub fn rows(text: &str) -> Vec<Vec<String>> {
    let (mut rows, mut row, mut cell) = (Vec::new(), Vec::new(), String::new());
    let (mut quoted, mut letters) = (false, text.chars().peekable());
    while let Some(c) = letters.next() {
        match c {
            '"' if quoted && letters.peek() == Some(&'"') => {
                letters.next();
                cell.push('"');
            }
            '"' => quoted = !quoted,
            ',' if !quoted => row.push(std::mem::take(&mut cell)),
            '\n' if !quoted => {
                row.push(std::mem::take(&mut cell));
                rows.push(std::mem::take(&mut row));
            }
            c => cell.push(c),
        }
    }
    assert!(
        !quoted && row.is_empty() && cell.is_empty(),
        "no whole line at the end"
    );
    rows
}

#[test]
fn quotes_hold_commas() {
    let text = "a,b\n\"x,\"\"y\"\"\",2\n";
    assert_eq!(rows(text), [["a", "b"], ["x,\"y\"", "2"]]);
}
