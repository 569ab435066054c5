//! Tables of text.

/// The widest line.
pub const WIDTH: usize = 100;
/// Between two columns.
const APART: usize = 2;

/// A table: a line of heads, and rows. The first column is words, the others numbers.
#[derive(Debug, Default)]
pub struct Columns {
    rows: Vec<Vec<String>>,
}

impl Columns {
    /// Adds a row; the first is that of the heads.
    pub fn row(&mut self, cells: Vec<String>) {
        self.rows.push(cells);
    }

    /// The table in lines of at most a hundred letters: where it is wider, its columns go on in
    /// another one below, with the first column again.
    #[must_use]
    pub fn lines(&self) -> String {
        let widths = self.widths();
        let blocks = blocks(&widths);
        let block = |columns: &Vec<usize>| {
            let rows = self.rows.iter().map(|row| line(row, columns, &widths));
            rows.collect::<String>()
        };
        let blocks: Vec<String> = blocks.iter().map(block).collect();
        blocks.join("\n")
    }

    // The widest cell of each column.
    fn widths(&self) -> Vec<usize> {
        let columns = self.rows.iter().map(Vec::len).max().unwrap_or_default();
        let width = |column: usize| {
            let cells = self.rows.iter().filter_map(|row| row.get(column));
            cells.map(|cell| cell.chars().count()).max()
        };
        (0..columns)
            .map(|column| width(column).unwrap_or_default())
            .collect()
    }
}

// The columns of each table that fits, the first one in all of them.
fn blocks(widths: &[usize]) -> Vec<Vec<usize>> {
    let first = widths.first().copied().unwrap_or_default();
    let (mut blocks, mut used) = (vec![vec![0]], first);
    for (column, width) in widths.iter().enumerate().skip(1) {
        let wide = used + APART + width > WIDTH;
        if wide && blocks.last().is_some_and(|block| block.len() > 1) {
            blocks.push(vec![0]);
            used = first;
        }
        used += APART + width;
        if let Some(block) = blocks.last_mut() {
            block.push(column);
        }
    }
    blocks
}

fn line(row: &[String], columns: &[usize], widths: &[usize]) -> String {
    let mut line = String::new();
    for &column in columns {
        let (cell, width) = (row.get(column).map_or("", String::as_str), widths[column]);
        if column == 0 {
            line += &format!("{cell:width$}");
        } else {
            line += &format!("{:APART$}{cell:>width$}", "");
        }
    }
    line.trim_end().to_owned() + "\n"
}

/// Words in lines of at most so many letters.
pub fn wrapped<'a>(words: impl IntoIterator<Item = &'a str>, width: usize) -> Vec<String> {
    let mut lines: Vec<String> = Vec::new();
    for word in words {
        match lines.last_mut() {
            Some(line) if line.len() + 1 + word.len() <= width => {
                line.push(' ');
                line.push_str(word);
            }
            _ => lines.push(word.to_owned()),
        }
    }
    lines
}

#[cfg(test)]
mod tests {
    use super::*;

    #[test]
    fn a_wide_table_goes_on_below() {
        let mut columns = Columns::default();
        let cells = |text: &str| {
            (0..5)
                .map(|n| format!("{text}{n}{}", " ".repeat(27)))
                .collect()
        };
        columns.row(cells("head"));
        columns.row(cells("cell"));
        let lines = columns.lines();
        assert!(lines.lines().all(|line| line.len() <= WIDTH));
        assert_eq!(lines.matches("head0").count(), 2);
        assert_eq!(lines.matches("cell4").count(), 1);
    }
}
