//! Rows of text: a label, a text and a number in columns of their own; or, for scripts, a key and values.

/// A page in the making.
#[derive(Default)]
pub struct Page {
    text: String,
}

impl Page {
    /// A line as it is, without spaces at its end.
    pub fn line(&mut self, line: impl AsRef<str>) {
        self.text += line.as_ref().trim_end();
        self.text.push('\n');
    }

    /// A label and a text.
    pub fn row(&mut self, label: &str, text: impl AsRef<str>) {
        self.line(format!("{label:<10} {}", text.as_ref()));
    }

    /// A label, a text and a number to its right.
    pub fn figure(&mut self, label: &str, text: impl AsRef<str>, number: impl ToString) {
        self.line(format!("{label:<10} {:<42}{:>9}", text.as_ref(), number.to_string()));
    }

    /// A key and its values, for scripts.
    pub fn plain(&mut self, key: &str, values: impl IntoIterator<Item = impl ToString>) {
        let values: Vec<String> = values.into_iter().map(|value| value.to_string()).collect();
        self.line(format!("{key} {}", values.join(" ")));
    }

    /// The whole text.
    pub fn finish(self) -> String {
        self.text
    }
}

/// Lines whose columns stand under each other; those named are right-aligned.
pub fn table(rows: &[Vec<String>], right: &[usize]) -> Vec<String> {
    let columns = rows.iter().map(Vec::len).max().unwrap_or(0);
    let widths: Vec<usize> = (0..columns)
        .map(|column| rows.iter().filter_map(|row| row.get(column)).map(|cell| cell.chars().count()).max().unwrap_or(0))
        .collect();
    let line = |row: &Vec<String>| {
        let cells = row.iter().zip(&widths).enumerate().map(|(column, (cell, &width))| match right.contains(&column) {
            true => format!("{cell:>width$}"),
            false => format!("{cell:<width$}"),
        });
        cells.collect::<Vec<_>>().join("  ").trim_end().to_string()
    };
    rows.iter().map(line).collect()
}
