//! Tables in Markdown, and numbers in them.

/// A table with its columns at one width.
pub struct Table {
    rows: Vec<Vec<String>>,
}

impl Table {
    pub fn new(head: &[&str]) -> Table {
        Table {
            rows: vec![head.iter().map(|cell| cell.to_string()).collect()],
        }
    }

    pub fn row<const N: usize>(&mut self, cells: [String; N]) {
        self.rows.push(cells.to_vec());
    }

    /// A row whose first cell is given apart.
    pub fn row_of<const N: usize>(&mut self, first: &str, cells: [String; N]) {
        let mut row = vec![first.to_string()];
        row.extend(cells);
        self.rows.push(row);
    }

    /// The table's lines; the first column is set left, the others right.
    pub fn text(&self) -> String {
        let columns = self.rows[0].len();
        let width = |i: usize| self.rows.iter().map(|row| row[i].chars().count()).max();
        let widths: Vec<usize> = (0..columns).map(|i| width(i).unwrap_or(0)).collect();
        let mut lines: Vec<String> = self.rows.iter().map(|row| line(row, &widths)).collect();
        let rules: Vec<String> = widths.iter().map(|&width| "-".repeat(width + 1)).collect();
        lines.insert(1, format!("|:{}|{}:|", rules[0], rules[1..].join(":|")));
        lines.join("\n") + "\n"
    }
}

fn line(row: &[String], widths: &[usize]) -> String {
    let cells = row.iter().zip(widths).enumerate();
    let cells: Vec<String> = cells
        .map(|(i, (cell, &width))| match i {
            0 => format!("{cell:<width$}"),
            _ => format!("{cell:>width$}"),
        })
        .collect();
    format!("| {} |", cells.join(" | "))
}

/// Seconds as milliseconds, with four digits or so.
pub fn milliseconds(seconds: f64) -> String {
    let value = seconds * 1e3;
    let places = match value {
        _ if value >= 100.0 => 0,
        _ if value >= 10.0 => 1,
        _ if value >= 1.0 => 2,
        _ => 3,
    };
    format!("{value:.places$}")
}

/// Seconds as microseconds, likewise.
pub fn microseconds(seconds: f64) -> String {
    milliseconds(seconds * 1e3)
}

/// Seconds as nanoseconds, likewise.
pub fn nanoseconds(seconds: f64) -> String {
    milliseconds(seconds * 1e6)
}

pub fn ratio(value: f64) -> String {
    if value >= 100.0 {
        format!("{value:.0}")
    } else {
        format!("{value:.2}")
    }
}

/// What is said of a peer that may be missing.
pub fn or_missing(value: Option<f64>, text: fn(f64) -> String) -> String {
    value.map_or("not installed".to_string(), text)
}

/// The geometric mean; none where there is nothing to take it of.
pub fn mean(values: impl IntoIterator<Item = f64>) -> Option<f64> {
    let logarithms: Vec<f64> = values.into_iter().map(f64::ln).collect();
    let count = logarithms.len() as f64;
    (count > 0.0).then(|| (logarithms.iter().sum::<f64>() / count).exp())
}
