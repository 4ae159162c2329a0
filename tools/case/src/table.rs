//! Text in columns.

/// Rows as lines, each column as wide as its widest cell.
pub fn table(rows: &[Vec<String>]) -> Vec<String> {
    let columns = rows.iter().map(Vec::len).max().unwrap_or(0);
    let width = |column: usize| {
        let cells = rows.iter().filter_map(|row| row.get(column));
        cells.map(String::len).max().unwrap_or(0)
    };
    let widths: Vec<usize> = (0..columns).map(width).collect();
    rows.iter().map(|row| joined(row, &widths)).collect()
}

fn joined(row: &[String], widths: &[usize]) -> String {
    let both = row.iter().zip(widths);
    let cells: Vec<String> = both
        .map(|(cell, &width)| format!("{cell:width$}"))
        .collect();
    cells.join("  ").trim_end().to_string()
}

/// Lines behind a name, which stands in front of the first.
pub fn named(name: &str, lines: &[String]) -> Vec<String> {
    let names = [name].into_iter().chain(std::iter::repeat(""));
    let both = names.zip(lines);
    both.map(|(name, line)| format!("{name:<12} {line}"))
        .collect()
}
