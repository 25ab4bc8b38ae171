//! Rows of text with aligned columns.

/// One line for each row; columns whose names are in `right` end at the same place, the others begin at it.
pub fn aligned<const N: usize>(head: [&str; N], right: &[&str], rows: &[[String; N]]) -> String {
    let mut widths = head.map(str::len);
    for row in rows {
        for (width, cell) in widths.iter_mut().zip(row) {
            *width = (*width).max(cell.chars().count());
        }
    }
    let mut text = String::new();
    let first = head.map(str::to_owned);
    for row in std::iter::once(&first).chain(rows) {
        let mut line = String::new();
        for ((cell, width), name) in row.iter().zip(widths).zip(head) {
            if right.contains(&name) {
                line.push_str(&format!("{cell:>width$}  "));
            } else {
                line.push_str(&format!("{cell:<width$}  "));
            }
        }
        text.push_str(line.trim_end());
        text.push('\n');
    }
    text
}
