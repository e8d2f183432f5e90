// SPDX-License-Identifier: MIT
//! Tables of text.

use std::ops::RangeInclusive;

/// The rows below each other, each column as wide as it has to be. Columns of numbers
/// end at their right edge.
pub fn table<const N: usize>(rows: &[[String; N]], numbers: RangeInclusive<usize>) -> String {
    let width = |column: usize| rows.iter().map(|row| row[column].len()).max().unwrap_or(0);
    let mut text = String::new();
    for row in rows {
        let cells = row.iter().enumerate().map(|(column, cell)| {
            let width = width(column);
            match numbers.contains(&column) {
                true => format!("{cell:>width$}"),
                false => format!("{cell:<width$}"),
            }
        });
        let line = cells.collect::<Vec<_>>().join("  ");
        text += line.trim_end();
        text.push('\n');
    }
    text
}
