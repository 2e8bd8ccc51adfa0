//! Tables that are also Markdown.

/// Columns are as wide as their headings.
pub struct Table {
    widths: Vec<usize>,
}

impl Table {
    pub fn headed(headings: &[String]) -> Table {
        let widths: Vec<usize> = headings.iter().map(String::len).collect();
        let rules: Vec<String> = widths.iter().map(|width| "-".repeat(*width)).collect();
        let table = Table { widths };
        table.row(headings);
        table.row(&rules);
        table
    }

    /// Names on the left of the first column, figures on the right of the others.
    pub fn row(&self, cells: &[String]) {
        let cells = cells.iter().zip(&self.widths).enumerate();
        let padded = cells.map(|(place, (cell, width))| match place {
            0 => format!("{cell:<width$}"),
            _ => format!("{cell:>width$}"),
        });
        println!("| {} |", padded.collect::<Vec<_>>().join(" | "));
    }
}
