//! A table of times, printed or written as CSV.

use std::fmt;

/// One row: what it is of, and nanoseconds of the library and of what it is measured beside.
pub struct Row {
    pub labels: Vec<String>,
    pub times: [f64; 2],
}

pub struct Table {
    /// The name of the CSV file.
    pub name: &'static str,
    pub title: String,
    /// What the labels are.
    pub columns: &'static [&'static str],
    /// What the library is measured beside.
    pub against: &'static str,
    pub rows: Vec<Row>,
}

impl Table {
    pub fn csv(&self) -> String {
        let mut text = format!("{},library ns,{} ns,ratio\n", self.columns.join(","), self.against);
        for Row { labels, times: [library, other] } in &self.rows {
            let labels: Vec<String> = labels.iter().map(|label| cell(label)).collect();
            text += &format!("{},{library:.0},{other:.0},{:.2}\n", labels.join(","), library / other);
        }
        text
    }

    /// The first label as a number, with the times, of the rows with these other labels.
    pub fn series(&self, labels: &[&str]) -> Vec<(f64, [f64; 2])> {
        let rows = self.rows.iter().filter(|row| row.labels[1..] == *labels);
        rows.map(|row| (row.labels[0].parse().expect("a number"), row.times)).collect()
    }

    fn width(&self, column: usize) -> usize {
        let labels = self.rows.iter().map(|row| row.labels[column].chars().count());
        labels.chain([self.columns[column].len()]).max().unwrap_or(0) + 2
    }
}

/// As a cell of CSV. No label has quotation marks.
fn cell(label: &str) -> String {
    match label.contains(',') {
        true => format!("\"{label}\""),
        false => label.to_string(),
    }
}

impl fmt::Display for Table {
    fn fmt(&self, f: &mut fmt::Formatter<'_>) -> fmt::Result {
        writeln!(f, "{}", self.title)?;
        let titles: Vec<String> = self.columns.iter().map(|title| title.to_string()).collect();
        self.write_labels(f, &titles)?;
        writeln!(f, "{:>12}{:>11}{:>9}", "library ns", format!("{} ns", self.against), "ratio")?;
        for Row { labels, times: [library, other] } in &self.rows {
            self.write_labels(f, labels)?;
            writeln!(f, "{library:>12.0}{other:>11.0}{:>9.2}", library / other)?;
        }
        Ok(())
    }
}

impl Table {
    fn write_labels(&self, f: &mut fmt::Formatter<'_>, labels: &[String]) -> fmt::Result {
        labels.iter().enumerate().try_for_each(|(column, label)| write!(f, "{label:<0$}", self.width(column)))
    }
}
