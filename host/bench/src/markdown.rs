//! The tables as `docs/PERFORMANCE.md` has them, each under its heading there.

use crate::table::{Row, Table};

/// A section's heading and its tables.
pub fn section(table: &Table) -> String {
    let (heading, tables) = match table.name {
        "kinds" => ("Every kind of call", kinds(table, "accepted") + "\n" + &kinds(table, "refused")),
        "size" => ("How it grows with the cluster", size(table)),
        "held" => ("Many blocks held", held(table)),
        "timeouts" => {
            ("Every view times out", list(table, &["n", "timeouts taken", "refused as late", "one view change"]))
        }
        "decisive" => ("Whose timeout decided", decisive(table)),
        "contents" => ("Blocks with their contents", contents(table)),
        "releases" => ("Releases", list(table, &["n", "released", "the call"])),
        _ => ("The name of a block", names(table)),
    };
    format!("## {heading}\n\n{tables}")
}

fn kinds(table: &Table, answer: &str) -> String {
    let rows = table.rows.iter().filter(|row| row.labels[2] == answer);
    grid(answer, rows.map(|row| (words(&row.labels[1]), format!("n {}", row.labels[0]), row.times)).collect())
}

fn size(table: &Table) -> String {
    let cell = |row: &Row| (words(&row.labels[1]), format!("n {}", row.labels[0]), row.times);
    grid("", table.rows.iter().map(cell).collect())
}

fn held(table: &Table) -> String {
    let title = |row: &Row| format!("{}: {}", row.labels[1], words(&row.labels[2]));
    let cell = |row: &Row| (title(row), format!("{} held", row.labels[0]), row.times);
    grid("", table.rows.iter().map(cell).collect())
}

fn decisive(table: &Table) -> String {
    let cell = |row: &Row| (row.labels[1].clone(), format!("n {}", row.labels[0]), row.times);
    grid("", table.rows.iter().map(cell).collect())
}

fn contents(table: &Table) -> String {
    let cell = |row: &Row| (words(&row.labels[0]), format!("{} bytes", length(&row.labels[1])), row.times);
    grid("", table.rows.iter().map(cell).collect())
}

/// Bytes of contents, with thousands set apart.
fn length(label: &str) -> String {
    number(label.parse().expect("a number"), 0)
}

/// Nanoseconds, a line for each length.
fn names(table: &Table) -> String {
    let rows = table.rows.iter().map(|row| line([length(&row.labels[0]), figures(row.times, 0, 2)].into_iter()));
    head(&["bytes of contents", &format!("beside {}", table.against)]) + &rows.collect::<String>()
}

/// Nanoseconds by title and column, both in the order in which they come up; nothing where there is no such call.
fn grid(corner: &str, cells: Vec<(String, String, [f64; 2])>) -> String {
    let (mut titles, mut columns) = (Vec::new(), vec![corner]);
    for (title, column, _) in &cells {
        if !titles.contains(&title) {
            titles.push(title);
        }
        if !columns.contains(&&**column) {
            columns.push(column);
        }
    }
    let mut text = head(&columns);
    for title in titles {
        let find = |column: &&str| cells.iter().find(|cell| cell.0 == *title && cell.1 == *column);
        let found = columns[1..].iter().map(|column| find(column).map_or(String::new(), |cell| figures(cell.2, 0, 1)));
        text += &line([title.clone()].into_iter().chain(found));
    }
    text
}

/// Microseconds, a line for each row.
fn list(table: &Table, titles: &[&str]) -> String {
    let microseconds = |row: &Row| figures(row.times.map(|time| time / 1000.0), 2, 1);
    let rows = table.rows.iter().map(|row| line(row.labels.iter().cloned().chain([microseconds(row)])));
    head(titles) + &rows.collect::<String>()
}

fn head(titles: &[&str]) -> String {
    format!("{}|{}\n", line(titles.iter().map(|title| title.to_string())), "---|".repeat(titles.len()))
}

fn line(cells: impl Iterator<Item = String>) -> String {
    let cells = cells.map(|cell| if cell.is_empty() { " |".to_string() } else { format!(" {cell} |") });
    format!("|{}\n", cells.collect::<String>())
}

/// Library / other (ratio), with these decimals of the times and of the ratio.
fn figures([library, other]: [f64; 2], decimals: usize, of_ratio: usize) -> String {
    format!("{} / {} ({})", number(library, decimals), number(other, decimals), number(library / other, of_ratio))
}

/// At most so many decimals: from 10 on at most one, from 100 on none. Thousands are set apart.
fn number(value: f64, decimals: usize) -> String {
    let most = match value {
        _ if value < 9.995 => 2,
        _ if value < 99.95 => 1,
        _ => 0,
    };
    let text = format!("{value:.0$}", decimals.min(most));
    let whole = text.find('.').unwrap_or(text.len());
    let apart = |place: usize| place > 0 && place < whole && (whole - place).is_multiple_of(3);
    text.char_indices().flat_map(|(place, digit)| apart(place).then_some(',').into_iter().chain([digit])).collect()
}

/// A kind of call in words: `BlockCertificate` is "block certificate".
fn words(kind: &str) -> String {
    let mut text = String::new();
    for letter in kind.chars() {
        if letter.is_uppercase() && !text.is_empty() {
            text.push(' ');
        }
        text.push(letter.to_ascii_lowercase());
    }
    text
}

#[cfg(test)]
mod tests {
    use super::*;

    #[test]
    fn nanoseconds_are_whole_with_thousands_set_apart() {
        let numbers = [0.4, 48.0, 99.6, 999.4, 999.5, 3465.0, 12345.0, 1234567.0].map(|value| number(value, 0));
        assert_eq!(numbers, ["0", "48", "100", "999", "1,000", "3,465", "12,345", "1,234,567"]);
    }

    #[test]
    fn microseconds_have_three_digits_or_two_decimals() {
        let numbers = [0.56, 8.214, 9.996, 38.66, 92.0, 99.96, 129.4, 1273.6].map(|value| number(value, 2));
        assert_eq!(numbers, ["0.56", "8.21", "10.0", "38.7", "92.0", "100", "129", "1,274"]);
    }

    #[test]
    fn ratios_have_their_decimals_below_a_hundred() {
        assert_eq!([1.96, 9.98, 42.31, 155.2].map(|value| number(value, 1)), ["2.0", "10.0", "42.3", "155"]);
        assert_eq!(figures([1272.4, 567.3], 0, 1), "1,272 / 567 (2.2)");
        assert_eq!(figures([1274.0, 8.21], 2, 1), "1,274 / 8.21 (155)");
        assert_eq!(figures([5830.0, 7120.0], 0, 2), "5,830 / 7,120 (0.82)");
    }

    #[test]
    fn kinds_are_told_in_words() {
        assert_eq!(["Vote", "TimeoutCertificate", "all"].map(words), ["vote", "timeout certificate", "all"]);
    }
}
