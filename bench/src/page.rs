//! Tables of Markdown, put between marks of a document. `peer_work` has this file too.
use std::fs;
use std::path::Path;

/// A number with a comma at each thousand.
pub fn grouped(number: f64) -> String {
    let digits = format!("{number:.0}");
    let mut text = String::new();
    for (place, digit) in digits.chars().enumerate() {
        if place > 0 && (digits.len() - place) % 3 == 0 {
            text.push(',');
        }
        text.push(digit);
    }
    text
}

/// Three digits that count.
pub fn short(number: f64) -> String {
    match number {
        100.0.. => grouped(number),
        10.0.. => format!("{number:.1}"),
        _ => format!("{number:.2}"),
    }
}

pub fn table(titles: &[String], rows: &[Vec<String>]) -> String {
    let line = |cells: &[String]| format!("| {} |\n", cells.join(" | "));
    let body: String = rows.iter().map(|row| line(row)).collect();
    line(titles) + "|" + &"---|".repeat(titles.len()) + "\n" + &body
}

pub fn texts(list: &[&str]) -> Vec<String> {
    list.iter().map(|text| text.to_string()).collect()
}

/// Puts each text between the marks of its name.
pub fn write_between(path: &Path, parts: &[(&str, String)]) {
    let document = fs::read_to_string(path).expect("BENCHMARKS.md is there");
    let document = parts.iter().fold(document, |document, (name, text)| between(&document, name, text));
    fs::write(path, document).expect("BENCHMARKS.md is written");
}

/// The document with what stands between two marks replaced.
fn between(document: &str, name: &str, text: &str) -> String {
    let (start, end) = (format!("<!-- {name} -->\n"), format!("<!-- end of {name} -->"));
    let (before, rest) = document.split_once(&start).unwrap_or_else(|| panic!("the document has no {start}"));
    let (_, after) = rest.split_once(&end).unwrap_or_else(|| panic!("the document has no {end}"));
    format!("{before}{start}{text}{end}{after}")
}

#[cfg(test)]
mod tests {
    use super::{between, grouped, short};

    #[test]
    fn numbers_are_short_and_grouped() {
        assert_eq!([0.0, 999.4, 1_000.0, 1_234_567.0].map(grouped), ["0", "999", "1,000", "1,234,567"]);
        assert_eq!([0.954, 9.5, 12.34, 1_234.5].map(short), ["0.95", "9.50", "12.3", "1,234"]);
    }

    #[test]
    fn what_stands_between_marks_is_replaced() {
        let document = "a\n<!-- b -->\nold\n<!-- end of b -->\nc\n";
        assert_eq!(between(document, "b", "new\n"), "a\n<!-- b -->\nnew\n<!-- end of b -->\nc\n");
    }
}
