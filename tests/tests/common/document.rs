//! The words of docs/CARD.md and README.md, and numbers as they write them.

use super::files::text;
use super::highest_first;

/// What stands between one mark and the next, and begins with a title.
fn under(whole: &str, mark: &str, title: &str) -> String {
    let part = whole.split(mark).find(|part| part.starts_with(title));
    let part = part.unwrap_or_else(|| panic!("docs/CARD.md has nothing under {title}"));
    part.to_string()
}

/// A section, by its number and title.
pub fn section(title: &str) -> String {
    under(&text("docs/CARD.md"), "\n## ", &format!("{title}\n"))
}

/// One of the worked examples.
pub fn example(title: &str) -> String {
    let examples = section("13. Worked examples");
    under(&examples, "\n**", &format!("{title}.**"))
}

/// What README says from some words on and before others.
pub fn readme(from: &str, before: &str) -> String {
    let whole = text("README.md");
    let part = whole
        .split_once(from)
        .and_then(|(_, rest)| rest.split_once(before));
    let (part, _) = part.unwrap_or_else(|| panic!("README.md has nothing from {from} to {before}"));
    part.to_string()
}

/// The part has these words, wherever its lines end.
pub fn says(part: &str, words: &str) {
    let in_a_row: Vec<&str> = part.split_whitespace().collect();
    let said = in_a_row.join(" ").contains(words);
    assert!(
        said,
        "the document should say\n{words}\nand it says\n{part}"
    );
}

/// The part has these lines between its marks for what is to be taken as it stands.
pub fn shows(part: &str, lines: &str) {
    let shown = part.contains(&format!("\n```\n{lines}```\n"));
    assert!(
        shown,
        "the document should show\n{lines}\nand it has\n{part}"
    );
}

pub fn joined<T: ToString>(items: &[T], between: &str) -> String {
    let texts: Vec<String> = items.iter().map(T::to_string).collect();
    texts.join(between)
}

/// "0, 2 and 4"
pub fn listed<T: ToString>(items: &[T]) -> String {
    match items {
        [rest @ .., last] if !rest.is_empty() => {
            format!("{} and {}", joined(rest, ", "), last.to_string())
        }
        _ => joined(items, ""),
    }
}

/// "8,192"
pub fn grouped(number: impl ToString) -> String {
    let mut text = number.to_string();
    let mut at = text.len();
    while at > 3 && text.as_bytes()[at - 4].is_ascii_digit() {
        at -= 3;
        text.insert(at, ',');
    }
    text
}

/// "5 + 1", and "0 - 1" where the second is below 0.
pub fn sum(first: i64, second: i64) -> String {
    let sign = if second < 0 { '-' } else { '+' };
    format!("{first} {sign} {}", second.abs())
}

/// "-1 is 11, 2 is 110, 5 is 101"
pub fn digits(coefficients: &[i64]) -> String {
    let said = |&q: &i64| format!("{q} is {}", highest_first(q));
    joined(&coefficients.iter().map(said).collect::<Vec<_>>(), ", ")
}
