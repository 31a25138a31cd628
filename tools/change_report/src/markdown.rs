//! Tables, lists and numbers in Markdown.

/// How wide lines of text are.
const WIDTH: usize = 130;

/// Which way the cells of a column are set.
#[derive(Clone, Copy)]
pub enum Set {
    Left,
    Right,
}

/// A table with a paragraph's space after it, or nothing where it has no rows.
pub fn table(columns: &[(&str, Set)], rows: &[Vec<String>]) -> String {
    if rows.is_empty() {
        return String::new();
    }
    let titles = columns.iter().map(|(title, _)| title.to_string());
    let rules = columns.iter().map(|(_, set)| match set {
        Set::Left => "---".to_string(),
        Set::Right => "--:".to_string(),
    });
    let mut text = row(titles) + &format!("|{}|\n", rules.collect::<Vec<_>>().join("|"));
    for cells in rows {
        text += &row(cells.iter().cloned());
    }
    text + "\n"
}

fn row(cells: impl Iterator<Item = String>) -> String {
    let cells: Vec<String> = cells.map(|cell| cell.replace('|', "\\|")).collect();
    format!("| {} |\n", cells.join(" | "))
}

/// A name as it stands in a file.
pub fn quoted(name: &str) -> String {
    format!("`{name}`")
}

/// Names, quoted, with commas.
pub fn names<Name: AsRef<str>>(names: &[Name]) -> String {
    let names: Vec<String> = names.iter().map(|name| quoted(name.as_ref())).collect();
    names.join(", ")
}

/// Names under headings, in an entry for each heading.
pub fn listed<'a>(named: impl Iterator<Item = (String, &'a str)>) -> Vec<String> {
    let mut found: Vec<(String, Vec<&str>)> = Vec::new();
    for (heading, name) in named {
        match found.last_mut() {
            Some((last, listed)) if *last == heading => listed.push(name),
            _ => found.push((heading, vec![name])),
        }
    }
    let entry = |(heading, listed): &(String, Vec<&str>)| format!("{heading}: {}", names(listed));
    found.iter().map(entry).collect()
}

/// A text broken into lines, those after the first set in.
pub fn wrapped(text: &str, set_in: &str) -> String {
    let mut lines = String::new();
    let mut width = 0;
    for word in text.split(' ') {
        let length = word.chars().count();
        if width > 0 && width + 1 + length > WIDTH {
            lines += &format!("\n{set_in}");
            width = set_in.len();
        } else if width > 0 {
            lines.push(' ');
            width += 1;
        }
        lines += word;
        width += length;
    }
    lines + "\n"
}

pub fn list(entries: &[String]) -> String {
    let entry = |entry: &String| wrapped(&format!("- {entry}"), "  ");
    entries.iter().map(entry).collect()
}

/// A list that is shown when it is opened, or nothing where it has no entries.
pub fn details(title: &str, entries: &[String]) -> String {
    if entries.is_empty() {
        return String::new();
    }
    let list = list(entries);
    format!("<details><summary>{title}</summary>\n\n{list}\n</details>\n\n")
}

/// A number with commas between thousands.
pub fn number(n: usize) -> String {
    match n {
        0..1000 => n.to_string(),
        _ => format!("{},{:03}", number(n / 1000), n % 1000),
    }
}

/// A number before and after: one number where it is the same.
pub fn from_to(before: usize, after: usize) -> String {
    if before == after {
        return number(after);
    }
    format!("{} → {}", number(before), number(after))
}

#[cfg(test)]
mod tests {
    use super::*;

    #[test]
    fn tables_keep_their_columns() {
        let columns = [("name", Set::Left), ("lines", Set::Right)];
        let rows = [vec![quoted("_||_"), "2".to_string()]];
        assert_eq!(
            table(&columns, &rows),
            "| name | lines |\n|---|--:|\n| `_\\|\\|_` | 2 |\n\n"
        );
        assert_eq!(table(&columns, &[]), "");
    }

    #[test]
    fn long_texts_are_broken() {
        let text = wrapped(&"λλλλλλλλλ ".repeat(20), "  ");
        let lines: Vec<&str> = text.lines().collect();
        assert_eq!(lines[0].chars().count(), 129);
        assert!(lines[1].starts_with("  λ"));
        assert_eq!(lines.len(), 2);
        assert_eq!(wrapped("a b", "  "), "a b\n");
    }

    #[test]
    fn names_stand_under_their_headings() {
        let named = [("a", "x"), ("a", "y"), ("b", "z")];
        let found = listed(
            named
                .iter()
                .map(|(heading, name)| (heading.to_string(), *name)),
        );
        assert_eq!(found, ["a: `x`, `y`", "b: `z`"]);
        assert_eq!(
            details("All", &found),
            "<details><summary>All</summary>\n\n- a: `x`, `y`\n- b: `z`\n\n</details>\n\n"
        );
        assert_eq!(details("All", &[]), "");
    }

    #[test]
    fn numbers_have_commas() {
        let found: Vec<String> = [0, 999, 1000, 15992, 1204007].map(number).to_vec();
        assert_eq!(found, ["0", "999", "1,000", "15,992", "1,204,007"]);
        assert_eq!(from_to(3, 1000), "3 → 1,000");
        assert_eq!(from_to(3, 3), "3");
    }
}
