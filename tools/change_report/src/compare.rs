//! What became of each item of a commit in another one.

use std::collections::HashMap;

/// A definition, a contract, a type or a constant.
#[derive(Debug, Default)]
pub struct Item {
    pub krate: String,
    pub file: String,
    pub name: String,
    /// What makes it what it is, by name: it is changed where one of these is.
    pub parts: Vec<(&'static str, String)>,
    /// What may change while it counts as left alone: the comment of a
    /// definition, the body of a function.
    pub aside: String,
    /// Its size: the lines of a definition, the clauses of a contract.
    pub size: usize,
}

impl Item {
    fn key(&self) -> (&str, &str, &str) {
        (&self.krate, &self.file, &self.name)
    }

    /// Its name without those of what it stands in.
    fn own_name(&self) -> &str {
        self.name.rsplit("::").next().unwrap_or(&self.name)
    }

    /// Whether another item is this one at another place. A contract that says
    /// nothing, as `main`'s, tells no function from another: the body must.
    fn is_moved_to(&self, other: &Item) -> bool {
        self.own_name() == other.own_name()
            && self.parts == other.parts
            && (self.size > 0 || self.aside == other.aside)
    }

    /// The names of the parts that differ.
    pub fn changed_parts(&self, other: &Item) -> Vec<&'static str> {
        let pairs = self.parts.iter().zip(&other.parts);
        pairs
            .filter(|(before, after)| before != after)
            .map(|(before, _)| before.0)
            .collect()
    }
}

/// An item before and after.
pub type Pair<'a> = (&'a Item, &'a Item);

#[derive(Debug, Default)]
pub struct Comparison<'a> {
    pub added: Vec<&'a Item>,
    pub changed: Vec<Pair<'a>>,
    /// Those that stand in another file or crate, and did not change.
    pub moved: Vec<Pair<'a>>,
    pub removed: Vec<&'a Item>,
    pub left_alone: Vec<Pair<'a>>,
}

/// Compares the items of two commits, each in the order of its commit.
pub fn compare<'a>(before: &'a [Item], after: &'a [Item]) -> Comparison<'a> {
    let mut old: HashMap<_, &Item> = before.iter().map(|item| (item.key(), item)).collect();
    let mut found = Comparison::default();
    for new in after {
        match old.remove(&new.key()) {
            None => found.added.push(new),
            Some(old) if old.parts == new.parts => found.left_alone.push((old, new)),
            Some(old) => found.changed.push((old, new)),
        }
    }
    let is_gone = |item: &&Item| old.contains_key(&item.key());
    found.removed = before.iter().filter(is_gone).collect();
    found.find_moved();
    found
}

impl<'a> Comparison<'a> {
    /// Takes out of what is added and removed what only moved.
    fn find_moved(&mut self) {
        for new in std::mem::take(&mut self.added) {
            let old = self.removed.iter().position(|old| old.is_moved_to(new));
            match old {
                Some(place) => self.moved.push((self.removed.remove(place), new)),
                None => self.added.push(new),
            }
        }
    }

    /// Of the items left alone or moved, those whose aside is another one.
    pub fn changed_aside(&self) -> Vec<&'a Item> {
        let alone = self.left_alone.iter().chain(&self.moved);
        alone
            .filter(|(old, new)| old.aside != new.aside)
            .map(|(_, new)| *new)
            .collect()
    }
}

#[cfg(test)]
mod tests {
    use super::*;

    fn item(krate: &str, file: &str, name: &str, text: &str, aside: &str) -> Item {
        Item {
            krate: krate.to_string(),
            file: file.to_string(),
            name: name.to_string(),
            parts: vec![("text", text.to_string())],
            aside: aside.to_string(),
            size: 1,
        }
    }

    fn names<'a>(items: impl IntoIterator<Item = &'a &'a Item>) -> Vec<&'a str> {
        items.into_iter().map(|item| item.name.as_str()).collect()
    }

    #[test]
    fn tells_what_became_of_each() {
        let before = [
            item("a", "F", "same", "1", "old words"),
            item("a", "F", "other", "1", ""),
            item("a", "F", "gone", "1", ""),
            item("a", "F", "moves", "1", ""),
            item("a", "F", "rewritten", "1", ""),
        ];
        let after = [
            item("a", "F", "same", "1", "new words"),
            item("a", "F", "other", "2", ""),
            item("a", "F", "fresh", "1", ""),
            item("b", "G", "moves", "1", ""),
            item("b", "G", "rewritten", "2", ""),
        ];
        let found = compare(&before, &after);
        assert_eq!(names(&found.added), ["fresh", "rewritten"]);
        assert_eq!(names(&found.removed), ["gone", "rewritten"]);
        assert_eq!(found.changed.len(), 1);
        assert_eq!(found.changed[0].1.name, "other");
        assert_eq!(found.moved.len(), 1);
        assert_eq!(
            (
                found.moved[0].0.krate.as_str(),
                found.moved[0].1.krate.as_str()
            ),
            ("a", "b")
        );
        assert_eq!(found.left_alone.len(), 1);
        assert_eq!(names(&found.changed_aside()), ["same"]);
    }

    #[test]
    fn one_removed_item_explains_one_that_moved() {
        let before = [item("a", "F", "x", "1", "")];
        let after = [
            item("b", "F", "x", "1", ""),
            item("c", "F", "m::x", "1", ""),
        ];
        let found = compare(&before, &after);
        assert_eq!(found.moved.len(), 1);
        assert_eq!(found.moved[0].1.krate, "b");
        assert_eq!(names(&found.added), ["m::x"]);
        let found = compare(&before, &after[1..]);
        assert_eq!(found.moved.len(), 1);
    }

    #[test]
    fn a_contract_that_says_nothing_moves_with_its_body() {
        let main = |krate: &str, body: &str| Item {
            size: 0,
            ..item(krate, "main.rt", "main", "fn main ( )", body)
        };
        let before = [main("a", "{ 1 }")];
        assert_eq!(compare(&before, &[main("b", "{ 1 }")]).moved.len(), 1);
        assert_eq!(compare(&before, &[main("b", "{ 2 }")]).moved.len(), 0);
    }
}
