//! A small checker of well-formed XML without comments, sections and
//! document types: what `draw` may write.

pub struct Element {
    pub name: String,
    pub attributes: Vec<(String, String)>,
    /// The place, among all, of the element that it stands in.
    pub parent: Option<usize>,
    /// The words of the `class` attributes of the elements around it.
    pub within: Vec<String>,
    /// The text before its first child, as written.
    pub text: String,
}

impl Element {
    pub fn attribute(&self, name: &str) -> Option<&str> {
        let found = self.attributes.iter().find(|(own, _)| own == name);
        found.map(|(_, value)| value.as_str())
    }

    pub fn is(&self, class: &str) -> bool {
        self.attribute("class") == Some(class)
    }

    pub fn is_within(&self, class: &str) -> bool {
        self.within.iter().any(|within| within == class)
    }

    pub fn number(&self, name: &str) -> f64 {
        let text = self.attribute(name).expect(name);
        text.parse().expect("a number")
    }
}

/// The elements, in the order of their start tags, or what is wrong.
pub fn elements(text: &str) -> Result<Vec<Element>, String> {
    if let Some(bad) = text.chars().find(|character| {
        matches!(character, '\0'..='\x08' | '\x0b' | '\x0c' | '\x0e'..='\x1f' | '\u{fffe}' | '\u{ffff}')
    }) {
        return Err(format!("a character that XML has not: {bad:?}"));
    }
    let mut rest = text;
    if let Some(declared) = rest.strip_prefix("<?xml ") {
        rest = declared
            .split_once("?>")
            .ok_or("the declaration does not end")?
            .1;
    }
    let mut all: Vec<Element> = Vec::new();
    let mut open: Vec<usize> = Vec::new();
    loop {
        let (data, tag) = match rest.find('<') {
            Some(at) => (&rest[..at], Some(&rest[at + 1..])),
            None => (rest, None),
        };
        references(data)?;
        match open.last() {
            None if !data.trim().is_empty() => return Err(format!("text outside: {data:?}")),
            Some(last) if *last + 1 == all.len() => all[*last].text.push_str(data),
            _ => (),
        }
        let Some(tag) = tag else { break };
        if let Some(end) = tag.strip_prefix('/') {
            let (name, after) = end.split_once('>').ok_or("an end tag does not end")?;
            let last = open
                .pop()
                .ok_or_else(|| format!("</{name}> ends nothing"))?;
            if all[last].name != name.trim_end() {
                return Err(format!("</{name}> ends <{}>", all[last].name));
            }
            rest = after;
        } else {
            if open.is_empty() && !all.is_empty() {
                return Err("a second root".to_string());
            }
            let within = open
                .iter()
                .flat_map(|at| all[*at].attribute("class").unwrap_or("").split(' '));
            let within = within
                .filter(|word| !word.is_empty())
                .map(str::to_string)
                .collect();
            let (name, attributes, empty, after) = start_tag(tag)?;
            all.push(Element {
                name,
                attributes,
                parent: open.last().copied(),
                within,
                text: String::new(),
            });
            if !empty {
                open.push(all.len() - 1);
            }
            rest = after;
        }
    }
    match (open.last(), all.is_empty()) {
        (Some(last), _) => Err(format!("<{}> does not end", all[*last].name)),
        (None, true) => Err("no element".to_string()),
        (None, false) => Ok(all),
    }
}

/// A name at the front, and what follows.
fn name(text: &str) -> Result<(&str, &str), String> {
    let end = text
        .find(|c: char| !(c.is_alphanumeric() || "-_:.".contains(c)))
        .unwrap_or(text.len());
    match text.chars().next() {
        Some(first) if first.is_alphabetic() || first == '_' => Ok(text.split_at(end)),
        _ => Err(format!(
            "no name: {:?}",
            text.chars().take(20).collect::<String>()
        )),
    }
}

type Tag<'a> = (String, Vec<(String, String)>, bool, &'a str);

/// A start tag behind its `<`: name, attributes, whether it is empty, and what
/// follows.
fn start_tag(text: &str) -> Result<Tag<'_>, String> {
    let (own, mut rest) = name(text)?;
    let mut attributes: Vec<(String, String)> = Vec::new();
    loop {
        let trimmed = rest.trim_start();
        if let Some(after) = trimmed.strip_prefix("/>") {
            return Ok((own.to_string(), attributes, true, after));
        }
        if let Some(after) = trimmed.strip_prefix('>') {
            return Ok((own.to_string(), attributes, false, after));
        }
        if trimmed.len() == rest.len() {
            return Err(format!("no blank before an attribute of <{own}>"));
        }
        let (attribute, after) = name(trimmed)?;
        let after = after
            .strip_prefix("=\"")
            .ok_or_else(|| format!("no value of {attribute}"))?;
        let (value, after) = after
            .split_once('"')
            .ok_or_else(|| format!("no end of {attribute}"))?;
        references(value)?;
        if value.contains('<') {
            return Err(format!("`<` in {attribute}"));
        }
        if attributes.iter().any(|(other, _)| other == attribute) {
            return Err(format!("{attribute} stands twice"));
        }
        attributes.push((attribute.to_string(), value.to_string()));
        rest = after;
    }
}

/// Whether each `&` begins a reference that XML knows.
fn references(text: &str) -> Result<(), String> {
    for part in text.split('&').skip(1) {
        let known = ["lt;", "gt;", "amp;", "quot;", "apos;"]
            .iter()
            .any(|known| part.starts_with(known));
        if !known {
            return Err(format!(
                "`&` begins no reference: {:?}",
                part.chars().take(20).collect::<String>()
            ));
        }
    }
    Ok(())
}
