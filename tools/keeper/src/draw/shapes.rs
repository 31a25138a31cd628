//! Points, free room, text and marks of a drawing.

use std::collections::BTreeMap;
use std::fmt::Write;

pub const INK: &str = "#000000";
pub const FAINT: &str = "#6e6e6e";
/// The radius of a checkpoint.
pub const DOT: f64 = 5.0;
/// Characters of the sans-serif fonts are narrower than this share of their
/// size, on average.
const CHARACTER: f64 = 0.58;

/// A point of the drawing, down and to the right.
#[derive(Clone, Copy, Debug, PartialEq)]
pub struct Point {
    pub x: f64,
    pub y: f64,
}

impl Point {
    pub fn moved(self, x: f64, y: f64) -> Point {
        Point {
            x: self.x + x,
            y: self.y + y,
        }
    }
}

#[derive(Clone, Copy)]
pub struct Box2 {
    pub left: f64,
    pub top: f64,
    pub right: f64,
    pub bottom: f64,
}

impl Box2 {
    pub fn around(centre: Point, half: f64) -> Box2 {
        Box2 {
            left: centre.x - half,
            top: centre.y - half,
            right: centre.x + half,
            bottom: centre.y + half,
        }
    }

    fn is_within(&self, other: &Box2) -> bool {
        other.left <= self.left
            && self.right <= other.right
            && other.top <= self.top
            && self.bottom <= other.bottom
    }

    fn meets(&self, other: &Box2) -> bool {
        self.left < other.right
            && other.left < self.right
            && self.top < other.bottom
            && other.top < self.bottom
    }

    /// Whether a straight line between two points goes through the box.
    fn meets_line(&self, from: Point, to: Point) -> bool {
        let (mut enter, mut leave) = (0.0_f64, 1.0_f64);
        for (start, way, low, high) in [
            (from.x, to.x - from.x, self.left, self.right),
            (from.y, to.y - from.y, self.top, self.bottom),
        ] {
            if way == 0.0 {
                if start <= low || start >= high {
                    return false;
                }
            } else {
                let (one, other) = ((low - start) / way, (high - start) / way);
                enter = enter.max(one.min(other));
                leave = leave.min(one.max(other));
            }
        }
        enter < leave
    }
}

/// What is drawn already, by squares of the drawing, for finding free places.
pub struct Space {
    /// Beyond it no place is free.
    bounds: Box2,
    lines: BTreeMap<(i64, i64), Vec<(Point, Point)>>,
    boxes: BTreeMap<(i64, i64), Vec<Box2>>,
}

const SQUARE: f64 = 64.0;

fn squares(own: &Box2) -> impl Iterator<Item = (i64, i64)> {
    let index = |place: f64| (place / SQUARE).floor() as i64;
    let (top, bottom) = (index(own.top), index(own.bottom));
    (index(own.left)..=index(own.right)).flat_map(move |x| (top..=bottom).map(move |y| (x, y)))
}

impl Space {
    pub fn new(width: f64, height: f64) -> Space {
        Space {
            bounds: Box2 {
                left: 0.0,
                top: 0.0,
                right: width,
                bottom: height,
            },
            lines: BTreeMap::new(),
            boxes: BTreeMap::new(),
        }
    }

    pub fn add_line(&mut self, from: Point, to: Point) {
        // Square by square across, so that a long line takes few squares.
        let (from, to) = if from.x <= to.x {
            (from, to)
        } else {
            (to, from)
        };
        let pieces = ((to.x - from.x) / SQUARE).ceil().max(1.0);
        let at = |part: f64| Point {
            x: from.x + (to.x - from.x) * part,
            y: from.y + (to.y - from.y) * part,
        };
        for piece in 0..pieces as usize {
            let (one, other) = (at(piece as f64 / pieces), at((piece + 1) as f64 / pieces));
            let own = Box2 {
                left: one.x,
                right: other.x,
                top: one.y.min(other.y),
                bottom: one.y.max(other.y),
            };
            for square in squares(&own) {
                self.lines.entry(square).or_default().push((one, other));
            }
        }
    }

    pub fn add_lines(&mut self, corners: &[Point]) {
        for part in corners.windows(2) {
            self.add_line(part[0], part[1]);
        }
    }

    /// Both sides of a way along the corners.
    pub fn add_way(&mut self, corners: &[Point]) {
        for part in corners.windows(2) {
            let (from, to) = (part[0], part[1]);
            let length = (to.x - from.x).hypot(to.y - from.y);
            if length > 0.0 {
                let (x, y) = (
                    WAY * (to.y - from.y) / length,
                    WAY * (from.x - to.x) / length,
                );
                self.add_line(from.moved(x, y), to.moved(x, y));
                self.add_line(from.moved(-x, -y), to.moved(-x, -y));
            }
        }
    }

    pub fn add_box(&mut self, own: Box2) {
        for square in squares(&own) {
            self.boxes.entry(square).or_default().push(own);
        }
    }

    fn is_free_of_lines(&self, own: &Box2) -> bool {
        squares(own).all(|square| {
            let lines = self.lines.get(&square).map_or(&[][..], Vec::as_slice);
            !lines.iter().any(|(from, to)| own.meets_line(*from, *to))
        })
    }

    fn is_free_of_boxes(&self, own: &Box2) -> bool {
        let free = squares(own).all(|square| {
            let boxes = self.boxes.get(&square).map_or(&[][..], Vec::as_slice);
            !boxes.iter().any(|other| own.meets(other))
        });
        free && own.is_within(&self.bounds)
    }
}

/// A number with at most one decimal.
pub fn short(number: f64) -> String {
    let text = format!("{number:.1}");
    let text = text.strip_suffix(".0").unwrap_or(&text);
    if text == "-0" { "0" } else { text }.to_string()
}

pub fn points(corners: &[Point]) -> String {
    let all: Vec<String> = corners
        .iter()
        .map(|corner| format!("{},{}", short(corner.x), short(corner.y)))
        .collect();
    all.join(" ")
}

/// Text as it may stand in XML.
pub fn escape(text: &str) -> String {
    let mut escaped = String::new();
    for character in text.chars() {
        match character {
            '&' => escaped.push_str("&amp;"),
            '<' => escaped.push_str("&lt;"),
            '>' => escaped.push_str("&gt;"),
            '"' => escaped.push_str("&quot;"),
            '\t' | '\n' | '\r' => escaped.push(' '),
            // XML has no other control characters and neither of these two.
            '\0'..='\x1f' | '\u{fffe}' | '\u{ffff}' => escaped.push('\u{fffd}'),
            other => escaped.push(other),
        }
    }
    escaped
}

pub fn width_of(text: &str, size: f64) -> f64 {
    text.chars().map(share).sum::<f64>() * size
}

/// The width of a character, as a share of the size.
fn share(character: char) -> f64 {
    if character.is_ascii() {
        CHARACTER
    } else {
        1.0
    }
}

/// Text in lines no wider than that; a longer word is cut.
pub fn wrap(text: &str, size: f64, width: f64) -> Vec<String> {
    let mut lines = vec![String::new()];
    for word in text.split_whitespace() {
        let line = lines.last_mut().expect("one");
        if !line.is_empty()
            && width_of(line, size) + width_of(word, size) + size * CHARACTER > width
        {
            lines.push(String::new());
        } else if !line.is_empty() {
            line.push(' ');
        }
        for character in word.chars() {
            let line = lines.last_mut().expect("one");
            if !line.is_empty() && width_of(line, size) + share(character) * size > width + 0.1 {
                lines.push(String::new());
            }
            lines.last_mut().expect("one").push(character);
        }
    }
    lines
}

/// The room that a text takes with its centre there.
fn room(text: &str, size: f64, centre: Point) -> Box2 {
    let half = width_of(text, size) / 2.0 + 2.0;
    Box2 {
        left: centre.x - half,
        right: centre.x + half,
        top: centre.y - size * 0.42,
        bottom: centre.y + size * 0.42,
    }
}

/// Writes a text with its centre at the first place where nothing is; whether
/// there is one.
pub fn label(
    svg: &mut String,
    space: &mut Space,
    text: &str,
    size: f64,
    places: impl IntoIterator<Item = Point>,
) -> bool {
    let free = |place: &Point| {
        let own = room(text, size, *place);
        space.is_free_of_boxes(&own) && space.is_free_of_lines(&own)
    };
    match places.into_iter().find(free) {
        Some(place) => {
            space.add_box(room(text, size, place));
            write_label(svg, text, size, place);
            true
        }
        None => false,
    }
}

/// Writes a text with its centre at the first place that has no mark and no
/// other text, or else at the first; on white, over the lines there.
pub fn label_over_lines(
    svg: &mut String,
    space: &mut Space,
    text: &str,
    size: f64,
    places: &[Point],
) {
    let free = |place: &&Point| space.is_free_of_boxes(&room(text, size, **place));
    let place = *places.iter().find(free).unwrap_or(&places[0]);
    let own = room(text, size, place);
    space.add_box(own);
    let (x, y) = (short(own.left), short(own.top));
    let (wide, high) = (short(own.right - own.left), short(own.bottom - own.top));
    let _ = writeln!(
        svg,
        "<rect x=\"{x}\" y=\"{y}\" width=\"{wide}\" height=\"{high}\" fill=\"#ffffff\" fill-opacity=\"0.8\"/>"
    );
    write_label(svg, text, size, place);
}

/// Text with its centre there.
pub fn write_label(svg: &mut String, text: &str, size: f64, centre: Point) {
    let _ = writeln!(
        svg,
        "<text x=\"{}\" y=\"{}\">{text}</text>",
        short(centre.x),
        short(centre.y + size * 0.36)
    );
}

/// A title that a browser shows of the element around it.
fn titled(title: &str) -> String {
    match title {
        "" => String::new(),
        title => format!("<title>{}</title>", escape(title)),
    }
}

/// How an arrow is drawn.
pub struct Style {
    pub class: &'static str,
    pub colour: &'static str,
    pub width: f64,
    pub dashes: &'static str,
    head: f64,
    shape: Head,
}

/// The head of an arrow.
#[derive(Clone, Copy, PartialEq)]
enum Head {
    /// Of the arrow's colour.
    Filled,
    /// White within.
    Hollow,
    /// Two strokes.
    Open,
}

pub const PLAIN: Style = Style {
    class: "plain",
    colour: FAINT,
    width: 1.1,
    dashes: "",
    head: 8.0,
    shape: Head::Filled,
};
pub const KEPT: Style = Style {
    class: "kept",
    colour: INK,
    width: 2.4,
    dashes: "",
    head: 11.0,
    shape: Head::Filled,
};
/// Received and not saved yet: as the two above, with a head that is hollow as
/// the square is.
pub const UNSAVED: Style = Style {
    class: "unsaved",
    head: 10.0,
    shape: Head::Hollow,
    ..PLAIN
};
pub const UNSAVED_KEPT: Style = Style {
    class: "unsaved-kept",
    head: 12.0,
    shape: Head::Hollow,
    ..KEPT
};
pub const WAITING: Style = Style {
    class: "waiting",
    colour: INK,
    width: 2.0,
    dashes: "6 4",
    head: 10.0,
    shape: Head::Open,
};

/// Where an arrow is cut: the rest of it is not drawn.
#[derive(Clone, Copy, PartialEq)]
pub enum Cut {
    Nowhere,
    AtTail,
    AtTip,
}

/// An arrow along the corners, its tip at the last, with a ring where it is
/// cut.
pub fn arrow(svg: &mut String, style: &Style, corners: &[Point], cut: Cut, title: &str) {
    let tip = corners[corners.len() - 1];
    let before = corners[corners.len() - 2];
    let length = (tip.x - before.x).hypot(tip.y - before.y);
    let (along_x, along_y) = ((tip.x - before.x) / length, (tip.y - before.y) / length);
    let back = |along: f64, aside: f64| {
        tip.moved(
            -along * along_x - aside * along_y,
            -along * along_y + aside * along_x,
        )
    };
    let half = style.head * 0.36;
    let mut shaft = corners.to_vec();
    if style.shape != Head::Open {
        *shaft.last_mut().expect("two") = back(style.head * 0.8, 0.0);
    }
    let (one, other) = (back(style.head, half), back(style.head, -half));
    let _ = write!(svg, "<g class=\"message\">{}", titled(title));
    if !title.is_empty() {
        // What cannot be seen makes a thin line wide enough to point at.
        let _ = write!(
            svg,
            "<polyline class=\"touch\" points=\"{}\" stroke-width=\"9\" stroke-opacity=\"0\" stroke-dasharray=\"none\"/>",
            points(corners)
        );
    }
    let _ = write!(
        svg,
        "<polyline class=\"shaft\" points=\"{}\"/>",
        points(&shaft)
    );
    let _ = match style.shape {
        Head::Open => write!(
            svg,
            "<polyline class=\"head\" points=\"{}\" stroke-dasharray=\"none\"/>",
            points(&[one, tip, other])
        ),
        Head::Hollow => write!(
            svg,
            "<polygon class=\"head\" points=\"{}\" fill=\"#ffffff\" stroke-width=\"1.2\"/>",
            points(&[tip, one, other])
        ),
        Head::Filled => write!(
            svg,
            "<polygon class=\"head\" points=\"{}\" fill=\"{}\" stroke=\"none\"/>",
            points(&[tip, one, other]),
            style.colour
        ),
    };
    let end = match cut {
        Cut::Nowhere => None,
        Cut::AtTail => Some(corners[0]),
        Cut::AtTip => Some(tip.moved(3.4 * along_x, 3.4 * along_y)),
    };
    if let Some(end) = end {
        let _ = write!(
            svg,
            "<circle class=\"cut\" cx=\"{}\" cy=\"{}\" r=\"{CUT}\" fill=\"#ffffff\" stroke-width=\"1.2\" stroke-dasharray=\"none\"/>",
            short(end.x),
            short(end.y)
        );
    }
    let _ = writeln!(svg, "</g>");
}

/// The radius of the ring where an arrow is cut.
const CUT: f64 = 2.8;

/// Opens a group of arrows, of that class and the style's own.
pub fn open_arrows(svg: &mut String, class: &str, style: &Style) {
    let dashes = match style.dashes {
        "" => String::new(),
        dashes => format!(" stroke-dasharray=\"{dashes}\""),
    };
    let _ = writeln!(
        svg,
        "<g class=\"{class} {}\" fill=\"none\" stroke=\"{}\" stroke-width=\"{}\" stroke-linejoin=\"round\"{dashes}>",
        style.class, style.colour, style.width
    );
}

pub fn polyline(svg: &mut String, class: &str, paint: &str, corners: &[Point], title: &str) {
    let _ = writeln!(
        svg,
        "<polyline class=\"{class}\" fill=\"none\" {paint} stroke-linejoin=\"round\" points=\"{}\">{}</polyline>",
        points(corners),
        titled(title)
    );
}

pub fn dot(svg: &mut String, at: Point, kept: bool, title: &str) {
    let fill = if kept { INK } else { "#ffffff" };
    let class = if kept { "kept" } else { "other" };
    let _ = writeln!(
        svg,
        "<circle class=\"{class}\" cx=\"{}\" cy=\"{}\" r=\"{DOT}\" fill=\"{fill}\">{}</circle>",
        short(at.x),
        short(at.y),
        titled(title)
    );
}

pub fn virtual_dot(svg: &mut String, at: Point, title: &str) {
    let (x, y) = (short(at.x - DOT), short(at.y - DOT));
    let size = 2.0 * DOT;
    let _ = writeln!(
        svg,
        "<rect class=\"virtual\" x=\"{x}\" y=\"{y}\" width=\"{size}\" height=\"{size}\" fill=\"#ffffff\">{}</rect>",
        titled(title)
    );
}

/// The radius of the ring around a named checkpoint.
pub const RING: f64 = 9.5;

/// A ring around a checkpoint.
pub fn ring(svg: &mut String, at: Point, title: &str) {
    let _ = writeln!(
        svg,
        "<circle class=\"named\" cx=\"{}\" cy=\"{}\" r=\"{RING}\">{}</circle>",
        short(at.x),
        short(at.y),
        titled(title)
    );
}

/// How far each side of a way is from its middle.
pub const WAY: f64 = 5.0;

/// A way along each of these pieces, as maps have them: two thin sides and white
/// between.
pub fn way(svg: &mut String, colour: &str, pieces: &[Vec<Point>], title: &str) {
    let _ = writeln!(
        svg,
        "<g class=\"way\" fill=\"none\" stroke-linejoin=\"round\" stroke-linecap=\"round\">{}",
        titled(title)
    );
    let (sides, between) = (2.0 * WAY + 1.6, 2.0 * WAY - 1.6);
    for (class, colour, width) in [("sides", colour, sides), ("between", "#ffffff", between)] {
        for piece in pieces {
            let _ = writeln!(
                svg,
                "<polyline class=\"{class}\" stroke=\"{colour}\" stroke-width=\"{}\" points=\"{}\"/>",
                short(width),
                points(piece)
            );
        }
    }
    let _ = writeln!(svg, "</g>");
}

/// How far a bracket reaches from the middle of its checkpoint: to the right,
/// up and down.
pub const BRACKET: f64 = 10.0;

/// A bracket that closes to the right, around a checkpoint.
pub fn bracket(svg: &mut String, at: Point, title: &str) {
    let corners = [
        at.moved(DOT - 1.0, -BRACKET),
        at.moved(BRACKET, -BRACKET),
        at.moved(BRACKET, BRACKET),
        at.moved(DOT - 1.0, BRACKET),
    ];
    let _ = writeln!(
        svg,
        "<polyline class=\"ceiling\" points=\"{}\">{}</polyline>",
        points(&corners),
        titled(title)
    );
}
