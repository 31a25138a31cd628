//! A run as a space-time diagram in SVG.

mod legend;
mod shapes;

use std::fmt::{self, Write};

use keeper::Checkpoint;

use crate::layout::{self, Arrow, Layout, Place, Scale};
use crate::run::{BadChoice, Choice, Message, Run, View};
use legend::Legend;
pub use shapes::escape;
use shapes::{
    arrow, bracket, dot, label, label_over_lines, open_arrows, polyline, ring, short, virtual_dot,
    way, width_of, wrap, Box2, Cut, Point, Space, Style, BRACKET, DOT, FAINT, INK, KEPT, PLAIN,
    RING, UNSAVED, UNSAVED_KEPT, WAITING, WAY,
};

const LEFT: f64 = 104.0;
const RIGHT: f64 = 40.0;
/// Room to the left for what is left out at the beginning of lifelines.
const LEAD: f64 = 48.0;
/// A narrower picture has no room for its legend.
const NARROWEST: f64 = 664.0;
/// In a wider picture the names of the processes stand at the right too.
const WIDE: f64 = 1_400.0;
/// Many renderers stop at a picture of more pixels, across or down.
pub const MOST_PIXELS: usize = 32_767;
/// How far lines reach beyond the first and the last process.
const BEYOND: f64 = 26.0;
/// How far before its receiver the arrow of a waiting message ends.
const GAP: f64 = 12.0;
/// How far up or down the arrow of a message goes whose other end is left out.
const STUB: f64 = 18.0;
/// With more messages than this, none has its position beside it.
const MOST_LABELLED: usize = 120;
/// Up to so many lines of holders have an entry each in the legend.
const MOST_HOLD_ENTRIES: usize = 6;

/// The size of the drawing's parts: smaller where there is more to draw.
fn scale(view: &View, timed: bool) -> Scale {
    let most = layout::busiest(view);
    let column: f64 = match most.process {
        0..=12 => 40.0,
        13..=40 => 32.0,
        41..=120 => 26.0,
        121..=400 => 20.0,
        _ => 2.0 * DOT + 4.0,
    };
    let column = match timed {
        true => column,
        // All between two checkpoints stands in one column here.
        false => {
            let columns = layout::numbers(view).len() as f64;
            column.max((14.0 * (most.interval + 1) as f64).min(4_000.0 / columns))
        }
    };
    let row = match view.rows.len() {
        0..=4 => 88.0,
        5..=10 => 68.0,
        11..=20 => 56.0,
        _ => 48.0,
    };
    Scale {
        column,
        row,
        clear: DOT + 4.0,
        gap: GAP,
    }
}

fn style(message: &Message) -> &'static Style {
    match (message.unsaved, message.kept) {
        _ if message.waiting() => &WAITING,
        (true, true) => &UNSAVED_KEPT,
        (true, false) => &UNSAVED,
        (false, true) => &KEPT,
        (false, false) => &PLAIN,
    }
}

const RECOVERY_PAINT: &str = "stroke=\"#f0a35e\" stroke-width=\"8\" stroke-linecap=\"round\"";

/// Colours and dashes of the lines of holders, one after another.
const HOLD_PAINTS: [(&str, &str); MOST_HOLD_ENTRIES] = [
    ("#0b4fa0", "11 4 2 4"),
    ("#a01a5c", "7 4"),
    ("#1a6e2e", "2 3"),
    ("#5b2d91", "16 4"),
    ("#00707a", "9 3 2 3 2 3"),
    ("#7a4a00", "4 3"),
];

/// How the line of a holder is painted, by its place among so many.
fn hold_paint(place: usize, holders: usize) -> String {
    let (colour, dashes) = HOLD_PAINTS[place % HOLD_PAINTS.len()];
    let width = match holders {
        1 => 2.4,
        2..=MOST_HOLD_ENTRIES => 2.0,
        _ => 1.2,
    };
    format!("stroke=\"{colour}\" stroke-width=\"{width}\" stroke-dasharray=\"{dashes}\"")
}

/// What was asked for: the line under ceilings and its brackets; named checkpoints,
/// and the line that has them or the zigzag path. These lines have no dashes, and no
/// holder's line is without them.
const ASKED_COLOUR: &str = "#b00020";

fn asked_paint() -> String {
    format!("stroke=\"{ASKED_COLOUR}\" stroke-width=\"2.4\"")
}

/// How far to the side a line of a holder runs: side by side where they run
/// together, and all within the width of a dot.
fn hold_lane(place: usize, holders: usize) -> f64 {
    let between = holders.saturating_sub(1) as f64;
    let step = (2.0 * DOT / between.max(1.0)).min(3.0);
    (place as f64 - between / 2.0) * step
}

/// Numbers, rising, with those in a row together: 0-3, 7.
fn ranges(numbers: &[usize]) -> Vec<String> {
    let mut ranges: Vec<(usize, usize)> = Vec::new();
    for number in numbers {
        match ranges.last_mut() {
            Some((_, last)) if *last + 1 == *number => *last = *number,
            _ => ranges.push((*number, *number)),
        }
    }
    let shown = |(first, last): (usize, usize)| match last - first {
        0 => first.to_string(),
        _ => format!("{first}-{last}"),
    };
    ranges.into_iter().map(shown).collect()
}

/// The lines of these holders, in words.
fn lines_of(holders: &[usize]) -> String {
    match holders {
        [one] => format!("the line of process {one} holding"),
        more => format!(
            "the lines of processes {}, each alone holding",
            ranges(more).join(", ")
        ),
    }
}

/// Beside a checkpoint, whose lines stand there, as far as there is room.
fn holders_label(holders: &[usize]) -> String {
    let ranges = ranges(holders);
    match ranges.len() {
        0..=3 => format!("h{}", ranges.join(",")),
        _ => format!("h{},..", ranges[..2].join(",")),
    }
}

/// What a checkpoint is, and why it is kept.
fn checkpoint_title(run: &Run, p: usize, number: usize) -> String {
    match run.kept[p].get(number) {
        None => format!("virtual checkpoint of process {p}, numbered {number}"),
        Some(false) => format!("checkpoint {number} of process {p}, not kept"),
        Some(true) => format!(
            "checkpoint {number} of process {p}, kept: on {}",
            lines_of(&run.held_at(p, number))
        ),
    }
}

/// What a message is, why it is kept, and its place on the zigzag path.
fn message_title(run: &Run, k: usize) -> String {
    let message = &run.messages[k];
    let words = message_words(run, k, message);
    match (message.on_path, run.path()) {
        (Some(place), Some(path)) => {
            let all = path.messages.len();
            format!("{words}; number {} of {all} on the zigzag path", place + 1)
        }
        _ => words,
    }
}

fn message_words(run: &Run, k: usize, message: &Message) -> String {
    let sent = format!(
        "message {k}: from process {} after its checkpoint {}",
        message.from, message.sent
    );
    if message.waiting() {
        return format!("{sent}, waiting for process {}, kept", message.to);
    }
    let kept = match message.kept {
        false => "not kept".to_string(),
        true => format!(
            "kept: sent before and received after {}",
            lines_of(&run.crossed(message))
        ),
    };
    match message.unsaved {
        true => format!(
            "{sent}, to process {}: received, not saved, {kept}",
            message.to
        ),
        false => format!(
            "{sent}, received by process {} before its checkpoint {}, {kept}",
            message.to, message.received
        ),
    }
}

/// Why there is no picture.
#[derive(Debug, PartialEq, Eq)]
pub enum Undrawn {
    Choice(BadChoice),
    /// It would be that wide and high; with so many of the last checkpoints it
    /// could be drawn.
    TooLarge {
        width: usize,
        height: usize,
        last: Option<usize>,
    },
}

impl fmt::Display for Undrawn {
    fn fmt(&self, to: &mut fmt::Formatter<'_>) -> fmt::Result {
        match self {
            Undrawn::Choice(choice) => choice.fmt(to),
            Undrawn::TooLarge {
                width,
                height,
                last,
            } => {
                write!(to, "the picture would be {width} by {height} px, and many renderers stop at {MOST_PIXELS}")?;
                match last {
                    Some(last) => write!(
                        to,
                        ": draw less, with --last {last}, --processes or --kept-only"
                    ),
                    None => write!(
                        to,
                        ": draw less, with --processes, --kept-only or a shorter title"
                    ),
                }
            }
        }
    }
}

/// The diagram of a run: what the choice leaves of it.
pub fn draw(run: &Run, choice: &Choice, title: Option<&str>) -> Result<String, Undrawn> {
    let view = View::of(run, choice).map_err(Undrawn::Choice)?;
    let timed = layout::has_order(run);
    let scale = scale(&view, timed);
    let layout = lay_out(&view, timed, &scale);
    let picture = Picture::new(&view, &layout, &scale, choice, title);
    let (width, height) = (picture.width as usize, picture.height as usize);
    if width.max(height) > MOST_PIXELS {
        let last = fitting(run, choice, timed);
        return Err(Undrawn::TooLarge {
            width,
            height,
            last: last.filter(|_| width > MOST_PIXELS),
        });
    }
    Ok(picture.draw(title))
}

fn lay_out(view: &View, timed: bool, scale: &Scale) -> Layout {
    match timed {
        true => layout::timed(view, scale),
        false => layout::by_number(view, scale),
    }
}

/// How many of the last checkpoints make a picture that is not too wide.
fn fitting(run: &Run, choice: &Choice, timed: bool) -> Option<usize> {
    let fits = |last: usize| {
        let choice = Choice {
            last: Some(last),
            ..choice.clone()
        };
        let view = View::of(run, &choice).expect("chosen before");
        let scale = scale(&view, timed);
        let layout = lay_out(&view, timed, &scale);
        Sizes::of(&view, &layout, &scale).width <= MOST_PIXELS as f64
    };
    let most = run.counts.iter().copied().max().unwrap_or(1);
    let (mut fit, mut too_many) = (0, choice.last.unwrap_or(most).min(most));
    while fit + 1 < too_many {
        let middle = (fit + too_many) / 2;
        match fits(middle) {
            true => fit = middle,
            false => too_many = middle,
        }
    }
    (fit > 0).then_some(fit)
}

/// Across.
struct Sizes {
    /// Where column 0 stands.
    left: f64,
    /// Whether there are names at the right.
    right_names: bool,
    width: f64,
}

impl Sizes {
    fn of(view: &View, layout: &Layout, scale: &Scale) -> Sizes {
        let lead = view.rows.iter().any(|p| view.first[*p] > 0);
        let left = LEFT + if lead { LEAD } else { 0.0 };
        let columns = layout.last * scale.column;
        let right_names = layout.timed && left + columns + RIGHT > WIDE;
        let right = if right_names { LEFT } else { RIGHT };
        Sizes {
            left,
            right_names,
            width: (left + columns + right).max(NARROWEST).ceil(),
        }
    }
}

/// The picture as it grows, and where things are.
struct Picture<'a> {
    run: &'a Run,
    view: &'a View<'a>,
    layout: &'a Layout,
    scale: &'a Scale,
    legend: Legend,
    title_lines: Vec<String>,
    left: f64,
    right_names: bool,
    width: f64,
    height: f64,
    /// The height of the first lifeline.
    top: f64,
    legend_top: f64,
    svg: String,
    space: Space,
}

impl<'a> Picture<'a> {
    fn new(
        view: &'a View<'a>,
        layout: &'a Layout,
        scale: &'a Scale,
        choice: &Choice,
        title: Option<&str>,
    ) -> Picture<'a> {
        let Sizes {
            left,
            right_names,
            width,
        } = Sizes::of(view, layout, scale);
        let legend = Legend::of(view, layout, choice, width);
        let title_lines = match title {
            None => Vec::new(),
            Some(title) => wrap(title, 17.0, width - 48.0),
        };
        // Room for what stands above the first and below the last lifeline.
        let beyond = match layout.arrows.iter().any(Arrow::is_cut) {
            true => BEYOND + STUB,
            false => BEYOND,
        };
        let top = 24.0 + 24.0 * title_lines.len() as f64 + beyond;
        let rows = (view.rows.len() - 1) as f64;
        let legend_top = top + rows * scale.row + beyond + 26.0;
        let height = (legend_top + legend.height()).ceil();
        Picture {
            run: view.run,
            view,
            layout,
            scale,
            legend,
            title_lines,
            left,
            right_names,
            width,
            height,
            top,
            legend_top,
            svg: String::new(),
            space: Space::new(width, legend_top - 18.0),
        }
    }

    fn draw(mut self, title: Option<&str>) -> String {
        self.head(title);
        self.recovery_line();
        self.zigzag_path();
        self.lifelines();
        self.names();
        self.hold_lines();
        self.asked_line();
        // The bold arrows over the thin ones.
        for style in [&PLAIN, &UNSAVED, &KEPT, &UNSAVED_KEPT, &WAITING] {
            self.arrows(style);
        }
        self.dots();
        self.ceilings();
        self.named();
        self.numbers();
        self.holders();
        self.positions();
        self.legend.draw(&mut self.svg, self.legend_top, self.width);
        self.svg.push_str("</svg>\n");
        self.svg
    }

    fn head(&mut self, title: Option<&str>) {
        let svg = &mut self.svg;
        svg.push_str("<?xml version=\"1.0\" encoding=\"UTF-8\"?>\n");
        let (w, h) = (short(self.width), short(self.height));
        let _ = writeln!(
            svg,
            "<svg xmlns=\"http://www.w3.org/2000/svg\" width=\"{w}\" height=\"{h}\" viewBox=\"0 0 {w} {h}\" \
             role=\"img\" font-family=\"sans-serif\" font-size=\"12\" fill=\"{INK}\">"
        );
        let n = self.run.counts.len();
        let named = format!(
            "A run of {n} process{} with {} messages",
            if n == 1 { "" } else { "es" },
            self.run.messages.len()
        );
        let _ = writeln!(svg, "<title>{}</title>", escape(title.unwrap_or(&named)));
        let _ = writeln!(svg, "<rect width=\"{w}\" height=\"{h}\" fill=\"#ffffff\"/>");
        if self.title_lines.is_empty() {
            return;
        }
        let _ = writeln!(
            svg,
            "<g class=\"title\" font-size=\"17\" font-weight=\"bold\">"
        );
        for (place, line) in self.title_lines.iter().enumerate() {
            let _ = writeln!(
                svg,
                "<text x=\"24\" y=\"{}\">{}</text>",
                36 + 24 * place,
                escape(line)
            );
        }
        let _ = writeln!(svg, "</g>");
    }

    fn point(&self, place: Place) -> Point {
        Point {
            x: self.left + place.0 * self.scale.column,
            y: self.top + place.1 * self.scale.row,
        }
    }

    /// Where a checkpoint stands, if it is drawn.
    fn at(&self, one: Checkpoint) -> Option<Point> {
        let row = self.view.row(one.process.into())?;
        let column = self.layout.column(row, one.number.into())?;
        Some(self.point((column, row as f64)))
    }

    /// The row's number and process, from the top.
    fn rows(&self) -> impl Iterator<Item = (usize, usize)> + 'a {
        let view = self.view;
        view.rows.iter().copied().enumerate()
    }

    /// Where a line stands on a row: at its checkpoint, or before the first one
    /// drawn.
    fn on_row(&self, row: usize, number: usize) -> Point {
        match self.layout.column(row, number) {
            Some(column) => self.point((column, row as f64)),
            None => self
                .point((0.0, row as f64))
                .moved(-0.55 * LEAD - 14.0, 0.0),
        }
    }

    /// The corners of a line: through its checkpoints, steep at each, and a
    /// little beyond the first and the last.
    fn line(&self, line: &[usize], bend: f64) -> Vec<Point> {
        let through: Vec<Point> = self
            .rows()
            .map(|(row, p)| self.on_row(row, line[p]))
            .collect();
        let first = through[0];
        let mut corners = vec![first.moved(0.0, -BEYOND), first];
        for pair in through.windows(2) {
            let (one, other) = (pair[0], pair[1]);
            let across = other.x - one.x;
            if across.abs() > 1.5 * self.scale.column {
                let aside = self.scale.column * 0.4 * across.signum();
                corners.push(one.moved(aside, self.scale.row * bend));
                corners.push(other.moved(-aside, -self.scale.row * bend));
            }
            corners.push(other);
        }
        corners.push(through[through.len() - 1].moved(0.0, BEYOND));
        corners
    }

    fn recovery_line(&mut self) {
        let corners = self.line(&self.run.recovery_line, 0.3);
        let title = legend::line_words(self.view, "recovery line", &self.run.recovery_line);
        polyline(
            &mut self.svg,
            "recovery-line",
            RECOVERY_PAINT,
            &corners,
            &title,
        );
        self.space.add_lines(&corners);
    }

    fn hold_lines(&mut self) {
        let holders = self.run.holders.len();
        for (place, holder) in self.run.holders.iter().enumerate() {
            let line = &self.run.hold_lines[*holder];
            let lane = hold_lane(place, holders);
            let corners: Vec<Point> = self
                .line(line, 0.36)
                .into_iter()
                .map(|corner| corner.moved(lane, 0.0))
                .collect();
            let title = legend::line_words(
                self.view,
                &format!("line of process {holder} holding"),
                line,
            );
            let paint = hold_paint(place, holders);
            polyline(&mut self.svg, "hold-line", &paint, &corners, &title);
            self.space.add_lines(&corners);
        }
    }

    /// The line under ceilings, or the one that has the named checkpoints.
    fn asked_line(&mut self) {
        let (class, name, line) = match (&self.run.under, &self.run.stand) {
            (Some(under), _) => {
                let name = legend::under_words(self.view, under);
                ("under-line", name, &under.line)
            }
            (None, Some(stand)) => match self.run.standing_line() {
                Some(line) => ("standing-line", legend::standing_words(stand), line),
                None => return,
            },
            (None, None) => return,
        };
        let corners = self.line(line, 0.36);
        let title = legend::line_words(self.view, &name, line);
        polyline(&mut self.svg, class, &asked_paint(), &corners, &title);
        self.space.add_lines(&corners);
    }

    /// The zigzag path as a way: from its first checkpoint along the lifeline to the
    /// send of its first message, along the arrow, from its receipt to the next send,
    /// forwards or back, and so on to its second checkpoint; but for what is left out.
    fn zigzag_path(&mut self) {
        let Some(path) = self.run.path() else {
            return;
        };
        let mut pieces = vec![Vec::from_iter(self.at(path.from))];
        for position in &path.messages {
            let Some((corners, cut)) = self.arrow((*position).into()) else {
                continue;
            };
            pieces.last_mut().expect("one").extend(corners);
            // Where a receipt is drawn, so is the next send: it is in no earlier
            // interval.
            if cut == Cut::AtTip {
                pieces.push(vec![]);
            }
        }
        pieces.last_mut().expect("one").extend(self.at(path.to));
        pieces.retain(|piece| piece.len() > 1);
        if pieces.is_empty() {
            return;
        }
        let title = format!("zigzag path {}", path.leads());
        way(&mut self.svg, ASKED_COLOUR, &pieces, &title);
        for piece in &pieces {
            self.space.add_way(piece);
        }
    }

    /// A ring around each named checkpoint that is drawn.
    fn named(&mut self) {
        let Some(stand) = &self.run.stand else {
            return;
        };
        let _ = writeln!(
            self.svg,
            "<g class=\"names\" fill=\"none\" stroke=\"{ASKED_COLOUR}\" stroke-width=\"2\">"
        );
        for one in &stand.named {
            if let Some(at) = self.at(*one) {
                let title = format!(
                    "named: checkpoint {} of process {}",
                    one.number, one.process
                );
                ring(&mut self.svg, at, &title);
                self.space.add_box(Box2::around(at, RING + 1.0));
            }
        }
        let _ = writeln!(self.svg, "</g>");
    }

    /// A bracket at each ceiling that is drawn, right of its checkpoint. The
    /// count is none: nothing stands above it.
    fn ceilings(&mut self) {
        let Some(under) = &self.run.under else {
            return;
        };
        let _ = writeln!(
            self.svg,
            "<g class=\"ceilings\" fill=\"none\" stroke=\"{ASKED_COLOUR}\" stroke-width=\"2\">"
        );
        for (row, p) in self.rows() {
            let ceiling = under.ceilings[p];
            if ceiling == self.run.counts[p] {
                continue;
            }
            if let Some(column) = self.layout.column(row, ceiling) {
                let at = self.point((column, row as f64));
                let title = format!("ceiling of process {p}: {ceiling}");
                bracket(&mut self.svg, at, &title);
                self.space.add_box(Box2::around(at, BRACKET));
            }
        }
        let _ = writeln!(self.svg, "</g>");
    }

    fn lifelines(&mut self) {
        let _ = writeln!(
            self.svg,
            "<g class=\"lifelines\" stroke=\"{FAINT}\" stroke-width=\"1.2\">"
        );
        for (row, p) in self.rows() {
            let own = &self.layout.checkpoints[row];
            let mut start = self.point((0.0, row as f64)).moved(-14.0, 0.0);
            let first = self.point((own[0].1, row as f64));
            let end = self.point((own[own.len() - 1].1, row as f64));
            if self.view.first[p] > 0 {
                let left_out = start.moved(-LEAD, 0.0);
                self.lifeline(left_out, first, " stroke-dasharray=\"1.5 4\"");
                start = first;
            }
            self.lifeline(start, end, "");
        }
        let _ = writeln!(self.svg, "</g>");
    }

    fn lifeline(&mut self, start: Point, end: Point, dashes: &str) {
        let (x1, x2, y) = (short(start.x), short(end.x), short(start.y));
        let _ = writeln!(
            self.svg,
            "<line x1=\"{x1}\" y1=\"{y}\" x2=\"{x2}\" y2=\"{y}\"{dashes}/>"
        );
        self.space.add_line(start, end);
    }

    fn names(&mut self) {
        let right = self.point((self.layout.last, 0.0)).x + 2.0 * DOT;
        let mut sides = vec![("end", LEFT - 20.0)];
        if self.right_names {
            sides.push(("start", right));
        }
        for (anchor, x) in sides {
            let _ = writeln!(
                self.svg,
                "<g class=\"processes\" font-size=\"13\" text-anchor=\"{anchor}\">"
            );
            for (row, p) in self.rows() {
                let (name, y) = (format!("process {p}"), self.point((0.0, row as f64)).y);
                let width = width_of(&name, 13.0);
                let left = if anchor == "end" { x - width } else { x };
                self.space.add_box(Box2 {
                    left,
                    right: left + width,
                    top: y - 6.0,
                    bottom: y + 7.0,
                });
                let (x, y) = (short(x), short(y + 4.5));
                let _ = writeln!(self.svg, "<text x=\"{x}\" y=\"{y}\">{name}</text>");
            }
            let _ = writeln!(self.svg, "</g>");
        }
    }

    /// The corners of a message's arrow and where it is cut, if it is drawn.
    fn arrow(&self, k: usize) -> Option<(Vec<Point>, Cut)> {
        let message = &self.run.messages[k];
        // Two of them in neighbouring columns do not meet.
        let across = (self.scale.column * 0.36).min(12.0);
        match &self.layout.arrows[k] {
            Arrow::None => None,
            Arrow::Whole(corners) => {
                let corners = corners.iter().map(|place| self.point(*place));
                Some((corners.collect(), Cut::Nowhere))
            }
            Arrow::End(place) => {
                let side = self.side(message.to, message.from);
                let gap = if message.waiting() { GAP } else { 0.0 };
                let tip = self.point(*place).moved(0.0, side * gap);
                Some((vec![tip.moved(-across, side * STUB), tip], Cut::AtTail))
            }
            Arrow::Send(place) => {
                let side = self.side(message.from, message.to);
                let tail = self.point(*place);
                Some((vec![tail, tail.moved(across, side * STUB)], Cut::AtTip))
            }
        }
    }

    /// On which side of a process another one lies: -1 above, 1 below.
    fn side(&self, own: usize, other: usize) -> f64 {
        let above = match (self.view.row(own), self.view.row(other)) {
            (Some(own), Some(other)) => other < own,
            _ => other < own,
        };
        if above {
            -1.0
        } else {
            1.0
        }
    }

    fn arrows(&mut self, of: &Style) {
        let own = |k: &usize| style(&self.run.messages[*k]).class == of.class;
        let drawn: Vec<(usize, Vec<Point>, Cut)> = (0..self.run.messages.len())
            .filter(own)
            .filter_map(|k| self.arrow(k).map(|(corners, cut)| (k, corners, cut)))
            .collect();
        if drawn.is_empty() {
            return;
        }
        open_arrows(&mut self.svg, "messages", of);
        for (k, corners, cut) in drawn {
            arrow(
                &mut self.svg,
                of,
                &corners,
                cut,
                &message_title(self.run, k),
            );
            self.space.add_lines(&corners);
            for (place, cut_there) in [(0, Cut::AtTail), (corners.len() - 1, Cut::AtTip)] {
                if place > 0 || cut == cut_there {
                    self.space.add_box(Box2::around(corners[place], 4.0));
                }
            }
        }
        let _ = writeln!(self.svg, "</g>");
    }

    fn dots(&mut self) {
        let _ = writeln!(
            self.svg,
            "<g class=\"checkpoints\" stroke=\"{INK}\" stroke-width=\"1.6\">"
        );
        for (row, p) in self.rows() {
            for (number, column) in &self.layout.checkpoints[row] {
                let at = self.point((*column, row as f64));
                let title = checkpoint_title(self.run, p, *number);
                match self.run.kept[p].get(*number) {
                    Some(kept) => dot(&mut self.svg, at, *kept, &title),
                    None => virtual_dot(&mut self.svg, at, &title),
                }
                self.space.add_box(Box2::around(at, DOT + 1.0));
            }
        }
        let _ = writeln!(self.svg, "</g>");
    }

    fn numbers(&mut self) {
        let _ = writeln!(
            self.svg,
            "<g class=\"numbers\" font-size=\"11\" text-anchor=\"middle\">"
        );
        for (row, p) in self.rows() {
            self.numbers_before(row, p);
            let own = &self.layout.checkpoints[row];
            for (number, column) in own {
                let (at, text) = (self.point((*column, row as f64)), number.to_string());
                let (svg, space) = (&mut self.svg, &mut self.space);
                let places = around(at, &text, 11.0);
                // Where there is no room, the numbers of its neighbours tell.
                let wanted = own.len() <= 40 || number % 10 == 0 || self.run.marks(p, *number);
                if !label(svg, space, &text, 11.0, places) && wanted {
                    label_over_lines(svg, space, &text, 11.0, &places);
                }
            }
        }
        let _ = writeln!(self.svg, "</g>");
    }

    /// The numbers of the checkpoints that are left out and on a line, where
    /// the line meets the beginning of the lifeline.
    fn numbers_before(&mut self, row: usize, p: usize) {
        let on_lines = self.run.lines().map(|line| line[p]);
        let mut before: Vec<usize> = on_lines
            .filter(|number| self.layout.column(row, *number).is_none())
            .collect();
        before.sort_unstable();
        before.dedup();
        let Some(last) = before.last() else {
            return;
        };
        let text = match before.len() {
            1 => last.to_string(),
            _ => format!("{}..{last}", before[0]),
        };
        let at = self.on_row(row, *last);
        let numbers: Vec<String> = before.iter().map(usize::to_string).collect();
        let plural = if before.len() == 1 { "" } else { "s" };
        let _ = writeln!(
            self.svg,
            "<g class=\"before\"><title>left out: checkpoint{plural} {} of process {p}</title>",
            numbers.join(", ")
        );
        let places = around(at, &text, 11.0);
        label_over_lines(&mut self.svg, &mut self.space, &text, 11.0, &places);
        let _ = writeln!(self.svg, "</g>");
    }

    /// Whose lines stand at a checkpoint, where there are several. Where
    /// nothing is said a line stands at the virtual one.
    fn holders(&mut self) {
        if self.run.holders.len() < 2 {
            return;
        }
        let _ = writeln!(
            self.svg,
            "<g class=\"holders\" font-size=\"10\" font-weight=\"bold\" fill=\"{}\" text-anchor=\"middle\">",
            HOLD_PAINTS[0].0
        );
        for (row, p) in self.rows() {
            for (number, column) in &self.layout.checkpoints[row] {
                let mut here = self.run.held_at(p, *number);
                here.retain(|holder| self.run.holders.contains(holder));
                if here.is_empty() || *number == self.run.counts[p] {
                    continue;
                }
                let (at, text) = (self.point((*column, row as f64)), holders_label(&here));
                let (svg, space) = (&mut self.svg, &mut self.space);
                let places = around(at, &text, 10.0);
                if !label(svg, space, &text, 10.0, places) {
                    let farther = [(0.0, -25.0), (0.0, 25.0), (30.0, -25.0), (30.0, 25.0)];
                    let farther = farther.map(|(x, y)| at.moved(x, y));
                    let places = [&places[..], &farther[..]].concat();
                    label_over_lines(svg, space, &text, 10.0, &places);
                }
            }
        }
        let _ = writeln!(self.svg, "</g>");
    }

    fn positions(&mut self) {
        let labelled = labelled(self.view);
        if labelled.is_empty() {
            return;
        }
        let _ = writeln!(
            self.svg,
            "<g class=\"positions\" font-size=\"10\" font-style=\"italic\" text-anchor=\"middle\">"
        );
        for k in labelled {
            let Some((corners, cut)) = self.arrow(k) else {
                continue;
            };
            let on_path = self.run.messages[k].on_path.is_some();
            let clear = if on_path { WAY + 4.0 } else { 3.0 };
            let places = |text: &str| match cut {
                Cut::Nowhere => beside(&corners, text, clear),
                Cut::AtTail => around(corners[0], text, 10.0).to_vec(),
                Cut::AtTip => around(corners[1], text, 10.0).to_vec(),
            };
            // As much of it as there is room for.
            let own = format!("m{k}");
            let mut texts = self.other_end(k, cut).into_iter().chain([own.clone()]);
            let (svg, space) = (&mut self.svg, &mut self.space);
            let found = texts.any(|text| label(svg, space, &text, 10.0, places(&text)));
            // The note below the picture names those of the path.
            if !found && on_path {
                label_over_lines(svg, space, &own, 10.0, &places(&own));
            }
        }
        let _ = writeln!(self.svg, "</g>");
    }

    /// The position of a message and its end that is left out, as in the text
    /// form of a table: the longest first.
    fn other_end(&self, k: usize, cut: Cut) -> Vec<String> {
        let message = &self.run.messages[k];
        let received = || format!("m{k} to {}.{}", message.to, message.received);
        match cut {
            Cut::Nowhere => vec![],
            Cut::AtTail => vec![format!("m{k} from {}.{}", message.from, message.sent)],
            Cut::AtTip if message.waiting() => vec![format!("m{k} to {}", message.to)],
            Cut::AtTip if message.unsaved => vec![format!("{} unsaved", received()), received()],
            Cut::AtTip => vec![received()],
        }
    }
}

/// The messages that have their positions beside them: those of the zigzag path first,
/// and the others where all are not too many.
fn labelled(view: &View) -> Vec<usize> {
    let on_path = |k: &usize| view.run.messages[*k].on_path.is_some();
    let (mut drawn, others): (Vec<usize>, Vec<usize>) = view.messages().partition(on_path);
    if drawn.len() + others.len() <= MOST_LABELLED {
        drawn.extend(others);
    }
    drawn.truncate(MOST_LABELLED);
    drawn
}

/// Places for a text around a point, the best first.
fn around(at: Point, text: &str, size: f64) -> [Point; 10] {
    let aside = DOT + 3.0 + width_of(text, size) / 2.0;
    [
        (0.0, -13.0),
        (aside, -11.0),
        (-aside, -11.0),
        (0.0, 13.0),
        (aside, 11.0),
        (-aside, 11.0),
        (0.0, -19.0),
        (aside, -17.0),
        (-aside, -17.0),
        (0.0, 19.0),
    ]
    .map(|(x, y)| at.moved(x, y))
}

/// Places beside an arrow, so far from it, from its middle outwards, on either side.
fn beside(corners: &[Point], text: &str, clear: f64) -> Vec<Point> {
    let half = width_of(text, 10.0) / 2.0;
    // Where an arrow bends, its first part is the one that tells.
    let (from, to) = (corners[0], corners[1]);
    let length = (to.x - from.x).hypot(to.y - from.y);
    let (along_x, along_y) = ((to.x - from.x) / length, (to.y - from.y) / length);
    let aside = clear + half * along_y.abs() + 4.5 * along_x.abs();
    let mut places = Vec::new();
    for part in [0.5, 0.4, 0.6, 0.3, 0.7, 0.22, 0.78] {
        let there = from.moved((to.x - from.x) * part, (to.y - from.y) * part);
        places.extend(
            [1.0, -1.0].map(|side| there.moved(side * aside * along_y, -side * aside * along_x)),
        );
    }
    places
}
