//! What stands below the diagram.

use std::fmt::Write;

use super::shapes::{
    arrow, bracket, dot, escape, open_arrows, points, ring, short, virtual_dot, way, width_of,
    wrap, write_label, Cut, Point, Style, FAINT, INK, KEPT, PLAIN, UNSAVED, UNSAVED_KEPT, WAITING,
};
use super::{
    asked_paint, hold_paint, labelled, style, ASKED_COLOUR, MOST_HOLD_ENTRIES, RECOVERY_PAINT,
};
use crate::layout::{Arrow, Layout};
use crate::run::{Choice, Stand, Standing, Under, View};
use crate::stand::shown;

const SIZE: f64 = 12.0;
/// The height of a line of text.
const LINE: f64 = 16.0;
/// What an entry or a note has beside that of its lines.
const APART: f64 = 6.0;
const MARGIN: f64 = 24.0;
const SAMPLE: f64 = 44.0;
/// The text of an entry wraps at this width, or so that there is room for two
/// beside each other.
const TEXT: f64 = 300.0;
/// A wide picture has its legend at the left, where it can be seen at once.
const WIDEST: f64 = 1_300.0;
/// A line of more numbers is not spelled out.
const MOST_NUMBERS: usize = 12;

enum Sample {
    Dot(bool),
    Virtual,
    Arrow(&'static Style, Cut),
    Line(String),
    Ceiling,
    Named,
    Path,
    LeftOut,
    Position,
}

pub struct Legend {
    entries: Vec<(Sample, Vec<String>)>,
    notes: Vec<Vec<String>>,
    /// How many entries stand in a column.
    rows: usize,
}

/// A line in words, with its numbers on the lifelines that are drawn.
pub fn line_words(view: &View, name: &str, line: &[usize]) -> String {
    let numbers = view.rows.iter().map(|p| line[*p].to_string());
    format!("{name}: {}", numbers.collect::<Vec<_>>().join(" "))
}

/// What the line under ceilings is called, with those on the lifelines drawn.
pub fn under_words(view: &View, under: &Under) -> String {
    let numbers = view.rows.iter().map(|p| under.ceilings[*p].to_string());
    let numbers = numbers.collect::<Vec<_>>().join(" ");
    format!("line under ceilings {numbers}")
}

/// What the line is called that has the named checkpoints.
pub fn standing_words(stand: &Stand) -> String {
    let named: Vec<String> = stand.named.iter().map(|one| shown(*one)).collect();
    match named.len() {
        0..=MOST_NUMBERS => format!("latest line with {}", named.join(" ")),
        _ => "latest line with all named checkpoints".to_string(),
    }
}

/// The height of some lines of text and what is beside them.
fn height(lines: &[String]) -> f64 {
    LINE * lines.len() as f64 + APART
}

/// The width of entries that stand in one column.
fn column(entries: &[(Sample, Vec<String>)]) -> f64 {
    let lines = entries.iter().flat_map(|(_, lines)| lines);
    let widest = lines.map(|line| width_of(line, SIZE)).fold(0.0, f64::max);
    SAMPLE + widest + MARGIN
}

impl Legend {
    /// The legend of what is drawn, within the width of the picture.
    pub fn of(view: &View, layout: &Layout, choice: &Choice, width: f64) -> Legend {
        let room = width.min(WIDEST) - 2.0 * MARGIN;
        let text_room = TEXT.min((room - MARGIN) / 2.0 - SAMPLE);
        let wrapped = |(sample, text): (Sample, String)| (sample, wrap(&text, SIZE, text_room));
        let entries: Vec<_> = entries(view, layout).into_iter().map(wrapped).collect();
        // As many columns as there is room for.
        let fits = |rows: &usize| entries.chunks(*rows).map(column).sum::<f64>() <= room + MARGIN;
        let rows = (1..entries.len()).find(fits).unwrap_or(entries.len());
        let notes = [
            path_note(view),
            order_note(view, layout.timed),
            left_out_note(view, choice),
        ];
        let notes = notes.into_iter().filter(|note| !note.is_empty());
        Legend {
            rows,
            entries,
            notes: notes.map(|note| wrap(&note, SIZE, room)).collect(),
        }
    }

    /// The height of the entries: that of the highest column.
    fn entries_height(&self) -> f64 {
        let columns = self.entries.chunks(self.rows);
        columns
            .map(|entries| entries.iter().map(|(_, lines)| height(lines)).sum())
            .fold(0.0, f64::max)
    }

    pub fn height(&self) -> f64 {
        let notes: f64 = self.notes.iter().map(|lines| height(lines)).sum();
        self.entries_height() + notes + 4.0
    }

    pub fn draw(&self, svg: &mut String, top: f64, width: f64) {
        let _ = writeln!(svg, "<g class=\"legend\">");
        let (y, x2) = (short(top - 18.0), short(width - MARGIN));
        let _ = writeln!(
            svg,
            "<line x1=\"{MARGIN}\" y1=\"{y}\" x2=\"{x2}\" y2=\"{y}\" stroke=\"{FAINT}\" stroke-width=\"0.8\"/>"
        );
        let mut x = MARGIN;
        for entries in self.entries.chunks(self.rows) {
            let mut y = top;
            for (sample, lines) in entries {
                draw_sample(svg, sample, Point { x, y });
                text(svg, "", lines, x + SAMPLE, y);
                y += height(lines);
            }
            x += column(entries);
        }
        let mut y = top + self.entries_height();
        for lines in &self.notes {
            text(svg, " class=\"note\"", lines, MARGIN, y);
            y += height(lines);
        }
        let _ = writeln!(svg, "</g>");
    }
}

/// Lines of text, the middle of the first at that height.
fn text(svg: &mut String, class: &str, lines: &[String], x: f64, y: f64) {
    for (place, line) in lines.iter().enumerate() {
        let _ = writeln!(
            svg,
            "<text{class} x=\"{}\" y=\"{}\">{}</text>",
            short(x),
            short(y + LINE * place as f64 + 4.3),
            escape(line)
        );
    }
}

/// The entries: of what the picture has.
fn entries(view: &View, layout: &Layout) -> Vec<(Sample, String)> {
    let run = view.run;
    let line = |name: &str, line: &[usize]| match view.rows.len() {
        0..=MOST_NUMBERS => line_words(view, name, line),
        _ => name.to_string(),
    };
    let is_drawn = |kept: bool| {
        let mut rows = view.rows.iter();
        rows.any(|p| {
            view.checkpoints(*p)
                .any(|c| run.kept[*p].get(c) == Some(&kept))
        })
    };
    let mut entries = Vec::new();
    for (kept, words) in [(true, "checkpoint, kept"), (false, "checkpoint, not kept")] {
        if is_drawn(kept) {
            entries.push((Sample::Dot(kept), words.to_string()));
        }
    }
    entries.push((Sample::Virtual, "virtual checkpoint".to_string()));
    if view.rows.iter().any(|p| view.first[*p] > 0) {
        let words = "checkpoints left out; a number there: a line has that checkpoint";
        entries.push((Sample::LeftOut, words.to_string()));
    }
    let sample = Sample::Line(RECOVERY_PAINT.to_string());
    entries.push((sample, line("recovery line", &run.recovery_line)));

    let holders = run.holders.len();
    match holders {
        0..=MOST_HOLD_ENTRIES => {
            for (place, holder) in run.holders.iter().enumerate() {
                let name = match holders {
                    1 => format!("line of process {holder} holding"),
                    _ => format!("h{holder}, line of process {holder} holding"),
                };
                let sample = Sample::Line(hold_paint(place, holders));
                entries.push((sample, line(&name, &run.hold_lines[*holder])));
            }
        }
        _ => {
            let words = "lines of single holders; h3: the line of process 3 holding";
            entries.push((Sample::Line(hold_paint(0, holders)), words.to_string()));
        }
    }

    if let Some(under) = &run.under {
        let name = match view.rows.len() {
            0..=MOST_NUMBERS => under_words(view, under),
            _ => "line under ceilings".to_string(),
        };
        let sample = Sample::Line(asked_paint());
        entries.push((sample, line(&name, &under.line)));
        let mut rows = view.rows.iter().enumerate();
        if rows.any(|(row, p)| {
            let ceiling = under.ceilings[*p];
            ceiling < run.counts[*p] && layout.column(row, ceiling).is_some()
        }) {
            entries.push((Sample::Ceiling, "ceiling of a process".to_string()));
        }
    }

    if let Some(stand) = &run.stand {
        let mut named = stand.named.iter();
        if named.any(|one| {
            let row = view.row(one.process.into());
            row.is_some_and(|row| layout.column(row, one.number.into()).is_some())
        }) {
            entries.push((Sample::Named, "named checkpoint".to_string()));
        }
        match &stand.answer {
            Standing::Line(numbers) => {
                let sample = Sample::Line(asked_paint());
                entries.push((sample, line(&standing_words(stand), numbers)));
            }
            Standing::Path(path) => {
                let mut messages = path.messages.iter();
                if messages.any(|k| view.has_message((*k).into())) {
                    let words = format!("zigzag path {}", path.leads());
                    entries.push((Sample::Path, words));
                }
            }
        }
    }

    let arrows = [
        (&KEPT, "message, kept"),
        (&PLAIN, "message, not kept"),
        (&UNSAVED_KEPT, "received, not saved (kept)"),
        (&UNSAVED, "received, not saved (not kept)"),
        (&WAITING, "message, waiting (kept)"),
    ];
    for (own, words) in arrows {
        let mut drawn = view.messages();
        if drawn.any(|k| style(&run.messages[k]).class == own.class) {
            entries.push((Sample::Arrow(own, Cut::Nowhere), words.to_string()));
        }
    }
    if layout.arrows.iter().any(Arrow::is_cut) {
        let words = "message whose other end is left out";
        entries.push((Sample::Arrow(&PLAIN, Cut::AtTail), words.to_string()));
    }
    if !labelled(view).is_empty() {
        entries.push((Sample::Position, "position of a message".to_string()));
    }
    entries
}

/// That the named checkpoints do not stand together, and why.
fn path_note(view: &View) -> String {
    let Some(path) = view.run.path() else {
        return String::new();
    };
    let messages: Vec<String> = path.messages.iter().map(|k| format!("m{k}")).collect();
    let by = match messages.len() {
        0..=MOST_NUMBERS => messages.join(", then "),
        all => format!(
            "{all} messages, from {} to {}",
            messages[0],
            messages[all - 1]
        ),
    };
    format!(
        "No: {}. A zigzag path leads {} by {by}.",
        path.keeps_off(),
        path.leads()
    )
}

/// What the order from left to right says: no more than the table gives.
fn order_note(view: &View, timed: bool) -> String {
    let (processes, messages) = (view.run.counts.len(), view.run.messages.len());
    match (timed, processes, messages) {
        (false, _, _) => "Grid: no order of time fits this table. Places are by checkpoint number; arrows may point back.",
        (true, _, 1..) => {
            "Time runs to the right: from checkpoint to checkpoint of a process, and from a message's sending to its receipt; \
             messages from one process to another go in the order sent. The table gives no other order, and the distances \
             have no meaning."
        }
        (true, 1, 0) => "Time runs to the right from checkpoint to checkpoint; the distances have no meaning.",
        (true, _, 0) => {
            "Time runs to the right from checkpoint to checkpoint of a process. The table gives no order between \
             processes, and the distances have no meaning."
        }
    }
    .to_string()
}

/// What is not in the picture.
fn left_out_note(view: &View, choice: &Choice) -> String {
    let run = view.run;
    let drawn = |p: usize, number: usize| view.row(p).is_some() && view.has_checkpoint(p, number);
    let numbers = |p: usize| (0..run.counts[p]).map(move |number| (p, number));
    let checkpoints = (0..run.counts.len()).flat_map(numbers);
    let checkpoints = checkpoints.filter(|(p, number)| !drawn(*p, *number));
    let checkpoints: Vec<bool> = checkpoints.map(|(p, number)| run.kept[p][number]).collect();
    let messages = (0..run.messages.len()).filter(|k| !view.has_message(*k));
    let messages: Vec<bool> = messages.map(|k| run.messages[k].kept).collect();
    let left_out: Vec<String> = [(checkpoints, "checkpoint"), (messages, "message")]
        .into_iter()
        .filter(|(kept, _)| !kept.is_empty())
        .map(|(kept, what)| {
            let of_them = match kept.iter().filter(|kept| **kept).count() {
                0 => "none".to_string(),
                some => some.to_string(),
            };
            let plural = if kept.len() == 1 { "" } else { "s" };
            format!("{} {what}{plural} ({of_them} kept)", kept.len())
        })
        .collect();
    if left_out.is_empty() {
        return String::new();
    }
    let mut chosen = Vec::new();
    if view.rows.len() < run.counts.len() {
        chosen.push(format!(
            "{} of {} processes",
            view.rows.len(),
            run.counts.len()
        ));
    }
    match choice.last {
        None => (),
        Some(1) => chosen.push("the last checkpoint of each process".to_string()),
        Some(last) => chosen.push(format!("the last {last} checkpoints of each process")),
    }
    if choice.kept_only {
        let answer = run.stand.as_ref().map(|stand| &stand.answer);
        let words = match (&run.under, answer) {
            (Some(_), _) => "only what is kept, and the line under ceilings",
            (None, Some(Standing::Line(_))) => {
                "only what is kept, and the line with the named checkpoints"
            }
            (None, Some(Standing::Path(_))) => {
                "only what is kept, the named checkpoints and the zigzag path"
            }
            (None, None) => "only what is kept",
        };
        chosen.push(words.to_string());
    }
    format!(
        "Drawn: {}. Left out: {}.",
        chosen.join("; "),
        left_out.join(" and ")
    )
}

fn draw_sample(svg: &mut String, sample: &Sample, at: Point) {
    let (from, to) = (at.moved(4.0, 0.0), at.moved(SAMPLE - 12.0, 0.0));
    let middle = at.moved((SAMPLE - 8.0) / 2.0, 0.0);
    match sample {
        Sample::Dot(_) | Sample::Virtual => {
            let _ = writeln!(svg, "<g stroke=\"{INK}\" stroke-width=\"1.6\">");
            match sample {
                Sample::Dot(kept) => dot(svg, middle, *kept, ""),
                _ => virtual_dot(svg, middle, ""),
            }
            let _ = writeln!(svg, "</g>");
        }
        Sample::Arrow(style, cut) => {
            open_arrows(svg, "sample", style);
            arrow(svg, style, &[from, to], *cut, "");
            let _ = writeln!(svg, "</g>");
        }
        Sample::Line(paint) => {
            let _ = writeln!(
                svg,
                "<polyline fill=\"none\" {paint} points=\"{}\"/>",
                points(&[from, to])
            );
        }
        Sample::Ceiling | Sample::Named => {
            let _ = writeln!(
                svg,
                "<g fill=\"none\" stroke=\"{ASKED_COLOUR}\" stroke-width=\"2\">"
            );
            match sample {
                Sample::Ceiling => bracket(svg, middle.moved(-6.0, 0.0), ""),
                _ => ring(svg, middle, ""),
            }
            let _ = writeln!(svg, "</g>");
        }
        Sample::Path => way(svg, ASKED_COLOUR, &[vec![from, to]], ""),
        Sample::LeftOut => {
            let _ = writeln!(
                svg,
                "<polyline fill=\"none\" stroke=\"{FAINT}\" stroke-width=\"1.2\" stroke-dasharray=\"1.5 4\" points=\"{}\"/>",
                points(&[from, to])
            );
        }
        Sample::Position => {
            let _ = writeln!(
                svg,
                "<g font-size=\"10\" font-style=\"italic\" text-anchor=\"middle\">"
            );
            write_label(svg, "m0", 10.0, middle);
            let _ = writeln!(svg, "</g>");
        }
    }
}
