//! Diagrams: well-formed, the same each time, forward in time, and true to
//! the answers of the library.

mod common;
mod xml;

use std::collections::{BTreeMap, BTreeSet, HashMap};
use std::fs;
use std::path::PathBuf;

use common::{bytes, corpus, done, example_a, fails, refused, refuses, Random};
use keeper_command::draw::{self, Undrawn};
use keeper_command::layout::{self, Arrow, Layout, Scale};
use keeper_command::run::{BadChoice, Choice, Holders, Run, View};
use keeper_command::stand::{Path, Together};
use xml::{elements, Element};

const SCALE: Scale = Scale {
    column: 26.0,
    row: 60.0,
    clear: 9.0,
    gap: 12.0,
};

fn read(table: &[u8]) -> Run {
    Run::read(table, &Holders::Of(vec![])).expect("accepted")
}

/// The picture of the whole run.
fn draw(run: &Run, title: Option<&str>) -> String {
    draw::draw(run, &Choice::default(), title).expect("not too large")
}

/// Checkpoints of all processes together.
fn checkpoints(run: &Run) -> usize {
    run.counts.iter().sum()
}

/// The accepted tables of the corpus of moderate size.
fn runs() -> Vec<(String, Run)> {
    let cases = corpus()
        .into_iter()
        .filter(|case| refused(&case.listing).is_none());
    let runs = cases.map(|case| {
        (
            case.name,
            Run::read(&case.table, &Holders::Of(vec![0])).expect("accepted"),
        )
    });
    let runs: Vec<_> = runs.filter(|(_, run)| checkpoints(run) <= 2_000).collect();
    assert!(runs.len() > 50, "{}", runs.len());
    runs
}

/// The points of an element's `points`.
fn points(element: &Element) -> Vec<(f64, f64)> {
    let pair = |pair: &str| {
        let (x, y) = pair.split_once(',').expect("a pair");
        (x.parse().expect("a number"), y.parse().expect("a number"))
    };
    element
        .attribute("points")
        .expect("points")
        .split(' ')
        .map(pair)
        .collect()
}

fn in_class<'a>(all: &'a [Element], class: &'a str) -> impl Iterator<Item = &'a Element> {
    all.iter().filter(move |element| element.is_within(class))
}

/// A dot or a square.
struct Dot {
    class: String,
    at: (f64, f64),
}

/// The arrow of a message.
struct Drawn {
    /// `plain`, `kept`, `unsaved`, `unsaved-kept` or `waiting`.
    class: String,
    /// Whether its head is white within.
    hollow: bool,
    /// The corners of its shaft, and the tip of its head.
    shaft: Vec<(f64, f64)>,
    tip: (f64, f64),
    /// The ring where it is cut.
    ring: Option<(f64, f64)>,
}

/// A picture, read back by the titles of its dots and arrows. There is none
/// without a title.
struct Picture {
    all: Vec<Element>,
    width: f64,
    height: f64,
    /// By process and number, and their titles.
    dots: BTreeMap<(usize, usize), Dot>,
    /// By position.
    arrows: BTreeMap<usize, Drawn>,
    titles: BTreeSet<String>,
}

/// The numbers that a text has, in order.
fn numbers_in(text: &str) -> Vec<usize> {
    text.split(|character: char| !character.is_ascii_digit())
        .filter_map(|digits| digits.parse().ok())
        .collect()
}

impl Picture {
    fn read(svg: &str) -> Picture {
        let all = elements(svg).expect("well formed");
        let title_of = |place: usize| {
            let mut own = all.iter().filter(|one| one.parent == Some(place));
            let title = own.next().filter(|one| one.name == "title");
            title.expect("a title").text.clone()
        };
        let (mut dots, mut arrows) = (BTreeMap::new(), BTreeMap::new());
        let mut titles = BTreeSet::new();
        for (place, element) in all.iter().enumerate() {
            let in_group = |class: &str| element.is_within(class) && element.name != "title";
            if in_group("checkpoints") {
                let title = title_of(place);
                let numbers = numbers_in(&title);
                let (at, key) = match element.name.as_str() {
                    "rect" => {
                        assert!(
                            title.starts_with("virtual checkpoint of process "),
                            "{title}"
                        );
                        let half = element.number("width") / 2.0;
                        let at = (element.number("x") + half, element.number("y") + half);
                        (at, (numbers[0], numbers[1]))
                    }
                    _ => {
                        assert!(title.starts_with("checkpoint "), "{title}");
                        let at = (element.number("cx"), element.number("cy"));
                        (at, (numbers[1], numbers[0]))
                    }
                };
                let class = element.attribute("class").expect("a class").to_string();
                assert!(dots.insert(key, Dot { class, at }).is_none(), "{title}");
                titles.insert(title);
            } else if in_group("messages") && element.is("message") {
                let title = title_of(place);
                let position = numbers_in(&title)[0];
                let parts = |class: &str| {
                    let mut own = all.iter().filter(|one| one.parent == Some(place));
                    own.find(|one| one.is(class))
                };
                let filled = parts("head").expect("a head").attribute("fill");
                let head = points(parts("head").expect("a head"));
                let class = element.within.iter().find(|class| *class != "messages");
                let arrow = Drawn {
                    class: class.expect("a class").clone(),
                    hollow: filled == Some("#ffffff"),
                    shaft: points(parts("shaft").expect("a shaft")),
                    // The tip is the middle of an open head and the first of any
                    // other.
                    tip: head[usize::from(element.is_within("waiting"))],
                    ring: parts("cut").map(|ring| (ring.number("cx"), ring.number("cy"))),
                };
                assert!(arrows.insert(position, arrow).is_none(), "{title}");
                titles.insert(title);
            }
        }
        Picture {
            width: all[0].number("width"),
            height: all[0].number("height"),
            all,
            dots,
            arrows,
            titles,
        }
    }

    fn texts<'a>(&'a self, class: &'a str) -> Vec<&'a str> {
        let texts = in_class(&self.all, class).filter(|one| one.name == "text");
        texts.map(|one| one.text.as_str()).collect()
    }

    /// The notes of the legend, whose lines are put together again.
    fn notes(&self) -> String {
        let notes = self.all.iter().filter(|one| one.is("note"));
        notes
            .map(|one| one.text.clone())
            .collect::<Vec<_>>()
            .join(" ")
    }

    fn lines(&self, class: &str) -> Vec<Vec<(f64, f64)>> {
        let lines = self.all.iter().filter(|one| one.is(class));
        lines.map(points).collect()
    }

    /// Whether all of it is within the picture, texts by their widths too.
    fn assert_inside(&self, name: &str) {
        let inside = |x: f64, y: f64| {
            assert!(
                (0.0..=self.width).contains(&x) && (0.0..=self.height).contains(&y),
                "{name}: {x} {y} in {} {}",
                self.width,
                self.height
            );
        };
        let anchors = |element: &Element| {
            let parent = element.parent.map(|parent| &self.all[parent]);
            let group = parent.and_then(|parent| parent.attribute("text-anchor"));
            match group {
                Some("middle") => (0.5, 0.5),
                Some("end") => (1.0, 0.0),
                _ => (0.0, 1.0),
            }
        };
        for element in &self.all {
            if element.attribute("points").is_some() {
                points(element).into_iter().for_each(|(x, y)| inside(x, y));
            }
            match element.name.as_str() {
                "circle" => {
                    let (x, y, r) = (
                        element.number("cx"),
                        element.number("cy"),
                        element.number("r"),
                    );
                    inside(x - r, y - r);
                    inside(x + r, y + r);
                }
                "text" => {
                    let size = match element.within.last().map(String::as_str) {
                        Some("numbers" | "before") => 11.0,
                        Some("positions" | "holders") => 10.0,
                        Some("title") => 17.0,
                        Some("processes") => 13.0,
                        _ => 12.0,
                    };
                    // As wide as the widest common fonts have it, on average.
                    let width = element.text.chars().count() as f64 * size * 0.55;
                    let (left, right) = anchors(element);
                    let (x, y) = (element.number("x"), element.number("y"));
                    inside(x - left * width, y - size);
                    inside(x + right * width, y + 2.0);
                }
                _ => (),
            }
        }
    }
}

#[test]
fn the_checker_of_xml_checks() {
    for good in [
        "<a/>",
        "<?xml version=\"1.0\"?>\n<a b=\"1\" c=\"&lt;\">x &amp; y<b/></a>\n",
    ] {
        elements(good).expect(good);
    }
    let bad = [
        "",
        "x",
        "<a>",
        "</a>",
        "<a></b>",
        "<a><b></a></b>",
        "<a/><b/>",
        "<a b=1/>",
        "<a b=\"<\"/>",
        "<a b=\"1\" b=\"2\"/>",
        "<a>&</a>",
        "<a>&nbsp;</a>",
        "<a>\u{1}</a>",
        "<a b=\"1\"c=\"2\"/>",
        "<a/>text",
        "<1/>",
        "<a b=\"&\"/>",
    ];
    for bad in bad {
        assert!(elements(bad).is_err(), "{bad}");
    }
}

#[test]
fn runs_are_drawn_well_formed_and_whole() {
    let mut classes: BTreeMap<&str, usize> = BTreeMap::new();
    let any = any_runs(8, 60).into_iter();
    for (name, run) in runs().into_iter().chain(any).chain(histories(400..440, 9)) {
        let svg = draw(&run, Some("A <title> & \"more\""));
        let picture = Picture::read(&svg);
        let all =
            (0..run.counts.len()).flat_map(|p| (0..=run.counts[p]).map(move |number| (p, number)));
        assert!(picture.dots.keys().copied().eq(all), "{name}");
        for ((p, number), dot) in &picture.dots {
            let class = match run.kept[*p].get(*number) {
                None => "virtual",
                Some(true) => "kept",
                Some(false) => "other",
            };
            assert_eq!(dot.class, class, "{name}: {number} of {p}");
        }
        assert!(
            picture.arrows.keys().copied().eq(0..run.messages.len()),
            "{name}"
        );
        for (k, arrow) in &picture.arrows {
            let message = &run.messages[*k];
            let unsaved = message.received == run.counts[message.to];
            let class = match (unsaved, message.kept) {
                _ if message.waiting() => "waiting",
                (true, true) => "unsaved-kept",
                (true, false) => "unsaved",
                (false, true) => "kept",
                (false, false) => "plain",
            };
            assert_eq!(arrow.class, class, "{name}: {k}");
            assert_eq!(arrow.hollow, unsaved, "{name}: {k}");
            assert_eq!(arrow.ring, None, "{name}: {k}");
            *classes.entry(class).or_default() += 1;
        }
        // The legend explains what is drawn, and nothing else.
        let legend = picture.texts("legend");
        for (class, words) in ENTRIES {
            let is_drawn = picture.arrows.values().any(|arrow| arrow.class == class);
            assert_eq!(legend.contains(&words), is_drawn, "{name}: {words}");
        }
        assert!(!picture.notes().contains("Left out"), "{name}");
        picture.assert_inside(&name);
    }
    assert!(
        classes.len() == 5 && classes.values().all(|drawn| *drawn > 100),
        "{classes:?}"
    );
}

/// What the legend says of each kind of arrow.
const ENTRIES: [(&str, &str); 5] = [
    ("kept", "message, kept"),
    ("plain", "message, not kept"),
    ("unsaved-kept", "received, not saved (kept)"),
    ("unsaved", "received, not saved (not kept)"),
    ("waiting", "message, waiting (kept)"),
];

/// Runs that steps have left, which time can order.
fn histories(seeds: std::ops::Range<u64>, most_processes: usize) -> Vec<(String, Run)> {
    seeds
        .map(|seed| {
            let mut random = Random(seed);
            let (n, steps) = (1 + random.below(most_processes), 20 + random.below(150));
            (format!("history {seed}"), read(&random.history(n, steps)))
        })
        .collect()
}

/// Any runs, most of which no order of time fits.
fn any_runs(seed: u64, how_many: usize) -> Vec<(String, Run)> {
    let mut random = Random(seed);
    let run = |number: usize| (format!("any {number}"), read(&random.table(9, 40, 12)));
    (0..how_many).map(run).collect()
}

#[test]
fn arrows_go_forward_where_time_has_an_order() {
    let (mut timed, mut turns) = (0, 0);
    for (name, run) in runs().into_iter().chain(histories(0..60, 13)) {
        if !layout::has_order(&run) {
            assert!(!name.starts_with("history"), "{name}");
            continue;
        }
        timed += 1;
        let view = View::of(&run, &Choice::default()).expect("all of it");
        let layout = layout::timed(&view, &SCALE);
        // No two events of a process in one column.
        let mut columns: Vec<Vec<f64>> = vec![Vec::new(); run.counts.len()];
        for (p, own) in layout.checkpoints.iter().enumerate() {
            assert!(own.iter().map(|(number, _)| *number).eq(0..=run.counts[p]));
            assert!(own.windows(2).all(|pair| pair[0].1 < pair[1].1), "{name}");
            columns[p].extend(own.iter().map(|(_, column)| column));
        }
        // By channel, the columns of the last send and receipt.
        let mut last: HashMap<(usize, usize), (f64, f64)> = HashMap::new();
        for (k, arrow) in layout.arrows.iter().enumerate() {
            let message = &run.messages[k];
            let Arrow::Whole(corners) = arrow else {
                panic!("{name}: {k} is not whole")
            };
            let ends = (corners[0].0, corners[corners.len() - 1].0);
            if let Some(before) = last.insert((message.from, message.to), ends) {
                let in_turn = before.0 < ends.0 && before.1 < ends.1;
                assert!(in_turn, "{name}: {k} is out of turn");
                turns += 1;
            }
            assert!(
                corners.windows(2).all(|part| part[0].0 < part[1].0),
                "{name}: {k}"
            );
            let (start, end) = (corners[0], corners[corners.len() - 1]);
            let short_of = (end.1 - message.to as f64).abs() * SCALE.row;
            let gap = if message.waiting() { SCALE.gap } else { 0.0 };
            assert!((short_of - gap).abs() < 1e-6, "{name}: {k}");
            assert_eq!(start.1, message.from as f64);
            // Between its checkpoints, both at the send and at the receipt.
            let own = &layout.checkpoints[message.from];
            assert!(
                own[message.sent].1 < start.0 && start.0 < own[message.sent + 1].1,
                "{name}: {k}"
            );
            let own = &layout.checkpoints[message.to];
            let before = if message.waiting() {
                run.counts[message.to]
            } else {
                message.received
            };
            assert!(
                own[before - 1].1 < end.0 && end.0 < own[before].1,
                "{name}: {k}"
            );
            columns[message.from].push(start.0);
            columns[message.to].push(end.0);
        }
        for own in &mut columns {
            own.sort_by(f64::total_cmp);
            assert!(own.windows(2).all(|pair| pair[0] < pair[1]), "{name}");
        }
        // As drawn, too: a shaft goes to the right in each of its parts.
        for arrow in Picture::read(&draw(&run, None)).arrows.values() {
            assert!(
                arrow.shaft.windows(2).all(|part| part[0].0 < part[1].0),
                "{name}"
            );
        }
    }
    assert!(timed > 100 && turns > 1_000, "{timed} {turns}");
}

/// What the table says of time: of events, which comes right before which. The
/// checkpoints by process come first, then the sends, then the receipts.
struct Events {
    /// Where the checkpoints of each process begin; and how many there are.
    first: Vec<usize>,
    messages: usize,
    after: Vec<(usize, usize)>,
}

impl Events {
    fn of(run: &Run) -> Events {
        let mut first = vec![0];
        for count in &run.counts {
            first.push(first[first.len() - 1] + count);
        }
        let mut events = Events {
            first,
            messages: run.messages.len(),
            after: Vec::new(),
        };
        for (p, count) in run.counts.iter().enumerate() {
            for number in 1..*count {
                let pair = (
                    events.checkpoint(p, number - 1),
                    events.checkpoint(p, number),
                );
                events.after.push(pair);
            }
        }
        for (k, message) in run.messages.iter().enumerate() {
            let (send, receipt) = (events.send(k), events.receipt(k));
            let sent = events.checkpoint(message.from, message.sent);
            events.after.push((sent, send));
            if message.sent + 1 < run.counts[message.from] {
                events.after.push((send, sent + 1));
            }
            if !message.waiting() {
                let received = events.checkpoint(message.to, message.received);
                events.after.push((send, receipt));
                events.after.push((received - 1, receipt));
                // Not saved yet: no checkpoint comes after it.
                if message.received < run.counts[message.to] {
                    events.after.push((receipt, received));
                }
            }
        }
        events
    }

    fn checkpoint(&self, p: usize, number: usize) -> usize {
        self.first[p] + number
    }

    fn send(&self, k: usize) -> usize {
        self.first[self.first.len() - 1] + k
    }

    fn receipt(&self, k: usize) -> usize {
        self.send(k) + self.messages
    }

    fn len(&self) -> usize {
        self.send(0) + 2 * self.messages
    }

    /// All that comes after an event.
    fn all_after(&self, event: usize) -> BTreeSet<usize> {
        let mut found = BTreeSet::new();
        let mut left = vec![event];
        while let Some(event) = left.pop() {
            for (_, next) in self.after.iter().filter(|(one, _)| *one == event) {
                if found.insert(*next) {
                    left.push(*next);
                }
            }
        }
        found
    }
}

/// Whether an order of time fits, by another way: taking away events that
/// nothing before them holds back, one after another.
fn has_order_by_taking_away(run: &Run) -> bool {
    let events = Events::of(run);
    let mut taken = vec![false; events.len()];
    while let Some(event) = (0..taken.len()).find(|event| {
        !taken[*event]
            && events
                .after
                .iter()
                .all(|(one, other)| other != event || taken[*one])
    }) {
        taken[event] = true;
    }
    taken.into_iter().all(|taken| taken)
}

#[test]
fn the_grid_is_for_tables_without_an_order() {
    let mut random = Random(7);
    let (mut with, mut without) = (0, 0);
    for _ in 0..1_800 {
        let run = read(&random.table(4, 30, 5));
        let order = has_order_by_taking_away(&run);
        assert_eq!(layout::has_order(&run), order);
        // The legend speaks of an order just where the table gives one.
        let notes = Picture::read(&draw(&run, None)).notes();
        assert_eq!(
            notes.contains("Grid: no order of time fits this table."),
            !order
        );
        assert_eq!(notes.contains("Time runs to the right"), order);
        let between = notes.contains("from a message's sending to its receipt");
        assert_eq!(between, order && !run.messages.is_empty());
        if order {
            with += 1
        } else {
            without += 1
        }
    }
    assert!(with > 100 && without > 100, "{with} {without}");
}

#[test]
fn the_same_each_time() {
    for (name, run) in runs() {
        assert_eq!(draw(&run, None), draw(&run, None), "{name}");
    }
    let mut random = Random(3);
    let table = random.history(8, 80);
    let first = done(&["draw", "--hold", "2"], &table);
    assert_eq!(done(&["draw", "--hold", "2"], &table), first);
}

/// The checkpoints of a picture that a line goes through, by process, with so
/// much to the side.
fn through(picture: &Picture, line: &[(f64, f64)]) -> Vec<(usize, usize)> {
    let near = |at: &(f64, f64)| {
        line.iter()
            .any(|corner| (corner.0 - at.0).abs() <= 5.05 && (corner.1 - at.1).abs() < 0.05)
    };
    let dots = picture.dots.iter().filter(|(_, dot)| near(&dot.at));
    dots.map(|(key, _)| *key).collect()
}

#[test]
fn lines_of_example_a() {
    let picture = |arguments: &[&str]| {
        let arguments = [&["draw"], arguments].concat();
        let svg = String::from_utf8(done(&arguments, &example_a())).expect("UTF-8");
        Picture::read(&svg)
    };
    let one = picture(&["--hold", "1"]);
    assert_eq!(
        through(&one, &one.lines("recovery-line")[0]),
        [(0, 1), (1, 1)]
    );
    let hold = one.lines("hold-line");
    assert_eq!(
        (hold.len(), through(&one, &hold[0])),
        (1, vec![(0, 3), (1, 2)])
    );
    let legend = one.texts("legend");
    assert!(legend.contains(&"recovery line: 1 1"));
    assert!(legend.contains(&"line of process 1 holding: 3 2"));
    // One line needs no labels.
    assert!(one.texts("holders").is_empty());

    let none = picture(&[]);
    assert!(none.lines("hold-line").is_empty());
    assert!(!none
        .texts("legend")
        .iter()
        .any(|text| text.contains("holding")));

    let all = picture(&["--hold", "all"]);
    let hold = all.lines("hold-line");
    assert_eq!(hold.len(), 2);
    assert_eq!(through(&all, &hold[0]), [(0, 1), (1, 1)]);
    assert_eq!(through(&all, &hold[1]), [(0, 3), (1, 2)]);
    assert!(all
        .texts("legend")
        .contains(&"h0, line of process 0 holding: 1 1"));
    assert!(all
        .texts("legend")
        .contains(&"h1, line of process 1 holding: 3 2"));
    assert_eq!(all.texts("holders"), ["h0", "h0", "h1"]);
    // The same in other words.
    let bytes = |hold: &str| done(&["draw", "--hold", hold], &example_a());
    assert_eq!(bytes("0,1"), bytes("all"));
    assert_eq!(bytes("1,0,1"), bytes("all"));
    assert_eq!(bytes("1,1"), bytes("1"));
}

#[test]
fn the_line_under_ceilings_of_example_a() {
    let picture = |arguments: &[&str]| {
        let arguments = [&["draw"], arguments].concat();
        let svg = String::from_utf8(done(&arguments, &example_a())).expect("UTF-8");
        Picture::read(&svg)
    };
    let one = picture(&["--under", "0,-"]);
    let under = one.lines("under-line");
    assert_eq!(
        (under.len(), through(&one, &under[0])),
        (1, vec![(0, 0), (1, 1)])
    );
    let recovery = &one.lines("recovery-line")[0];
    assert_eq!(through(&one, recovery), [(0, 1), (1, 1)]);
    assert!(one.lines("hold-line").is_empty());
    let legend = one.texts("legend");
    assert!(
        legend.contains(&"line under ceilings 0 3: 0 1"),
        "{legend:?}"
    );
    assert!(legend.contains(&"ceiling of a process"), "{legend:?}");
    assert!(!legend.iter().any(|text| text.contains("holding")));
    assert_eq!(ceilings_in(&one), [(0, 0)]);
    // The count is no bound and has no bracket, so there is nothing to explain.
    let free = picture(&["--under", "3,-"]);
    assert_eq!(
        through(&free, &free.lines("under-line")[0]),
        [(0, 3), (1, 3)]
    );
    assert!(ceilings_in(&free).is_empty());
    let legend = free.texts("legend");
    assert!(
        legend.contains(&"line under ceilings 3 3: 3 3"),
        "{legend:?}"
    );
    assert!(!legend.contains(&"ceiling of a process"), "{legend:?}");
    let none = picture(&["--hold", "1"]);
    assert!(none.lines("under-line").is_empty() && ceilings_in(&none).is_empty());
    assert!(!none
        .texts("legend")
        .iter()
        .any(|text| text.contains("ceiling")));
    // Numbers are those of the lifelines drawn, in their order.
    let turned = picture(&["--under", "0,3", "--processes", "1,0"]);
    let legend = turned.texts("legend");
    assert!(
        legend.contains(&"line under ceilings 3 0: 1 0"),
        "{legend:?}"
    );
    // Its checkpoint 0 of process 0 is not kept, and is drawn all the same.
    let kept = picture(&["--under", "0,-", "--kept-only"]);
    assert_eq!(
        through(&kept, &kept.lines("under-line")[0]),
        [(0, 0), (1, 1)]
    );
    assert_eq!(kept.dots[&(0, 0)].class, "other");
    let note = "Drawn: only what is kept, and the line under ceilings. Left out: 2 checkpoints (none kept)";
    assert!(kept.notes().contains(note), "{}", kept.notes());
    // No dashes: so no holder's line is taken for it in grey.
    for line in one.all.iter().filter(|one| one.is("under-line")) {
        assert_eq!(line.attribute("stroke-dasharray"), None);
    }
}

/// The checkpoints with a bracket, told by its title and by where it stands:
/// around the checkpoint, closing right of it.
fn ceilings_in(picture: &Picture) -> Vec<(usize, usize)> {
    let mut found = Vec::new();
    for (place, element) in picture.all.iter().enumerate() {
        if !element.is("ceiling") || !element.is_within("ceilings") {
            continue;
        }
        let mut own = picture.all.iter().filter(|one| one.parent == Some(place));
        let title = &own.next().expect("a title").text;
        assert!(title.starts_with("ceiling of process "), "{title}");
        let [p, number] = numbers_in(title)[..] else {
            panic!("{title}")
        };
        let (x, y) = picture.dots[&(p, number)].at;
        let corners = points(element);
        let right = corners.iter().map(|corner| corner.0).fold(0.0, f64::max);
        assert!(right > x + 5.0 && right < x + 14.0, "{title}");
        assert!(corners.iter().all(|corner| (corner.1 - y).abs() < 14.0));
        assert!(corners.iter().any(|corner| corner.1 < y));
        assert!(corners.iter().any(|corner| corner.1 > y));
        found.push((p, number));
    }
    found
}

/// Ceilings by chance, and whatever is left out: the line has its checkpoints,
/// or meets the beginning of a lifeline where they are left out.
#[test]
fn the_line_under_ceilings_has_its_checkpoints() {
    let mut random = Random(17);
    let (mut not_kept, mut before, mut brackets) = (0, 0, 0);
    for case in corpus() {
        let Ok(table) = keeper::Table::from_bytes(&case.table[..]) else {
            continue;
        };
        let mut any = |count: u16| random.below(usize::from(count) + 1) as u16;
        let ceilings: Vec<u16> = table.counts().map(&mut any).collect();
        let run = Run::read_under(&case.table, &ceilings).expect("none is too high");
        if checkpoints(&run) > 2_000 {
            continue;
        }
        let line = table.line_under(&ceilings).expect("none is too high");
        for choice in choices(run.counts.len()) {
            let svg = draw::draw(&run, &choice, None).expect("not too large");
            let picture = Picture::read(&svg);
            let name = format!("{}, {choice:?}", case.name);
            picture.assert_inside(&name);
            let view = View::of(&run, &choice).expect("there");
            let under = picture.lines("under-line");
            assert_eq!(under.len(), 1, "{name}");
            let on_line = through(&picture, &under[0]);
            let mut expected_brackets = Vec::new();
            for p in &view.rows {
                let number = usize::from(line[*p]);
                if number >= view.first[*p] {
                    assert!(on_line.contains(&(*p, number)), "{name}: {p}");
                    not_kept += usize::from(run.kept[*p].get(number) == Some(&false));
                } else {
                    assert!(!on_line.iter().any(|(on, _)| on == p), "{name}: {p}");
                    let names = picture.all.iter().filter(|one| one.name == "title");
                    let numbers = names.filter(|one| one.text.starts_with("left out: "));
                    let mut own =
                        numbers.filter(|one| one.text.ends_with(&format!(" of process {p}")));
                    let numbers = numbers_in(&own.next().expect("numbers").text);
                    assert!(
                        numbers[..numbers.len() - 1].contains(&number),
                        "{name}: {p}"
                    );
                    before += 1;
                }
                let ceiling = usize::from(ceilings[*p]);
                if ceiling < run.counts[*p] && picture.dots.contains_key(&(*p, ceiling)) {
                    expected_brackets.push((*p, ceiling));
                }
            }
            let mut found = ceilings_in(&picture);
            found.sort_unstable();
            expected_brackets.sort_unstable();
            assert_eq!(found, expected_brackets, "{name}");
            brackets += found.len();
        }
    }
    assert!(
        not_kept > 100 && before > 100 && brackets > 100,
        "{not_kept} {before} {brackets}"
    );
}

/// The checkpoints with a ring, told by its title and by where it stands.
fn rings_in(picture: &Picture) -> Vec<(usize, usize)> {
    let mut found = Vec::new();
    for (place, element) in picture.all.iter().enumerate() {
        if !element.is("named") || !element.is_within("names") {
            continue;
        }
        let mut own = picture.all.iter().filter(|one| one.parent == Some(place));
        let title = &own.next().expect("a title").text;
        assert!(title.starts_with("named: checkpoint "), "{title}");
        let [number, p] = numbers_in(title)[..] else {
            panic!("{title}")
        };
        let at = (element.number("cx"), element.number("cy"));
        assert_eq!(picture.dots[&(p, number)].at, at, "{title}");
        // Around the dot, and clear of it.
        assert!(element.number("r") > 7.0, "{title}");
        found.push((p, number));
    }
    found
}

/// The pieces of the way that a zigzag path is drawn as: its sides, and the white
/// between them, which runs along the same corners.
fn way_in(picture: &Picture) -> Vec<Vec<(f64, f64)>> {
    let pieces = |class: &str| -> Vec<Vec<(f64, f64)>> {
        let own = in_class(&picture.all, "way").filter(|one| one.is(class));
        let own = own.filter(|one| !one.is_within("legend"));
        own.map(points).collect()
    };
    assert_eq!(pieces("sides"), pieces("between"));
    pieces("sides")
}

/// The way as the picture's dots and arrows give it: from the first checkpoint to the
/// first arrow, along it, to the next, and to the second checkpoint; in pieces where
/// something is left out.
fn way_along(picture: &Picture, path: &Path) -> Vec<Vec<(f64, f64)>> {
    let dot = |one: keeper::Checkpoint| {
        let dot = picture.dots.get(&(one.process.into(), one.number.into()));
        dot.map(|dot| dot.at)
    };
    let mut pieces: Vec<Vec<(f64, f64)>> = vec![dot(path.from).into_iter().collect()];
    for position in &path.messages {
        let Some(arrow) = picture.arrows.get(&usize::from(*position)) else {
            pieces.push(vec![]);
            continue;
        };
        let mut corners = arrow.shaft.clone();
        *corners.last_mut().expect("two") = arrow.tip;
        let near =
            |one: (f64, f64), other: (f64, f64)| (one.0 - other.0).hypot(one.1 - other.1) < 5.0;
        let cut_at = |end: (f64, f64)| arrow.ring.is_some_and(|ring| near(ring, end));
        if cut_at(corners[0]) {
            pieces.push(vec![]);
        }
        let last = pieces.last_mut().expect("one");
        // From one event of a lifeline to another.
        if let Some(end) = last.last() {
            assert!((end.1 - corners[0].1).abs() < 0.11, "{path:?}");
        }
        last.extend(&corners);
        if cut_at(arrow.tip) {
            pieces.push(vec![]);
        }
    }
    pieces.last_mut().expect("one").extend(dot(path.to));
    pieces.retain(|piece| piece.len() > 1);
    pieces
}

#[test]
fn named_checkpoints_of_example_a() {
    let picture = |arguments: &[&str]| {
        let arguments = [&["draw"], arguments].concat();
        let svg = String::from_utf8(done(&arguments, &example_a())).expect("UTF-8");
        Picture::read(&svg)
    };
    // A yes: the line that has it.
    let yes = picture(&["--stand", "1.2"]);
    let line = yes.lines("standing-line");
    assert_eq!(
        (line.len(), through(&yes, &line[0])),
        (1, vec![(0, 3), (1, 2)])
    );
    assert_eq!(rings_in(&yes), [(1, 2)]);
    assert!(way_in(&yes).is_empty());
    let legend = yes.texts("legend");
    assert!(legend.contains(&"named checkpoint"), "{legend:?}");
    assert!(legend.contains(&"latest line with 1.2: 3 2"), "{legend:?}");
    assert!(!legend.iter().any(|text| text.contains("zigzag")));
    assert!(!yes.notes().contains("No: "), "{}", yes.notes());
    let two = picture(&["--stand", "1.1,0.0"]);
    assert_eq!(rings_in(&two), [(0, 0), (1, 1)]);
    let legend = two.texts("legend");
    assert!(
        legend.contains(&"latest line with 0.0 1.1: 0 1"),
        "{legend:?}"
    );
    // A no: the path, by messages 3 and 2 from checkpoint 2 of process 0 to itself.
    let no = picture(&["--stand", "0.2"]);
    assert!(no.lines("standing-line").is_empty());
    assert_eq!(rings_in(&no), [(0, 2)]);
    let own = keeper::Checkpoint {
        process: 0,
        number: 2,
    };
    let path = Path {
        from: own,
        to: own,
        messages: vec![3, 2],
    };
    let way = way_in(&no);
    assert_eq!((way.len(), way[0].len()), (1, 6));
    assert_eq!(way, way_along(&no, &path));
    let legend = no.texts("legend");
    let words = "zigzag path from 0.2 to itself";
    assert!(legend.contains(&words), "{legend:?}");
    assert!(!legend.iter().any(|text| text.contains("latest line")));
    let note = "No: 0.2 is on no consistent line. A zigzag path leads from 0.2 to itself by m3, then m2. Time ";
    assert!(no.notes().starts_with(note), "{}", no.notes());
    for (message, place) in [(3, 1), (2, 2)] {
        let (start, end) = (
            format!("message {message}: "),
            format!("; number {place} of 2 on the zigzag path"),
        );
        let mut titles = no.titles.iter();
        assert!(titles.any(|title| title.starts_with(&start) && title.ends_with(&end)));
    }
    assert_eq!(
        no.titles
            .iter()
            .filter(|one| one.contains("zigzag"))
            .count(),
        2
    );
    // Neither is kept, and they are drawn all the same, with the checkpoint.
    let kept = picture(&["--stand", "0.2", "--kept-only"]);
    assert_eq!(
        kept.arrows.keys().copied().collect::<Vec<_>>(),
        [0, 2, 3, 4]
    );
    assert_eq!(kept.dots[&(0, 2)].class, "other");
    assert_eq!(way_in(&kept), way_along(&kept, &path));
    let note = "Drawn: only what is kept, the named checkpoints and the zigzag path. Left out: 2 checkpoints (none kept) \
                and 1 message (none kept).";
    assert!(kept.notes().ends_with(note), "{}", kept.notes());
    let kept = picture(&["--stand", "0.0,1.0", "--kept-only"]);
    let note = "Drawn: only what is kept, and the line with the named checkpoints. Left out: ";
    assert!(kept.notes().contains(note), "{}", kept.notes());
    assert_eq!(rings_in(&kept), [(0, 0), (1, 0)]);
    // Without one of the lifelines there are pieces of it.
    let one = picture(&["--stand", "0.2", "--processes", "0"]);
    let way = way_in(&one);
    assert_eq!((way.len(), way[0].len(), way[1].len()), (2, 3, 3));
    assert_eq!(way, way_along(&one, &path));
    // Nothing of it is drawn, so there is nothing to explain; the note says why.
    let none = picture(&["--stand", "0.2", "--last", "1", "--processes", "1"]);
    assert!(way_in(&none).is_empty() && rings_in(&none).is_empty());
    let legend = none.texts("legend");
    assert!(!legend.contains(&words) && !legend.contains(&"named checkpoint"));
    assert!(none
        .notes()
        .starts_with("No: 0.2 is on no consistent line. "));
    // The same in other words.
    let bytes = |stand: &str| done(&["draw", "--stand", stand], &example_a());
    assert_eq!(bytes("1.1,0.0"), bytes("0.0,1.1"));
    assert_eq!(bytes("1.2,1.2"), bytes("1.2"));
    // None of it is there where nothing was named.
    let none = picture(&["--under", "0,-"]);
    assert!(none.lines("standing-line").is_empty() && rings_in(&none).is_empty());
    assert!(way_in(&none).is_empty());
}

/// Names by chance, and whatever is left out: a ring around each that is drawn; the
/// line has its checkpoints, or the way runs along the path's arrows, each of which
/// has its position beside it.
#[test]
fn named_checkpoints_have_their_line_or_their_path() {
    let mut random = Random(31);
    let (mut lines, mut before, mut ways, mut cut, mut not_kept) = (0, 0, 0, 0, 0);
    let tables = corpus().into_iter().map(|case| (case.name, case.table));
    let histories = (0..60).map(|seed| {
        let mut random = Random(seed);
        let n = 2 + random.below(6);
        (format!("history {seed}"), random.history(n, 60))
    });
    for (name, bytes) in tables.chain(histories) {
        let Ok(table) = keeper::Table::from_bytes(&bytes[..]) else {
            continue;
        };
        if table.counts().map(usize::from).sum::<usize>() > 500 {
            continue;
        }
        let mut named = Vec::new();
        for (process, count) in (0..).zip(table.counts()) {
            if random.below(3) == 0 {
                let number = random.below(count.into()) as u16;
                named.push(keeper::Checkpoint { process, number });
            }
        }
        let together = match table.stand_together(&named).expect("not refused") {
            Some(line) => Together::Yes(line),
            None => Together::No(Path::shortest(&table, &named).expect("a path")),
        };
        let run = Run::read_standing(&bytes, &named, together.clone()).expect("accepted");
        for choice in choices(run.counts.len()) {
            let svg = draw::draw(&run, &choice, None).expect("not too large");
            let picture = Picture::read(&svg);
            let name = format!("{name}, {named:?}, {choice:?}");
            picture.assert_inside(&name);
            let view = View::of(&run, &choice).expect("there");
            let there = |p: usize, number: usize| view.row(p).is_some() && number >= view.first[p];
            let rings: Vec<(usize, usize)> = named
                .iter()
                .map(|one| (usize::from(one.process), usize::from(one.number)))
                .filter(|(p, number)| there(*p, *number))
                .collect();
            assert_eq!(rings_in(&picture), rings, "{name}");
            match &together {
                Together::Yes(line) => {
                    assert!(way_in(&picture).is_empty(), "{name}");
                    let standing = picture.lines("standing-line");
                    assert_eq!(standing.len(), 1, "{name}");
                    let on_line = through(&picture, &standing[0]);
                    for p in &view.rows {
                        let number = usize::from(line[*p]);
                        let has = on_line.contains(&(*p, number));
                        assert_eq!(has, there(*p, number), "{name}: {p}");
                        // Where it is left out its number stands at the beginning.
                        let mut left_out = in_class(&picture.all, "before")
                            .filter(|one| one.name == "title")
                            .filter(|one| one.text.ends_with(&format!(" of process {p}")))
                            .map(|one| numbers_in(&one.text));
                        let told = left_out.any(|numbers| {
                            let (_, numbers) = numbers.split_last().expect("the process");
                            numbers.contains(&number)
                        });
                        assert_eq!(told, !has, "{name}: {p}");
                        before += usize::from(told);
                    }
                    lines += 1;
                }
                Together::No(path) => {
                    assert!(picture.lines("standing-line").is_empty(), "{name}");
                    let way = way_in(&picture);
                    assert_eq!(way, way_along(&picture, path), "{name}");
                    ways += usize::from(!way.is_empty());
                    cut += usize::from(way.len() > 1);
                    let labels = picture.texts("positions");
                    for position in &path.messages {
                        let k = usize::from(*position);
                        let ends = [view.has_send(k), view.has_end(k)];
                        let drawn = picture.arrows.contains_key(&k);
                        assert_eq!(drawn, ends.contains(&true), "{name}: {k}");
                        not_kept += usize::from(drawn && choice.kept_only && !run.messages[k].kept);
                        let own = format!("m{k}");
                        let mut first = labels.iter().map(|label| label.split(' ').next());
                        assert!(
                            !drawn || first.any(|word| word == Some(&own)),
                            "{name}: {k}"
                        );
                    }
                    let by: Vec<String> = path.messages.iter().map(|k| format!("m{k}")).collect();
                    let by = match by.len() {
                        0..=12 => by.join(", then "),
                        all => format!("{all} messages, from {} to {}", by[0], by[all - 1]),
                    };
                    let note = format!(" A zigzag path leads {} by {by}.", path.leads());
                    assert!(
                        picture.notes().contains(&note),
                        "{name}: {}",
                        picture.notes()
                    );
                }
            }
        }
    }
    assert!(lines > 300 && before > 300, "{lines} {before}");
    assert!(
        ways > 300 && cut > 50 && not_kept > 50,
        "{ways} {cut} {not_kept}"
    );
}

/// The picture of a path of more messages than have positions beside them.
#[test]
fn a_long_path_is_drawn() {
    // From 3 to 0, to and fro between 0 and 1, one interval lower each time, and from 0
    // to 2. It goes from the last position to the first, so that channels are in order.
    let count = 100;
    let sends = (1..count).flat_map(|k| [1, k - 1, 0, k]);
    let receipts = (1..count).flat_map(|k| [0, k, 1, k]);
    let numbers = [4, 2 * count, count, count, 2, 1].into_iter();
    let numbers = numbers.chain([0, 0]).chain(sends).chain([3, 0]);
    let numbers = numbers.chain([2, 1]).chain(receipts).chain([0, count]);
    let table = bytes(&numbers.collect::<Vec<u16>>());
    let svg = done(&["draw", "--stand", "3.0,2.1"], &table);
    let picture = Picture::read(&String::from_utf8(svg).expect("UTF-8"));
    let note = "No: 3.0 and 2.1 are on no consistent line together. A zigzag path leads from 3.0 to 2.1 by 200 messages, \
                from m199 to m0. ";
    assert!(picture.notes().starts_with(note), "{}", picture.notes());
    let of = |process, number| keeper::Checkpoint { process, number };
    let path = Path {
        from: of(3, 0),
        to: of(2, 1),
        messages: (0..200).rev().collect(),
    };
    let way = way_in(&picture);
    assert_eq!((way.len(), &way), (1, &way_along(&picture, &path)));
    assert_eq!(picture.texts("positions").len(), 120);
    // Of as many messages none has its position there where there is no path.
    let svg = done(&["draw", "--stand", "3.0,2.0"], &table);
    let picture = Picture::read(&String::from_utf8(svg).expect("UTF-8"));
    assert!(picture.texts("positions").is_empty());
}

#[test]
fn titles_of_example_a() {
    let svg = String::from_utf8(done(&["draw"], &example_a())).expect("UTF-8");
    let titles: Vec<String> = Picture::read(&svg).titles.into_iter().collect();
    let expected = [
        "checkpoint 0 of process 0, not kept",
        "checkpoint 0 of process 1, not kept",
        "checkpoint 1 of process 0, kept: on the line of process 0 holding",
        "checkpoint 1 of process 1, kept: on the line of process 0 holding",
        "checkpoint 2 of process 0, not kept",
        "checkpoint 2 of process 1, kept: on the line of process 1 holding",
        "message 0: from process 0 after its checkpoint 0, received by process 1 before its checkpoint 2, \
         kept: sent before and received after the line of process 0 holding",
        "message 1: from process 1 after its checkpoint 0, received by process 0 before its checkpoint 1, not kept",
        "message 2: from process 1 after its checkpoint 1, received by process 0 before its checkpoint 2, not kept",
        "message 3: from process 0 after its checkpoint 2, received by process 1 before its checkpoint 2, not kept",
        "message 4: from process 1 after its checkpoint 2, waiting for process 0, kept",
        "virtual checkpoint of process 0, numbered 3",
        "virtual checkpoint of process 1, numbered 3",
    ];
    assert_eq!(titles, expected);
}

#[test]
fn titles_say_what_stands_there_and_why_it_is_kept() {
    let (mut kept, mut not_saved) = (0, 0);
    for (name, run) in runs().into_iter().chain(any_runs(11, 80)) {
        let titles = Picture::read(&draw(&run, None)).titles;
        let count = checkpoints(&run) + run.counts.len() + run.messages.len();
        assert_eq!(titles.len(), count, "{name}");
        for title in titles {
            let what = title.split(", kept: ").next().expect("one");
            let numbers = numbers_in(what);
            let why = title.split_once(", kept: ").map(|(_, why)| why);
            let holders: Vec<usize> = match why {
                Some(why) => {
                    let list = why.rsplit_once("process").expect("named").1;
                    let parts = list
                        .split(',')
                        .filter(|part| part.contains(|c: char| c.is_ascii_digit()));
                    parts
                        .flat_map(|part| match numbers_in(part)[..] {
                            [one] => one..=one,
                            [first, last] => first..=last,
                            _ => panic!("{title}"),
                        })
                        .collect()
                }
                None => Vec::new(),
            };
            let expected = |crosses: &dyn Fn(&[usize]) -> bool| {
                let all = 0..run.counts.len();
                all.filter(|holder| crosses(&run.hold_lines[*holder]))
                    .collect::<Vec<_>>()
            };
            if what.starts_with("checkpoint") {
                let (number, p) = (numbers[0], numbers[1]);
                assert_eq!(why.is_some(), run.kept[p][number], "{name}: {title}");
                assert_eq!(
                    title.ends_with("not kept"),
                    !run.kept[p][number],
                    "{name}: {title}"
                );
                assert_eq!(
                    holders,
                    expected(&|line| line[p] == number),
                    "{name}: {title}"
                );
                kept += holders.len();
            } else if what.starts_with("message") {
                let message = &run.messages[numbers[0]];
                assert_eq!(
                    (message.from, message.sent),
                    (numbers[1], numbers[2]),
                    "{name}: {title}"
                );
                assert_eq!(message.to, numbers[3], "{name}: {title}");
                assert_eq!(
                    message.waiting(),
                    title.contains("waiting for"),
                    "{name}: {title}"
                );
                assert_eq!(
                    message.kept,
                    !title.ends_with("not kept"),
                    "{name}: {title}"
                );
                let unsaved = message.received == run.counts[message.to];
                assert_eq!(
                    unsaved,
                    title.contains(": received, not saved, "),
                    "{name}: {title}"
                );
                not_saved += usize::from(unsaved);
                if !message.waiting() {
                    match unsaved {
                        true => assert_eq!(numbers.len(), 4, "{name}: {title}"),
                        false => assert_eq!(message.received, numbers[4], "{name}: {title}"),
                    }
                    let crosses = |line: &[usize]| {
                        message.sent < line[message.from] && message.received > line[message.to]
                    };
                    assert_eq!(holders, expected(&crosses), "{name}: {title}");
                }
            }
        }
    }
    assert!(kept > 1_000 && not_saved > 100, "{kept} {not_saved}");
}

/// Three processes of which 0 has received three messages and 1 one since their
/// last checkpoints. The lines of 0 and of 1 holding are 1 1 2, and that of 2 is
/// 1 1 1: message 1 crosses all of them, and message 2 the first two.
const NOT_SAVED: &str = "\
processes 3
states 2 2 2
message 1.1 -> 0.2
message 2.0 -> 0.2 unsaved
message 2.1 -> 0.2
message 0.0 -> 1.1
message 0.1 -> 1.2
message 1.1 -> 2 waiting
";

#[test]
fn what_is_not_saved_in_words_and_in_its_place() {
    let picture = |arguments: &[&str]| {
        let arguments = [&["draw", "--text"], arguments].concat();
        let svg = String::from_utf8(done(&arguments, NOT_SAVED.as_bytes())).expect("UTF-8");
        Picture::read(&svg)
    };
    let whole = picture(&[]);
    let messages: Vec<&String> = whole
        .titles
        .iter()
        .filter(|title| title.starts_with("message "))
        .collect();
    assert_eq!(
        messages,
        [
            "message 0: from process 1 after its checkpoint 1, to process 0: received, not saved, not kept",
            "message 1: from process 2 after its checkpoint 0, to process 0: received, not saved, \
             kept: sent before and received after the lines of processes 0-2, each alone holding",
            "message 2: from process 2 after its checkpoint 1, to process 0: received, not saved, \
             kept: sent before and received after the lines of processes 0-1, each alone holding",
            "message 3: from process 0 after its checkpoint 0, received by process 1 before its checkpoint 1, not kept",
            "message 4: from process 0 after its checkpoint 1, to process 1: received, not saved, not kept",
            "message 5: from process 1 after its checkpoint 1, waiting for process 2, kept",
        ]
    );
    // Whatever is left out or drawn as well, an arrow that has its tip ends on the
    // lifeline, between the last dot and the square; those to one process apart.
    for arguments in [
        &[][..],
        &["--hold", "all"],
        &["--hold", "1"],
        &["--under", "1,-,2"],
        &["--last", "1"],
        &["--kept-only"],
        &["--kept-only", "--hold", "all"],
        &["--processes", "2,0"],
        &["--processes", "0", "--last", "1"],
    ] {
        let picture = picture(arguments);
        picture.assert_inside(&format!("{arguments:?}"));
        for (to, positions) in [(0, &[0, 1, 2][..]), (1, &[4])] {
            let Some(square) = picture.dots.get(&(to, 2)) else {
                continue;
            };
            assert_eq!(square.class, "virtual");
            let own = picture.dots.iter().filter(|((p, _), _)| *p == to);
            let dots = own.filter(|(_, dot)| dot.class != "virtual");
            let last = dots.map(|(_, dot)| dot.at.0).fold(0.0, f64::max);
            let mut tips = Vec::new();
            for position in positions {
                let Some(arrow) = picture.arrows.get(position) else {
                    assert!(arguments.contains(&"--kept-only"), "{arguments:?}");
                    continue;
                };
                assert!(arrow.hollow, "{arguments:?}: {position}");
                assert!((arrow.tip.1 - square.at.1).abs() < 0.11, "{arguments:?}");
                tips.push(arrow.tip.0);
            }
            tips.sort_by(f64::total_cmp);
            let room = [&[last + 5.0][..], &tips, &[square.at.0 - 5.0]].concat();
            assert!(
                room.windows(2).all(|pair| pair[1] - pair[0] > 5.0),
                "{arguments:?}: {room:?}"
            );
        }
    }
    // Only what is kept: two of them.
    let kept = picture(&["--kept-only"]);
    assert_eq!(kept.arrows.keys().copied().collect::<Vec<_>>(), [1, 2, 5]);
    assert_eq!(kept.arrows[&1].class, "unsaved-kept");
    let legend = kept.texts("legend");
    assert!(legend.contains(&"received, not saved (kept)"), "{legend:?}");
    assert!(!legend.contains(&"received, not saved (not kept)"));
    // The end that is left out, as the text form has it.
    let sender = picture(&["--processes", "2"]);
    let labels = sender.texts("positions");
    assert_eq!(
        labels,
        ["m1 to 0.2 unsaved", "m2", "m5 from 1.1"],
        "as much as there is room for"
    );
    assert_eq!(sender.arrows[&2].class, "unsaved-kept");
    let sender = picture(&["--processes", "1"]);
    assert_eq!(sender.arrows[&0].class, "unsaved");
    let receiver = picture(&["--processes", "0"]);
    let labels = receiver.texts("positions");
    assert!(labels.contains(&"m1 from 2.0"), "{labels:?}");
}

#[test]
fn every_hold_line_has_its_checkpoints() {
    let mut many = 0;
    for case in corpus() {
        if refused(&case.listing).is_some() {
            continue;
        }
        let run = Run::read(&case.table, &Holders::All).expect("accepted");
        if checkpoints(&run) > 2_000 {
            continue;
        }
        let n = run.counts.len();
        let picture = Picture::read(&draw(&run, None));
        picture.assert_inside(&case.name);
        let lines = picture.lines("hold-line");
        assert_eq!(lines.len(), n, "{}", case.name);
        for (holder, line) in lines.iter().enumerate() {
            let on_line = through(&picture, line);
            for (p, number) in run.hold_lines[holder].iter().enumerate() {
                assert!(on_line.contains(&(p, *number)), "{}: {holder}", case.name);
            }
        }
        // A label beside each kept checkpoint, where there are several lines.
        let kept = run.kept.iter().flatten().filter(|kept| **kept).count();
        let labels = picture.texts("holders");
        assert_eq!(labels.len(), if n > 1 { kept } else { 0 }, "{}", case.name);
        assert!(
            labels.iter().all(|label| label.starts_with('h')),
            "{}",
            case.name
        );
        // A few lines have an entry each; many do not fill the legend.
        let legend = picture.texts("legend");
        let entries = legend.iter().filter(|text| text.starts_with('h')).count();
        assert!(entries <= 7, "{}", case.name);
        many += usize::from(n == 32);
    }
    assert!(many > 3, "{many}");
    // Told apart without colours, too.
    let run = Run::read(&Random(5).history(6, 60), &Holders::All).expect("accepted");
    let svg = draw(&run, None);
    let all = elements(&svg).expect("well formed");
    let lines = || all.iter().filter(|one| one.is("hold-line"));
    for attribute in ["stroke", "stroke-dasharray"] {
        let different: BTreeSet<_> = lines().map(|line| line.attribute(attribute)).collect();
        assert_eq!(different.len(), 6, "{attribute}");
    }
}

/// Choices for a run of n processes.
fn choices(n: usize) -> Vec<Choice> {
    let some: Vec<usize> = (0..n).rev().step_by(2).collect();
    let mut choices = Vec::new();
    for processes in [None, Some(some), Some(vec![n / 2])] {
        for last in [None, Some(1), Some(2), Some(5), Some(4096)] {
            for kept_only in [false, true] {
                choices.push(Choice {
                    processes: processes.clone(),
                    last,
                    kept_only,
                });
            }
        }
    }
    choices
}

/// How a count of kept things stands in the note.
fn counted(all: usize, kept: usize, what: &str) -> Option<String> {
    let kept = match kept {
        0 => "none".to_string(),
        some => some.to_string(),
    };
    let plural = if all == 1 { "" } else { "s" };
    (all > 0).then(|| format!("{all} {what}{plural} ({kept} kept)"))
}

#[test]
fn a_choice_leaves_what_it_says() {
    let (mut whole, mut cut_at_tail, mut cut_at_tip) = (0, 0, 0);
    let small = runs()
        .into_iter()
        .filter(|(_, run)| checkpoints(run) <= 200);
    for (name, run) in small.chain(histories(100..130, 9)).chain(any_runs(2, 40)) {
        let n = run.counts.len();
        for choice in choices(n) {
            let name = format!("{name} {choice:?}");
            let svg = draw::draw(&run, &choice, None).expect("not too large");
            let picture = Picture::read(&svg);
            picture.assert_inside(&name);
            let rows = choice.processes.clone().unwrap_or((0..n).collect());
            let first = |p: usize| run.counts[p].saturating_sub(choice.last.unwrap_or(4096));
            let wants = |kept: bool| kept || !choice.kept_only;

            // The lifelines, from the top.
            let names: Vec<String> = rows.iter().map(|p| format!("process {p}")).collect();
            assert_eq!(picture.texts("processes")[..rows.len()], names, "{name}");
            let heights: Vec<f64> = rows
                .iter()
                .map(|p| picture.dots[&(*p, run.counts[*p])].at.1)
                .collect();
            assert!(heights.windows(2).all(|pair| pair[0] < pair[1]), "{name}");

            // The checkpoints.
            let mut dots: Vec<(usize, usize)> = Vec::new();
            for p in &rows {
                let own = (first(*p)..=run.counts[*p])
                    .filter(|number| wants(run.kept[*p].get(*number) != Some(&false)));
                dots.extend(own.map(|number| (*p, number)));
            }
            dots.sort_unstable();
            assert!(picture.dots.keys().eq(&dots), "{name}");

            // The messages, whole or cut.
            let mut left_out = Vec::new();
            for (k, message) in run.messages.iter().enumerate() {
                let ends_before = match message.waiting() {
                    true => run.counts[message.to],
                    false => message.received,
                };
                let sent = rows.contains(&message.from) && message.sent >= first(message.from);
                let ended = rows.contains(&message.to) && ends_before > first(message.to);
                let arrow = picture.arrows.get(&k);
                if !wants(message.kept) || !(sent || ended) {
                    assert!(arrow.is_none(), "{name}: {k}");
                    left_out.push(message.kept);
                    continue;
                }
                let arrow = arrow.unwrap_or_else(|| panic!("{name}: {k} is not drawn"));
                let near = |one: (f64, f64), other: (f64, f64)| {
                    (one.0 - other.0).hypot(one.1 - other.1) < 5.0
                };
                match (sent, ended, arrow.ring) {
                    (true, true, None) => whole += 1,
                    (false, true, Some(ring)) if near(ring, arrow.shaft[0]) => cut_at_tail += 1,
                    (true, false, Some(ring)) if near(ring, arrow.tip) => cut_at_tip += 1,
                    _ => panic!("{name}: {k} is cut elsewhere"),
                }
                // The end that is drawn is on its lifeline.
                let height = |p: usize| picture.dots[&(p, run.counts[p])].at.1;
                if sent {
                    assert!(
                        (arrow.shaft[0].1 - height(message.from)).abs() < 0.11,
                        "{name}: {k}"
                    );
                }
                if ended {
                    let gap = if message.waiting() { 12.0 } else { 0.0 };
                    let short_of = (arrow.tip.1 - height(message.to)).abs();
                    assert!((short_of - gap).abs() < 0.11, "{name}: {k}");
                }
            }

            // What is left out is counted.
            let drawn: BTreeSet<(usize, usize)> = dots.into_iter().collect();
            let all = (0..n).flat_map(|p| (0..run.counts[p]).map(move |number| (p, number)));
            let missing: Vec<(usize, usize)> = all.filter(|key| !drawn.contains(key)).collect();
            let kept = missing.iter().filter(|(p, number)| run.kept[*p][*number]);
            let kept_messages = left_out.iter().filter(|kept| **kept).count();
            let parts: Vec<String> = [
                counted(missing.len(), kept.count(), "checkpoint"),
                counted(left_out.len(), kept_messages, "message"),
            ]
            .into_iter()
            .flatten()
            .collect();
            let notes = picture.notes();
            match parts.is_empty() {
                true => assert!(!notes.contains("Left out"), "{name}: {notes}"),
                false => {
                    let said = format!("Left out: {}.", parts.join(" and "));
                    assert!(notes.ends_with(&said), "{name}: {notes}");
                }
            }

            // The lines are there: at their checkpoints, or left of those drawn.
            let line = &picture.lines("recovery-line")[0];
            let on_line = through(&picture, line);
            for p in &rows {
                let number = run.recovery_line[*p];
                if number >= first(*p) {
                    assert!(on_line.contains(&(*p, number)), "{name}: {p}");
                    continue;
                }
                let left = picture.dots.iter().filter(|(key, _)| key.0 == *p);
                let left = left.map(|(_, dot)| dot.at.0).fold(f64::MAX, f64::min);
                let y = picture.dots[&(*p, run.counts[*p])].at.1;
                let before = line
                    .iter()
                    .any(|at| (at.1 - y).abs() < 0.05 && at.0 < left - 10.0);
                assert!(before, "{name}: {p}");
                // With the numbers that it and the others have there.
                let mut numbers: Vec<usize> = run.lines().map(|line| line[*p]).collect();
                numbers.retain(|number| *number < first(*p));
                numbers.sort_unstable();
                numbers.dedup();
                let plural = if numbers.len() == 1 { "" } else { "s" };
                let numbers: Vec<String> = numbers.iter().map(usize::to_string).collect();
                let title = format!(
                    "left out: checkpoint{plural} {} of process {p}",
                    numbers.join(", ")
                );
                let mut titles = in_class(&picture.all, "before");
                assert!(titles.any(|one| one.text == title), "{name}: {title}");
                assert!(picture.texts("before").iter().any(|text| {
                    let ends = (text.split("..").next(), text.split("..").last());
                    ends == (
                        numbers.first().map(String::as_str),
                        numbers.last().map(String::as_str),
                    )
                }));
            }
        }
    }
    assert!(
        whole > 5_000 && cut_at_tail > 1_000 && cut_at_tip > 1_000,
        "{whole} {cut_at_tail} {cut_at_tip}"
    );
}

#[test]
fn a_choice_of_all_is_the_whole_picture() {
    let mut random = Random(17);
    for table in [example_a(), random.history(7, 90), random.table(6, 40, 9)] {
        let whole = done(&["draw"], &table);
        let n = usize::from(table[0]);
        let most = read(&table)
            .counts
            .into_iter()
            .max()
            .expect("one")
            .to_string();
        assert_eq!(done(&["draw", "--last", &most], &table), whole);
        assert_eq!(done(&["draw", "--last", "65535"], &table), whole);
        let all: Vec<String> = (0..n).map(|p| p.to_string()).collect();
        assert_eq!(
            done(&["draw", "--processes", &all.join(",")], &table),
            whole
        );
    }
    // One less than all is not all.
    assert_ne!(
        done(&["draw", "--last", "2"], &example_a()),
        done(&["draw"], &example_a())
    );
}

/// The columns of all events that are drawn.
fn columns(run: &Run, view: &View, layout: &Layout, events: &Events) -> BTreeMap<usize, f64> {
    let mut columns = BTreeMap::new();
    for (row, p) in view.rows.iter().enumerate() {
        for (number, column) in &layout.checkpoints[row] {
            if *number < run.counts[*p] {
                columns.insert(events.checkpoint(*p, *number), *column);
            }
        }
    }
    for (k, arrow) in layout.arrows.iter().enumerate() {
        let (send, end) = match arrow {
            Arrow::None => (None, None),
            Arrow::Whole(corners) => (corners.first(), corners.last()),
            Arrow::Send(place) => (Some(place), None),
            Arrow::End(place) => (None, Some(place)),
        };
        if let Some((column, _)) = send {
            columns.insert(events.send(k), *column);
        }
        if let Some((column, _)) = end.filter(|_| !run.messages[k].waiting()) {
            columns.insert(events.receipt(k), *column);
        }
    }
    columns
}

#[test]
fn a_choice_keeps_the_order_of_the_whole_run() {
    let mut pairs = 0;
    for (name, run) in histories(200..240, 8) {
        let events = Events::of(&run);
        let after: Vec<BTreeSet<usize>> = (0..events.len())
            .map(|event| events.all_after(event))
            .collect();
        for choice in choices(run.counts.len()) {
            let view = View::of(&run, &choice).expect("a choice that it has");
            let layout = layout::timed(&view, &SCALE);
            let columns = columns(&run, &view, &layout, &events);
            for (event, column) in &columns {
                for later in after[*event].iter().filter_map(|later| columns.get(later)) {
                    assert!(column < later, "{name} {choice:?}");
                    pairs += 1;
                }
                assert!(*column < layout.last, "{name} {choice:?}");
            }
        }
    }
    assert!(pairs > 100_000, "{pairs}");
}

#[test]
fn a_waiting_arrow_ends_right_of_its_receivers_last_checkpoint() {
    let mut seen = 0;
    let all = runs().into_iter().chain(histories(300..340, 32));
    for (name, run) in all.chain(any_runs(4, 200)) {
        let n = run.counts.len();
        for choice in [
            Choice::default(),
            choices(n)[2].clone(),
            choices(n)[12].clone(),
        ] {
            let svg = draw::draw(&run, &choice, None).expect("not too large");
            let picture = Picture::read(&svg);
            for (k, arrow) in &picture.arrows {
                let message = &run.messages[*k];
                let last = (message.to, run.counts[message.to] - 1);
                let (true, Some(last)) = (message.waiting(), picture.dots.get(&last)) else {
                    continue;
                };
                let end = &picture.dots[&(message.to, run.counts[message.to])];
                assert!(arrow.tip.0 > last.at.0, "{name} {choice:?}: {k}");
                assert!(arrow.tip.0 < end.at.0, "{name} {choice:?}: {k}");
                seen += 1;
            }
        }
    }
    assert!(seen > 2_000, "{seen}");
}

/// On the lifeline, between the last checkpoint that its receiver has and the
/// virtual one, whether time has an order or not.
#[test]
fn an_arrow_that_is_not_saved_ends_before_its_receivers_square() {
    let (mut timed, mut grid) = (0, 0);
    for (name, run) in any_runs(6, 60).into_iter().chain(histories(500..520, 12)) {
        let has_order = layout::has_order(&run);
        for choice in choices(run.counts.len()) {
            let svg = draw::draw(&run, &choice, None).expect("not too large");
            let picture = Picture::read(&svg);
            for (k, arrow) in &picture.arrows {
                let message = &run.messages[*k];
                let count = run.counts[message.to];
                let Some(square) = picture.dots.get(&(message.to, count)) else {
                    continue;
                };
                if message.received != count {
                    continue;
                }
                let own = picture
                    .dots
                    .iter()
                    .filter(|((p, c), _)| *p == message.to && *c < count);
                let last = own.map(|(_, dot)| dot.at.0).fold(0.0, f64::max);
                assert!(last < arrow.tip.0, "{name} {choice:?}: {k}");
                assert!(arrow.tip.0 < square.at.0, "{name} {choice:?}: {k}");
                assert!(
                    (arrow.tip.1 - square.at.1).abs() < 0.11,
                    "{name} {choice:?}: {k}"
                );
                *if has_order { &mut timed } else { &mut grid } += 1;
            }
        }
    }
    assert!(timed > 1_000 && grid > 1_000, "{timed} {grid}");
}

#[test]
fn a_picture_is_no_wider_than_renderers_draw() {
    let process = |count: u16| bytes(&[1, 0, count]);
    let width = |arguments: &[&str], table: &[u8]| {
        let svg = String::from_utf8(done(arguments, table)).expect("UTF-8");
        elements(&svg).expect("well formed")[0].number("width")
    };
    // One more checkpoint is 14 px more.
    assert_eq!(width(&["draw"], &process(2325)), 32_758.0);
    let message = |words: &str| {
        format!(
            "the picture would be {words}, --processes or --kept-only (see `keeper draw --help`)"
        )
    };
    let too_wide = "32772 by 150 px, and many renderers stop at 32767: draw less, with --last 2322";
    fails(&["draw"], &process(2326), 2, &message(too_wide));
    let named = width(&["draw", "--last", "2322"], &process(4096));
    assert!(named <= 32_767.0, "{named}");
    let too_wide = "32778 by 188 px, and many renderers stop at 32767: draw less, with --last 2322";
    fails(
        &["draw", "--last", "2323"],
        &process(4096),
        2,
        &message(too_wide),
    );
    // Nothing of that is in a file.
    let file = std::env::temp_dir().join(format!("keeper-wide-{}", std::process::id()));
    let name = file.to_str().expect("UTF-8");
    let ran = common::keeper(&["draw", "-o", name], &process(4096));
    assert_eq!((ran.status, file.exists()), (2, false));

    // The last checkpoint alone may be too much: all that waits is after it.
    let mut table = vec![2, 4096, 1, 1];
    table.extend([0, 0].repeat(4096));
    table.extend([1, 0].repeat(4096));
    let run = read(&bytes(&table));
    let Err(Undrawn::TooLarge { width, last, .. }) = draw::draw(&run, &Choice::default(), None)
    else {
        panic!("drawn");
    };
    assert!(width > draw::MOST_PIXELS);
    assert_eq!(last, None);

    // And no higher.
    let run = read(&example_a());
    for (lines, is_drawn) in [(1_300, true), (1_400, false)] {
        let title = "words ".repeat(10 * lines);
        match draw::draw(&run, &Choice::default(), Some(&title)) {
            Ok(svg) => assert!(is_drawn && Picture::read(&svg).height <= 32_767.0),
            Err(Undrawn::TooLarge { height, last, .. }) => {
                assert!(!is_drawn && height > draw::MOST_PIXELS);
                assert_eq!(last, None);
            }
            Err(other) => panic!("{other}"),
        }
    }
}

#[test]
fn the_grid_has_a_column_for_each_number_drawn() {
    let mut random = Random(21);
    let mut seen = 0;
    for _ in 0..20 {
        let run = read(&random.table(32, 400, 300));
        if layout::has_order(&run) {
            continue;
        }
        for choice in choices(run.counts.len()) {
            let svg = draw::draw(&run, &choice, None).expect("not too large");
            let picture = Picture::read(&svg);
            let mut columns: BTreeMap<usize, f64> = BTreeMap::new();
            for ((_, number), dot) in &picture.dots {
                assert_eq!(*columns.entry(*number).or_insert(dot.at.0), dot.at.0);
            }
            let places: Vec<f64> = columns.values().copied().collect();
            assert!(
                places.windows(2).all(|pair| pair[0] < pair[1]),
                "{choice:?}"
            );
            // No column is wider than what stands in it needs.
            let most = f64::max(4_000.0, 40.0 * columns.len() as f64);
            assert!(
                picture.width <= 200.0 + most,
                "{choice:?}: {}",
                picture.width
            );
            seen += 1;
        }
    }
    assert!(seen > 300, "{seen}");
}

#[test]
fn choices_that_a_run_has_not() {
    let run = read(&example_a());
    let undrawn = |choice: Choice| match draw::draw(&run, &choice, None) {
        Err(Undrawn::Choice(bad)) => bad,
        other => panic!("{other:?}"),
    };
    let processes = |processes: &[usize]| Choice {
        processes: Some(processes.to_vec()),
        ..Choice::default()
    };
    assert_eq!(undrawn(processes(&[])), BadChoice::NoProcesses);
    assert_eq!(undrawn(processes(&[1, 0, 1])), BadChoice::ProcessTwice(1));
    let bad = BadChoice::NoProcess {
        process: 2,
        processes: 2,
    };
    assert_eq!(undrawn(processes(&[0, 2])), bad);
    let none = Choice {
        last: Some(0),
        ..Choice::default()
    };
    assert_eq!(undrawn(none), BadChoice::NoCheckpoints);

    let wrong = |arguments: &[&str], message: &str| {
        let arguments = [&["draw"], arguments].concat();
        let message = format!("{message} (see `keeper draw --help`)");
        fails(&arguments, &example_a(), 2, &message);
    };
    wrong(&["--last", "0"], "--last needs a number above 0");
    wrong(&["--last"], "--last needs NUMBER");
    wrong(&["--last", "-1"], "`-1` is not a number from 0 to 65535");
    wrong(
        &["--last", "65536"],
        "`65536` is not a number from 0 to 65535",
    );
    wrong(&["--last", "1", "--last", "2"], "--last stands twice");
    wrong(&["--processes"], "--processes needs LIST");
    wrong(&["--processes", ""], "`` is not a number from 0 to 65535");
    wrong(&["--processes", "0,"], "`` is not a number from 0 to 65535");
    wrong(
        &["--processes", "0;1"],
        "`0;1` is not a number from 0 to 65535",
    );
    wrong(&["--processes", "2"], "there is no process 2 (N is 2)");
    wrong(&["--processes", "0,1,0"], "process 0 is to be drawn twice");
    wrong(
        &["--processes", "0", "--processes", "1"],
        "--processes stands twice",
    );
    wrong(&["--kept-only=yes"], "--kept-only takes no value");
    wrong(
        &["--hold", "every"],
        "`every` is neither a number nor `all`",
    );
    wrong(&["--hold", ""], "`` is neither a number nor `all`");
    wrong(
        &["--hold", "0,all"],
        "`all` is not a number from 0 to 65535",
    );
    wrong(
        &["--hold", "0,32"],
        "`32`: a process that holds is numbered 0 to 31",
    );
    wrong(&["--hold", "all", "--hold", "1"], "--hold stands twice");
}

#[test]
fn titles() {
    let run = read(&example_a());
    let texts = |title: &str| {
        let svg = draw(&run, Some(title));
        let all = elements(&svg).expect("well formed");
        in_class(&all, "title")
            .map(|text| text.text.clone())
            .collect::<Vec<_>>()
    };
    assert_eq!(texts("<A> & \"B\""), ["&lt;A&gt; &amp; &quot;B&quot;"]);
    assert_eq!(texts("bell\u{7}"), ["bell\u{fffd}"]);
    assert!(texts(&"words and ".repeat(30)).len() > 3);
    assert!(texts(&"x".repeat(400)).len() > 5);
    assert!(!draw(&run, None).contains("class=\"title\""));
}

#[test]
fn draw_as_a_subcommand() {
    let a = example_a();
    let text = done(&["decode"], &a);
    assert_eq!(done(&["draw", "--text"], &text), done(&["draw", "-"], &a));
    fails(
        &["draw", "--hold", "2"],
        &a,
        1,
        "refused 12: there is no process 2 (N is 2)",
    );
    fails(
        &["draw"],
        &a[..47],
        1,
        "(standard input): refused 4: the table has 47 bytes, and 48 are needed for N = 2 and M = 5",
    );
    let message = "`32`: a process that holds is numbered 0 to 31 (see `keeper draw --help`)";
    fails(&["draw", "--hold", "32"], &a, 2, message);
    fails(
        &["draw", "--hold"],
        &a,
        2,
        "--hold needs LIST (see `keeper draw --help`)",
    );
    fails(
        &["draw", "--hold", "x"],
        &a,
        2,
        "`x` is neither a number nor `all` (see `keeper draw --help`)",
    );
    fails(
        &["draw", "--hold", "0", "--hold", "1"],
        &a,
        2,
        "--hold stands twice (see `keeper draw --help`)",
    );
    fails(
        &["draw", "--title"],
        &a,
        2,
        "--title needs TITLE (see `keeper draw --help`)",
    );
    fails(
        &["draw", "--text-out"],
        &a,
        2,
        "draw has no option `--text-out` (see `keeper draw --help`)",
    );
    fails(
        &["list", "--hold", "1"],
        &a,
        2,
        "list has no option `--hold` (see `keeper list --help`)",
    );
    for case in corpus() {
        if let Some(number) = refused(&case.listing) {
            refuses(&["draw", &case.path], b"", number, &case.path);
        }
    }
    // The largest run is drawn, too.
    let largest = common::corpus_folder().join("largest_history.table");
    done(&["draw", largest.to_str().expect("UTF-8")], b"");
    done(&["draw", "--last", "2000"], &bytes(&[1, 0, 4096]));
}

#[test]
fn pictures_in_the_documents_are_what_is_drawn() {
    let root = PathBuf::from(env!("CARGO_MANIFEST_DIR")).join("../..");
    let read = |name: &str| fs::read(root.join(name)).expect(name);
    let a = done(
        &["draw", "--hold", "1", "--title", "Example A"],
        &read("tests/corpus/example_a.table"),
    );
    assert!(
        a == read("docs/example_a.svg"),
        "docs/example_a.svg is not what `keeper draw` writes"
    );
    let domino = done(
        &["draw", "--text", "--hold", "1", "--title", "A domino"],
        &read("docs/domino.txt"),
    );
    assert!(
        domino == read("docs/domino.svg"),
        "docs/domino.svg is not what `keeper draw` writes"
    );
    let zigzag = done(
        &["draw", "--stand", "0.2", "--title", "A useless checkpoint"],
        &read("tests/corpus/example_a.table"),
    );
    assert!(
        zigzag == read("docs/zigzag.svg"),
        "docs/zigzag.svg is not what `keeper draw` writes"
    );
}
