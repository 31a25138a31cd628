//! Where the events of a run stand in time, and how arrows run between them.
//!
//! A table says of a send only that it lies between checkpoints y and y + 1 of
//! its process, and of a receipt that it lies between r - 1 and r, the virtual
//! checkpoints included. An order of time has these and every send before its receipt;
//! and of two messages of one channel, the earlier is sent and received first, for
//! which there is room wherever there is for the rest. Where there is an order, each
//! column takes at most one event of each process, as early as the order
//! allows; where there is none, events stand by checkpoint number.
//!
//! The order is one of the whole run: what is not drawn happens between two
//! columns and takes no place.
//!
//! Places are in columns and rows, both from 0; a row is a process.

use std::collections::{BTreeSet, VecDeque};

use crate::run::{Run, View};

/// The sizes that tell whether an arrow comes too near to a dot.
pub struct Scale {
    pub column: f64,
    pub row: f64,
    /// No arrow comes nearer than this to a checkpoint that it passes, where
    /// that can be had.
    pub clear: f64,
    /// How far before its receiver's lifeline the arrow of a waiting message
    /// ends.
    pub gap: f64,
}

/// A column and a row.
pub type Place = (f64, f64);

/// Where a message is drawn.
#[derive(Clone, Debug, PartialEq)]
pub enum Arrow {
    /// No part of it is.
    None,
    /// The corners, from the send to the receipt. That of a waiting message
    /// ends short of a place after its receiver's last checkpoint.
    Whole(Vec<Place>),
    /// Only its receipt is, there. A waiting message is received at no place;
    /// this one is after its receiver's last checkpoint.
    End(Place),
    /// Only its send is, there.
    Send(Place),
}

impl Arrow {
    /// Whether one end alone is drawn.
    pub fn is_cut(&self) -> bool {
        matches!(self, Arrow::End(_) | Arrow::Send(_))
    }
}

pub struct Layout {
    /// Whether the columns are an order of time.
    pub timed: bool,
    /// By row, the numbers and columns of the checkpoints drawn; the last is
    /// the virtual one.
    pub checkpoints: Vec<Vec<(usize, f64)>>,
    /// By message.
    pub arrows: Vec<Arrow>,
    /// The last column.
    pub last: f64,
}

impl Layout {
    /// The column of a checkpoint, where it is drawn.
    pub fn column(&self, row: usize, number: usize) -> Option<f64> {
        let own = &self.checkpoints[row];
        let found = own.binary_search_by_key(&number, |(number, _)| *number);
        found.ok().map(|place| own[place].1)
    }
}

/// What lies between two checkpoints of one process: positions of messages.
#[derive(Default, Clone)]
struct Between {
    sends: Vec<usize>,
    /// The receipts, and after the last checkpoint the ends of the arrows of
    /// waiting messages.
    ends: Vec<usize>,
}

/// By process, what lies after each checkpoint.
fn intervals(run: &Run) -> Vec<Vec<Between>> {
    let mut all: Vec<Vec<Between>> = run
        .counts
        .iter()
        .map(|count| vec![Between::default(); *count])
        .collect();
    for (k, message) in run.messages.iter().enumerate() {
        all[message.from][message.sent].sends.push(k);
        all[message.to][run.ends_before(k) - 1].ends.push(k);
    }
    all
}

/// The most that has to be drawn side by side.
pub struct Busiest {
    /// Arrow ends between two checkpoints of one process.
    pub interval: usize,
    /// Checkpoints and arrow ends of one process.
    pub process: usize,
}

pub fn busiest(view: &View) -> Busiest {
    let mut most = Busiest {
        interval: 0,
        process: 0,
    };
    let intervals = intervals(view.run);
    for p in view.rows.iter().copied() {
        let (mut interval, mut process) = (0, 0);
        for (number, between) in intervals[p].iter().enumerate() {
            if view.has_checkpoint(p, number) {
                process += 1;
                interval = 0;
            }
            let sends = between.sends.iter().filter(|k| view.has_send(**k));
            let ends = between.ends.iter().filter(|k| view.has_end(**k));
            let drawn = sends.count() + ends.count();
            interval += drawn;
            process += drawn;
            most.interval = most.interval.max(interval);
        }
        most.process = most.process.max(process);
    }
    most
}

/// Whether some order of time fits the table.
pub fn has_order(run: &Run) -> bool {
    let intervals = intervals(run);
    // The latest checkpoint that each process can have reached. A message can
    // be sent once its sender has reached checkpoint `sent`; a process goes on
    // once all that it receives before its next checkpoint can be sent.
    let mut reached = vec![0; run.counts.len()];
    loop {
        let mut moved = false;
        for p in 0..run.counts.len() {
            let goes_on = |reached: &[usize]| {
                let sent = |k: &usize| run.messages[*k].sent <= reached[run.messages[*k].from];
                reached[p] + 1 < run.counts[p] && intervals[p][reached[p]].ends.iter().all(sent)
            };
            while goes_on(&reached) {
                reached[p] += 1;
                moved = true;
            }
        }
        if !moved {
            return reached
                .iter()
                .zip(&run.counts)
                .all(|(reached, count)| reached + 1 == *count);
        }
    }
}

/// The dots of checkpoints, and arrows that keep clear of them.
struct Router<'a> {
    scale: &'a Scale,
    /// By row and column, whether a checkpoint stands there.
    dots: Vec<Vec<bool>>,
    /// How many columns the first and the last part of a bent arrow take.
    unit: f64,
}

impl Router<'_> {
    /// Where a straight part of an arrow crosses or meets lifelines: row,
    /// column, and how steep: the sine of the angle.
    fn meets(&self, from: Place, to: Place) -> Vec<(usize, f64, f64)> {
        let (columns, rows) = (to.0 - from.0, to.1 - from.1);
        let (across, down) = (columns * self.scale.column, rows * self.scale.row);
        let steep = down.abs() / across.hypot(down);
        let (top, bottom) = (from.1.min(to.1), from.1.max(to.1));
        let lifelines = top.ceil() as usize..=bottom.floor() as usize;
        lifelines
            .map(|row| (row, from.0 + columns * (row as f64 - from.1) / rows, steep))
            .collect()
    }

    /// Whether a part of an arrow keeps clear of all dots.
    fn is_clear(&self, from: Place, to: Place) -> bool {
        let (left, right) = (from.0.min(to.0), from.0.max(to.0));
        self.meets(from, to)
            .into_iter()
            .all(|(row, column, steep)| {
                let reach = self.scale.clear / (steep * self.scale.column);
                let first = (column - reach).max(left - reach * steep).max(0.0).ceil() as usize;
                let last = (column + reach).min(right + reach * steep).max(0.0).floor() as usize;
                (first..=last).all(|at| !self.dots[row].get(at).is_some_and(|dot| *dot))
            })
    }

    /// The corners of the arrow of message k between two places on lifelines,
    /// and whether it keeps clear of dots. Straight where it can be; else steep
    /// past the rows between and then along the receiver's row. That of a
    /// waiting message ends above or below its place.
    fn arrow(&self, k: usize, waiting: bool, start: Place, end: Place) -> (Vec<Place>, bool) {
        let towards = if start.1 < end.1 { 1.0 } else { -1.0 };
        let tip = match waiting {
            true => (end.0, end.1 - towards * self.scale.gap / self.scale.row),
            false => end,
        };
        if self.is_clear(start, tip) {
            return (vec![start, tip], true);
        }
        let forward = if start.0 <= end.0 {
            self.unit
        } else {
            -self.unit
        };
        let steps = ((end.0 - start.0) / forward) as usize;
        // Some lanes, so that long arrows do not lie on each other.
        let lane = [0.62, 0.5, 0.7, 0.56][k % 4];
        let last = (end.0 - forward, end.1 - towards * (lane - 0.12));
        let fewest = fewest((start.1 - end.1).abs() as usize);
        for steep in fewest..(fewest + 12).min(steps.saturating_sub(1)) {
            let bend = (start.0 + steep as f64 * forward, end.1 - towards * lane);
            if self.is_clear(start, bend) {
                return (vec![start, bend, last, tip], true);
            }
        }
        (vec![start, tip], false)
    }
}

/// The fewest columns from a send to a receipt that many rows away.
fn fewest(rows: usize) -> usize {
    1 + (rows - 1) / 3
}

/// After so many columns an event is placed even where its arrow passes a dot.
const MOST_DELAY: usize = 6;

/// Fills the columns one after another.
struct Timer<'a> {
    view: &'a View<'a>,
    intervals: Vec<Vec<Between>>,
    router: Router<'a>,
    column: usize,
    /// By process, the number of its next checkpoint.
    next: Vec<usize>,
    /// By process, what it has still to do before that: what is drawn, with
    /// the sends from the end, and receipts that are not drawn.
    left: Vec<Between>,
    undrawn: Vec<Vec<usize>>,
    /// By process, for how many columns its next event has been put off.
    delay: Vec<usize>,
    /// By row, the numbers and columns of its checkpoints.
    checkpoints: Vec<Vec<(usize, f64)>>,
    /// By row, where arrows cross its lifeline in the latest columns, and how
    /// steep.
    crossings: Vec<VecDeque<(f64, f64)>>,
    /// By message, the column of its send; the first column after it where it
    /// is not drawn.
    sends: Vec<Option<usize>>,
    arrows: Vec<Arrow>,
}

impl<'a> Timer<'a> {
    fn new(view: &'a View, scale: &'a Scale) -> Timer<'a> {
        let (n, m) = (view.run.counts.len(), view.run.messages.len());
        Timer {
            view,
            intervals: intervals(view.run),
            router: Router {
                scale,
                dots: vec![Vec::new(); view.rows.len()],
                unit: 1.0,
            },
            column: 0,
            next: vec![0; n],
            left: vec![Between::default(); n],
            undrawn: vec![Vec::new(); n],
            delay: vec![0; n],
            checkpoints: vec![Vec::new(); view.rows.len()],
            crossings: vec![VecDeque::new(); view.rows.len()],
            sends: vec![None; m],
            arrows: vec![Arrow::None; m],
        }
    }

    /// The process has taken its next checkpoint before the column `after`, and
    /// goes on to what lies after it.
    fn go_on(&mut self, p: usize, after: usize) {
        let view = self.view;
        let between = std::mem::take(&mut self.intervals[p][self.next[p]]);
        self.next[p] += 1;
        let (mut sends, unseen): (Vec<usize>, Vec<usize>) =
            between.sends.into_iter().partition(|k| view.has_send(*k));
        sends.reverse();
        for k in unseen {
            self.sends[k] = Some(after);
        }
        let (ends, unseen) = between.ends.into_iter().partition(|k| view.has_end(*k));
        self.left[p] = Between { sends, ends };
        self.undrawn[p] = unseen;
    }

    fn is_through(&self, p: usize) -> bool {
        self.left[p].sends.is_empty() && self.left[p].ends.is_empty() && self.undrawn[p].is_empty()
    }

    /// Whether p has something to do still.
    fn has_work(&self, p: usize) -> bool {
        !self.is_through(p) || self.next[p] < self.view.run.counts[p]
    }

    /// Lets everything happen that is not drawn and can happen before this
    /// column.
    fn settle(&mut self) {
        let mut moved = true;
        while moved {
            moved = false;
            for p in 0..self.next.len() {
                moved |= self.settle_process(p);
            }
        }
    }

    fn settle_process(&mut self, p: usize) -> bool {
        let mut moved = false;
        loop {
            let before = self.undrawn[p].len();
            let (sends, view) = (&self.sends, self.view);
            // What has been sent was sent before this column.
            self.undrawn[p].retain(|k| sends[*k].is_none());
            moved |= self.undrawn[p].len() < before;
            let goes_on = self.is_through(p)
                && self.next[p] < view.run.counts[p]
                && !view.has_checkpoint(p, self.next[p]);
            if !goes_on {
                return moved;
            }
            self.go_on(p, self.column);
            moved = true;
        }
    }

    /// Whether message k can be received in this column of the row.
    fn is_ready(&self, k: usize, row: usize) -> bool {
        let way = match self.view.row(self.view.run.messages[k].from) {
            Some(from) if self.view.has_send(k) => fewest(from.abs_diff(row)),
            _ => 0,
        };
        self.sends[k].is_some_and(|sent| sent + way <= self.column)
    }

    /// The arrow of message k, received in this column, and whether it keeps
    /// clear of dots.
    fn arrow(&self, k: usize, row: usize) -> (Arrow, bool) {
        let message = &self.view.run.messages[k];
        let end = (self.column as f64, row as f64);
        if !self.view.has_send(k) {
            return (Arrow::End(end), true);
        }
        let sent = self.sends[k].expect("sent before");
        let from = self.view.row(message.from).expect("drawn");
        let start = (sent as f64, from as f64);
        let (corners, clear) = self.router.arrow(k, message.waiting(), start, end);
        (Arrow::Whole(corners), clear)
    }

    /// Whether a checkpoint in this column of the row is clear of the arrows
    /// that cross there.
    fn is_free(&self, row: usize) -> bool {
        let scale = self.router.scale;
        self.crossings[row].iter().all(|(column, steep)| {
            (self.column as f64 - column).abs() * scale.column * steep >= scale.clear
        })
    }

    fn place_checkpoint(&mut self, p: usize, row: usize) {
        self.checkpoints[row].push((self.next[p], self.column as f64));
        self.router.dots[row].resize(self.column, false);
        self.router.dots[row].push(true);
    }

    fn place_send(&mut self, k: usize, row: usize) {
        self.sends[k] = Some(self.column);
        if !self.view.has_end(k) {
            self.arrows[k] = Arrow::Send((self.column as f64, row as f64));
        }
    }

    fn place_end(&mut self, k: usize, arrow: Arrow) {
        let message = &self.view.run.messages[k];
        let own = [self.view.row(message.from), self.view.row(message.to)];
        if let Arrow::Whole(corners) = &arrow {
            for part in corners.windows(2) {
                for (row, column, steep) in self.router.meets(part[0], part[1]) {
                    // Those at the arrow's own ends are no crossings.
                    if !own.contains(&Some(row)) {
                        self.crossings[row].push_back((column, steep));
                    }
                }
            }
        }
        self.arrows[k] = arrow;
    }

    /// Places the next event of p in this column, if there is one and it can
    /// stand here.
    fn place(&mut self, p: usize, row: usize) {
        let now = self.column as f64;
        while self.crossings[row]
            .front()
            .is_some_and(|(column, _)| column + 4.0 < now)
        {
            self.crossings[row].pop_front();
        }
        if let Some(k) = self.left[p].sends.pop() {
            self.place_send(k, row);
        } else if !self.left[p].ends.is_empty() {
            // Of each channel the oldest: they stand by position.
            let mut senders = BTreeSet::new();
            let ends = self.left[p].ends.iter().copied();
            let ends = ends.filter(|k| senders.insert(self.view.run.messages[*k].from));
            let mut ready: Vec<usize> = ends.filter(|k| self.is_ready(*k, row)).collect();
            ready.sort_by_key(|k| (self.sends[*k], *k));
            // The first few are tried: one of them mostly is clear.
            let mut arrows = ready.iter().take(4).map(|k| (*k, self.arrow(*k, row)));
            let found = match self.delay[p] < MOST_DELAY {
                true => arrows.find(|(_, (_, clear))| *clear),
                false => arrows.next(),
            };
            match found {
                Some((k, (arrow, _))) => {
                    self.place_end(k, arrow);
                    self.left[p].ends.retain(|other| *other != k);
                    self.delay[p] = 0;
                }
                None => self.delay[p] += usize::from(!ready.is_empty()),
            }
        } else if self.undrawn[p].is_empty() && self.next[p] < self.view.run.counts[p] {
            if self.is_free(row) || self.delay[p] >= MOST_DELAY {
                self.place_checkpoint(p, row);
                self.go_on(p, self.column + 1);
                self.delay[p] = 0;
            } else {
                self.delay[p] += 1;
            }
        }
    }
}

/// The layout in time of a run that has an order.
pub fn timed(view: &View, scale: &Scale) -> Layout {
    assert!(has_order(view.run), "no order of time fits");
    let mut timer = Timer::new(view, scale);
    timer.settle();
    while (0..view.run.counts.len()).any(|p| timer.has_work(p)) {
        for (row, p) in view.rows.iter().copied().enumerate() {
            timer.place(p, row);
        }
        timer.column += 1;
        timer.settle();
    }
    // The virtual checkpoints stand in a column of their own.
    let last = timer.column as f64;
    for (row, p) in view.rows.iter().copied().enumerate() {
        timer.checkpoints[row].push((view.run.counts[p], last));
    }
    Layout {
        timed: true,
        checkpoints: timer.checkpoints,
        arrows: timer.arrows,
        last,
    }
}

/// The numbers of all checkpoints drawn, rising.
pub fn numbers(view: &View) -> Vec<usize> {
    let drawn = view.rows.iter().flat_map(|p| view.checkpoints(*p));
    drawn.collect::<BTreeSet<usize>>().into_iter().collect()
}

/// The layout by checkpoint number. The numbers of all checkpoints drawn stand
/// in a row, and a checkpoint's column is the place of its number there.
pub fn by_number(view: &View, scale: &Scale) -> Layout {
    let run = view.run;
    let numbers = numbers(view);
    // A column more where an event lies before the first of them.
    let intervals = intervals(run);
    let is_before = |p: usize| {
        let first = view.checkpoints(p).next().expect("the virtual one");
        let before = &intervals[p][view.first[p]..first];
        before.iter().any(|between| {
            between.sends.iter().any(|k| view.has_send(*k))
                || between.ends.iter().any(|k| view.has_end(*k))
        })
    };
    let before = usize::from(view.rows.iter().any(|p| is_before(*p)));
    let column = |number: usize| {
        let place = numbers.binary_search(&number).expect("drawn");
        (place + before) as f64
    };

    let mut sends = vec![None; run.messages.len()];
    let mut ends = sends.clone();
    for (row, p) in view.rows.iter().copied().enumerate() {
        // Sends and receipts between two checkpoints share the room evenly, in
        // the order of where the other ends of their messages are.
        let mut all: Vec<(usize, usize, usize, bool)> = Vec::new();
        let mut left = 0.0;
        for number in view.first[p]..=run.counts[p] {
            if view.has_checkpoint(p, number) {
                let right = column(number);
                all.sort();
                for (place, (_, _, k, is_send)) in all.iter().enumerate() {
                    let part = (place + 1) as f64 / (all.len() + 1) as f64;
                    let ends = if *is_send { &mut sends } else { &mut ends };
                    ends[*k] = Some((left + (right - left) * part, row as f64));
                }
                all.clear();
                left = right;
            }
            if let Some(between) = intervals[p].get(number) {
                let sent = between.sends.iter().copied().filter(|k| view.has_send(*k));
                all.extend(sent.map(|k| (number, run.ends_before(k), k, true)));
                let received = between.ends.iter().copied().filter(|k| view.has_end(*k));
                all.extend(received.map(|k| (number, run.messages[k].sent + 1, k, false)));
            }
        }
    }

    let columns: Vec<Vec<(usize, f64)>> = view
        .rows
        .iter()
        .map(|p| {
            let own = view.checkpoints(*p);
            own.map(|number| (number, column(number))).collect()
        })
        .collect();
    let mut router = Router {
        scale,
        dots: vec![vec![false; numbers.len() + before]; view.rows.len()],
        unit: (26.0 / scale.column).min(1.0),
    };
    for (row, own) in columns.iter().enumerate() {
        for (_, column) in own {
            router.dots[row][*column as usize] = true;
        }
    }
    let arrow = |k: usize| match (sends[k], ends[k]) {
        (None, None) => Arrow::None,
        (Some(send), None) => Arrow::Send(send),
        (None, Some(end)) => Arrow::End(end),
        (Some(send), Some(end)) => {
            Arrow::Whole(router.arrow(k, run.messages[k].waiting(), send, end).0)
        }
    };
    Layout {
        timed: false,
        arrows: (0..run.messages.len()).map(arrow).collect(),
        checkpoints: columns,
        last: (numbers.len() + before - 1) as f64,
    }
}
