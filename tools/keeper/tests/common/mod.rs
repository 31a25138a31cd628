//! Running the command, the corpus, and tables made at random.
#![allow(dead_code)]

use std::fs;
use std::io::Write;
use std::ops::Deref;
use std::os::unix::fs::MetadataExt;
use std::os::unix::process::CommandExt;
use std::path::{Path, PathBuf};
use std::process::{Command, Output, Stdio};

/// What a run of the command left.
#[derive(Debug, PartialEq, Eq)]
pub struct Ran {
    pub status: i32,
    pub output: Vec<u8>,
    pub errors: String,
}

/// Runs the command with bytes on standard input.
pub fn keeper(arguments: &[&str], input: &[u8]) -> Ran {
    let mut child = Command::new(env!("CARGO_BIN_EXE_keeper"))
        .args(arguments)
        .stdin(Stdio::piped())
        .stdout(Stdio::piped())
        .stderr(Stdio::piped())
        .spawn()
        .expect("the command starts");
    let mut to = child.stdin.take().expect("piped");
    let input = input.to_vec();
    // The command may end without reading all.
    let writer = std::thread::spawn(move || drop(to.write_all(&input)));
    let left = child.wait_with_output().expect("the command ends");
    writer.join().expect("the writer ends");
    let ran = Ran {
        status: left.status.code().expect("no signal"),
        output: left.stdout,
        errors: String::from_utf8(left.stderr).expect("messages are UTF-8"),
    };
    // Messages are one line each, and there is one just where not all was done.
    assert_eq!(
        ran.errors.lines().count(),
        usize::from(ran.status != 0),
        "{ran:?}"
    );
    assert!(
        ran.errors.lines().all(|line| line.starts_with("keeper: ")),
        "{ran:?}"
    );
    ran
}

/// Runs the command and wants it done: its output.
pub fn done(arguments: &[&str], input: &[u8]) -> Vec<u8> {
    let ran = keeper(arguments, input);
    assert_eq!((ran.status, ran.errors.as_str()), (0, ""), "{arguments:?}");
    ran.output
}

/// Runs the command and wants it not done, with that exit status, that message
/// behind `keeper: ` and no output.
pub fn fails(arguments: &[&str], input: &[u8], status: i32, message: &str) {
    let ran = keeper(arguments, input);
    assert_eq!(ran.errors, format!("keeper: {message}\n"), "{arguments:?}");
    assert_eq!((ran.status, ran.output), (status, vec![]), "{arguments:?}");
}

/// Runs the command and wants the table refused by that number, with words, and
/// no output.
pub fn refuses(arguments: &[&str], input: &[u8], number: u32, place: &str) {
    let ran = keeper(arguments, input);
    let message = format!("keeper: {place}: refused {number}: ");
    let words = ran.errors.strip_prefix(&message);
    assert!(
        words.is_some_and(|words| words.len() > 5),
        "{arguments:?}: {ran:?}"
    );
    assert_eq!((ran.status, ran.output), (1, vec![]), "{arguments:?}");
}

/// A file name in the folder for tests, of which there is no file.
pub fn fresh(name: &str) -> String {
    let path = PathBuf::from(env!("CARGO_TARGET_TMPDIR")).join(name);
    let _ = fs::remove_file(&path);
    path.to_str().expect("UTF-8").to_string()
}

/// An empty folder of a test, outside of the repository, where rt refuses
/// links. It goes when this is dropped.
pub struct Folder(PathBuf);

impl Folder {
    pub fn new(name: &str) -> Folder {
        let name = format!("keeper-tests-{}-{name}", std::process::id());
        let path = std::env::temp_dir().join(name);
        let _ = fs::remove_dir_all(&path);
        fs::create_dir(&path).expect("created");
        Folder(path)
    }
}

impl AsRef<Path> for Folder {
    fn as_ref(&self) -> &Path {
        &self.0
    }
}

impl Deref for Folder {
    type Target = Path;

    fn deref(&self) -> &Path {
        &self.0
    }
}

impl Drop for Folder {
    fn drop(&mut self) {
        let _ = fs::remove_dir_all(&self.0);
    }
}

pub fn corpus_folder() -> PathBuf {
    PathBuf::from(env!("CARGO_MANIFEST_DIR")).join("../../tests/corpus")
}

pub struct Case {
    pub name: String,
    pub path: String,
    pub table: Vec<u8>,
    pub listing: Vec<u8>,
}

/// The tables of the corpus with their listings, by name.
pub fn corpus() -> Vec<Case> {
    let mut cases = Vec::new();
    for entry in fs::read_dir(corpus_folder()).expect("the corpus is there") {
        let path = entry.expect("readable").path();
        if path
            .extension()
            .is_some_and(|extension| extension == "table")
        {
            cases.push(Case {
                name: path
                    .file_stem()
                    .expect("a name")
                    .to_string_lossy()
                    .into_owned(),
                table: fs::read(&path).expect("readable"),
                listing: fs::read(path.with_extension("listing")).expect("a listing"),
                path: path.to_str().expect("UTF-8").to_string(),
            });
        }
    }
    cases.sort_by(|one, other| one.name.cmp(&other.name));
    assert!(cases.len() >= 180, "{} tables", cases.len());
    cases
}

/// The number of the refusal that a listing shows.
pub fn refused(listing: &[u8]) -> Option<u32> {
    let text = std::str::from_utf8(listing).expect("ASCII");
    text.strip_prefix("refused ")
        .map(|number| number.trim_end().parse().expect("a number"))
}

pub fn bytes(numbers: &[u16]) -> Vec<u8> {
    numbers
        .iter()
        .flat_map(|number| number.to_le_bytes())
        .collect()
}

/// Example A of the format's document.
pub fn example_a() -> Vec<u8> {
    bytes(&[
        2, 5, 3, 3, 0, 0, 1, 0, 1, 1, 0, 2, 1, 2, 1, 2, 0, 1, 0, 2, 1, 2, 0, 0,
    ])
}

/// Numbers that look random, the same in each run.
pub struct Random(pub u64);

impl Random {
    /// A number below `bound`.
    pub fn below(&mut self, bound: usize) -> usize {
        self.0 = self
            .0
            .wrapping_mul(6364136223846793005)
            .wrapping_add(1442695040888963407);
        ((self.0 >> 33) as usize) % bound
    }

    /// An accepted table: any processes and numbers within their limits, receipts
    /// that are not saved yet among them, each channel in order.
    pub fn table(
        &mut self,
        most_processes: usize,
        most_messages: usize,
        most_count: usize,
    ) -> Vec<u8> {
        let n = 1 + self.below(most_processes);
        let m = if n == 1 {
            0
        } else {
            self.below(most_messages + 1)
        };
        let counts: Vec<usize> = (0..n).map(|_| 1 + self.below(most_count)).collect();
        let mut messages = Vec::new();
        for _ in 0..m {
            let sender = self.below(n);
            let receiver = (sender + 1 + self.below(n - 1)) % n;
            let sent = self.below(counts[sender]);
            let received = self.below(counts[receiver] + 1);
            messages.push([sender, sent, receiver, received].map(|number| number as u16));
        }
        in_order(&mut messages);
        let counts: Vec<u16> = counts.iter().map(|count| *count as u16).collect();
        table_of(&counts, &messages)
    }

    /// A table that steps of a run have left: time can order its events.
    pub fn history(&mut self, n: usize, steps: usize) -> Vec<u8> {
        let mut table = bytes(&[&[n as u16, 0][..], &vec![1; n]].concat());
        let mut answer = vec![0; keeper::LARGEST_TABLE];
        for _ in 0..steps {
            let process = self.below(n);
            let written = if n > 1 && self.below(3) < 2 {
                let to = (process + 1 + self.below(n - 1)) % n;
                keeper::send(&table, process as u16, to as u16, &mut answer)
            } else {
                // Received, and saved mostly.
                let m = keeper::run_table::messages(&table);
                let (mut list, mut closed) = (Vec::new(), Vec::new());
                for k in 0..usize::from(m) {
                    let waits = keeper::run_table::received(&table, k) == 0;
                    let here = usize::from(keeper::run_table::receiver(&table, k)) == process;
                    if !waits || !here {
                        continue;
                    }
                    // Behind a message that is left no other of its channel is received.
                    let sender = keeper::run_table::sender(&table, k);
                    if self.below(4) > 0 && !closed.contains(&sender) {
                        list.push(k as u16);
                    } else {
                        closed.push(sender);
                    }
                }
                match self.below(3) {
                    0 => keeper::receive(&table, process as u16, &list, &mut answer),
                    _ => keeper::save(&table, process as u16, &list, &mut answer),
                }
            };
            table = answer[..written.expect("within the limits")].to_vec();
        }
        table
    }
}

/// The bytes of counts and messages (sender, number, receiver, number).
pub fn table_of(counts: &[u16], messages: &[[u16; 4]]) -> Vec<u8> {
    let sends = messages.iter().flat_map(|message| message[..2].to_vec());
    let receipts = messages.iter().flat_map(|message| message[2..].to_vec());
    let head = [counts.len() as u16, messages.len() as u16];
    let numbers = head.into_iter().chain(counts.iter().copied());
    bytes(&numbers.chain(sends).chain(receipts).collect::<Vec<_>>())
}

/// Puts each channel in order: its messages keep their positions and share out
/// their send numbers, rising, and their receipt numbers, rising, with 0, of those
/// that wait, behind all others.
pub fn in_order(messages: &mut [[u16; 4]]) {
    let turn = |received: u16| received.wrapping_sub(1);
    for later in 0..messages.len() {
        for earlier in 0..later {
            let (one, other) = (messages[earlier], messages[later]);
            if (one[0], one[2]) != (other[0], other[2]) {
                continue;
            }
            if other[1] < one[1] {
                (messages[earlier][1], messages[later][1]) = (other[1], one[1]);
            }
            if turn(other[3]) < turn(one[3]) {
                (messages[earlier][3], messages[later][3]) = (other[3], one[3]);
            }
        }
    }
}

/// Lets a command run as nobody where we are root: so that a program that does
/// not do as it should can't replace what stands in /dev, and permissions are
/// asked for. `None`, with a note, where it can't be started so.
pub fn as_somebody(command: &mut Command) -> Option<Output> {
    let own = fs::metadata("/proc/self").or_else(|_| fs::metadata(env!("CARGO_TARGET_TMPDIR")));
    if own.expect("there").uid() == 0 {
        command.uid(65534).gid(65534);
    }
    match command.stdin(Stdio::null()).output() {
        Ok(output) => Some(output),
        Err(error) => {
            note(&format!(
                "the command can't be started as another user ({error}); not tried so"
            ));
            None
        }
    }
}

/// Says what was tried or not, past the harness, which keeps what tests print.
pub fn note(what: &str) {
    let _ = writeln!(std::io::stderr(), "keeper tests: {what}");
}
