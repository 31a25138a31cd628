//! The one table of subcommands: their arguments, options and words. The help,
//! the completions, the man page and the reading of arguments are made of it,
//! so that a further subcommand or option is a row here.
//!
//! Words are plain text: a blank line between paragraphs, two blanks before
//! the lines of an example, backquotes around what is typed, and arguments in
//! capitals as they are named in the row.

use keeper::Table;

use crate::arguments::Arguments;
use crate::command::{self, Failure, Stepped};
use crate::completion::SHELLS;
use crate::input::Input;
use crate::{script, sheet, stand, what_if, why};

/// What an option or an argument takes.
#[derive(Clone, Copy, Debug, PartialEq, Eq)]
pub enum Takes {
    Nothing,
    File,
    Text,
    /// 0 to 65535.
    Number,
    /// Numbers with a comma between two.
    Numbers,
    /// Numbers with a comma between two, or one of these words.
    NumbersOr(&'static [&'static str]),
    /// Numbers with a comma between two; in the place of each may stand `-`.
    Ceilings,
    /// A checkpoint: `1.2`.
    Checkpoint,
    /// Checkpoints with a comma between two.
    Checkpoints,
    /// A set of processes: numbers with a comma between two, or a word of `sets`.
    Set,
    /// One of these words.
    OneOf(&'static [&'static str]),
    /// The name of a subcommand.
    Subcommand,
    /// A checkpoint or a message: `1.2`, `m4`.
    Item,
}

pub struct Opt {
    /// The first is the one by which the program asks for it.
    pub names: &'static [&'static str],
    pub takes: Takes,
    /// How the help names what it takes.
    pub value: &'static str,
    pub words: &'static str,
}

#[derive(Clone, Copy, Debug, PartialEq, Eq)]
pub enum Times {
    Once,
    AtMostOnce,
    Any,
}

/// An argument before FILE.
pub struct Argument {
    pub name: &'static str,
    pub takes: Takes,
    pub times: Times,
}

/// What a subcommand does. All but the first are lines of scripts, too.
#[derive(Clone, Copy)]
pub enum Work {
    /// All by itself, reading and writing too.
    Alone(fn(&Arguments) -> Result<(), Failure>),
    /// Makes a table of nothing.
    Start(fn(&Arguments) -> Result<Table, Failure>),
    /// Reads a table and leaves the next one.
    Step(fn(&Input, &Arguments) -> Result<Stepped, Failure>),
    /// Reads a table and says something of it.
    Answer(fn(&Input, &Arguments) -> Result<Vec<u8>, Failure>),
}

pub struct Subcommand {
    pub name: &'static str,
    pub arguments: &'static [Argument],
    /// Whether FILE may stand behind the arguments.
    pub file: bool,
    /// Beside `--help`.
    pub options: &'static [&'static Opt],
    /// In a few words, what it writes.
    pub short: &'static str,
    pub words: &'static str,
    pub work: Work,
}

pub const HELP: Opt = Opt {
    names: &["--help", "-h"],
    takes: Takes::Nothing,
    value: "",
    words: "help; `keeper SUBCOMMAND --help` says more",
};

const VERSION: Opt = Opt {
    names: &["--version", "-V"],
    takes: Takes::Nothing,
    value: "",
    words: "the version",
};

/// Those that stand where a subcommand would.
pub const OWN_OPTIONS: &[&Opt] = &[&HELP, &VERSION];

const OUTPUT: Opt = Opt {
    names: &["-o"],
    takes: Takes::File,
    value: "FILE",
    words: "write to FILE, which is replaced as a whole or not at all; `-` is standard output",
};

/// Where only the input can be a text.
const READ_TEXT: Opt = Opt {
    names: &["--text-in", "--text"],
    takes: Takes::Nothing,
    value: "",
    words: "read a text instead of a table",
};

const TEXT_IN: Opt = Opt {
    names: &["--text-in"],
    takes: Takes::Nothing,
    value: "",
    words: "read a text instead of a table",
};

const TEXT_OUT: Opt = Opt {
    names: &["--text-out"],
    takes: Takes::Nothing,
    value: "",
    words: "write a text instead of a table",
};

/// Where only the output can be a text.
const WRITE_TEXT: Opt = Opt {
    names: &["--text-out", "--text"],
    takes: Takes::Nothing,
    value: "",
    words: "write a text instead of a table",
};

const TEXT: Opt = Opt {
    names: &["--text"],
    takes: Takes::Nothing,
    value: "",
    words: "--text-in and --text-out in one",
};

const HOLD: Opt = Opt {
    names: &["--hold"],
    takes: Takes::NumbersOr(&["all"]),
    value: "LIST",
    words: "draw as well the line of each process of LIST alone holding: numbers with commas between, or `all`; \
where there are several, `h3` stands beside the checkpoints that the line of process 3 has",
};

/// In `line`, where it says which line is written.
const UNDER: Opt = Opt {
    names: &["--under"],
    takes: Takes::Ceilings,
    value: "LIST",
    words: "write the line under the ceilings of LIST, one for each process: numbers with commas between, or `-` for the \
count, which leaves that process free",
};

const MARKING: Opt = Opt {
    names: &["--marking"],
    takes: Takes::Nothing,
    value: "",
    words: "find the line by the published marking method, which gives the same line",
};

const DRAW_UNDER: Opt = Opt {
    names: &["--under"],
    takes: Takes::Ceilings,
    value: "LIST",
    words: "draw as well the line under the ceilings of LIST, one for each process: numbers with commas between, or `-` for \
the count, which leaves that process free; a bracket stands at each ceiling below the count",
};

const STAND: Opt = Opt {
    names: &["--stand"],
    takes: Takes::Checkpoints,
    value: "LIST",
    words: "draw as well whether the checkpoints of LIST can stand together, such as `0.2,1.3`: a ring stands around each, \
with the latest line that has them all; or, where the answer is no, a zigzag path between two of them, or from one to itself",
};

const LAST: Opt = Opt {
    names: &["--last"],
    takes: Takes::Number,
    value: "NUMBER",
    words: "draw of each process no more than its last NUMBER checkpoints and what lies after them",
};

const PROCESSES: Opt = Opt {
    names: &["--processes"],
    takes: Takes::Numbers,
    value: "LIST",
    words: "draw the lifelines of these processes only, in this order: numbers with commas between",
};

const KEPT_ONLY: Opt = Opt {
    names: &["--kept-only"],
    takes: Takes::Nothing,
    value: "",
    words: "draw only the checkpoints and messages that are kept, and the lines, those of --under and --stand with checkpoints not \
kept, the named checkpoints and the zigzag path",
};

const TITLE: Opt = Opt {
    names: &["--title"],
    takes: Takes::Text,
    value: "TITLE",
    words: "a title",
};

const MOVES: Opt = Opt {
    names: &["--moves"],
    takes: Takes::Nothing,
    value: "",
    words: "\
write what moved to standard output: the line, then for each message its position before and its position now, or \
`removed`; the table goes to the file of -o, and nowhere without one",
};

const JSON: Opt = Opt {
    names: &["--json"],
    takes: Takes::Nothing,
    value: "",
    words: "write one object in JSON",
};

const SETS: Opt = Opt {
    names: &["--sets"],
    takes: Takes::File,
    value: "FILE",
    words: "read further sets from FILE, a set a line, in the form of SET; `-` is standard input, where the table is read from a \
file",
};

const CSV: Opt = Opt {
    names: &["--csv"],
    takes: Takes::Nothing,
    value: "",
    words: "write comma-separated values, with a row of names first",
};

const COST: Opt = Opt {
    names: &["--cost"],
    takes: Takes::Nothing,
    value: "",
    words: "write of each set only how many states are lost in all and which processes are put back, the dearest set first; \
sets that cost the same stand in the order given",
};

const DECODE: Opt = Opt {
    names: &["--decode"],
    takes: Takes::Nothing,
    value: "",
    words: "read the bytes of a sheet instead of a table, and write its rows",
};

const ROWS: Opt = Opt {
    names: &["--text-out"],
    takes: Takes::Nothing,
    value: "",
    words: "write the rows of the listing that say what is kept, instead of bytes",
};

const TABLES: Opt = Opt {
    names: &["--text-out"],
    takes: Takes::Nothing,
    value: "",
    words: "show the table after each step, as a text in comments",
};

const STEP_OPTIONS: &[&Opt] = &[&TEXT_IN, &TEXT_OUT, &TEXT, &OUTPUT];

/// Options and arguments that a subcommand takes one of.
pub const EXCLUDING: &[(&str, &str)] = &[
    ("--under", "PROCESS"),
    ("--under", "--hold"),
    ("--stand", "--hold"),
    ("--stand", "--under"),
    ("--csv", "--json"),
    ("--cost", "--json"),
    ("--cost", "--csv"),
];

/// Those of several subcommands, which the man page explains once.
pub const COMMON: &[&Opt] = STEP_OPTIONS;

pub const SUBCOMMANDS: &[Subcommand] = &[
    Subcommand {
        name: "new",
        arguments: &[Argument {
            name: "N",
            takes: Takes::Number,
            times: Times::Once,
        }],
        file: false,
        options: &[&WRITE_TEXT, &OUTPUT],
        short: "a first table: N processes with one checkpoint each",
        words: "\
Writes the table of a run that begins: N processes with one checkpoint each, and no messages. It reads nothing.",
        work: Work::Start(command::new),
    },
    Subcommand {
        name: "encode",
        arguments: &[],
        file: true,
        options: &[&OUTPUT],
        short: "the table of a text",
        words: "\
Reads the text of a run table and writes the table. The text:

  # a comment; blank lines are allowed too
  processes 2
  states 3 3
  message 0.0 -> 1.2
  message 0.1 -> 1.3 unsaved
  message 1.2 -> 0 waiting

The counts of checkpoints stand after `states`. A line `message J.Y -> I.R` stands for each message, in the order of \
positions: sent by process J after its checkpoint Y, received by process I before its checkpoint R, or `waiting`. Where R \
is the count of I, the message is received and not saved yet, and `unsaved` may stand behind it; it stands behind no other \
number. The messages from one process to another stand in the order sent and received: of two of them the later one has no \
smaller Y and no smaller R, and where the earlier one is waiting so is the later one. Errors name the line and the column. \
The library checks the table.",
        work: Work::Alone(command::encode),
    },
    Subcommand {
        name: "decode",
        arguments: &[],
        file: true,
        options: &[&OUTPUT],
        short: "the text of a table",
        words: "\
Reads a run table and writes its text (`keeper encode --help` shows the form), with `unsaved` behind each message that is \
received and not saved yet. `encode` makes the same bytes of it again.",
        work: Work::Answer(command::decode),
    },
    Subcommand {
        name: "check",
        arguments: &[],
        file: true,
        options: &[&READ_TEXT],
        short: "whether a table is accepted: nothing where it is",
        words: "\
Reads a run table and writes nothing. The exit status is 0 where the table is accepted. It is 1 where it is refused; \
what caught stands on standard error then, with the number of the refusal.",
        work: Work::Answer(command::check),
    },
    Subcommand {
        name: "list",
        arguments: &[],
        file: true,
        options: &[&JSON, &READ_TEXT, &OUTPUT],
        short: "the listing of a table",
        words: "\
Reads a run table and writes its listing: the recovery line, the lines of single holders, the kept checkpoints and \
messages, and the share of the checkpoints that is kept, in percent: the nearest whole number, and on an exact half the \
even one. The listing of a refused table is `refused` and the number; the exit status is then 1.

In JSON it is an object with the keys `line` (the recovery line, an array of numbers), `hold` (an array of such lines, by \
process), `checkpoints` (an array of objects with `process` and `number`), `messages` (an array of positions) and \
`share`. That of a refused table has the keys `refused`, the number, and `words`.",
        work: Work::Answer(command::list),
    },
    Subcommand {
        name: "line",
        arguments: &[Argument {
            name: "PROCESS",
            takes: Takes::Number,
            times: Times::Any,
        }],
        file: true,
        options: &[&UNDER, &MARKING, &JSON, &READ_TEXT, &OUTPUT],
        short: "the recovery line, the line of the processes that hold, or the line under ceilings",
        words: "\
Reads a run table and writes a line, one decimal number for each process: the recovery line, or the line of each \
PROCESS named, which hold (take no checkpoint), or with --under the line under a ceiling for each process. Where the \
processes that hold have failed and start again from a checkpoint, their line says which of the others can go on as they \
are, with what they received and did not save yet: those at their counts. A file whose name is a number is written `./7`.

The line under ceilings is the latest consistent one with no process above its ceiling. It is for taking up a run from \
before something was changed: the ceiling of a process is its last checkpoint before the change, or its count where the \
change does not matter to it. No step goes to this line: a fall back goes to the recovery line. Nor does the keep sheet \
protect it: whoever discards by sheets may no longer have its checkpoints, or the logs of messages that cross it. To hold \
is one kind of ceiling, the last checkpoint; --under and PROCESS exclude each other.

  keeper line --under 3,-,4 run.table

With --marking the line, whichever is asked for, is found by the published method: the rollback propagation algorithm on \
the checkpoint graph, Figure 3 of Wang and Fuchs, \"Optimal Message Log Reclamation for Uncoordinated Checkpointing\". All \
that is strictly reachable from the roots, at first the ceilings, is marked, each marked root gives way to the latest \
unmarked checkpoint of its process, and marking is repeated until no root is marked. It is proved that both methods give \
the same line for every table and all ceilings, so that what is written is the same.

In JSON it is an object with the key `line`, an array of numbers; that of a refusal has the keys `refused`, the number, \
and `words`.",
        work: Work::Answer(command::line),
    },
    Subcommand {
        name: "what-if",
        arguments: &[Argument {
            name: "SET",
            takes: Takes::Set,
            times: Times::Any,
        }],
        file: true,
        options: &[&SETS, &COST, &CSV, &JSON, &READ_TEXT, &OUTPUT],
        short: "what many sets of failing processes would cost: their lines, and the states lost",
        words: "\
Reads a run table and writes a row for each SET of processes that might fail: the set, its line, how many states each process \
loses, and how many are lost in all. A SET is processes with commas between, such as `0,2`. `none` is the empty set and \
`all` the set of all processes; `singles` stands for the sets of one process each, and `pairs` for those of two. Without any \
SET and without --sets it is `singles`. Rows stand in the order of the sets, with those of --sets behind those of SET; a set \
may stand twice. A file whose name is such as `0,2` or `all` is written `./all`.

  keeper what-if none 0 1,2 run.table

The line of a set is that of `line`: the latest consistent one on which each of its processes, which have failed and start \
again from a checkpoint, stands at a checkpoint. A process loses its count less its number on the line: its checkpoints after \
that one, and one more for what it did since its last. One at its count goes on as it is and loses nothing; one of the \
set loses 1 at least.

  keeper what-if --cost singles pairs run.table

In a file of --sets, blank lines and what follows `#` are skipped, and blanks may stand around a comma. Errors name the line \
and the column. There may be any number of sets: the library takes 256 in one call, and is called as often as needed.

With --csv the columns are the set, with blanks between its processes, the line and what is lost, by process, and `sum`. In \
JSON it is an object with the key `sets`, an array of objects with `set` (an array of processes), `line` and `lost` (arrays \
of numbers, by process) and `sum`; a refusal has the keys `refused`, the number, and `words`. --cost, --csv and --json \
exclude each other.",
        work: Work::Answer(what_if::what_if),
    },
    Subcommand {
        name: "stand",
        arguments: &[Argument {
            name: "STATE",
            takes: Takes::Checkpoint,
            times: Times::Any,
        }],
        file: true,
        options: &[&JSON, &READ_TEXT, &OUTPUT],
        short: "whether named checkpoints can stand together: the latest line that has them all",
        words: "\
Reads a run table and writes the latest consistent line that has the checkpoint of each STATE named, one decimal number for \
each process: `1.2` is checkpoint 2 of process 1. Processes that are not named may stand anywhere up to their counts. That \
is the answer yes, with exit status 0.

  keeper stand 0.2 1.3 run.table

Where there is no such line the answer is no: the exit status is 3, standard output is left empty, and a message on standard \
error names a zigzag path that shows why (Xu and Netzer, \"Adaptive Independent Checkpointing for Reducing Rollback \
Propagation\", Definition 1). It leads from a named checkpoint to another or to itself, by messages that were received: \
the first is sent after the first checkpoint, each next one is sent by the receiver of the one before, between the same two \
checkpoints as that receipt or later, and the last is received before the second checkpoint. Each is shown with its position \
and its ends as in a text: `0.0 -> 1.2` is sent by process 0 after its checkpoint 0, and received by process 1 before its \
checkpoint 2. A checkpoint from which such a path leads to itself is on no consistent line at all.

That it is a yes or a no, and the line, is the library's answer, and is proved: it is a no exactly when there is a zigzag \
path. The path itself is found by this command, which searches breadth first over the messages, so that none is shorter; \
that search is tested and not proved. Where it did not agree with the library, it would say so as an internal error.

Names may stand in any order, and one that stands twice is one name. Two checkpoints of one process are refused by 21, and \
one that the process does not have by 22. Without any STATE the line is the counts. A file whose name is such as `1.2` is \
written `./1.2`. As is said at `line` of a line under ceilings, no step goes to this line, and the keep sheet does not \
protect it.

In JSON a yes is an object with the key `line`, an array of numbers. A no, which is written too, has the keys `line`, which is null, `from` and `to`, \
objects with `process` and `number`, and `path`, an array of positions in the order of the path. A refusal has the keys \
`refused`, the number, and `words`.",
        work: Work::Answer(stand::stand),
    },
    Subcommand {
        name: "sheet",
        arguments: &[],
        file: true,
        options: &[&JSON, &DECODE, &TEXT_IN, &ROWS, &TEXT, &OUTPUT],
        short: "the keep sheet of a table",
        words: "\
Reads a run table and writes the bytes of its keep sheet. As rows it is what the listing has of it: `checkpoint`, process \
and number, for each kept checkpoint, and `message` and position for each kept message. In JSON it has the keys \
`checkpoints` and `messages` of `list`; a refused table gives an object here, too. A sheet that is read back and is not \
whole and in order is refused with what is wrong, and exit status 2.",
        work: Work::Answer(sheet::sheet),
    },
    Subcommand {
        name: "why",
        arguments: &[Argument {
            name: "ITEM",
            takes: Takes::Item,
            times: Times::Once,
        }],
        file: true,
        options: &[&TEXT_IN, &TABLES, &TEXT, &OUTPUT],
        short: "why checkpoint 1.2, or message m4, is kept or not",
        words: "\
Reads a run table and says why ITEM is kept: `1.2` is checkpoint 2 of process 1, and `m4` the message at position 4. Of \
what is kept it writes a future that needs it, as steps, which it has executed, and the recovery line at its end. Of what \
is not kept it writes the lines of single holders, and how each passes it by.

What it writes is a script: words are comments, and `run` makes the steps and answers the lines again:

  keeper why 1.2 run.table | keeper run - run.table

Where a process has 4,096 checkpoints the library saves no more of it, though futures know no such limit. A future that \
saves there was not executed, and it says so; the line at its end is then had by the call for sets.",
        work: Work::Answer(why::why),
    },
    Subcommand {
        name: "send",
        arguments: &[
            Argument {
                name: "FROM",
                takes: Takes::Number,
                times: Times::Once,
            },
            Argument {
                name: "TO",
                takes: Takes::Number,
                times: Times::Once,
            },
        ],
        file: true,
        options: STEP_OPTIONS,
        short: "the table after a send",
        words: "\
Reads a run table and writes the table after a send from process FROM to process TO: a message at the end, sent after \
the latest checkpoint of FROM, waiting.",
        work: Work::Step(command::send),
    },
    Subcommand {
        name: "save",
        arguments: &[
            Argument {
                name: "PROCESS",
                takes: Takes::Number,
                times: Times::Once,
            },
            Argument {
                name: "POSITION",
                takes: Takes::Number,
                times: Times::Any,
            },
        ],
        file: true,
        options: STEP_OPTIONS,
        short: "the table after a checkpoint that receives those messages",
        words: "\
Reads a run table and writes the table after a checkpoint of PROCESS, before which it received the messages at each \
POSITION, rising, that wait for it. With a message every older one from the same process that waits for PROCESS is named \
too, since a channel delivers in the order sent. What it received by `receive` before is saved too, and is not named. \
Messages count from 0. A file whose name is a number is written `./7`.",
        work: Work::Step(command::save),
    },
    Subcommand {
        name: "receive",
        arguments: &[
            Argument {
                name: "PROCESS",
                takes: Takes::Number,
                times: Times::Once,
            },
            Argument {
                name: "POSITION",
                takes: Takes::Number,
                times: Times::Any,
            },
        ],
        file: true,
        options: STEP_OPTIONS,
        short: "the table after those messages were received and not saved",
        words: "\
Reads a run table and writes the table after PROCESS received the messages at each POSITION, rising, that wait for it, \
and took no checkpoint. With a message every older one from the same process that waits for PROCESS is named too, since a \
channel delivers in the order sent. They are received and not saved until its next `save`, and wait no longer. Where no \
POSITION is named the table is written as it is. Messages count from 0. A file whose name is a number is written `./7`.",
        work: Work::Step(command::receive),
    },
    Subcommand {
        name: "fall-back",
        arguments: &[],
        file: true,
        options: &[&MOVES, &TEXT_IN, &TEXT_OUT, &TEXT, &OUTPUT],
        short: "the table after the run fell back to its recovery line",
        words: "\
Reads a run table and writes the table after the whole run has fallen back to its recovery line. A message that was \
sent after that line is removed. Of the others, one that was received after the line, or is not saved yet, waits again.

Numbers and positions are used again afterwards: a number names another checkpoint then, and a position another \
message, since the messages that stay move up. Whoever stores contents by number or position can mix up what the keeper \
protects: store them by an identity of your own, and carry it along a fall back. --moves says what to carry where.",
        work: Work::Step(command::fall_back),
    },
    Subcommand {
        name: "run",
        arguments: &[Argument {
            name: "SCRIPT",
            takes: Takes::File,
            times: Times::Once,
        }],
        file: true,
        options: STEP_OPTIONS,
        short: "the steps of a script, one after another",
        words: "\
Reads a script, and makes its steps on the table of FILE. A line is a subcommand with its arguments and options, without \
FILE: `send 0 1`, `receive 1 0`, `save 1`, `fall back`, `list`, `line`, `stand 0.1 1.2`, `sheet`, `check`, `why 1.2`, `draw`; \
`text` is the text of the table. What follows `#` is skipped. A script that begins with `new` reads no FILE. SCRIPT is standard input where it is `-`.

  new 2
  send 0 1
  save 1 0   # process 1 receives message 0 before its checkpoint 1
  list

Answers go to standard output, as texts. The last table is written just where -o names a file for it. A line that fails \
ends the run; it is named with its number and its words, and then nothing is written to that file. So does a `stand` whose \
answer is no, with its exit status. Words that are no step \
are found before the first step is made.",
        work: Work::Alone(script::run),
    },
    Subcommand {
        name: "draw",
        arguments: &[],
        file: true,
        options: &[&HOLD, &DRAW_UNDER, &STAND, &LAST, &PROCESSES, &KEPT_ONLY, &TITLE, &READ_TEXT, &OUTPUT],
        short: "the run as a diagram in SVG",
        words: "\
Reads a run table and writes the run as a space-time diagram in SVG: a lifeline for each process, checkpoints as dots \
and messages as arrows, with what is kept and the recovery line. The arrow of a message that is received and not saved has \
a hollow head and ends before the square of its receiver, what that process has become. Time runs to the right where some order of time fits \
the table; else places are by checkpoint number, and the legend says so.

--hold, --under and --stand exclude each other. Of --stand a no is drawn as a yes is, with exit status 0: the zigzag path, \
that of `stand`, runs as a way with two sides along lifelines and arrows, and below the picture stands which messages it \
has. What the options leave out is counted below the picture. Of a message whose other end is left out a short piece is \
drawn, with a ring where it is cut. A browser shows what a dot or an arrow is, and why it is kept, when it is pointed \
at. Many renderers stop at 32767 px, so a picture that would be wider is not drawn; the message then names a `--last` \
that is narrow enough.",
        work: Work::Answer(command::draw),
    },
    Subcommand {
        name: "completion",
        arguments: &[Argument {
            name: "SHELL",
            takes: Takes::OneOf(SHELLS),
            times: Times::Once,
        }],
        file: false,
        options: &[],
        short: "completion for a shell, bash or zsh",
        words: "\
Writes a script that completes subcommands, options and files in SHELL, `bash` or `zsh`. `make install` puts it where the \
shells look for it; without that:

  source <(keeper completion bash)",
        work: Work::Alone(command::completion),
    },
    Subcommand {
        name: "help",
        arguments: &[Argument {
            name: "SUBCOMMAND",
            takes: Takes::Subcommand,
            times: Times::AtMostOnce,
        }],
        file: false,
        options: &[],
        short: "the help of the command or of a subcommand",
        words: "Writes what `keeper --help` writes, or what `keeper SUBCOMMAND --help` writes.",
        work: Work::Alone(command::help),
    },
];

/// The row of a subcommand.
pub fn subcommand(name: &std::ffi::OsStr) -> Option<&'static Subcommand> {
    SUBCOMMANDS
        .iter()
        .find(|subcommand| *subcommand.name == *name)
}

impl Subcommand {
    /// The option of that name, with `--help` among them.
    pub fn option(&self, name: &str) -> Option<&'static Opt> {
        let own = self.options.iter().copied();
        own.chain([&HELP])
            .find(|option| option.names.contains(&name))
    }

    /// Its name and arguments, as `save PROCESS [POSITION...]`, FILE left out.
    fn synopsis(&self) -> String {
        let mut synopsis = self.name.to_string();
        for argument in self.arguments {
            synopsis += &match argument.times {
                Times::Once => format!(" {}", argument.name),
                Times::AtMostOnce => format!(" [{}]", argument.name),
                Times::Any => format!(" [{}...]", argument.name),
            };
        }
        synopsis
    }

    /// What `keeper SUBCOMMAND --help` writes.
    pub fn help(&self) -> String {
        let (name, arguments) = match self.synopsis().split_once(' ') {
            Some((name, arguments)) => (name.to_string(), format!(" {arguments}")),
            None => (self.name.to_string(), String::new()),
        };
        let options = if self.options.is_empty() {
            ""
        } else {
            " [OPTION...]"
        };
        let file = if self.file { " [FILE]" } else { "" };
        let mut help = format!(
            "usage: keeper {name}{options}{arguments}{file}\n\n{}",
            wrapped(self.words)
        );
        if !self.options.is_empty() {
            help.push('\n');
        }
        for option in self.options {
            help += &in_columns(&option.synopsis(), option.words);
        }
        help
    }
}

impl Opt {
    /// Its names and what it takes, as `--hold PROCESS`.
    pub fn synopsis(&self) -> String {
        let names = self.names.join(", ");
        match self.takes {
            Takes::Nothing => names,
            _ => format!("{names} {}", self.value),
        }
    }
}

/// What `keeper --help` writes.
pub fn overview() -> String {
    let mut help = "\
keeper: run tables of checkpointed processes, their lines, steps, listings and diagrams

usage: keeper SUBCOMMAND [OPTION...] [ARGUMENT...] [FILE]

"
    .to_string();
    for subcommand in SUBCOMMANDS {
        help += &in_columns(&subcommand.synopsis(), subcommand.short);
    }
    help += "\nFILE is read, or standard input where it is missing or `-`.\n\n";
    for option in [&OUTPUT].iter().chain(OWN_OPTIONS) {
        help += &in_columns(&option.synopsis(), option.words);
    }
    help += "\nExit status:\n\n";
    for (status, words) in EXIT_STATUS {
        help += &in_columns(status, words);
    }
    help
}

pub const EXIT_STATUS: &[(&str, &str)] = &[
    ("0", "all is done"),
    (
        "1",
        "\
the table or the step is refused, with the number and the words of the refusal on standard error; or `why` was asked \
of what the table does not have",
    ),
    (
        "2",
        "wrong usage; a text, a script, a list of sets or a sheet that is not in the form; an error of input or output",
    ),
    (
        "3",
        "`stand` answers no: the named checkpoints can't stand together, and a message on standard error says why",
    ),
    (
        "141",
        "whoever read the output has closed it: the rest is not written, and nothing is said",
    ),
];

const COLUMNS: usize = 80;

/// Where the words of a list begin.
const WORDS_AT: usize = 26;

/// Paragraphs in lines of at most 80 columns; the lines of an example as they
/// are.
fn wrapped(words: &str) -> String {
    let mut text = String::new();
    for (place, paragraph) in words.split("\n\n").enumerate() {
        if place > 0 {
            text.push('\n');
        }
        if paragraph.starts_with("  ") {
            text += paragraph;
            text.push('\n');
        } else {
            for line in lines(paragraph, COLUMNS) {
                text += &line;
                text.push('\n');
            }
        }
    }
    text
}

/// A row of a list: what is explained, and the words beside it, or below where
/// there is no room.
fn in_columns(what: &str, words: &str) -> String {
    let mut text = format!("  {what}");
    let mut at = text.len();
    if at + 2 > WORDS_AT {
        text.push('\n');
        at = 0;
    }
    for line in lines(words, COLUMNS - WORDS_AT) {
        text += &" ".repeat(WORDS_AT - at);
        text += &line;
        text.push('\n');
        at = 0;
    }
    text
}

/// The words in lines of at most so many columns.
fn lines(words: &str, columns: usize) -> Vec<String> {
    let mut lines: Vec<String> = Vec::new();
    for word in words.split_whitespace() {
        match lines.last_mut() {
            Some(line) if line.len() + 1 + word.len() <= columns => {
                line.push(' ');
                line.push_str(word);
            }
            _ => lines.push(word.to_string()),
        }
    }
    lines
}
