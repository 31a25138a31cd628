//! The man page and the manual: what they say of subcommands and options is what
//! the table of subcommands has. The parts of man/keeper.1 between its marks are
//! made of that table; this writes them anew:
//!
//! ```text
//! KEEPER_PAGE=write cargo test --release --test page
//! ```

mod common;

use std::fs;
use std::os::unix::fs::symlink;
use std::path::{Path, PathBuf};
use std::process::Command;

use common::Folder;
use keeper_command::page;
use keeper_command::usage::{OWN_OPTIONS, SUBCOMMANDS};

fn file(name: &str) -> PathBuf {
    PathBuf::from(env!("CARGO_MANIFEST_DIR"))
        .join("../..")
        .join(name)
}

/// The page with a part put between its marks.
fn with(page: &str, name: &str, part: &str) -> String {
    let begin = format!(".\\\" Made of the table in tools/keeper/src/usage.rs: {name}\n");
    let end = format!(".\\\" End: {name}\n");
    let (before, rest) = page.split_once(&begin).expect("the mark before");
    let (_, after) = rest.split_once(&end).expect("the mark behind");
    format!("{before}{begin}{part}{end}{after}")
}

#[test]
fn the_page_is_what_the_table_gives() {
    let path = file("man/keeper.1");
    let page = fs::read_to_string(&path).expect("man/keeper.1");
    let made = page::parts()
        .iter()
        .fold(page.clone(), |page, (name, part)| with(&page, name, part));
    if std::env::var_os("KEEPER_PAGE").is_some_and(|what| what == "write") {
        fs::write(&path, &made).expect("written");
        return;
    }
    let differs = page
        .lines()
        .zip(made.lines())
        .find(|(one, other)| one != other);
    assert!(
        page == made,
        "man/keeper.1 is not what the table of subcommands gives: {differs:?} \
         (KEEPER_PAGE=write cargo test --test page writes it anew)"
    );
}

#[test]
fn a_changed_part_is_found() {
    let [(name, part), ..] = page::parts();
    let page = fs::read_to_string(file("man/keeper.1")).expect("man/keeper.1");
    for changed in [
        part.replacen("Cm encode", "Cm encoded", 1),
        part.replacen(".It ", ".Pp ", 1),
        format!("{part}.Pp\n"),
    ] {
        assert_ne!(changed, part);
        assert_ne!(with(&page, name, &changed), page);
    }
}

#[test]
fn the_page_has_all() {
    let page = fs::read_to_string(file("man/keeper.1")).expect("man/keeper.1");
    for row in SUBCOMMANDS {
        let item = format!("\n.It Cm {}", row.name);
        assert!(page.contains(&item), "{}", row.name);
    }
    for option in SUBCOMMANDS
        .iter()
        .flat_map(|row| row.options)
        .chain(OWN_OPTIONS)
    {
        for name in option.names {
            let flag = format!("Fl {}", name[1..].replace('-', "\\-"));
            assert!(page.contains(&flag), "{name}");
        }
    }
    // Nothing of the marks that words have in the table is left.
    for line in page.lines().filter(|line| !line.starts_with(".\\\"")) {
        assert!(!line.contains('`'), "{line}");
    }
}

/// The manual's section on the command.
fn section() -> String {
    let manual = fs::read_to_string(file("docs/MANUAL.md")).expect("docs/MANUAL.md");
    let (_, section) = manual
        .split_once("\n## The keeper command\n")
        .expect("the section on the command");
    section
        .split("\n## ")
        .next()
        .expect("a section")
        .to_string()
}

/// The commands that a text shows behind `$`, each with what it prints.
fn sessions(text: &str) -> Vec<(&str, String)> {
    let mut sessions: Vec<(&str, String)> = Vec::new();
    let mut inside = false;
    for line in text.lines() {
        match line.strip_prefix("    ") {
            Some(shown) if shown.starts_with("$ keeper ") => {
                sessions.push((&shown[2..], String::new()));
                inside = true;
            }
            Some(shown) if inside => {
                let (_, output) = sessions.last_mut().expect("a session");
                output.push_str(shown);
                output.push('\n');
            }
            _ => inside = false,
        }
    }
    sessions
}

/// Runs them one after another in a folder of their own that has the corpus, as a
/// shell does where the command is on the path.
fn happens(sessions: &[(&str, String)], name: &str) {
    let folder = Folder::new(name);
    let tests = fs::canonicalize(file("tests")).expect("tests/");
    symlink(tests, folder.join("tests")).expect("a link");
    let own = Path::new(env!("CARGO_BIN_EXE_keeper")).parent();
    let mut path = own.expect("its folder").as_os_str().to_os_string();
    path.push(":");
    path.push(std::env::var_os("PATH").unwrap_or_default());
    for (command, expected) in sessions {
        let output = Command::new("sh")
            .args(["-c", command])
            .env("PATH", &path)
            .current_dir(&folder)
            .output()
            .expect("a shell starts");
        let printed = String::from_utf8_lossy(&output.stdout);
        assert_eq!(
            (&*printed, output.stderr),
            (expected.as_str(), vec![]),
            "{command}"
        );
        assert!(output.status.success(), "{command}");
    }
}

/// What the manual and README.md show is what happens.
#[test]
fn sessions_of_the_documents() {
    let section = section();
    let manual = sessions(&section);
    assert!(manual.len() >= 3, "{manual:?}");
    happens(&manual, "manual");
    let readme = fs::read_to_string(file("README.md")).expect("README.md");
    let readme = sessions(&readme);
    assert!(readme.len() >= 4, "{readme:?}");
    happens(&readme, "readme");
}

#[test]
fn the_manual_has_all() {
    let section = section();
    for row in SUBCOMMANDS {
        assert!(section.contains(&format!("`{}", row.name)), "{}", row.name);
        for option in row.options {
            for name in option.names {
                assert!(section.contains(name), "{}: {name}", row.name);
            }
        }
    }
}
