//! `-o`: a file is replaced as a whole or not at all, and what users expect of
//! its permissions and links.

mod common;

use std::fs::{self, File, Permissions};
use std::io::Read;
use std::os::unix::fs::{symlink, MetadataExt, PermissionsExt};
use std::path::Path;
use std::process::{Command, Output, Stdio};

use common::{as_somebody, bytes, done, example_a, fails, keeper, note, Folder};

/// The names in a folder.
fn names(folder: &Path) -> Vec<String> {
    let entries = fs::read_dir(folder).expect("a folder");
    let mut names: Vec<String> = entries
        .map(|entry| {
            let name = entry.expect("readable").file_name();
            name.into_string().expect("UTF-8")
        })
        .collect();
    names.sort();
    names
}

fn text(path: &Path) -> &str {
    path.to_str().expect("UTF-8")
}

fn mode(path: &Path) -> u32 {
    fs::metadata(path).expect("there").mode() & 0o7777
}

/// A shell with lines to run, in which $keeper is the command.
fn shell_of(lines: &str, folder: &Path) -> Command {
    let mut shell = Command::new("sh");
    shell
        .args(["-c", lines])
        .env("keeper", env!("CARGO_BIN_EXE_keeper"))
        .current_dir(folder)
        .stdin(Stdio::null());
    shell
}

fn shell(lines: &str, folder: &Path) -> Output {
    shell_of(lines, folder).output().expect("sh starts")
}

fn told(output: &Output) -> (Option<i32>, String) {
    let errors = String::from_utf8_lossy(&output.stderr).into_owned();
    (output.status.code(), errors)
}

/// A table of some 3,200 bytes.
fn larger() -> Vec<u8> {
    let numbers = [2, 400, 1, 1].into_iter();
    let sends = std::iter::repeat_n([0, 0], 400).flatten();
    let receipts = std::iter::repeat_n([1, 0], 400).flatten();
    bytes(&numbers.chain(sends).chain(receipts).collect::<Vec<_>>())
}

#[test]
fn a_size_limit_leaves_the_old_file() {
    let folder = Folder::new("limit");
    let table = folder.join("run.table");
    // Not a byte can be written; then the first blocks, and no more.
    for (old, blocks) in [(example_a(), 0), (larger(), 1)] {
        fs::write(&table, &old).expect("written");
        let lines = format!(
            "trap '' XFSZ\nulimit -f {blocks}\n\"$keeper\" send 0 1 run.table -o run.table 2>&1 | cat; \
             \"$keeper\" send 0 1 run.table -o run.table 2>/dev/null"
        );
        let ran = shell(&lines, &folder);
        assert_eq!(ran.status.code(), Some(2));
        assert_eq!(
            String::from_utf8_lossy(&ran.stdout),
            "keeper: run.table: File too large (os error 27); the old file is as it was\n"
        );
        assert!(fs::read(&table).expect("read") == old);
        assert_eq!(names(&folder), ["run.table"]);
        // A file that was not there is not there afterwards.
        let lines = lines.replace("-o run.table", "-o new.table");
        let ran = shell(&lines, &folder);
        assert_eq!(ran.status.code(), Some(2));
        assert_eq!(
            String::from_utf8_lossy(&ran.stdout),
            "keeper: new.table: File too large (os error 27)\n"
        );
        assert_eq!(names(&folder), ["run.table"]);
    }
    // Without the limit it is done.
    done(&["send", "0", "1", text(&table), "-o", text(&table)], b"");
    assert_eq!(
        fs::read(&table).expect("read"),
        done(&["send", "0", "1"], &larger())
    );
    assert_eq!(names(&folder), ["run.table"]);
    note("output files: tried under a file size limit");
}

#[test]
fn a_full_disk_leaves_the_old_file() {
    let folder = Folder::new("full");
    fs::write(folder.join("before.table"), larger()).expect("written");
    fs::create_dir(folder.join("disk")).expect("created");
    // A file system of one page, seen by this shell and its children alone.
    let lines = "\
exec unshare -m sh -c '
    mount -t tmpfs -o size=4k none disk 2>/dev/null || exit 77
    cp before.table disk/run.table || exit 77
    \"$keeper\" send 0 1 disk/run.table -o disk/run.table
    echo \"status $?\"
    cmp before.table disk/run.table && echo same
    ls -A disk
'";
    let ran = shell(lines, &folder);
    if !ran.stdout.starts_with(b"status ") {
        note("output files: no small file system can be mounted here; not tried on a full one");
        return;
    }
    let (_, errors) = told(&ran);
    assert_eq!(
        errors,
        "keeper: disk/run.table: No space left on device (os error 28); the old file is as it was\n"
    );
    assert_eq!(
        String::from_utf8_lossy(&ran.stdout),
        "status 2\nsame\nrun.table\n"
    );
    note("output files: tried on a full file system");
}

#[test]
fn permissions() {
    let folder = Folder::new("permissions");
    let table = folder.join("run.table");
    for bits in [0o600, 0o640, 0o644, 0o666, 0o755, 0o4755] {
        fs::write(&table, example_a()).expect("written");
        fs::set_permissions(&table, Permissions::from_mode(bits)).expect("set");
        let before = fs::metadata(&table).expect("there");
        // Whatever the umask.
        let ran = shell(
            "umask 077; \"$keeper\" save 0 run.table -o run.table",
            &folder,
        );
        assert_eq!(told(&ran), (Some(0), String::new()));
        let after = fs::metadata(&table).expect("there");
        assert_eq!(after.mode() & 0o7777, bits);
        assert_eq!((after.uid(), after.gid()), (before.uid(), before.gid()));
        assert_ne!(after.ino(), before.ino());
        assert_eq!(
            fs::read(&table).expect("read"),
            done(&["save", "0"], &example_a())
        );
    }
    for (umask, bits) in [("022", 0o644), ("027", 0o640), ("0", 0o666)] {
        let lines = format!("umask {umask}; \"$keeper\" new 2 -o new.table");
        assert_eq!(told(&shell(&lines, &folder)), (Some(0), String::new()));
        assert_eq!(mode(&folder.join("new.table")), bits);
        fs::remove_file(folder.join("new.table")).expect("removed");
    }
    assert_eq!(names(&folder), ["run.table"]);
}

#[test]
fn links() {
    let folder = Folder::new("links");
    fs::create_dir(folder.join("below")).expect("created");
    let real = folder.join("below/run.table");
    let old = example_a();
    let new = done(&["save", "0"], &old);
    // A link to a link, by names from where each stands.
    symlink("below/first", folder.join("second")).expect("linked");
    symlink("run.table", folder.join("below/first")).expect("linked");
    fs::write(&real, &old).expect("written");
    fs::hard_link(&real, folder.join("other.table")).expect("linked");
    let second = folder.join("second");
    done(&["save", "0", text(&second), "-o", text(&second)], b"");
    assert_eq!(fs::read(&real).expect("read"), new);
    assert_eq!(
        fs::read_link(&second).expect("a link"),
        Path::new("below/first")
    );
    assert_eq!(
        fs::read_link(folder.join("below/first")).expect("a link"),
        Path::new("run.table")
    );
    // The other name keeps what it had.
    assert_eq!(fs::read(folder.join("other.table")).expect("read"), old);
    // A link to nothing yet.
    fs::remove_file(&real).expect("removed");
    done(&["new", "2", "-o", text(&second)], b"");
    assert_eq!(fs::read(&real).expect("read"), bytes(&[2, 0, 1, 1]));
    assert_eq!(names(&folder), ["below", "other.table", "second"]);
    assert_eq!(names(&folder.join("below")), ["first", "run.table"]);
    // A link to itself.
    let own = folder.join("own");
    symlink("own", &own).expect("linked");
    let message = format!(
        "{}: Too many levels of symbolic links (os error 40)",
        text(&own)
    );
    fails(&["new", "2", "-o", text(&own)], b"", 2, &message);
}

#[test]
fn what_stands_in_dev() {
    let folder = Folder::new("dev");
    fs::set_permissions(&folder, Permissions::from_mode(0o777)).expect("set");
    fs::write(folder.join("a.table"), example_a()).expect("written");
    // Files that a shell has opened: what stands there stays.
    let lines = "\
echo before >log
\"$keeper\" list a.table -o /dev/null || exit 1
\"$keeper\" list a.table -o /dev/stdout || exit 1
\"$keeper\" list a.table -o /dev/stdout >>log || exit 1
\"$keeper\" list a.table -o /dev/fd/3 3>>log || exit 1
\"$keeper\" list a.table -o /dev/stdout >only || exit 1";
    let Some(ran) = as_somebody(&mut shell_of(lines, &folder)) else {
        return;
    };
    assert_eq!(told(&ran), (Some(0), String::new()));
    let listing = done(&["list"], &example_a());
    assert_eq!(ran.stdout, listing);
    let expected = [&b"before\n"[..], &listing, &listing].concat();
    assert_eq!(fs::read(folder.join("log")).expect("read"), expected);
    assert_eq!(fs::read(folder.join("only")).expect("read"), listing);
    assert_eq!(names(&folder), ["a.table", "log", "only"]);
}

#[test]
fn what_is_no_plain_file() {
    let folder = Folder::new("other");
    let a = example_a();
    let listing = done(&["list"], &a);
    assert_eq!(done(&["list", "-o", "-"], &a), listing);
    assert_eq!(done(&["list", "-o-"], &a), listing);
    let message = format!("{}: Is a directory (os error 21)", text(&folder));
    fails(&["list", "-o", text(&folder)], &a, 2, &message);

    // A named pipe stays one.
    let pipe = folder.join("pipe");
    match Command::new("mkfifo").arg(&pipe).status() {
        Ok(status) if status.success() => {
            let from = pipe.clone();
            let reader = std::thread::spawn(move || {
                let mut read = Vec::new();
                let mut from = File::open(from).expect("opened");
                from.read_to_end(&mut read).map(|_| read)
            });
            done(&["list", "-o", text(&pipe)], &a);
            assert_eq!(reader.join().expect("ends").expect("read"), listing);
            assert!(!fs::metadata(&pipe).expect("there").is_file());
        }
        _ => note("output files: there is no mkfifo; not tried on a named pipe"),
    }
    assert!(names(&folder).iter().all(|name| name == "pipe"));
}

/// Runs the command as somebody who is not root.
fn ask(arguments: &[&str], folder: &Path) -> Option<(Option<i32>, String)> {
    let mut command = Command::new(env!("CARGO_BIN_EXE_keeper"));
    let output = as_somebody(command.args(arguments).current_dir(folder));
    output.as_ref().map(told)
}

#[test]
fn what_may_not_be_written() {
    let folder = Folder::new("denied");
    let table = folder.join("run.table");
    fs::write(&table, example_a()).expect("written");
    fs::set_permissions(&table, Permissions::from_mode(0o666)).expect("set");
    fs::set_permissions(&folder, Permissions::from_mode(0o555)).expect("set");
    let arguments = ["save", "0", "run.table", "-o", "run.table"];
    let denied = ask(&arguments, &folder);
    fs::set_permissions(&folder, Permissions::from_mode(0o777)).expect("set");
    let Some(denied) = denied else { return };
    assert_eq!(
        denied,
        (
            Some(2),
            "keeper: run.table: Permission denied (os error 13); its folder must take a new file, \
             which gets the name once it is whole; the old file is as it was\n"
                .to_string()
        )
    );
    // A file that is not to be written, in a folder that is.
    fs::set_permissions(&table, Permissions::from_mode(0o444)).expect("set");
    assert_eq!(
        ask(&arguments, &folder),
        Some((
            Some(2),
            "keeper: run.table: Permission denied (os error 13); the old file is as it was\n"
                .to_string()
        ))
    );
    assert_eq!(fs::read(&table).expect("read"), example_a());
    assert_eq!(names(&folder), ["run.table"]);
    // Both are: of another's file one's own becomes, without its special rights.
    fs::set_permissions(&table, Permissions::from_mode(0o6777)).expect("set");
    let before = fs::metadata(&table).expect("there");
    assert_eq!(ask(&arguments, &folder), Some((Some(0), String::new())));
    let after = fs::metadata(&table).expect("there");
    let expected = match after.uid() == before.uid() {
        true => 0o6777,
        false => 0o777,
    };
    assert_eq!(after.mode() & 0o7777, expected);
    assert_eq!(names(&folder), ["run.table"]);
}

#[test]
fn an_owner_stays() {
    let folder = Folder::new("owner");
    let table = folder.join("run.table");
    fs::write(&table, example_a()).expect("written");
    if std::os::unix::fs::chown(&table, Some(1234), Some(4321)).is_err() {
        note("output files: only root can give files away; not tried that an owner stays");
        return;
    }
    done(&["save", "0", text(&table), "-o", text(&table)], b"");
    let after = fs::metadata(&table).expect("there");
    assert_eq!((after.uid(), after.gid()), (1234, 4321));
}

#[test]
fn a_refusal_writes_nothing() {
    let folder = Folder::new("refused");
    let table = folder.join("run.table");
    fs::write(&table, example_a()).expect("written");
    let ran = keeper(&["send", "0", "9", text(&table), "-o", text(&table)], b"");
    assert_eq!(ran.status, 1);
    let new = folder.join("new.table");
    assert_eq!(keeper(&["new", "99", "-o", text(&new)], b"").status, 1);
    assert_eq!(fs::read(&table).expect("read"), example_a());
    assert_eq!(names(&folder), ["run.table"]);
}
