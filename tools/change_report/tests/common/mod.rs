//! Small repositories, a prover that proves nothing, and runs of the command.

use std::fs;
use std::os::unix::fs::{symlink, PermissionsExt};
use std::path::{Path, PathBuf};
use std::process::{Command, Output, Stdio};

/// The prover of the tests. It says of each crate of `crates.txt` that it is
/// proved, unless the crate has a file `fails`; and it waits where one has a file
/// `waits`. It wants no crate that is not listed and none with an `out/`, leaves
/// one in each and a temporary folder, and writes down what it was asked, of
/// which commit and of which crates.
const RT: &str = r#"#!/bin/sh
[ "$1" != version ] || { echo 'a kit for tests'; exit 0; }
names=$(sed -n 's/^\([a-z_]*\).*:.*/\1/p' crates.txt)
for folder in crates/*; do
    case " $(echo $names) " in
    *" ${folder##*/} "*) ;;
    *) echo "rt: no check reads $folder"; exit 2 ;;
    esac
    [ ! -e "$folder/out" ] || { echo "rt: $folder/out is there"; exit 2; }
    mkdir "$folder/out"
done
mktemp -d >/dev/null
echo "$(cat commit): $* of" $names >>"$ASKED"
summary='== summary'
for name in $names; do
    [ ! -e "crates/$name/waits" ] || sleep 60
    echo "== $name"
    if [ -e "crates/$name/fails" ]; then
        echo 'an error'
        echo 'logic=not-proved'
        summary="$summary\n$name: failed (1)"
        failed=yes
    else
        echo 'logic=proved functions=1 logic-built=trusted'
        summary="$summary\n$name: ok"
    fi
done
printf "$summary\nso many crates ok\n"
[ -z "$failed" ]
"#;

/// A repository in a folder of its own, and what stands around it.
pub struct World {
    folder: PathBuf,
}

/// What a run of the command left.
#[derive(Debug)]
pub struct Ran {
    pub status: i32,
    pub report: String,
    pub messages: String,
}

impl World {
    /// An empty repository, an empty folder for temporary files, and programs. They
    /// stand outside of this repository, where rt refuses a second one below it.
    pub fn new(name: &str) -> World {
        let own = format!("change-report-tests-{}-{name}", std::process::id());
        let folder = std::env::temp_dir().join(own);
        if folder.exists() {
            fs::remove_dir_all(&folder).expect("an earlier run's folder goes");
        }
        let world = World { folder };
        for part in ["repository", "temporary", "with-rt", "with-git", "empty"] {
            fs::create_dir_all(world.path(part)).expect("a folder");
        }
        let rt = world.path("with-rt/rt");
        fs::write(&rt, RT).expect("a program");
        fs::set_permissions(&rt, fs::Permissions::from_mode(0o755)).expect("it can be run");
        symlink(program("git"), world.path("with-git/git")).expect("a link");
        world.git(&["init", "--quiet"]);
        world
    }

    pub fn path(&self, path: &str) -> PathBuf {
        self.folder.join(path)
    }

    /// Writes a file of the repository.
    pub fn write(&self, path: &str, text: &str) {
        let path = self.path("repository").join(path);
        fs::create_dir_all(path.parent().expect("a folder")).expect("a folder");
        fs::write(path, text).expect("a file");
    }

    /// Writes the files of a list in the place of all others: each begins with
    /// a line `==== PATH`.
    pub fn write_all(&self, list: &str) {
        _ = fs::remove_dir_all(self.path("repository/crates"));
        for file in list.split("==== ").skip(1) {
            let (path, text) = file.split_once('\n').expect("a path and a text");
            self.write(path, text);
        }
    }

    /// Commits all that stands in the repository, which has its subject in the
    /// file `commit`.
    pub fn commit(&self, subject: &str) {
        self.write("commit", &format!("{subject}\n"));
        self.git(&["add", "--all"]);
        self.git(&["commit", "--quiet", "--message", subject]);
    }

    pub fn git(&self, arguments: &[&str]) -> String {
        let output = self
            .at_home(Command::new("git"))
            .args(arguments)
            .output()
            .expect("git runs");
        assert!(output.status.success(), "{output:?}");
        String::from_utf8(output.stdout).expect("UTF-8")
    }

    /// A command in the repository, with no configuration but the tests' own.
    fn at_home(&self, mut command: Command) -> Command {
        for (name, _) in std::env::vars_os() {
            if name.to_string_lossy().starts_with("GIT_") {
                command.env_remove(name);
            }
        }
        for (role, kind) in [("AUTHOR", "author"), ("COMMITTER", "committer")] {
            command.env(format!("GIT_{role}_NAME"), kind);
            command.env(format!("GIT_{role}_EMAIL"), format!("{kind}@example.org"));
        }
        command
            .env("GIT_CONFIG_NOSYSTEM", "1")
            .env("GIT_CONFIG_GLOBAL", "/dev/null")
            .env("GIT_CEILING_DIRECTORIES", &self.folder)
            .env("TMPDIR", self.path("temporary"))
            .env("ASKED", self.path("asked"))
            .env(
                "PATH",
                format!("{}:{}", self.path("with-rt").display(), path_variable()),
            )
            .current_dir(self.path("repository"))
            .stdin(Stdio::null());
        command
    }

    /// The command, with these arguments.
    pub fn command(&self, arguments: &[&str]) -> Command {
        let mut command = self.at_home(Command::new(env!("CARGO_BIN_EXE_change-report")));
        command.args(arguments);
        command
    }

    pub fn run(&self, arguments: &[&str]) -> Ran {
        ran(self.command(arguments).output())
    }

    /// What the prover was asked: the commit, words, and the crates that it found.
    pub fn asked(&self) -> Vec<String> {
        let asked = fs::read_to_string(self.path("asked")).unwrap_or_default();
        asked.lines().map(str::to_string).collect()
    }

    /// Wants that nothing is left but the repository.
    pub fn assert_clean(&self) {
        let left: Vec<_> = fs::read_dir(self.path("temporary"))
            .expect("a folder")
            .collect();
        assert!(left.is_empty(), "{left:?}");
        let worktrees = self.git(&["worktree", "list", "--porcelain"]);
        assert_eq!(worktrees.matches("worktree ").count(), 1, "{worktrees}");
    }
}

impl Drop for World {
    fn drop(&mut self) {
        _ = fs::remove_dir_all(&self.folder);
    }
}

pub fn ran(output: std::io::Result<Output>) -> Ran {
    let output = output.expect("the command runs");
    Ran {
        status: output.status.code().expect("no signal"),
        report: String::from_utf8(output.stdout).expect("UTF-8"),
        messages: String::from_utf8(output.stderr).expect("UTF-8"),
    }
}

fn path_variable() -> String {
    std::env::var("PATH").expect("a PATH")
}

/// Where a program stands.
fn program(name: &str) -> PathBuf {
    let path = path_variable();
    let mut places = path.split(':').map(|folder| Path::new(folder).join(name));
    places
        .find(|place| place.exists())
        .expect("it is installed")
}
