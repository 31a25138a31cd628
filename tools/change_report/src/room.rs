//! A folder for worktrees that does not outlive this process.

use std::fs;
use std::io::{self, Write};
use std::os::unix::fs::PermissionsExt;
use std::os::unix::process::CommandExt;
use std::path::{Path, PathBuf};
use std::process::{Child, Command, Stdio};
use std::time::{SystemTime, UNIX_EPOCH};

use crate::command::missing;

/// The guard: it reads the process group of each prover as it starts, and an
/// empty line as it ends. Its input ends when this process does, killed or not;
/// then it ends the prover that is left and takes the folder away.
const GUARD: &str = r#"
trap '' HUP INT TERM
group=
while read -r line; do group=$line; done
[ -z "$group" ] || kill -KILL "-$group" 2>/dev/null
rm -rf "$1" || { sleep 1; rm -rf "$1"; }
git worktree prune
"#;

/// A temporary folder, taken away with the worktrees in it when this is dropped
/// or this process is ended.
pub struct Room {
    folder: PathBuf,
    guard: Child,
}

impl Room {
    pub fn new(repository: &Path) -> Result<Room, String> {
        let now = SystemTime::now().duration_since(UNIX_EPOCH);
        let now = now.map_or(0, |since| since.as_nanos());
        let name = format!("change-report-{}-{now}", std::process::id());
        let folder = std::env::temp_dir().join(name);
        open_folder(&folder)
            .map_err(|error| format!("no temporary folder can be made: {error}"))?;
        let guard = Command::new("sh")
            .args(["-c", GUARD, "sh"])
            .arg(&folder)
            .current_dir(repository)
            .stdin(Stdio::piped())
            .stdout(Stdio::null())
            .process_group(0)
            .spawn();
        match guard {
            Ok(guard) => Ok(Room { folder, guard }),
            Err(error) => {
                _ = fs::remove_dir(&folder);
                Err(missing("sh", &error))
            }
        }
    }

    pub fn folder(&self) -> &Path {
        &self.folder
    }

    /// An empty folder for what the prover keeps for itself while it runs.
    pub fn temporary(&self) -> io::Result<PathBuf> {
        let folder = self.folder.join("temporary");
        if folder.exists() {
            fs::remove_dir_all(&folder)?;
        }
        open_folder(&folder)?;
        Ok(folder)
    }

    /// Tells the guard which process group runs.
    pub fn begins(&mut self, group: u32) {
        self.tell(&format!("{group}\n"));
    }

    /// Tells the guard that it has ended.
    pub fn ended(&mut self) {
        self.tell("\n");
    }

    fn tell(&mut self, line: &str) {
        let guard = self.guard.stdin.as_mut().expect("piped");
        // A guard that is gone can't be told, and there is nobody else to tell.
        _ = guard.write_all(line.as_bytes());
    }
}

/// A new folder that others can pass through: rt, where it is root, runs programs
/// as nobody.
fn open_folder(folder: &Path) -> io::Result<()> {
    fs::create_dir(folder)?;
    fs::set_permissions(folder, fs::Permissions::from_mode(0o711))
}

impl Drop for Room {
    fn drop(&mut self) {
        drop(self.guard.stdin.take());
        _ = self.guard.wait();
    }
}
