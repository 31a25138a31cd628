//! Where answers are written: standard output, or a file that is replaced as a
//! whole or not at all.

use std::ffi::OsStr;
use std::fs::{self, File, Metadata, OpenOptions, Permissions};
use std::io::{self, ErrorKind, Write};
use std::os::unix::fs::{fchown, MetadataExt, OpenOptionsExt, PermissionsExt};
use std::path::{Path, PathBuf};

use crate::command::Failure;

/// Writes an answer to the file, or to standard output where there is none or
/// it is `-`.
pub fn put(output: Option<&OsStr>, answer: &[u8]) -> Result<(), Failure> {
    match output.filter(|file| *file != "-") {
        None => to_standard_output(answer).map_err(|error| failed("(standard output)", "", error)),
        Some(file) => put_file(file, answer),
    }
}

fn failed(name: &str, what: &str, error: io::Error) -> Failure {
    match error.kind() {
        ErrorKind::BrokenPipe => Failure::closed(),
        _ => Failure::trouble(format!("{name}: {error}{what}")),
    }
}

fn to_standard_output(answer: &[u8]) -> io::Result<()> {
    let mut to = io::stdout().lock();
    to.write_all(answer)?;
    to.flush()
}

fn put_file(file: &OsStr, answer: &[u8]) -> Result<(), Failure> {
    let name = file.to_string_lossy();
    match place(Path::new(file)).map_err(|error| failed(&name, "", error))? {
        Place::StandardOutput => to_standard_output(answer),
        Place::Direct(path) => directly(&path, answer),
        Place::File(path, before) => {
            let untouched = match before {
                Some(_) => "; the old file is as it was",
                None => "",
            };
            return replace(&path, before, answer).map_err(|error| match error {
                NotReplaced::Folder(error) => {
                    let why = match error.kind() {
                        ErrorKind::PermissionDenied | ErrorKind::ReadOnlyFilesystem => BESIDE,
                        _ => "",
                    };
                    failed(&name, &format!("{why}{untouched}"), error)
                }
                NotReplaced::File(error) => failed(&name, untouched, error),
                NotReplaced::Synced(error) => failed(&name, NOT_SYNCED, error),
            });
        }
    }
    .map_err(|error| failed(&name, "", error))
}

const BESIDE: &str = "; its folder must take a new file, which gets the name once it is whole";
const NOT_SYNCED: &str = "; the file was replaced, and may not be on the disk yet";

/// What a name leads to.
enum Place {
    StandardOutput,
    /// No plain file: a device, a pipe, a folder, which says so itself.
    Direct(PathBuf),
    /// A plain file, or none yet.
    File(PathBuf, Option<Metadata>),
}

/// Follows the links from a name. Those of /proc stand for what is open
/// already, whatever file that may be: /dev/stdout leads there.
fn place(name: &Path) -> io::Result<Place> {
    let mut path = name.to_path_buf();
    for _ in 0..40 {
        let metadata = match fs::symlink_metadata(&path) {
            Err(error) if error.kind() == ErrorKind::NotFound => {
                return Ok(Place::File(path, None))
            }
            metadata => metadata?,
        };
        if metadata.is_file() {
            return Ok(Place::File(path, Some(metadata)));
        }
        if !metadata.is_symlink() {
            return Ok(Place::Direct(path));
        }
        let folder = folder_of(&path);
        let real = fs::canonicalize(folder)?;
        if real.starts_with("/proc") {
            let own = fs::canonicalize("/proc/self/fd").is_ok_and(|own| own == real);
            return Ok(match own && path.file_name() == Some("1".as_ref()) {
                true => Place::StandardOutput,
                false => Place::Direct(path),
            });
        }
        path = folder.join(fs::read_link(&path)?);
    }
    // The system's own words for it.
    fs::metadata(name).map(|_| Place::Direct(name.to_path_buf()))
}

fn folder_of(path: &Path) -> &Path {
    match path.parent() {
        Some(folder) if !folder.as_os_str().is_empty() => folder,
        Some(_) => Path::new("."),
        None => Path::new("/"),
    }
}

/// At its end, where it has one: what is open already was emptied by whoever
/// opened it, or is to be added to.
fn directly(path: &Path, answer: &[u8]) -> io::Result<()> {
    OpenOptions::new()
        .append(true)
        .open(path)?
        .write_all(answer)
}

enum NotReplaced {
    /// No new file could be made in the folder.
    Folder(io::Error),
    File(io::Error),
    /// The file is there, and the folder could not be synced.
    Synced(io::Error),
}

/// Writes a new file beside the old one, and gives it its name once it is whole
/// and on the disk.
fn replace(path: &Path, before: Option<Metadata>, answer: &[u8]) -> Result<(), NotReplaced> {
    if before.is_some() {
        // What may not be written may not be replaced either.
        OpenOptions::new()
            .write(true)
            .open(path)
            .map_err(NotReplaced::File)?;
    }
    let folder = folder_of(path);
    let mut new = Beside::create(folder, before.is_some()).map_err(NotReplaced::Folder)?;
    new.fill(answer, before.as_ref())
        .and_then(|()| new.rename(path))
        .map_err(NotReplaced::File)?;
    match File::open(folder).and_then(|folder| folder.sync_all()) {
        // Some systems sync no folders, and some folders can't be read.
        Err(error)
            if !matches!(
                error.kind(),
                ErrorKind::InvalidInput | ErrorKind::Unsupported | ErrorKind::PermissionDenied
            ) =>
        {
            Err(NotReplaced::Synced(error))
        }
        _ => Ok(()),
    }
}

/// A file that is taken away unless it gets its name.
struct Beside {
    file: File,
    path: PathBuf,
    named: bool,
}

impl Beside {
    /// One that gets the permissions of an old file is nobody else's before.
    fn create(folder: &Path, private: bool) -> io::Result<Beside> {
        let mode = if private { 0o600 } else { 0o666 };
        let mut attempt = 0;
        loop {
            let name = format!(".keeper-{}-{attempt}", std::process::id());
            let path = folder.join(name);
            let file = OpenOptions::new()
                .write(true)
                .create_new(true)
                .mode(mode)
                .open(&path);
            match file {
                Err(error) if error.kind() == ErrorKind::AlreadyExists && attempt < 1000 => {
                    attempt += 1;
                }
                file => {
                    return file.map(|file| Beside {
                        file,
                        path,
                        named: false,
                    })
                }
            }
        }
    }

    fn fill(&mut self, answer: &[u8], before: Option<&Metadata>) -> io::Result<()> {
        self.file.write_all(answer)?;
        if let Some(before) = before {
            self.take_after(before)?;
        }
        self.file.sync_all()
    }

    /// Owner and group as far as the system lets, and the permission bits.
    fn take_after(&mut self, before: &Metadata) -> io::Result<()> {
        let (uid, gid) = (before.uid(), before.gid());
        let own = self.file.metadata()?;
        if (own.uid(), own.gid()) != (uid, gid) && fchown(&self.file, Some(uid), Some(gid)).is_err()
        {
            // The group alone may be had by one of its members.
            let _ = fchown(&self.file, None, Some(gid));
        }
        let own = self.file.metadata()?;
        let mut mode = before.mode() & 0o7777;
        if (own.uid(), own.gid()) != (uid, gid) {
            // Nobody gets the rights of another owner by it.
            mode &= 0o1777;
        }
        self.file.set_permissions(Permissions::from_mode(mode))
    }

    fn rename(&mut self, path: &Path) -> io::Result<()> {
        fs::rename(&self.path, path)?;
        self.named = true;
        Ok(())
    }
}

impl Drop for Beside {
    fn drop(&mut self) {
        if !self.named {
            let _ = fs::remove_file(&self.path);
        }
    }
}
