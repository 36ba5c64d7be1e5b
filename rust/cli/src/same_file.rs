//! Tells whether two names are names of one file.

use std::ffi::OsString;
use std::fs;
use std::io::{self, ErrorKind, IsTerminal};
use std::path::{Component, Path, PathBuf};

/// The device to which a program writes what nobody wants to read.
const NULL_DEVICE: &str = "/dev/null";

/// The most symbolic links that are followed, as in Linux.
const LINKS: usize = 40;

/// What a file is called by the system, whatever path leads to it: its device and its number on that device.
#[cfg(unix)]
type Node = (u64, u64);

/// What a file is called by the system, whatever path leads to it.
#[cfg(not(unix))]
type Node = PathBuf;

/// A file, or a place for one. Two of them are equal if they are the same.
#[derive(Clone, Debug, PartialEq, Eq)]
pub struct FileId {
    node: Node,

    /// If the file does not exist, its name, after those of the folders that do not exist either. `node` is then the
    /// folder that they are in.
    missing: Vec<OsString>,
}

impl FileId {
    /// Returns the file at `path`. Returns `None` for the null device, and if the path is of no file.
    pub fn of_path(path: &Path) -> Option<FileId> {
        match node_of(path) {
            Some(node) => FileId::of_node(node),
            None => FileId::of_missing(&named_by_links(path).ok()?),
        }
    }

    /// Returns the place of a file that does not exist.
    fn of_missing(path: &Path) -> Option<FileId> {
        let exists = |path: &&Path| node_of(&or_here(path)).is_some();
        let front = path.ancestors().skip(1).find(exists)?;
        let (mut folder, mut missing) = (or_here(front), Vec::new());
        for part in path.strip_prefix(front).ok()?.components() {
            match part {
                Component::Normal(name) => missing.push(name.to_os_string()),
                // A folder that is missing is no link, so its parent is the one before it.
                Component::ParentDir => {
                    if missing.pop().is_none() {
                        folder.push("..");
                    }
                }
                Component::CurDir | Component::RootDir | Component::Prefix(_) => {}
            }
        }
        Some(FileId {
            node: node_of(&folder)?,
            missing,
        })
    }

    /// Returns standard input. Returns `None` if it is a terminal, which can be read and written, or the null
    /// device.
    pub fn of_standard_input() -> Option<FileId> {
        if io::stdin().is_terminal() {
            return None;
        }
        FileId::of_node(node_of_stream(&io::stdin())?)
    }

    /// Returns standard output, or `None` if it is the null device.
    pub fn of_standard_output() -> Option<FileId> {
        FileId::of_node(node_of_stream(&io::stdout())?)
    }

    /// Returns standard error, or `None` if it is the null device.
    pub fn of_standard_error() -> Option<FileId> {
        FileId::of_node(node_of_stream(&io::stderr())?)
    }

    /// Returns a file that exists, or `None` if it is the null device.
    fn of_node(node: Node) -> Option<FileId> {
        let is_null = node_of(Path::new(NULL_DEVICE)).as_ref() == Some(&node);
        (!is_null).then_some(FileId {
            node,
            missing: Vec::new(),
        })
    }
}

/// Returns a path, or that of the current folder if it is empty.
fn or_here(path: &Path) -> PathBuf {
    if path.as_os_str().is_empty() {
        PathBuf::from(".")
    } else {
        path.to_path_buf()
    }
}

/// Returns what the system calls the file at `path`.
#[cfg(unix)]
fn node_of(path: &Path) -> Option<Node> {
    use std::os::unix::fs::MetadataExt;
    let found = fs::metadata(path).ok()?;
    Some((found.dev(), found.ino()))
}

/// Returns what the system calls the file at `path`.
#[cfg(not(unix))]
fn node_of(path: &Path) -> Option<Node> {
    fs::canonicalize(path).ok()
}

/// Returns what the system calls the file of a standard stream.
#[cfg(unix)]
fn node_of_stream(stream: &impl std::os::fd::AsFd) -> Option<Node> {
    use std::os::unix::fs::MetadataExt;
    let copy = stream.as_fd().try_clone_to_owned().ok()?;
    let found = fs::File::from(copy).metadata().ok()?;
    Some((found.dev(), found.ino()))
}

/// Returns `None`: the system does not say which file a standard stream is.
#[cfg(not(unix))]
fn node_of_stream<T>(_stream: &T) -> Option<Node> {
    None
}

/// Returns what the system found, or `None` if there is no such file. Any other failure stays one: a link that the system
/// refuses to follow is not a link to no file.
pub fn present<T>(found: io::Result<T>) -> io::Result<Option<T>> {
    match found {
        Ok(found) => Ok(Some(found)),
        Err(error) if error.kind() == ErrorKind::NotFound => Ok(None),
        Err(error) => Err(error),
    }
}

/// Returns true if `path` is a symbolic link.
///
/// Fails if the system does not say it.
pub fn is_link(path: &Path) -> io::Result<bool> {
    let found = present(fs::symlink_metadata(path))?;
    Ok(found.is_some_and(|found| found.is_symlink()))
}

/// Returns the path of the file that a symbolic link names, even if there is no such file. Returns a path that is no link
/// unchanged.
///
/// Fails if links lead to each other, or if the system does not say whether a path is a link.
pub fn named_by_links(path: &Path) -> io::Result<PathBuf> {
    let mut path = path.to_path_buf();
    for _ in 0..LINKS {
        if !is_link(&path)? {
            return Ok(path);
        }
        let named = fs::read_link(&path)?;
        path.pop();
        path.push(named);
    }
    Err(io::Error::other("too many symbolic links"))
}

#[cfg(test)]
mod tests {
    use super::*;

    #[test]
    fn only_a_file_that_is_not_there_is_absent() {
        let failed = |kind: ErrorKind| present::<()>(Err(kind.into())).map_err(|it| it.kind());
        assert_eq!(failed(ErrorKind::NotFound), Ok(None));
        let refused = Err(ErrorKind::PermissionDenied);
        assert_eq!(failed(ErrorKind::PermissionDenied), refused);
        assert!(matches!(present(Ok(1)), Ok(Some(1))));
    }

    #[test]
    fn a_place_in_folders_that_do_not_exist_is_one_by_each_of_its_names() {
        let id = |path: &str| FileId::of_path(Path::new(path)).expect("it is a place");
        let place = id("no/such/a");
        for same in [
            "./no/such/a",
            "no/./such//a",
            "no/x/../such/a",
            "src/../no/such/a",
            "no/../none/../no/such/a",
        ] {
            assert_eq!(id(same), place, "{same}");
        }
        for other in [
            "no/such/b",
            "no/a",
            "such/a",
            "src/no/such/a",
            "no/../../no/such/a",
        ] {
            assert_ne!(id(other), place, "{other}");
        }
        assert_eq!(id("none/../../x"), id("../x"));
    }
}
