//! Replaces files so that a reader never sees a partly written file.

use crate::same_file::present;
use std::ffi::OsStr;
use std::fs::{self, File, Permissions};
use std::io::{self, ErrorKind, Write};
use std::path::{Path, PathBuf};
use tempfile::{Builder, TempDir};

/// How many characters of the name of a temporary folder are random.
const RANDOM_CHARACTERS: usize = 12;

/// A file that a text will replace, or a name that no file has yet.
#[derive(Debug)]
pub struct ReplacedFile {
    /// Its path, which is no symbolic link.
    path: PathBuf,

    /// The permissions of the old file, if there is one. The new file gets them.
    permissions: Option<Permissions>,
}

impl ReplacedFile {
    /// Returns the file at `path`, which must be no symbolic link. `permissions` are those of the old file, if there is
    /// one.
    pub fn new(path: PathBuf, permissions: Option<Permissions>) -> ReplacedFile {
        let permissions = permissions.map(without_special_bits);
        ReplacedFile { path, permissions }
    }

    /// Makes sure that the file can be replaced: creates its folder if there is none, and creates a temporary file
    /// there, which is removed at once.
    ///
    /// Fails if the file cannot be replaced.
    pub fn check(&self) -> io::Result<()> {
        self.temporary().map(drop)
    }

    /// Removes the old file, if there is one.
    pub fn remove_old(&self) -> io::Result<()> {
        present(fs::remove_file(&self.path)).map(drop)
    }

    /// Creates the file, empty and with the permissions of the old one, so that what comes can be written to it at once.
    pub fn create(&self) -> io::Result<File> {
        let temporary = self.temporary()?;
        fs::rename(&temporary.path, &self.path)?;
        Ok(temporary.file)
    }

    /// Replaces the file. A reader finds the old file or the whole new one, because the text is written to a temporary
    /// file that is then renamed. If this fails, the temporary file is removed.
    pub fn replace(&self, text: &str) -> io::Result<()> {
        let mut temporary = self.temporary()?;
        temporary.file.write_all(text.as_bytes())?;
        temporary.file.sync_all()?;
        fs::rename(&temporary.path, &self.path)?;
        sync_folder(self.folder());
        Ok(())
    }

    /// Creates an empty temporary file with the permissions of the old file, and its folder if there is none. A command
    /// such as `cargo clean` can have removed a folder that was there.
    fn temporary(&self) -> io::Result<TemporaryFile> {
        let name = self.path.file_name().ok_or(ErrorKind::InvalidInput)?;
        fs::create_dir_all(self.folder())?;
        let temporary = TemporaryFile::create(self.folder(), name)?;
        if let Some(permissions) = &self.permissions {
            temporary.set_permissions(permissions)?;
        }
        Ok(temporary)
    }

    /// Returns the folder of the file.
    fn folder(&self) -> &Path {
        match self.path.parent() {
            Some(folder) if !folder.as_os_str().is_empty() => folder,
            _ => Path::new("."),
        }
    }
}

/// A new file in a new folder. Both are removed when this is dropped. The file is closed first, because some systems do
/// not remove a file that is open.
struct TemporaryFile {
    file: File,
    path: PathBuf,
    _folder: TempDir,
}

impl TemporaryFile {
    /// Creates a folder with a random name in `folder`, and a file in it. If the name is taken, another one is tried,
    /// and nothing is followed that somebody else put there. In a folder of its own the file gets the permissions that
    /// the system gives to new files, which nothing else says. No other user can open or replace the file before it is
    /// renamed: until it has the permissions of the old file, it may have more.
    fn create(folder: &Path, name: &OsStr) -> io::Result<TemporaryFile> {
        let folder = Builder::new()
            .prefix(".test-report.")
            .suffix(".new")
            .rand_bytes(RANDOM_CHARACTERS)
            .tempdir_in(folder)?;
        make_private(folder.path());
        let path = folder.path().join(name);
        Ok(TemporaryFile {
            file: File::create_new(&path)?,
            path,
            _folder: folder,
        })
    }

    /// Gives permissions to the file. A file system that has the same ones for all files may refuse to set them.
    fn set_permissions(&self, permissions: &Permissions) -> io::Result<()> {
        if self.file.metadata()?.permissions() == *permissions {
            return Ok(());
        }
        self.file.set_permissions(permissions.clone())
    }
}

/// Lets no other user into a folder. A file system that has the same permissions for all folders may refuse it.
#[cfg(unix)]
fn make_private(folder: &Path) {
    use std::os::unix::fs::PermissionsExt;
    let _ = fs::metadata(folder).and_then(|found| {
        // What else the mode says stays: new files can get their group by it.
        let own = found.permissions().mode() & !0o077;
        fs::set_permissions(folder, Permissions::from_mode(own))
    });
}

/// Does nothing: a new folder has the permissions of the folder that it is in.
#[cfg(not(unix))]
fn make_private(_folder: &Path) {}

/// Writes the names in a folder to its device. Some systems cannot do that, and the new file is complete all the same.
fn sync_folder(folder: &Path) {
    let _ = File::open(folder).and_then(|folder| folder.sync_all());
}

/// Returns permissions without the bits that say as which user a program runs: a report is no program.
#[cfg(unix)]
fn without_special_bits(permissions: Permissions) -> Permissions {
    use std::os::unix::fs::PermissionsExt;
    Permissions::from_mode(permissions.mode() & 0o777)
}

/// Returns permissions as they are.
#[cfg(not(unix))]
fn without_special_bits(permissions: Permissions) -> Permissions {
    permissions
}

#[cfg(all(test, unix))]
mod tests {
    use super::*;
    use std::os::unix::fs::PermissionsExt;

    #[test]
    fn no_other_user_can_open_or_replace_the_temporary_file() {
        let folder = tempfile::tempdir().expect("a folder can be made");
        let temporary = TemporaryFile::create(folder.path(), "report.xml".as_ref());
        let path = temporary
            .as_ref()
            .expect("a file can be made")
            .path
            .parent();
        let found = fs::metadata(path.expect("it is in a folder")).expect("it is there");
        assert_eq!(found.permissions().mode() & 0o777, 0o700);
    }
}
