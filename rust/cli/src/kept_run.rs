//! The run that is kept in cargo's target folder, so that a report of it can be made later.

use std::fs::{self, File};
use std::io::{self, ErrorKind, Write};
use std::path::{Path, PathBuf};
use std::time::Duration;
use tempfile::{Builder, TempPath};

/// The name of the file.
const NAME: &str = "last.jsonl";

/// How the names of files begin that are not complete.
const PREFIX: &str = ".last.";

/// The time after which such a file is one of a run that was killed.
const OLD: Duration = Duration::from_secs(86_400);

/// The most bytes of a run that are kept: 64 MiB.
pub const LIMIT: u64 = 64 << 20;

/// The lines of a run, in a temporary file that takes the place of the old one at the end. So two runs at once do not mix,
/// and one that is killed leaves the old file as it was.
#[derive(Debug)]
pub struct KeptRun {
    /// The folder of the file. Nothing is written before it is known.
    folder: Option<PathBuf>,

    /// The most bytes that are kept.
    limit: u64,

    /// The lines that are not in the file yet.
    waiting: Vec<u8>,

    /// The file, once a line was written to it.
    file: Option<(File, TempPath)>,

    /// How many bytes the run has until now.
    size: u64,
    error: Option<io::Error>,
}

impl KeptRun {
    /// Returns a run without a line, which is kept if it has at most `limit` bytes.
    pub fn new(limit: u64) -> KeptRun {
        KeptRun {
            folder: None,
            limit,
            waiting: Vec::new(),
            file: None,
            size: 0,
            error: None,
        }
    }

    /// Sets the folder of the file. It is made with the first write.
    pub fn set_folder(&mut self, folder: PathBuf) {
        self.folder = Some(folder);
    }

    /// Adds a line, and a line feed. They wait until all is written that does.
    pub fn write_line(&mut self, line: &[u8]) {
        self.size += line.len() as u64 + 1;
        if self.is_kept() {
            self.waiting.extend_from_slice(line);
            self.waiting.push(b'\n');
        } else {
            self.waiting = Vec::new();
        }
    }

    /// Writes the lines that wait.
    pub fn flush(&mut self) {
        if let Some(folder) = self.folder.clone().filter(|_| self.is_kept()) {
            self.error = self.write_waiting(&folder).err();
            self.waiting.clear();
        }
    }

    /// Ends the run, which takes the place of the old one. If it is too large, the old file is removed: it would be of
    /// another run. Without a folder nothing is kept. Returns a message if that is for another reason.
    pub fn finish(mut self) -> Option<String> {
        self.flush();
        let path = self.folder.as_ref()?.join(NAME);
        let is_large = self.size > self.limit;
        let kept = match self.error {
            _ if is_large => remove(&path),
            Some(error) => Err(error),
            None => place(self.file, &path),
        };
        match kept {
            Err(error) => Some(format!(
                "the run is not kept in {}: {error}",
                path.display()
            )),
            Ok(()) if is_large => {
                let limit = self.limit >> 20;
                Some(format!(
                    "the run is not kept, because it has more than {limit} MiB"
                ))
            }
            Ok(()) => None,
        }
    }

    /// Returns true if the run can be kept, as far as is known.
    fn is_kept(&self) -> bool {
        self.error.is_none() && self.size <= self.limit
    }

    /// Writes the lines that wait to the file, and creates it if there is none.
    fn write_waiting(&mut self, folder: &Path) -> io::Result<()> {
        let (file, _) = match &mut self.file {
            Some(file) => file,
            None => {
                fs::create_dir_all(folder)?;
                remove_old(folder);
                self.file.insert(create_in(folder)?)
            }
        };
        file.write_all(&self.waiting)
    }
}

/// Creates a file that is not complete. It gets the permissions that the system gives to new files: a temporary file would be
/// for this user alone.
fn create_in(folder: &Path) -> io::Result<(File, TempPath)> {
    let path = Builder::new()
        .prefix(PREFIX)
        .tempfile_in(folder)?
        .into_temp_path();
    fs::remove_file(&path)?;
    Ok((File::create_new(&path)?, path))
}

/// Removes the files that runs have left in a folder which were killed. One that stays does no harm.
fn remove_old(folder: &Path) {
    for entry in fs::read_dir(folder).into_iter().flatten().flatten() {
        let is_ours = entry
            .file_name()
            .to_str()
            .is_some_and(|name| name.starts_with(PREFIX));
        let changed = entry.metadata().and_then(|found| found.modified()).ok();
        let age = changed.and_then(|changed| changed.elapsed().ok());
        if is_ours && age.is_some_and(|age| age >= OLD) {
            let _ = fs::remove_file(entry.path());
        }
    }
}

/// Gives a file its name. A file of this name is replaced.
fn place(file: Option<(File, TempPath)>, path: &Path) -> io::Result<()> {
    match file {
        Some((_, file)) => file.persist(path).map_err(|failed| failed.error),
        None => Ok(()),
    }
}

/// Removes a file, if it is there.
fn remove(path: &Path) -> io::Result<()> {
    match fs::remove_file(path) {
        Err(error) if error.kind() != ErrorKind::NotFound => Err(error),
        Ok(()) | Err(_) => Ok(()),
    }
}

#[cfg(test)]
mod tests {
    use super::*;
    use std::time::SystemTime;

    /// Returns the names of the files in a folder.
    fn names_in(folder: &Path) -> Vec<String> {
        let entries = fs::read_dir(folder).expect("it is a folder");
        entries
            .map(|entry| entry.expect("it can be read").file_name().into_string())
            .collect::<Result<_, _>>()
            .expect("it is UTF-8")
    }

    /// Returns a run without a line, which is kept in a folder.
    fn run_in(folder: &Path, limit: u64) -> KeptRun {
        let mut run = KeptRun::new(limit);
        run.set_folder(folder.into());
        run
    }

    #[test]
    fn the_lines_take_the_place_of_the_old_ones_at_the_end() {
        let folder = tempfile::tempdir().expect("a folder can be made");
        let inner = folder.path().join("test-report");
        let mut run = run_in(&inner, 100);
        run.write_line(b"a");
        assert!(!inner.exists(), "nothing is written before a flush");
        run.flush();
        run.write_line(b"b");
        assert!(!inner.join(NAME).exists());
        assert_eq!(run.finish(), None);
        assert_eq!(fs::read(inner.join(NAME)).expect("it is kept"), b"a\nb\n");
        fs::write(folder.path().join("other"), "").expect("the folder is there");
        let mode = |path| fs::metadata(path).expect("it is there").permissions();
        assert_eq!(mode(inner.join(NAME)), mode(folder.path().join("other")));
        let mut run = run_in(&inner, 100);
        run.write_line(b"c");
        run.flush();
        assert_eq!(names_in(&inner).len(), 2);
        drop(run);
        assert_eq!(names_in(&inner), [NAME]);
        assert_eq!(fs::read(inner.join(NAME)).expect("it stays"), b"a\nb\n");
    }

    #[test]
    fn a_run_above_the_limit_is_not_kept_and_the_old_one_is_removed() {
        let folder = tempfile::tempdir().expect("a folder can be made");
        let kept = folder.path().join(NAME);
        let mebibyte = vec![b'a'; (1 << 20) - 1];
        for (count, is_kept) in [(2, true), (3, false), (4, false)] {
            fs::write(&kept, "old").expect("the folder is there");
            let mut run = run_in(folder.path(), 2 << 20);
            for _ in 0..count {
                run.write_line(&mebibyte);
                run.flush();
            }
            let message = run.finish();
            let wanted = "the run is not kept, because it has more than 2 MiB";
            assert_eq!(message.as_deref(), (!is_kept).then_some(wanted));
            let size = fs::metadata(&kept).ok().map(|found| found.len());
            assert_eq!(size, is_kept.then_some(2 << 20));
            assert_eq!(names_in(folder.path()).len(), usize::from(is_kept));
        }
        let run = KeptRun::new(0);
        assert_eq!(run.finish(), None);
    }

    #[test]
    fn what_a_killed_run_has_left_is_removed_after_a_day() {
        let folder = tempfile::tempdir().expect("a folder can be made");
        for (name, age) in [
            (".last.old", OLD),
            (".last.new", OLD / 2),
            ("other", 2 * OLD),
        ] {
            let file = File::create(folder.path().join(name)).expect("the folder is there");
            let changed = SystemTime::now() - age;
            file.set_modified(changed).expect("a time can be set");
        }
        let mut run = run_in(folder.path(), 100);
        run.write_line(b"a");
        assert_eq!(run.finish(), None);
        let mut names = names_in(folder.path());
        names.sort();
        assert_eq!(names, [".last.new", NAME, "other"]);
    }

    #[test]
    fn a_run_that_cannot_be_written_is_a_message() {
        let folder = tempfile::tempdir().expect("a folder can be made");
        let file = folder.path().join("file");
        fs::write(&file, "").expect("the folder is there");
        let mut run = run_in(&file, 100);
        run.write_line(b"a");
        let message = run.finish().expect("it is no folder");
        let front = format!("the run is not kept in {}: ", file.join(NAME).display());
        assert!(message.starts_with(&front), "{message}");
    }
}
