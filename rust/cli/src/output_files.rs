//! The files that `test-report` writes besides standard output: which of them it refuses, how it makes sure that they
//! can be written before it reads anything, and how it writes them.

use crate::interrupt::Interrupt;
use crate::program::{BAD_ARGUMENT, Failure};
use crate::replaced_file::ReplacedFile;
use crate::report::{Document, FailedNames, FileTexts, Json};
use crate::same_file::{FileId, is_link, named_by_links, present};
use clap::ArgMatches;
use std::fmt;
use std::fs::{self, File, FileType, OpenOptions};
use std::io::{self, ErrorKind, Write};
use std::path::{Path, is_separator};

/// The name of standard input among the files of the run.
pub const STANDARD_INPUT: &str = "-";

/// An option that names a file to write.
#[derive(Clone, Copy, Debug, PartialEq, Eq)]
enum FileOption {
    Junit,
    Html,
    Markdown,
    Json,
    Names,

    /// The lines of the run, which are written as they come.
    Save,
}

impl FileOption {
    /// All options, in the order in which their files are written.
    const ALL: [FileOption; 6] = [
        FileOption::Junit,
        FileOption::Html,
        FileOption::Markdown,
        FileOption::Json,
        FileOption::Names,
        FileOption::Save,
    ];

    /// Returns the name of the option.
    fn name(self) -> &'static str {
        match self {
            FileOption::Junit => "junit",
            FileOption::Html => "html",
            FileOption::Markdown => "markdown",
            FileOption::Json => "json",
            FileOption::Names => "names",
            FileOption::Save => "save",
        }
    }

    /// Returns true if a file keeps what it has.
    fn appends(self) -> bool {
        match self {
            FileOption::Markdown => true,
            FileOption::Junit
            | FileOption::Html
            | FileOption::Json
            | FileOption::Names
            | FileOption::Save => false,
        }
    }

    /// Returns the file that the option names, if it is given.
    fn path(self, matches: &ArgMatches) -> Option<&str> {
        matches.get_one(self.name()).map(String::as_str)
    }

    /// Returns the text that is written to the file at the end, if there is one.
    fn text(self, texts: &FileTexts) -> Option<&str> {
        match self {
            FileOption::Junit => texts.junit.as_ref().map(Document::as_str),
            FileOption::Html => texts.html.as_ref().map(Document::as_str),
            FileOption::Markdown => texts.markdown.as_ref().map(Document::as_str),
            FileOption::Json => texts.json.as_ref().map(Json::as_str),
            FileOption::Names => texts.names.as_ref().map(FailedNames::as_str),
            FileOption::Save => None,
        }
    }
}

/// A file that an option names.
struct NamedFile<'a> {
    option: FileOption,
    path: &'a str,
    id: FileId,
}

impl fmt::Display for NamedFile<'_> {
    fn fmt(&self, f: &mut fmt::Formatter<'_>) -> fmt::Result {
        write!(f, "--{} {}", self.option.name(), self.path)
    }
}

/// What the program reads and writes besides the files that options name.
struct Streams {
    standard_output: Option<FileId>,

    /// The files of the run.
    inputs: Vec<FileId>,
}

impl Streams {
    /// Returns standard output, and these files of the run.
    fn of(inputs: &[String]) -> Streams {
        let id_of_input = |path: &String| {
            if path == STANDARD_INPUT {
                FileId::of_standard_input()
            } else {
                FileId::of_path(Path::new(path))
            }
        };
        Streams {
            standard_output: FileId::of_standard_output(),
            inputs: inputs.iter().filter_map(id_of_input).collect(),
        }
    }

    /// Returns why this file is not written, or `None` if it is none of these.
    fn conflict(&self, file: &NamedFile) -> Option<String> {
        if self.standard_output.as_ref() == Some(&file.id) {
            Some(format!("{file} is standard output"))
        } else if self.inputs.contains(&file.id) {
            Some(format!("{file} is also read"))
        } else {
            None
        }
    }
}

/// Refuses a file that an option names if it is standard output, if it is also read, or if two options name it.
/// `inputs` are the files of the run.
pub fn refuse_conflicts(matches: &ArgMatches, inputs: &[String]) -> Result<(), Failure> {
    let streams = Streams::of(inputs);
    let mut files: Vec<NamedFile> = Vec::new();
    for option in FileOption::ALL {
        let Some(path) = option.path(matches) else {
            continue;
        };
        let Some(id) = FileId::of_path(Path::new(path)) else {
            continue;
        };
        let file = NamedFile { option, path, id };
        let other = files.iter().find(|other| other.id == file.id);
        let one_file = other.map(|other| format!("{other} and {file} are one file"));
        if let Some(message) = streams.conflict(&file).or(one_file) {
            return Err(Failure::new(BAD_ARGUMENT, message));
        }
        files.push(file);
    }
    Ok(())
}

/// The files that options name. All of them could be written when the program started.
pub struct OutputFiles {
    files: Vec<OutputFile>,
}

impl OutputFiles {
    /// Makes sure that the files that options name can be written, creates their folders, and removes the old files that
    /// would be replaced, so that nobody takes them for files of this run if it fails.
    ///
    /// Fails if one of the files cannot be written. The old ones of the others are removed all the same.
    pub fn open(matches: &ArgMatches, interrupt: &Interrupt) -> Result<OutputFiles, Failure> {
        let _held = interrupt.hold();
        let opened: Vec<_> = FileOption::ALL
            .into_iter()
            .filter_map(|option| Some((option, option.path(matches)?)))
            .map(|(option, path)| {
                OutputFile::open(option, path).map_err(|error| Failure::unwritten(path, error))
            })
            .collect();
        Ok(OutputFiles {
            files: opened.into_iter().collect::<Result<_, _>>()?,
        })
    }

    /// Returns the file to which the lines of the run are saved, if an option names one. The file is new or, if it is a
    /// device or a pipe, opened for writing.
    ///
    /// Fails if it cannot be opened.
    pub fn saved_run(&self, interrupt: &Interrupt) -> Result<Option<SavedRun>, Failure> {
        let file = self.files.iter().find(|it| it.option == FileOption::Save);
        let saved = file.map(|file| {
            let opened = file.stream(interrupt);
            opened
                .map(|opened| SavedRun::new(file.path.clone(), opened))
                .map_err(|error| Failure::unwritten(&file.path, error))
        });
        saved.transpose()
    }

    /// Writes the texts for the files. Fails at the first file that cannot be written.
    pub fn write(&self, texts: &FileTexts, interrupt: &Interrupt) -> Result<(), Failure> {
        for file in &self.files {
            if let Some(text) = file.option.text(texts) {
                file.write(text, interrupt)
                    .map_err(|error| Failure::unwritten(&file.path, error))?;
            }
        }
        Ok(())
    }
}

/// A file that an option names, and what the text does to it.
struct OutputFile {
    option: FileOption,
    path: String,
    target: Target,
}

/// What a text does to a file.
enum Target {
    /// The text replaces the file, or is the first text of a new one.
    Replaced(ReplacedFile),

    /// The text is added to the file, after an empty line if the file has a text.
    Appended,

    /// The text is added as it is to a device, a pipe or standard error.
    Stream,
}

impl OutputFile {
    /// Makes sure that a file can be written, and removes the old one if it is to be replaced.
    fn open(option: FileOption, path: &str) -> io::Result<OutputFile> {
        let target = match (Found::at(path)?, option.appends()) {
            (Found::Stream(kind), appends) => {
                // To open a pipe is to wait for its reader.
                if !is_pipe(kind) {
                    open_to_append(path)?;
                }
                if appends {
                    Target::Appended
                } else {
                    Target::Stream
                }
            }
            (Found::File(file), false) => {
                file.check()?;
                file.remove_old()?;
                Target::Replaced(file)
            }
            (Found::File(file), true) => {
                if present(open_to_append(path))?.is_none() {
                    file.check()?;
                }
                Target::Appended
            }
        };
        let path = path.to_string();
        Ok(OutputFile {
            option,
            path,
            target,
        })
    }

    /// Returns the file, new or opened for writing, for what comes from now on.
    fn stream(&self, interrupt: &Interrupt) -> io::Result<File> {
        match &self.target {
            Target::Replaced(file) => {
                let _held = interrupt.hold();
                file.create()
            }
            Target::Appended | Target::Stream => open_to_append(&self.path),
        }
    }

    /// Writes a text to the file. While there is a temporary file, no signal ends the program.
    fn write(&self, text: &str, interrupt: &Interrupt) -> io::Result<()> {
        match &self.target {
            Target::Replaced(file) => {
                let _held = interrupt.hold();
                file.replace(text)
            }
            Target::Appended => append(&self.path, text),
            Target::Stream => open_to_append(&self.path)?.write_all(text.as_bytes()),
        }
    }
}

/// A file to which the lines of a run are saved. Once a write has failed, nothing more is written.
pub struct SavedRun {
    path: String,
    file: File,

    /// The lines that are not in the file yet.
    waiting: Vec<u8>,
    error: Option<io::Error>,
}

impl SavedRun {
    /// Returns the file at a path, which is open and has no line.
    fn new(path: String, file: File) -> SavedRun {
        SavedRun {
            path,
            file,
            waiting: Vec::new(),
            error: None,
        }
    }

    /// Adds a line, and a line feed. They wait until all is written that does.
    pub fn write_line(&mut self, line: &[u8]) {
        if self.error.is_none() {
            self.waiting.extend_from_slice(line);
            self.waiting.push(b'\n');
        }
    }

    /// Writes the lines that wait.
    pub fn flush(&mut self) {
        if self.error.is_none() {
            self.error = self.file.write_all(&self.waiting).err();
            self.waiting.clear();
        }
    }

    /// Ends the file. Fails if one of the writes did.
    pub fn finish(mut self) -> Result<(), Failure> {
        self.flush();
        match self.error {
            Some(error) => Err(Failure::unwritten(&self.path, error)),
            None => Ok(()),
        }
    }
}

/// Refuses an option that asks to save the run, if there is a reason why the run cannot be saved.
pub fn refuse_save(matches: &ArgMatches, why: Option<&str>) -> Result<(), Failure> {
    match (FileOption::Save.path(matches), why) {
        (Some(path), Some(why)) => {
            let message = format!("--save {path}: {why}");
            Err(Failure::new(BAD_ARGUMENT, message))
        }
        _ => Ok(()),
    }
}

/// What is at a path.
enum Found {
    /// A file, or nothing.
    File(ReplacedFile),

    /// A device, a pipe, a folder, or standard error.
    Stream(FileType),
}

impl Found {
    /// Returns what is at a path. If it is a symbolic link, this is the file that the link names.
    ///
    /// Fails if the system does not follow the link for another reason than that there is no such file: some links of
    /// other users lead to files that only this user can write.
    fn at(path: &str) -> io::Result<Found> {
        if path.ends_with(is_separator) {
            return Err(ErrorKind::IsADirectory.into());
        }
        let path = Path::new(path);
        let is_link = is_link(path)?;
        let found = present(fs::metadata(path))?;
        if let Some(found) = &found
            && (!found.is_file() || is_standard_error(path))
        {
            return Ok(Found::Stream(found.file_type()));
        }
        let file = if is_link {
            named_by_links(path)?
        } else {
            // A link that somebody puts there from now on is not followed.
            path.to_path_buf()
        };
        let permissions = found.map(|found| found.permissions());
        Ok(Found::File(ReplacedFile::new(file, permissions)))
    }
}

/// Returns true if a file is standard error.
fn is_standard_error(path: &Path) -> bool {
    FileId::of_standard_error().is_some_and(|id| FileId::of_path(path) == Some(id))
}

/// Returns true for a pipe.
#[cfg(unix)]
fn is_pipe(kind: FileType) -> bool {
    use std::os::unix::fs::FileTypeExt;
    kind.is_fifo()
}

/// Returns false: the names of this system name no pipes.
#[cfg(not(unix))]
fn is_pipe(_kind: FileType) -> bool {
    false
}

/// Opens a file that exists. What is written to it is added at its end.
fn open_to_append(path: &str) -> io::Result<File> {
    OpenOptions::new().append(true).open(path)
}

/// Appends a text to the file at `path` in one piece, after an empty line if the file has a text. Creates the file, and
/// its folder, if there is none.
fn append(path: &str, text: &str) -> io::Result<()> {
    if let Some(folder) = Path::new(path).parent() {
        fs::create_dir_all(folder)?;
    }
    let mut file = OpenOptions::new().append(true).create(true).open(path)?;
    let is_empty = file.metadata()?.len() == 0;
    let piece = if is_empty {
        text.to_string()
    } else {
        format!("\n{text}")
    };
    file.write_all(piece.as_bytes())
}
