//! The file that the stand-ins of a run read: the test programs, which of their tests run, and how often a failed one runs
//! again.

use super::failed_tests::{FailedTests, counted};
use super::run_line::StartedProgram;
use crate::program::{DEVICE_FAILED, Failure};
use serde::{Deserialize, Serialize};
use std::env;
use std::fs;
use std::io::{self, Seek, Write};
use std::path::Path;
use tempfile::{Builder, NamedTempFile};

/// The variable that names this file. Only stand-ins and cargo see it.
pub const PROGRAMS: &str = "TEST_REPORT_PROGRAMS";

/// How many bytes are written to the file before anything runs.
const TRIED: usize = 4096;

/// A test program, as cargo's messages about its build and its package's manifest say.
#[derive(Clone, Debug, PartialEq, Eq, Serialize, Deserialize)]
pub struct TestProgram {
    /// The path of the program.
    pub path: String,

    /// The name of its package.
    pub package: String,

    /// The name of its target.
    pub target: String,

    /// The first kind of its target, for example `lib` or `test`.
    pub kind: String,

    /// The name that nextest gives to its suites.
    pub name: String,

    /// False if it has a harness of its own.
    pub harness: bool,
}

impl TestProgram {
    /// Returns what the line of its start says.
    pub fn started(&self) -> StartedProgram<'_> {
        StartedProgram {
            package: Some((&self.package).into()),
            target: Some((&self.target).into()),
            kind: Some((&self.kind).into()),
            path: Some((&self.path).into()),
            name: Some((&self.name).into()),
            harness: self.harness,
            list: false,
        }
    }
}

/// The content of this file. Each part can be absent.
#[derive(Clone, Debug, Default, PartialEq, Eq, Serialize, Deserialize)]
#[serde(default)]
pub struct Plan {
    /// The test programs.
    pub programs: Vec<TestProgram>,

    /// The tests that run, or `None` if all do.
    pub failed: Option<FailedTests>,

    /// How often failed tests are run again.
    pub retries: Retries,
}

/// How often failed tests are run again.
#[derive(Clone, Copy, Debug, Default, PartialEq, Eq, Serialize, Deserialize)]
pub struct Retries {
    /// How often a test is run again, at most.
    pub count: usize,

    /// The most tests of a program that may have failed if some of them are run again.
    pub most: usize,
}

impl Retries {
    /// Returns why no test of a program runs again, if too many of its tests failed.
    pub fn why_none(self, failed: usize) -> Option<String> {
        let Retries { count, most } = self;
        let tests = counted(failed as u64, "test");
        let why = || format!("{tests} failed, so none ran again (--retries-max {most})");
        (count > 0 && failed > most).then(why)
    }
}

impl Plan {
    /// Returns the content of the file for this stand-in. Without a file, all parts are absent.
    pub fn given() -> Plan {
        let file = env::var_os(PROGRAMS);
        let plan = file.and_then(|file| read_plan(Path::new(&file)).ok());
        plan.unwrap_or_default()
    }

    /// Returns the test program at a path, if it is named.
    pub fn program_at(&self, path: &str) -> Option<&TestProgram> {
        self.programs.iter().find(|program| program.path == path)
    }
}

/// The file of a plan, in the folder for temporary files. It is removed when this is dropped.
#[derive(Debug)]
pub struct ProgramsFile(NamedTempFile);

impl ProgramsFile {
    /// Creates the file, and makes sure that a plan can be written to it.
    ///
    /// Fails if they cannot.
    pub fn create() -> Result<ProgramsFile, Failure> {
        let create = || {
            let mut file = Builder::new().prefix("test-report.").tempfile()?;
            // On a full device a file without bytes can be created. The plan is written over these spaces, and
            // JSON may have some after it.
            file.write_all(&[b' '; TRIED])?;
            file.rewind()?;
            Ok(ProgramsFile(file))
        };
        create().map_err(unwritten)
    }

    /// Writes the plan, once.
    ///
    /// Fails if it cannot be written.
    pub fn write(&mut self, plan: &Plan) -> Result<(), Failure> {
        let bytes = serde_json::to_vec(plan).map_err(io::Error::from);
        bytes
            .and_then(|bytes| self.0.write_all(&bytes))
            .map_err(unwritten)
    }

    /// Returns the path of the file.
    pub fn path(&self) -> &Path {
        self.0.path()
    }
}

/// Returns the failure to write a file in the folder for temporary files.
fn unwritten(error: io::Error) -> Failure {
    let folder = env::temp_dir();
    let folder = folder.display();
    let message =
        format!("the temporary folder {folder} cannot be written; set TMPDIR to another one");
    Failure::new(DEVICE_FAILED, message).caused_by(Some(error))
}

/// Reads the file of a plan.
fn read_plan(file: &Path) -> io::Result<Plan> {
    Ok(serde_json::from_slice(&fs::read(file)?)?)
}

#[cfg(test)]
mod tests {
    use super::*;

    #[test]
    fn nothing_runs_again_above_the_limit() {
        let why = |count, most, failed| Retries { count, most }.why_none(failed);
        let one = "1 test failed, so none ran again (--retries-max 0)";
        assert_eq!(why(2, 0, 1).as_deref(), Some(one));
        assert_eq!(
            [why(2, 0, 0), why(2, 3, 3), why(0, 3, 4)],
            [None, None, None]
        );
    }

    #[test]
    fn what_is_written_is_read_and_the_file_is_removed() {
        let program = TestProgram {
            path: "/a/it-1".into(),
            package: "money".into(),
            target: "it".into(),
            kind: "test".into(),
            name: "money::it".into(),
            harness: false,
        };
        let plan = Plan {
            programs: vec![program.clone(), program.clone()],
            failed: Some(FailedTests::default()),
            retries: Retries { count: 2, most: 10 },
        };
        assert_eq!(plan.program_at("/a/it-1"), Some(&program));
        assert_eq!(plan.program_at("/a/it"), None);
        let mut file = ProgramsFile::create().expect("the file can be created");
        assert!(read_plan(file.path()).is_err(), "it has no plan");
        file.write(&plan).expect("the file can be written");
        let path = file.path().to_path_buf();
        let size = fs::metadata(&path).expect("the file is there").len();
        assert_eq!(size, 4096, "no more is written than was tried");
        assert_eq!(read_plan(&path).expect("the file can be read"), plan);
        drop(file);
        assert!(!path.exists());
    }
}
