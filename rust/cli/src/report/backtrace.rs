//! Backtraces, in which the frames of the standard library are folded and those of the sources at hand are bright.

use crate::report::colours::{Mark, Paint, without_colours};
use crate::report::words::counted;
use std::borrow::Cow;
use std::iter::Peekable;

/// The line before the frames of a panic.
const HEAD: &str = "stack backtrace:";

/// The same before those of an error that has a backtrace.
const HEAD_OF_ERROR: &str = "Stack backtrace:";

/// The crates of the standard library.
const LIBRARY: [&str; 5] = ["std", "core", "alloc", "test", "__rustc"];

/// Functions that run a program and its threads, or a panic.
const RUNTIME: [&str; 21] = [
    "<unknown>",
    "BaseThreadInitThunk",
    "RtlUserThreadStart",
    "__GI___clone3",
    "__libc_start_call_main",
    "__libc_start_main",
    "__libc_start_main_impl",
    "__pthread_start",
    "__rust_begin_short_backtrace",
    "__rust_end_short_backtrace",
    "__rust_try",
    "__scrt_common_main_seh",
    "_pthread_start",
    "_start",
    "clone",
    "clone3",
    "invoke_main",
    "main",
    "rust_begin_unwind",
    "rust_panic",
    "start_thread",
];

/// Folders of sources that cargo fetched, in its home (`~/.cargo` or `/usr/local/cargo`), or that Debian installed.
const FETCHED: [&str; 2] = ["cargo/registry/", "cargo/git/checkouts/"];

/// A line without colours, and the line itself.
type Line<'a> = (&'a str, &'a str);

/// A frame of a backtrace.
#[derive(Clone, Copy)]
struct Frame<'a> {
    /// The name of its function.
    name: &'a str,

    /// The path in its place in the sources, if that is known.
    path: Option<&'a str>,

    /// The line with its number and its name, and that with its place.
    lines: [Option<&'a str>; 2],
}

/// Returns an output with short backtraces: a run of frames of the standard library is one line, and the frames of the
/// sources at hand are bright. Returns `None` if this changes nothing.
pub(crate) fn with_short_backtraces(output: &str, paint: Paint) -> Option<String> {
    let plain = without_colours(output);
    if !plain.split('\n').any(is_head) {
        return None;
    }
    let mut shown = Vec::new();
    let mut lines = plain.split('\n').zip(output.split('\n')).peekable();
    while let Some((plain, line)) = lines.next() {
        shown.push(line.into());
        if is_head(plain) {
            push_frames(&mut shown, &mut lines, paint);
        }
    }
    let shown = shown.join("\n");
    (shown != output).then_some(shown)
}

/// Returns true for the line before the frames of a backtrace.
fn is_head(line: &str) -> bool {
    line == HEAD || line == HEAD_OF_ERROR
}

/// Takes the frames at the front of the lines, and appends what is shown of them.
fn push_frames<'a>(
    shown: &mut Vec<Cow<'a, str>>,
    lines: &mut Peekable<impl Iterator<Item = Line<'a>>>,
    paint: Paint,
) {
    let mut folded = 0;
    while let Some(frame) = Frame::take(lines) {
        if frame.is_of_library() {
            folded += 1;
            continue;
        }
        shown.extend(folded_line(folded));
        folded = 0;
        let lines = frame.lines.into_iter().flatten();
        if frame.is_at_hand() {
            shown.extend(lines.map(|line| paint.line(Mark::Important, line).into()));
        } else {
            shown.extend(lines.map(Cow::from));
        }
    }
    shown.extend(folded_line(folded));
}

/// Returns the line for this number of frames of the standard library, or `None` if there are none.
fn folded_line<'a>(frames: usize) -> Option<Cow<'a, str>> {
    let frames = (frames > 0).then(|| counted(frames, "frame"));
    frames.map(|frames| format!("      ({frames} of the standard library)").into())
}

impl<'a> Frame<'a> {
    /// Takes the frame at the front of the lines, if there is one.
    fn take(lines: &mut Peekable<impl Iterator<Item = Line<'a>>>) -> Option<Frame<'a>> {
        let name = name_in(lines.peek()?.0)?;
        let (_, line) = lines.next()?;
        let place = lines.next_if(|(plain, _)| path_in(plain).is_some());
        Some(Frame {
            name,
            path: place.and_then(|(plain, _)| path_in(plain)),
            lines: [Some(line), place.map(|(_, line)| line)],
        })
    }

    /// Returns true for a frame of the standard library, or of what runs programs and threads. The place decides, if it is
    /// known.
    fn is_of_library(self) -> bool {
        if RUNTIME.contains(&self.name) {
            return true;
        }
        match self.path {
            Some(path) => is_of_library(path),
            None => crate_of(self.name).is_some_and(|name| LIBRARY.contains(&name)),
        }
    }

    /// Returns true for a frame of Rust sources that cargo has not fetched. It must not be one of the standard library.
    fn is_at_hand(self) -> bool {
        self.path.is_some_and(|path| {
            let path = path.replace('\\', "/");
            path.contains(".rs:") && !FETCHED.iter().any(|folder| path.contains(folder))
        })
    }
}

/// Returns the crate in the name of a function, or `None` if it has none: that of its type or, if this is a type of the
/// language such as `fn()`, that of its trait.
fn crate_of(name: &str) -> Option<&str> {
    let trait_name = name.split_once(" as ").map(|(_, name)| name);
    first_crate(name).or_else(|| first_crate(trait_name?))
}

/// Returns the crate at the front of a path, or `None` if the path begins with something else.
fn first_crate(path: &str) -> Option<&str> {
    let path = path.trim_start_matches('<');
    let is_word = |c: char| c.is_ascii_alphanumeric() || c == '_';
    let rest = path.trim_start_matches(is_word);
    let name = &path[..path.len() - rest.len()];
    let is_crate = rest.starts_with("::") || rest.starts_with('[');
    (is_crate && !name.is_empty()).then_some(name)
}

/// Returns the name of the function in the first line of a frame: `4: NAME` or `4: 0x55fc0c1cf08f - NAME`.
fn name_in(line: &str) -> Option<&str> {
    let (number, name) = line.strip_prefix(' ')?.trim_start().split_once(": ")?;
    let is_number = !number.is_empty() && number.bytes().all(|byte| byte.is_ascii_digit());
    let name = name.trim_start();
    let (address, rest) = name.split_once(" - ").unwrap_or(("", name));
    let name = if address.starts_with("0x") {
        rest
    } else {
        name
    };
    is_number.then_some(name)
}

/// Returns the path in the second line of a frame: `at PATH:LINE:COLUMN`.
fn path_in(line: &str) -> Option<&str> {
    let path = line.strip_prefix(' ')?.trim_start().strip_prefix("at ")?;
    (!path.is_empty()).then_some(path)
}

/// Returns true for a path of the sources of Rust: as they are named if they are not installed, or where rustup or Debian
/// install them.
fn is_of_library(path: &str) -> bool {
    let path = path.replace('\\', "/");
    let is_installed = path.contains("/rustlib/src/rust/") || path.starts_with("/usr/src/rustc-");
    path.starts_with("/rustc/") || is_installed
}

#[cfg(test)]
mod tests {
    use super::*;
    use crate::report::colours::with_colours_in_lines;

    /// A panic of Rust 1.95 with `RUST_BACKTRACE=1`.
    const SHORT: &str = "\
thread 'tests::printed_after' (30328) panicked at src/lib.rs:44:62:
x
stack backtrace:
   0: __rustc::rust_begin_unwind
             at /rustc/59807616e1fa2540724bfbac14d7976d7e4a3860/library/std/src/panicking.rs:689:5
   1: core::panicking::panic_fmt
             at /rustc/59807616e1fa2540724bfbac14d7976d7e4a3860/library/core/src/panicking.rs:80:14
   2: pkg::tests::printed_after::{{closure}}
             at ./src/lib.rs:44:62
   3: std::panicking::catch_unwind::do_call
             at /rustc/59807616e1fa2540724bfbac14d7976d7e4a3860/library/std/src/panicking.rs:581:40
   4: __rust_try
   5: std::panicking::catch_unwind
             at /rustc/59807616e1fa2540724bfbac14d7976d7e4a3860/library/std/src/panicking.rs:544:19
   6: std::panic::catch_unwind
             at /rustc/59807616e1fa2540724bfbac14d7976d7e4a3860/library/std/src/panic.rs:359:14
   7: pkg::tests::printed_after
             at ./src/lib.rs:44:34
   8: <fn() -> core::result::Result<(), alloc::string::String> as core::ops::function::FnOnce<()>>::call_once
             at /rustc/59807616e1fa2540724bfbac14d7976d7e4a3860/library/core/src/ops/function.rs:250:5
note: Some details are omitted, run with `RUST_BACKTRACE=full` for a verbose backtrace.
after true
";

    /// What is shown of it.
    const SHOWN: &str = "\
thread 'tests::printed_after' (30328) panicked at src/lib.rs:44:62:
x
stack backtrace:
      (2 frames of the standard library)
   2: pkg::tests::printed_after::{{closure}}
             at ./src/lib.rs:44:62
      (4 frames of the standard library)
   7: pkg::tests::printed_after
             at ./src/lib.rs:44:34
      (1 frame of the standard library)
note: Some details are omitted, run with `RUST_BACKTRACE=full` for a verbose backtrace.
after true
";

    /// A part of a backtrace of Rust 1.95 with `RUST_BACKTRACE=full`.
    const FULL: &str = "\
Stack backtrace:
  16:     0x55fc0c22d359 - std[e28293b1aa0f68bd]::sys::backtrace::__rust_end_short_backtrace::<std[e28293b1aa0f68bd]::panicking::panic_handler::{closure#0}, !>
                               at /rustc/59807616e1fa2540724bfbac14d7976d7e4a3860/library/std/src/sys/backtrace.rs:182:18
  17:     0x55fc0c26ac9a - core[c1f1a4ba060b9bfa]::fmt::write
  18:     0x55fc0c1cf08f - core::option::Option<T>::unwrap::hbd60b116fbf2a6ee
                               at /rustc/59807616e1fa2540724bfbac14d7976d7e4a3860/library/core/src/option.rs:1016:21
  22:     0x55fc0c1cf08f - pkg::tests::none::h7c57df450ca78253
                               at /ws/pkg/src/lib.rs:31:28
  44:     0x7f2b9a9a1d00 - start_thread
                               at ./nptl/./nptl/pthread_create.c:448:8
  45:     0x7f2b9a9a1d00 - <unknown>
  46:                0x0 - <unknown>";

    #[test]
    fn runs_of_frames_of_the_library_are_one_line() {
        let shown = with_short_backtraces(SHORT, Paint::Nothing);
        assert_eq!(shown.as_deref(), Some(SHOWN));
        let twice = with_short_backtraces(&format!("{SHORT}\n{SHORT}"), Paint::Nothing);
        assert_eq!(twice, Some(format!("{SHOWN}\n{SHOWN}")));
        assert_eq!(with_short_backtraces(SHOWN, Paint::Nothing), None);
        let full = "Stack backtrace:\n      (3 frames of the standard library)\n\
                    \u{1b}[1m  22:     0x55fc0c1cf08f - pkg::tests::none::h7c57df450ca78253\u{1b}[0m\n\
                    \u{1b}[1m                               at /ws/pkg/src/lib.rs:31:28\u{1b}[0m\n      \
                    (3 frames of the standard library)";
        assert_eq!(
            with_short_backtraces(FULL, Paint::Colours).as_deref(),
            Some(full)
        );
    }

    #[test]
    fn frames_of_the_sources_at_hand_are_bright() {
        let frames = |mark: &str, reset: &str| {
            format!(
                "{mark}   2: pkg::tests::printed_after::{{{{closure}}}}{reset}\n{mark}             at ./src/lib.rs:44:62{reset}\n"
            )
        };
        let shown = with_short_backtraces(SHORT, Paint::Colours).expect("it has frames");
        assert!(shown.contains(&frames("\u{1b}[1m", "\u{1b}[0m")), "{shown}");
        assert_eq!(without_colours(&shown), SHOWN);
        // The test has left a colour open.
        let red = with_colours_in_lines(&format!("\u{1b}[31m{SHORT}")).into_owned();
        let shown = with_short_backtraces(&red, Paint::Colours).expect("it has frames");
        let frames = frames("\u{1b}[1m\u{1b}[31m", "\u{1b}[0m\u{1b}[0m");
        assert!(shown.contains(&frames), "{shown}");
        assert_eq!(without_colours(&shown), SHOWN);
    }

    #[test]
    fn the_place_of_a_frame_decides_or_else_its_name() {
        let cases = [
            ("core::f", Some("./src/a.rs:1:2"), (false, true)),
            ("a::f", Some("src/a.rs:1:2"), (false, true)),
            ("a::f", Some("é.rs:1:2"), (false, true)),
            ("a::f", Some("x"), (false, false)),
            (
                "a::f",
                Some("/x/.cargo/registry/src/b-1.0/src/a.rs:1:2"),
                (false, false),
            ),
            (
                "a::f",
                Some("./.cargo/registry/src/b-1.0/src/a.rs:1:2"),
                (false, false),
            ),
            (
                "a::f",
                Some("C:\\x\\.cargo\\git\\checkouts\\b-1f\\2e\\src\\a.rs:1:2"),
                (false, false),
            ),
            (
                "a::f",
                Some("/usr/share/cargo/registry/b-1.0/src/a.rs:1:2"),
                (false, false),
            ),
            ("a::f", Some("C:\\x\\src\\a.rs:1:2"), (false, true)),
            ("a::f", Some("/ws/registry/src/lib.rs:2:23"), (false, true)),
            ("sqlite3_step", Some("./sqlite3.c:1:2"), (false, false)),
            (
                "a::f",
                Some("/rustc/5980/library\\std\\src\\a.rs:1"),
                (true, false),
            ),
            (
                "a::f",
                Some("/r/lib/rustlib/src/rust/library/core/src/a.rs:1:2"),
                (true, false),
            ),
            (
                "a::f",
                Some("/usr/src/rustc-1.63.0/library/core/src/a.rs:1:2"),
                (true, false),
            ),
            ("a::f", Some("/ws/library/core/src/a.rs:1:2"), (false, true)),
            (
                "__libc_start_main",
                Some("./csu/../csu/libc-start.c:392:3"),
                (true, false),
            ),
            ("std::rt::lang_start", None, (true, false)),
            (
                "<alloc::boxed::Box<F> as core::ops::Fn>::call",
                None,
                (true, false),
            ),
            ("test[273d]::run_test", None, (true, false)),
            ("__rustc[b797]::rust_begin_unwind", None, (true, false)),
            (
                "<fn() -> std::process::ExitCode as core::ops::function::FnOnce<()>>::call_once",
                None,
                (true, false),
            ),
            (
                "<&dyn core[c1f1]::ops::function::Fn<()> as core[c1f1]::ops::function::FnOnce<()>>::call_once",
                None,
                (true, false),
            ),
            ("<[u8] as core::fmt::Debug>::fmt", None, (true, false)),
            ("<[u8] as pkg::Shown>::shown", None, (false, false)),
            ("<pkg::A as core::fmt::Debug>::fmt", None, (false, false)),
            ("std_extra::f", None, (false, false)),
            ("test", None, (false, false)),
            ("sqlite3_step", None, (false, false)),
            ("_start", None, (true, false)),
            ("<unknown>", None, (true, false)),
        ];
        for (name, path, wanted) in cases {
            let frame = Frame {
                name,
                path,
                lines: [None; 2],
            };
            let is_of_library = frame.is_of_library();
            let is_at_hand = !is_of_library && frame.is_at_hand();
            assert_eq!((is_of_library, is_at_hand), wanted, "{name} {path:?}");
        }
    }

    #[test]
    fn other_lines_are_no_frames() {
        for text in [
            "   0: std::f\n",
            "stack backtrace: \n   0: std::f",
            "stack backtrace:\n\n   0: std::f",
            "stack backtrace:\n0: std::f",
            "stack backtrace:\n   x: std::f",
            "stack backtrace:\n    : std::f",
            "stack backtrace:\n   1 std::f",
            "stack backtrace:",
        ] {
            assert_eq!(with_short_backtraces(text, Paint::Colours), None, "{text}");
        }
    }

    #[test]
    fn the_cost_is_in_proportion_to_the_output() {
        let frames = "   0: std::f\n   1: a::b\n             at ./a.rs:1:2\n".repeat(50_000);
        let text = format!(
            "stack backtrace:\n{frames}{}",
            "stack backtrace:\n".repeat(50_000)
        );
        let shown = with_short_backtraces(&text, Paint::Nothing).expect("it has frames");
        assert_eq!(shown.matches("(1 frame of").count(), 50_000);
    }
}
