//! The completions of the programs for bash, zsh and fish.

use clap::Command;
use clap_complete::{Shell, generate_to};
use std::fs;
use std::io;
use std::path::Path;

/// The line of a script for bash that reads the word before the one to complete.
const PREVIOUS: &str = "    prev=\"${COMP_WORDS[COMP_CWORD-1]}\"\n";

/// The lines that follow it: bash splits `--format=text` into three words.
const SPLIT: &str = "    if [[ ${cur} == = ]]; then
        cur=\"\"
    elif [[ ${prev} == = ]]; then
        prev=\"${COMP_WORDS[COMP_CWORD-2]}\"
    fi
";

/// The arguments without a name that a script for bash offers as words.
const UNNAMED: [&str; 3] = [" [FILE]...", " [COMMAND]...", " [ARG]..."];

/// Makes a script for bash complete `--format=te`, and not offer `[FILE]...` as a word.
fn mend_bash(script: &Path) -> io::Result<()> {
    let text = fs::read_to_string(script)?;
    let Some((start, rest)) = text.split_once(PREVIOUS) else {
        let name = script.display();
        return Err(io::Error::other(format!("{name} has another form")));
    };
    let rest = UNNAMED
        .iter()
        .fold(rest.to_string(), |rest, word| rest.replace(word, ""));
    fs::write(script, format!("{start}{PREVIOUS}{SPLIT}{rest}"))
}

/// Writes the completions of a program to a folder.
pub fn write_completions(mut command: Command, folder: &Path) -> io::Result<()> {
    let name = command.get_name().to_owned();
    for shell in [Shell::Bash, Shell::Zsh, Shell::Fish] {
        let script = generate_to(shell, &mut command, name.as_str(), folder)?;
        if shell == Shell::Bash {
            mend_bash(&script)?;
        }
    }
    Ok(())
}
