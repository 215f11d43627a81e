//! The command `lsm`.

mod arguments;
mod check;
mod ending;
mod export;
mod facts;
mod failure;
mod input;
mod json;
mod list;
mod netpbm;
mod output;
mod picture;
mod plain;
mod png;
mod printer;
mod progress;
mod scan;
mod signals;
mod sums;
mod system;

use std::ffi::{OsStr, OsString};
use std::io::Write;
use std::os::unix::ffi::OsStrExt;

use arguments::{Arguments, Asked, Command};
use failure::{report, Failure, ACCEPTED, FAILED};
use input::shown;
use printer::Printer;

const HELP: &str = "\
usage: lsm COMMAND ..

Reads LSM files, the scans of Zeiss confocal microscopes.

  lsm list FILE..                  what a file holds
  lsm picture FILE .. -o OUT       the samples of one picture, or of a rectangle of it
  lsm export FILE -o DIR           every picture, each to a file of its own
  lsm check FILE..                 whether every picture can be read

`lsm COMMAND --help` says more. `-` as FILE is standard input.

status: 0 where all is accepted, 1 where something is refused, 2 where the command is wrong or a file can't be read or written
";

type Run = fn(&Arguments) -> Result<u8, Failure>;

const COMMANDS: [(&Command, Run); 4] = [
    (&list::LIST, list::run),
    (&picture::PICTURE, picture::run),
    (&export::EXPORT, export::run),
    (&check::CHECK, check::run),
];

/// Does what the words behind the program's name ask for, and gives the status.
pub fn main() -> u8 {
    signals::handle();
    let mut words = std::env::args_os().skip(1);
    let Some(first) = words.next() else {
        let _ = std::io::stderr().write_all(HELP.as_bytes());
        return FAILED;
    };
    let asked = ["--help", "-h", "help"].iter().any(|word| first == *word);
    if asked {
        let of = words.next().and_then(|word| command(&word));
        return help(of.map_or(HELP, |(c, _)| c.help));
    }
    match command(&first) {
        Some((command, run)) => work(command, *run, words),
        None => report(&Failure::Usage(format!("there is no command `{}`; see `lsm --help`", first.to_string_lossy())), b""),
    }
}

fn command(word: &OsStr) -> Option<&'static (&'static Command, Run)> {
    COMMANDS.iter().find(|(c, _)| word == c.name)
}

fn work(command: &Command, run: Run, words: impl Iterator<Item = OsString>) -> u8 {
    let arguments = match command.parse(words) {
        Ok(Asked::Help) => return help(command.help),
        Ok(Asked::Work(arguments)) => arguments,
        Err(mistake) => return report(&mistake, b""),
    };
    let name = shown(&arguments.files[0]).as_bytes();
    run(&arguments).unwrap_or_else(|failure| report(&failure, name))
}

fn help(text: &str) -> u8 {
    let mut printer = Printer::new();
    match printer.put(text.as_bytes()).and_then(|()| printer.flush()) {
        Ok(()) => ACCEPTED,
        Err(failure) => report(&failure, b""),
    }
}
