//! `lsm list`: what a file holds.

use std::ffi::OsStr;
use std::os::unix::ffi::OsStrExt;

use lsm::{Description, Kind, ZStep};

use super::arguments::{Arguments, Command};
use super::facts::{note, numbers, scene, Channel};
use super::failure::{report, Failure, ACCEPTED, REFUSED};
use super::json;
use super::printer::Printer;
use super::scan::Scan;

pub const LIST: Command = Command {
    name: "list",
    values: &[],
    flags: &["--json"],
    files: usize::MAX,
    output: "",
    help: "\
usage: lsm list [--json] FILE..

Says what each FILE holds, line by line as lsm-list does, for a file of any length. `-` is standard input. Of several files each
printout has a line `file NAME` before it.

  --json    one JSON object a line for each file: its dimensions, kind of samples, byte order, scenes, pixel size in
            micrometres, channels with name and colour, notes, and how many directories were visited; or why it is refused

status: 0 where all files are accepted, 1 where one is refused, 2 where the command is wrong or a file can't be read or written
",
};

pub fn run(a: &Arguments) -> Result<u8, Failure> {
    let mut printer = Printer::new();
    let as_json = a.value("--json").is_some();
    let mut status = ACCEPTED;
    for name in &a.files {
        let printed = if as_json { json_of(name) } else { text_of(name, a.files.len() > 1) };
        printer.put(&printed.0)?;
        printer.flush()?;
        status = status.max(printed.1);
    }
    Ok(status)
}

// What is printed about a file, and its status.
type Printed = (Vec<u8>, u8);

fn opened(name: &OsStr) -> Result<(Scan, Vec<Channel>), Failure> {
    let scan = Scan::open(name)?;
    let channels = scan.channels(name)?;
    Ok((scan, channels))
}

fn json_of(name: &OsStr) -> Printed {
    let (line, status) = match opened(name) {
        Ok((scan, channels)) => (json::accepted(name, &scan, &channels), ACCEPTED),
        Err(Failure::Refused(r)) => (json::refused(name, &r), REFUSED),
        Err(failure) => {
            let why = match &failure {
                Failure::File(_, why) => why.as_str(),
                _ => "",
            };
            (json::unreadable(name, why), report(&failure, b""))
        }
    };
    (format!("{line}\n").into_bytes(), status)
}

fn text_of(name: &OsStr, heading: bool) -> Printed {
    let (lines, status) = match opened(name) {
        Ok((scan, channels)) => (accepted(&scan.description, &channels), ACCEPTED),
        Err(Failure::Refused(r)) => (format!("refused{}\n", spaced(&numbers(&r))), REFUSED),
        Err(failure) => return (Vec::new(), report(&failure, b"")),
    };
    let heading = if heading { [b"file ", name.as_bytes(), b"\n"].concat() } else { Vec::new() };
    ([heading, lines.into_bytes()].concat(), status)
}

// The lines of a file that opens: crates/lsm_format/specs/Printout.antt says the same.
fn accepted(d: &Description, channels: &[Channel]) -> String {
    let kind = match d.kind {
        Kind::U8 => 0,
        Kind::U16 => 1,
        Kind::I16 => 2,
        Kind::F32 => 3,
    };
    let mut text = format!("accepted\ndims{}\nkind {kind}\n", spaced(&[d.t, d.c, d.z, d.y, d.x]));
    text.push_str(&format!("pixel {}\nscenes {}\n", pixel(d), d.scenes));
    text.extend((0..d.scenes).map(|n| scene(d, n) + "\n"));
    text.push_str(&format!("channels {}\n", channels.len()));
    text.extend(channels.iter().map(channel));
    match note(d) {
        None => text.push_str("notes 0\n"),
        Some(note) => text.push_str(&format!("notes 1\n{note}\n")),
    }
    text
}

// Numbers with a space before each.
fn spaced(numbers: &[usize]) -> String {
    numbers.iter().map(|n| format!(" {n}")).collect()
}

// X, Y and Z as the bits of an f32 in hex, or `-`.
fn pixel(d: &Description) -> String {
    let Some(size) = d.pixel_size else { return "- - -".to_string() };
    let bits = |f: f32| format!("{:08x}", f.to_bits());
    let z = match size.z {
        ZStep::Used(z) => bits(z),
        ZStep::None | ZStep::Placeholder(_) | ZStep::TooLarge(_) => "-".to_string(),
    };
    format!("{} {} {z}", bits(size.x), bits(size.y))
}

fn channel(c: &Channel) -> String {
    let hex = |bytes: &[u8]| bytes.iter().map(|b| format!("{b:02x}")).collect::<String>();
    let color = c.color.map_or("-".to_string(), |color| hex(&color));
    let name = c.name.as_ref().map_or("-".to_string(), |name| format!("={}", hex(name)));
    format!("{color} {name}\n")
}
