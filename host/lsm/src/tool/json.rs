//! The printout of a file as JSON: one object on one line.

use std::ffi::OsStr;

use lsm::{Description, Order, Refusal, ZStep};

use super::facts::{note, numbers, scene, Channel};
use super::scan::Scan;

/// A file that opens.
pub fn accepted(name: &OsStr, scan: &Scan, channels: &[Channel]) -> String {
    let d = &scan.description;
    let order = match d.order {
        Order::Little => "little",
        Order::Big => "big",
    };
    object(&[
        ("file", string(&name.to_string_lossy())),
        ("accepted", "true".to_string()),
        ("dims", object(&[("t", d.t), ("c", d.c), ("z", d.z), ("y", d.y), ("x", d.x)])),
        ("kind", string(&format!("{:?}", d.kind))),
        ("byte_order", string(order)),
        ("interleaved", d.interleaved.to_string()),
        ("scenes", array((0..d.scenes).map(|n| string(&scene(d, n))))),
        ("pages_per_time_point", d.pages_per_time_point.to_string()),
        ("strips_per_channel", d.strips_per_channel.to_string()),
        ("pixel_size", pixel_size(d)),
        ("channels", array(channels.iter().map(channel))),
        ("notes", array(note(d).iter().map(|n| string(n)))),
        ("directories_visited", scan.visited.to_string()),
    ])
}

/// A file that is refused.
pub fn refused(name: &OsStr, r: &Refusal) -> String {
    let keys: &[&str] = match r {
        Refusal::OversizedAllocation { .. } => &["requested", "cap"],
        Refusal::SceneOutOfRange { .. } => &["scene", "count"],
        Refusal::OutOfRange { .. } => &["scene", "t", "c", "z"],
        Refusal::TooShort { .. } => &["needed"],
        _ => &[],
    };
    let values: Vec<_> = keys.iter().copied().zip(numbers(r).into_iter().skip(1)).collect();
    let variant = format!("{r:?}");
    let variant = variant.split(' ').next().unwrap_or_default();
    let refusal = object(&[
        ("number", r.number().to_string()),
        ("name", string(variant)),
        ("values", object(&values)),
        ("message", string(&r.to_string())),
    ]);
    object(&[("file", string(&name.to_string_lossy())), ("accepted", "false".to_string()), ("refusal", refusal)])
}

/// A file that can't be read.
pub fn unreadable(name: &OsStr, why: &str) -> String {
    object(&[("file", string(&name.to_string_lossy())), ("error", string(why))])
}

fn channel(c: &Channel) -> String {
    let name = c.name.as_ref().map_or("null".to_string(), |n| string(&String::from_utf8_lossy(n)));
    let color = c.color.map_or("null".to_string(), |[r, g, b]| string(&format!("#{r:02x}{g:02x}{b:02x}")));
    object(&[("name", name), ("color", color)])
}

// In micrometres. A step that isn't used is null; the notes say why.
fn pixel_size(d: &Description) -> String {
    let Some(size) = d.pixel_size else { return "null".to_string() };
    let z = match size.z {
        ZStep::Used(z) => float(z),
        ZStep::None | ZStep::Placeholder(_) | ZStep::TooLarge(_) => "null".to_string(),
    };
    object(&[("x", float(size.x)), ("y", float(size.y)), ("z", z)])
}

// The shortest decimal that reads back as the same f32. JSON has no infinity.
fn float(f: f32) -> String {
    if f.is_finite() {
        format!("{f:?}")
    } else {
        string(&f.to_string())
    }
}

fn object<T: ToString>(members: &[(&str, T)]) -> String {
    let members: Vec<_> = members.iter().map(|(key, value)| format!("{}: {}", string(key), value.to_string())).collect();
    format!("{{{}}}", members.join(", "))
}

fn array(values: impl Iterator<Item = String>) -> String {
    format!("[{}]", values.collect::<Vec<_>>().join(", "))
}

// Quotation marks, backslashes and control characters are escaped; all else may stand as it is.
fn string(text: &str) -> String {
    let mut out = String::from("\"");
    for c in text.chars() {
        match c {
            '"' | '\\' => out.extend(['\\', c]),
            c if c.is_control() => out.push_str(&format!("\\u{:04x}", u32::from(c))),
            c => out.push(c),
        }
    }
    out.push('"');
    out
}

#[cfg(test)]
mod tests {
    use super::{float, string};

    #[test]
    fn strings_are_escaped() {
        assert_eq!(string("a\"b\\c\n\u{7f}\u{0}é"), "\"a\\\"b\\\\c\\u000a\\u007f\\u0000é\"");
    }

    #[test]
    fn floats_read_back() {
        for f in [0.5, 1.0, 1e-7, 0.1, 3.4e38, f32::from_bits(1), 0.0, 123456.79] {
            assert_eq!(float(f).parse::<f32>(), Ok(f));
        }
        assert_eq!((float(1e-7).as_str(), float(0.25).as_str(), float(f32::INFINITY).as_str()), ("1e-7", "0.25", "\"inf\""));
    }
}
