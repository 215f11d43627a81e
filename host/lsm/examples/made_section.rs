//! Makes an LSM file, for a try, a test or a time. It needs no library. From the repository's folder:
//!
//!     cargo run --offline -q --release --manifest-path host/lsm/Cargo.toml --target-dir target/host --example made_section -- \
//!         --kind U16 --width 2048 --height 2048 --channels 2 --depth 18 --section made.lsm

#[path = "../tests/made/mod.rs"]
mod made;

use std::fs::File;
use std::io::{self, BufWriter, Write};
use std::process::ExitCode;

use made::{Kind, Made};

const HELP: &str = "\
usage: made_section [options] OUT

Writes an LSM file to OUT, with samples that a line of arithmetic says (see tests/made/mod.rs).

  --kind U8|U16|I16|F32       kind of samples (U8)
  --order little|big          byte order (little)
  --width N  --height N       of a picture (7 by 5)
  --depth N  --channels N  --times N  --scenes N    (1 each)
  --strips N                  strips of a channel on a page; of interleaved channels, of a page (1)
  --interleaved               the channels share their strips, pixel by pixel
  --anywhere                  strips end anywhere, also inside a sample, and not at ends of rows
  --shared                    all strips name the bytes of the first one, so that a large picture makes a small file
  --lost PAGE                 this page's strips stand outside the file
  --thumbnails                a reduced page follows each page
  --voxel X,Y,Z               size of a voxel in micrometres
  --name NAME=RRGGBB          name and colour of the next channel
  --section                   a section through growth layers: a sine down the rows with a growing period, and grain
";

fn main() -> ExitCode {
    let words: Vec<String> = std::env::args().skip(1).collect();
    if words.iter().any(|w| w == "--help" || w == "-h") {
        let _ = io::stdout().write_all(HELP.as_bytes());
        return ExitCode::SUCCESS;
    }
    let done = read(&words).and_then(|(made, place)| write(&made, &place).map_err(|e| format!("{place}: {e}")));
    match done {
        Ok(()) => ExitCode::SUCCESS,
        Err(what) => {
            let _ = writeln!(io::stderr(), "made_section: {what}; see --help");
            ExitCode::from(2)
        }
    }
}

fn write(made: &Made, place: &str) -> io::Result<()> {
    let mut out = BufWriter::with_capacity(1 << 20, File::create(place)?);
    made.write(&mut out)?;
    out.flush()
}

fn read(words: &[String]) -> Result<(Made, String), String> {
    let mut made = Made::default();
    let mut place = None;
    let mut words = words.iter();
    while let Some(word) = words.next() {
        if !word.starts_with("--") {
            place = Some(word.clone());
        } else if !flag(&mut made, word) {
            let value = words.next().ok_or_else(|| format!("{word} wants a value"))?;
            option(&mut made, word, value).ok_or_else(|| format!("{word} {value}: no such option, or no such value"))?;
        }
    }
    whole(&made)?;
    Ok((made, place.ok_or("no file was named")?))
}

fn flag(made: &mut Made, word: &str) -> bool {
    let flag = match word {
        "--interleaved" => &mut made.interleaved,
        "--anywhere" => &mut made.anywhere,
        "--shared" => &mut made.shared,
        "--thumbnails" => &mut made.thumbnails,
        "--section" => &mut made.section,
        _ => return false,
    };
    *flag = true;
    true
}

fn option(made: &mut Made, word: &str, value: &str) -> Option<()> {
    let number = || value.parse::<usize>().ok().filter(|&n| n > 0);
    match word {
        "--kind" => made.kind = [Kind::U8, Kind::U16, Kind::I16, Kind::F32].into_iter().find(|k| format!("{k:?}") == value)?,
        "--order" => made.big_endian = ["little", "big"].iter().position(|o| *o == value)? == 1,
        "--width" => made.width = number()?,
        "--height" => made.height = number()?,
        "--depth" => made.depth = number()?,
        "--channels" => made.channels = number()?,
        "--times" => made.times = number()?,
        "--scenes" => made.scenes = number()?,
        "--strips" => made.strips = number()?,
        "--lost" => made.lost = Some(value.parse().ok()?),
        "--voxel" => made.voxel = Some(voxel(value)?),
        "--name" => made.names.push(name(value)?),
        _ => return None,
    }
    Some(())
}

fn voxel(value: &str) -> Option<[f64; 3]> {
    let sizes: Option<Vec<f64>> = value.split(',').map(|v| v.parse().ok()).collect();
    sizes?.try_into().ok()
}

fn name(value: &str) -> Option<(String, [u8; 3])> {
    let (name, color) = value.rsplit_once('=')?;
    let color = u32::from_str_radix(color, 16).ok()?.to_be_bytes();
    Some((name.to_string(), [color[1], color[2], color[3]]))
}

// What can't be a file of this maker.
fn whole(made: &Made) -> Result<(), String> {
    if !made.strips_come_out() {
        return Err(format!("{} strips of equally many rows don't come out", made.strips));
    }
    let samples = if made.shared { made.picture_bytes() / made.strips } else { made.picture_bytes() * made.channels * made.pages() };
    if made.head_bytes() + samples > u32::MAX as usize {
        return Err("the file would pass 4 GiB, which its places of 32 bits don't reach; --shared makes a large picture of few bytes".to_string());
    }
    Ok(())
}
