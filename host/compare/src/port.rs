// The reader that is compared with the original, at the level of the C interface's words.
use crate::negative::Signs;
use crate::pixels::Pixels;
use crate::standin::{CHANNEL_WORDS, DESCRIPTION_WORDS, OPEN_WORDS, PICTURE_WORDS, Past, StandIn};
use crate::uneven::Bits;
use crate::walk::{number, walk, PLANAR};

pub trait Port {
    fn name(&self) -> &'static str;
    // Whether it has plane and region.
    fn pictures(&self) -> bool;
    fn open(&mut self, file: &[u8], table: &mut [usize], answer: &mut [usize; OPEN_WORDS]) -> usize;
    fn channel(
        &mut self,
        file: &[u8],
        description: &[usize; DESCRIPTION_WORDS],
        channel: usize,
        name: &mut [u8],
        answer: &mut [usize; CHANNEL_WORDS],
    ) -> usize;
    // Plane, or region where there is a rectangle x, y, w, h. `at` is scene, t, c, z.
    #[allow(clippy::too_many_arguments)]
    fn picture(
        &mut self,
        file: &[u8],
        description: &[usize; DESCRIPTION_WORDS],
        table: &[usize],
        at: [usize; 4],
        rect: Option<[usize; 4]>,
        out: &mut [u8],
        answer: &mut [usize; PICTURE_WORDS],
    ) -> usize;
}

impl Port for StandIn {
    fn name(&self) -> &'static str {
        "stand-in"
    }

    fn pictures(&self) -> bool {
        true
    }

    fn open(&mut self, file: &[u8], table: &mut [usize], answer: &mut [usize; OPEN_WORDS]) -> usize {
        StandIn::open(self, file, table, answer)
    }

    fn channel(
        &mut self,
        file: &[u8],
        description: &[usize; DESCRIPTION_WORDS],
        channel: usize,
        name: &mut [u8],
        answer: &mut [usize; CHANNEL_WORDS],
    ) -> usize {
        StandIn::channel(self, file, description, channel, name, answer)
    }

    fn picture(
        &mut self,
        file: &[u8],
        description: &[usize; DESCRIPTION_WORDS],
        table: &[usize],
        at: [usize; 4],
        rect: Option<[usize; 4]>,
        out: &mut [u8],
        answer: &mut [usize; PICTURE_WORDS],
    ) -> usize {
        StandIn::picture(self, file, description, table, at, rect, out, answer)
    }
}

#[cfg(feature = "library")]
pub struct Library;

#[cfg(feature = "library")]
impl Port for Library {
    fn name(&self) -> &'static str {
        "library"
    }

    fn pictures(&self) -> bool {
        lsm::c::PICTURES
    }

    fn open(&mut self, file: &[u8], table: &mut [usize], answer: &mut [usize; OPEN_WORDS]) -> usize {
        lsm::c::open(file, table, answer)
    }

    fn channel(
        &mut self,
        file: &[u8],
        description: &[usize; DESCRIPTION_WORDS],
        channel: usize,
        name: &mut [u8],
        answer: &mut [usize; CHANNEL_WORDS],
    ) -> usize {
        lsm::c::channel(file, description, channel, name, answer)
    }

    fn picture(
        &mut self,
        file: &[u8],
        description: &[usize; DESCRIPTION_WORDS],
        table: &[usize],
        at: [usize; 4],
        rect: Option<[usize; 4]>,
        out: &mut [u8],
        answer: &mut [usize; PICTURE_WORDS],
    ) -> usize {
        match rect {
            None => lsm::c::plane(file, description, table, at, out, answer),
            Some(rect) => lsm::c::region(file, description, table, at, rect, out, answer),
        }
    }
}

// A port with a fault in what it does with lent memory or with the words of an answer. It shows that such faults are noticed.
pub struct Faulty {
    port: Box<dyn Port>,
    fault: usize,
    // answers for rectangles, for interleaved channels, or for opening, where these are at fault as a whole
    beside: StandIn,
}

// The description and the coordinate, in the terms of a port that finds pages otherwise.
fn misread(fault: usize, d: &[usize; DESCRIPTION_WORDS], at: [usize; 4]) -> ([usize; DESCRIPTION_WORDS], [usize; 4]) {
    let (mut d, mut at) = (*d, at);
    match fault {
        // t doesn't count for the page
        25 if at[1] < d[2] => at[1] = 0,
        // pages by scene, z and then t
        26 => {
            d.swap(2, 4);
            d.swap(8, 17);
            at.swap(1, 3);
        }
        // the whole-row test leaves out T; the first pages have the same numbers then
        28 if at[0] == 0 && at[1] == 0 => d[17] = 1,
        _ => {}
    }
    (d, at)
}

// Where words of the description stand in opening's answer.
const CHANNELS: usize = 3 + 3;
const STRIPS: usize = 3 + 9;
const TIMES: usize = 3 + 17;
const FLAG: usize = 3 + 18;

// The file with each PlanarConfiguration of its full pages cut to 16 bits.
fn cut(file: &[u8]) -> Vec<u8> {
    let w = walk(file);
    let mut other = file.to_vec();
    let places = if w.circle { None } else { w.of_full_pages(file, PLANAR) };
    for (at, n) in places.unwrap_or_default() {
        if n == 4 && at + n <= other.len() {
            let upper = if w.big { at } else { at + 2 };
            other[upper..upper + 2].fill(0);
        }
    }
    other
}

// Whether the file's first full page says that each strip has one channel.
fn is_planar(file: &[u8]) -> bool {
    let w = walk(file);
    let first = w.of_full_pages(file, PLANAR).and_then(|places| places.first().copied());
    first.is_some_and(|(at, n)| number(file, at, n, w.big) == Some(2))
}

// What a faulty port does with pictures of interleaved channels.
fn pixels(fault: usize) -> Pixels {
    match fault {
        29 => Pixels::First,
        30 => Pixels::Planes,
        31 => Pixels::Cut,
        32 => Pixels::Limited,
        33 => Pixels::Rows,
        34 => Pixels::Strips,
        35 => Pixels::Rectangles,
        36 => Pixels::Size,
        _ => Pixels::Right,
    }
}

// What a faulty port does with the bits of several channels.
fn bits(fault: usize) -> Bits {
    match fault {
        42 => Bits::Second,
        43 => Bits::AnyCount,
        44 => Bits::Reduced,
        45 => Bits::BeforeArrays,
        46 => Bits::AfterAgreement,
        47 => Bits::AsRead,
        48 => Bits::Cut,
        49 => Bits::Range,
        50 => Bits::Overruled,
        _ => Bits::Right,
    }
}

// What a faulty port does with negative values.
fn signs(fault: usize) -> Signs {
    match fault {
        51 => Signs::Wide,
        52 => Signs::Float,
        53 => Signs::AfterLimit,
        54 => Signs::FullPages,
        55 => Signs::Winners,
        56 => Signs::Range,
        57 => Signs::Last,
        58 => Signs::AfterComparison,
        59 => Signs::Further,
        60 => Signs::Place,
        61 => Signs::Bytes,
        62 => Signs::AtEnd,
        _ => Signs::Right,
    }
}

// 1 to 10 are faults of opening, 11 to 15 of channel lookup, 16 to 24 of pictures, 25 to 28 of series; of interleaved channels 29 to 36 are
// faults of pictures (pixels.rs says which), 37 to 40 of opening and 41 of words that are no description; 42 to 50 are faults of the bits of
// several channels (uneven.rs), 51 to 62 of negative values (negative.rs).
impl Port for Faulty {
    fn name(&self) -> &'static str {
        "faulty"
    }

    fn pictures(&self) -> bool {
        self.port.pictures()
    }

    fn open(&mut self, file: &[u8], table: &mut [usize], answer: &mut [usize; OPEN_WORDS]) -> usize {
        (self.beside.bits, self.beside.signs) = (bits(self.fault), signs(self.fault));
        if self.beside.bits != Bits::Right || self.beside.signs != Signs::Right {
            return self.beside.open(file, table, answer);
        }
        let before = *answer;
        // PlanarConfiguration is cut to 16 bits
        let other = if self.fault == 38 { cut(file) } else { Vec::new() };
        let kept = if self.fault == 39 { table.to_vec() } else { Vec::new() };
        let n = self.port.open(if self.fault == 38 { &other } else { file }, table, answer);
        match self.fault {
            // writes before it says that the table is too short
            1 if n == 7 && !table.is_empty() => table[0] = 5,
            // writes one word behind the table
            2 if n == 0 && answer[2] < table.len() => table[answer[2]] ^= 1,
            // counts one directory too many
            3 if n == 0 => answer[1] += 1,
            // needs a word more than it does
            4 if n == 7 => answer[1] += 1,
            // leaves something behind a refusal's row
            5 if n != 0 => answer[OPEN_WORDS - 1] = 1,
            // clears the table on a refusal
            6 if n != 0 => table.fill(0),
            // says 7 before the other checks
            7 if (1..7).contains(&n) && table.len() < 2 => {
                answer.fill(0);
                answer[..2].copy_from_slice(&[7, 2]);
                return 7;
            }
            // returns 0 always
            8 => return 0,
            // doesn't overwrite the whole answer
            9 if n != 0 => answer[10..].copy_from_slice(&before[10..]),
            // accepts and writes nothing
            10 if n == 0 && !table.is_empty() => table[0] = 0,
            // lacks the layout's T
            27 if n == 0 => answer[TIMES] = 0,
            // takes the flag from the tag alone, also of one channel
            37 if n == 0 && answer[CHANNELS] == 1 => answer[FLAG] = !is_planar(file) as usize,
            // wants a multiple of the channels for strips that all of them share
            39 if n == 0 && answer[FLAG] == 1 && answer[STRIPS] % answer[CHANNELS] != 0 => {
                table.copy_from_slice(&kept);
                answer.fill(0);
                answer[0] = 2;
                return 2;
            }
            // lacks the flag
            40 if n == 0 => answer[FLAG] = 0,
            _ => {}
        }
        n
    }

    fn channel(
        &mut self,
        file: &[u8],
        description: &[usize; DESCRIPTION_WORDS],
        channel: usize,
        name: &mut [u8],
        answer: &mut [usize; CHANNEL_WORDS],
    ) -> usize {
        let mut described = *description;
        // takes any number but 0 for the flag
        described[18] = described[18].min(if self.fault == 41 { 1 } else { usize::MAX });
        let n = self.port.channel(file, &described, channel, name, answer);
        match self.fault {
            // ends the name with a zero byte
            11 if n == 0 && answer[6] < name.len() => name[answer[6]] = 0,
            // writes as much of the name as there is room for
            12 if n == 7 && !name.is_empty() => name[0] = b'C',
            // loses the channel's number
            13 if n == 6 => answer[3] = 0,
            14 if n == 0 => answer[7] = 1,
            // takes an empty name for none
            15 if n == 0 && answer[6] == 0 => answer[5] = 0,
            _ => {}
        }
        n
    }

    fn picture(
        &mut self,
        file: &[u8],
        description: &[usize; DESCRIPTION_WORDS],
        table: &[usize],
        at: [usize; 4],
        rect: Option<[usize; 4]>,
        out: &mut [u8],
        answer: &mut [usize; PICTURE_WORDS],
    ) -> usize {
        self.beside.past = match self.fault {
            // on a page past those of the whole-row test, refuses where the page's own strips don't hold whole rows
            23 => Past::AsOriginal,
            // there, accepts where a sample is missing
            24 => Past::Blank,
            _ => Past::Right,
        };
        if self.beside.past != Past::Right && rect.is_some() {
            return self.beside.picture(file, description, table, at, rect, out, answer);
        }
        self.beside.pixels = pixels(self.fault);
        if self.beside.pixels != Pixels::Right && description[18] == 1 {
            return self.beside.picture(file, description, table, at, rect, out, answer);
        }
        let (description, place) = misread(self.fault, description, at);
        let n = self.port.picture(file, &description, table, place, rect, out, answer);
        if n == 6 && place != at {
            answer[1..].copy_from_slice(&at);
        }
        match self.fault {
            // writes one byte behind the samples
            16 if n == 0 && answer[3] < out.len() => out[answer[3]] = 0,
            // clears the buffer on a refusal
            17 if n != 0 => out.fill(0),
            // width and height in the other turn
            18 if n == 0 => answer.swap(1, 2),
            19 if n == 7 => answer[1] += 1,
            // the last byte is wrong
            20 if n == 0 && answer[3] != 0 => out[answer[3] - 1] ^= 0x80,
            // a blank picture
            21 if n == 0 => out[..answer[3]].fill(0),
            // leaves out the scene of a refusal
            22 if n == 6 => answer[1] = 0,
            _ => {}
        }
        n
    }
}

fn sound() -> Box<dyn Port> {
    #[cfg(feature = "library")]
    return Box::new(Library);
    #[cfg(not(feature = "library"))]
    return Box::new(StandIn::default());
}

// The port, or one with a fault.
pub fn port(fault: usize) -> Box<dyn Port> {
    match fault {
        0 => sound(),
        fault => Box::new(Faulty { port: sound(), fault, beside: StandIn::default() }),
    }
}
