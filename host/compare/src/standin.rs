// A stand-in for the library: it answers with the words of the C interface what a copy of the original answers. With the original
// itself it shows that the comparison is sound; with an edited copy, that a broken rule is noticed. Pictures of interleaved channels, which
// the original doesn't have, it reads by a way of its own (pixels.rs), and it has rules of its own for the bits of several channels (uneven.rs)
// and for negative values (negative.rs).
use crate::negative::Signs;
use crate::pixels::{Call, Pixels};
use crate::twin::twin;
use crate::uneven::{self, Bits};
use crate::walk::walk;
use other::probe::{self, Judged, Memory, Opened, Picture, Refused, Sort};

/// The words of a description and of each answer, as include/lsm.h counts them. Later versions add words at the end only.
pub const DESCRIPTION_WORDS: usize = probe::WORDS;
pub const OPEN_WORDS: usize = 3 + DESCRIPTION_WORDS;
pub const CHANNEL_WORDS: usize = 8;
pub const PICTURE_WORDS: usize = 5;

// What it says of a rectangle on a page past those of the whole-row test: what document 01 says (past.rs quotes it), or what a faulty
// port would.
#[derive(Default, Clone, Copy, PartialEq)]
pub enum Past {
    #[default]
    Right,
    // refuses where the page's own strips don't hold whole rows, as the original
    AsOriginal,
    // a sample that isn't there is 0
    Blank,
}

#[derive(Default)]
pub struct StandIn {
    pub past: Past,
    pub pixels: Pixels,
    pub bits: Bits,
    pub signs: Signs,
    memory: Memory,
    file: Vec<u8>,
    found: Option<Result<Opened, Refused>>,
    visited: usize,
    beside: Memory,
    beside_file: Vec<u8>,
    handed: Option<Opened>,
}

// What it says where the original has no answer.
pub const SILENT: usize = 98;

// Whether the words are a description.
fn describes(w: &[usize; DESCRIPTION_WORDS]) -> bool {
    let float = |n: usize| u32::try_from(n).is_ok_and(|n| !f32::from_bits(n).is_nan());
    let sizes = w[10] == 0 || (float(w[11]) && float(w[12]) && w[13] <= 3 && (w[13] == 1 || float(w[14])));
    w[0] <= 1 && w[1] <= 3 && w[10] <= 1 && sizes && w[15] <= 1 && w[18] <= 1
}

fn say(answer: &mut [usize], words: &[usize]) -> usize {
    answer.fill(0);
    answer[..words.len()].copy_from_slice(words);
    answer[0]
}

// The samples of a rectangle that the original refuses with 2 on a page past those of the whole-row test. It joins the channel's strips
// and picks the samples out of them. `None` where the refusal stands.
fn joined(file: &[u8], o: &Opened, at: [usize; 4], rect: [usize; 4], blank: bool) -> Option<Vec<u8>> {
    let [scene, t, c, z] = at;
    let [x, y, w, h] = rect;
    let [kind, high, wide, scenes, depth, strips, times] = [1, 5, 6, 7, 8, 9, 17].map(|i| o.words[i]);
    let inside = x.checked_add(w)? <= wide && y.checked_add(h)? <= high;
    // Where the depth is 0, no page before z counts, however many scenes and time points there are.
    let before = |scene: usize, t: usize| match depth {
        0 => Some(0),
        _ => scene.checked_mul(times)?.checked_add(t)?.checked_mul(depth),
    };
    let page = before(scene, t)?.checked_add(z)?;
    if !o.whole_rows() || !inside || page < before(scenes, 0)? {
        return None;
    }
    let mut bytes = Vec::new();
    for strip in o.table.chunks(2).skip((page * o.words[3] + c) * strips).take(strips) {
        bytes.extend(file.get(strip[0]..strip[0].checked_add(strip[1])?)?);
    }
    let sample = [1, 2, 2, 4][kind];
    let mut out = Vec::new();
    for row in y..y + h {
        for column in x..x + w {
            let first = row.checked_mul(wide).and_then(|n| n.checked_add(column)?.checked_mul(sample));
            match first.and_then(|k| bytes.get(k..k.checked_add(sample)?)) {
                Some(found) if o.words[0] == 1 => out.extend(found.iter().rev()),
                Some(found) => out.extend(found),
                None if blank => out.resize(out.len() + sample, 0),
                None => return None,
            }
        }
    }
    Some(out)
}

impl StandIn {
    fn look(&mut self, file: &[u8]) -> &Result<Opened, Refused> {
        if self.found.is_none() || self.file != file {
            self.found = None;
            self.file.clear();
            self.file.extend(file);
            let w = walk(file);
            let says = |number, text: &str| Err(Refused { row: [number, 0, 0, 0, 0], text: text.to_string() });
            let mut found = match uneven::refusal(file, self.bits, self.signs) {
                Some(number) => says(number, "bits and signs"),
                None => {
                    let twin = |sort: Sort| twin(file, &w, sort.series, sort.interleaved);
                    let Judged { answer, .. } = probe::judged(&mut self.memory, file, twin);
                    answer.unwrap_or_else(|| says(SILENT, "no twin"))
                }
            };
            self.visited = w.visited;
            if let Ok(o) = &mut found {
                if o.note.is_some() {
                    o.words[14] = w.z_step(file).unwrap_or(0) as usize;
                }
            }
            self.found = Some(found);
        }
        self.found.as_ref().unwrap()
    }

    // The reader of this description and table over this file: the one that opening gave, or one that is made so.
    fn reader(&mut self, file: &[u8], words: &[usize; DESCRIPTION_WORDS], table: Option<&[usize]>) -> Option<&Opened> {
        let fits = |o: &Opened| o.words == *words && table.is_none_or(|t| o.table == t);
        if self.file == file && matches!(&self.found, Some(Ok(o)) if fits(o)) {
            return self.found.as_ref().and_then(|f| f.as_ref().ok());
        }
        if self.beside_file != file || !self.handed.as_ref().is_some_and(fits) {
            self.handed = None;
            self.beside_file.clear();
            self.beside_file.extend(file);
            self.handed = probe::handed(&mut self.beside, file, words, table.unwrap_or(&[]));
        }
        self.handed.as_ref()
    }

    // What it says of a picture, or of a rectangle of it, but for the buffer. `None` where the original can't be given the description.
    fn read(
        &mut self,
        file: &[u8],
        words: &[usize; DESCRIPTION_WORDS],
        table: &[usize],
        at: [usize; 4],
        rect: Option<[usize; 4]>,
    ) -> Option<Result<Picture, [usize; 5]>> {
        let (past, pixels) = (self.past, self.pixels);
        if words[18] == 1 {
            return Some(Call { file, words, table, at, rect, pixels }.answer());
        }
        let o = self.reader(file, words, Some(table))?;
        let Some(rect) = rect else {
            return Some(o.plane(at).map_err(|refused| refused.row));
        };
        Some(o.region(at, rect).or_else(|refused| match refused.row[0] {
            2 if past != Past::AsOriginal => match joined(file, o, at, rect, past == Past::Blank) {
                Some(bytes) => Ok(Picture { height: rect[3], width: rect[2], bytes }),
                None => Err(refused.row),
            },
            _ => Err(refused.row),
        }))
    }

    pub fn open(&mut self, file: &[u8], table: &mut [usize], answer: &mut [usize; OPEN_WORDS]) -> usize {
        self.look(file);
        let visited = self.visited;
        match self.found.as_ref().unwrap() {
            Err(r) => say(answer, &r.row),
            Ok(o) if table.len() < o.table.len() => say(answer, &[7, o.table.len()]),
            Ok(o) => {
                table[..o.table.len()].copy_from_slice(&o.table);
                let mut words = vec![0, visited, o.table.len()];
                words.extend(o.words);
                say(answer, &words)
            }
        }
    }

    pub fn channel(
        &mut self,
        file: &[u8],
        description: &[usize; DESCRIPTION_WORDS],
        channel: usize,
        name: &mut [u8],
        answer: &mut [usize; CHANNEL_WORDS],
    ) -> usize {
        if !describes(description) {
            return say(answer, &[2]);
        }
        if description[3] <= channel {
            return say(answer, &[6, 0, 0, channel, 0]);
        }
        let Some(o) = self.reader(file, description, None) else {
            return say(answer, &[SILENT]);
        };
        let Some(c) = o.channels.get(channel) else {
            return say(answer, &[SILENT]);
        };
        let text = c.name.as_deref().unwrap_or("").as_bytes();
        if name.len() < text.len() {
            return say(answer, &[7, text.len()]);
        }
        name[..text.len()].copy_from_slice(text);
        let [r, g, b] = c.colour.unwrap_or([0; 3]).map(usize::from);
        say(answer, &[0, c.colour.is_some() as usize, r, g, b, c.name.is_some() as usize, text.len(), 0])
    }

    pub fn picture(
        &mut self,
        file: &[u8],
        description: &[usize; DESCRIPTION_WORDS],
        table: &[usize],
        at: [usize; 4],
        rect: Option<[usize; 4]>,
        out: &mut [u8],
        answer: &mut [usize; PICTURE_WORDS],
    ) -> usize {
        if !describes(description) {
            return say(answer, &[2]);
        }
        let found = match self.read(file, description, table, at, rect) {
            Some(found) => found,
            None => return say(answer, &[SILENT]),
        };
        match found {
            Err(row) => say(answer, &row),
            Ok(p) if out.len() < p.bytes.len() => say(answer, &[7, p.bytes.len()]),
            Ok(p) => {
                out[..p.bytes.len()].copy_from_slice(&p.bytes);
                say(answer, &[0, p.height, p.width, p.bytes.len(), 0])
            }
        }
    }
}
