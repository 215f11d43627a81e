// Small files, each for one rule of opening or for the order of two, that a file drawn at random seldom shows. Where a rule's refusal
// has the number of a later check, the file has a second fault with another number, so that the answer tells which came first.
use crate::large::File;
use crate::standin::DESCRIPTION_WORDS;
use crate::walk::size_of;

const WIDTH: u64 = 256;
const HEIGHT: u64 = 257;
const BITS: u64 = 258;
const COMPRESSION: u64 = 259;
const OFFSETS: u64 = 273;
const SAMPLES: u64 = 277;
const COUNTS: u64 = 279;
const PLANAR: u64 = 284;
const FORMAT: u64 = 339;
const SUBFILE: u64 = 254;
const CZ: u64 = 34412;

// Words of the CZ block, counted from 0.
const X: usize = 2;
const Y: usize = 3;
const Z: usize = 4;
const CHANNELS: usize = 5;
const T: usize = 6;

// The CZ block stands at 8, the samples after it, then the directories: what an entry points to is known before they are laid out.
const BLOCK: usize = 8;

#[derive(Clone, Copy)]
struct Entry {
    tag: u64,
    ty: u64,
    count: u64,
    value: u64,
}

#[derive(Clone)]
struct Small {
    big: bool,
    cz: Vec<u64>,
    // what stands behind the CZ block: the samples, or a part of a channel block
    data: Vec<u8>,
    pages: Vec<Vec<Entry>>,
    // where the last directory leads: 0 for nowhere, or one more than the number of a directory
    back: usize,
    // bytes that are missing at the end
    cut: usize,
}

// One page of two samples of 8 bits, every scalar stated.
fn page(data: u64) -> Vec<Entry> {
    let scalar = |tag, value| Entry { tag, ty: 3, count: 1, value };
    vec![
        scalar(WIDTH, 2),
        scalar(HEIGHT, 1),
        scalar(BITS, 8),
        scalar(COMPRESSION, 1),
        scalar(OFFSETS, data),
        scalar(SAMPLES, 1),
        scalar(COUNTS, 2),
        scalar(PLANAR, 1),
        scalar(FORMAT, 1),
    ]
}

fn small() -> Small {
    let mut first = page(BLOCK as u64 + 28);
    first.push(Entry { tag: CZ, ty: 1, count: 28, value: BLOCK as u64 });
    Small { big: false, cz: vec![0x0400_494c, 28, 2, 1, 1, 1, 1], data: vec![7, 9], pages: vec![first], back: 0, cut: 0 }
}

impl Small {
    // The file with its entry of a tag changed, on the last page.
    fn with(mut self, tag: u64, change: impl Fn(&mut Entry)) -> Small {
        let page = self.pages.last_mut().expect("a page");
        change(page.iter_mut().find(|e| e.tag == tag).expect("the entry"));
        self
    }

    fn value(self, tag: u64, value: u64) -> Small {
        self.with(tag, |e| e.value = value)
    }

    fn without(mut self, tag: u64) -> Small {
        self.pages.last_mut().expect("a page").retain(|e| e.tag != tag);
        self
    }

    // With an entry more, at the directory's end.
    fn entry(mut self, tag: u64, ty: u64, count: u64, value: u64) -> Small {
        self.pages.last_mut().expect("a page").push(Entry { tag, ty, count, value });
        self
    }

    // With another value of the last page's last entry.
    fn value_of_last(mut self, value: u64) -> Small {
        self.pages.last_mut().and_then(|p| p.last_mut()).expect("an entry").value = value;
        self
    }

    fn cz(mut self, word: usize, value: u64) -> Small {
        self.cz[word] = value;
        self
    }

    // With a page more; it has no CZ entry. What follows changes that page.
    fn page(mut self) -> Small {
        self.pages.push(page(BLOCK as u64 + 28));
        self
    }

    // With a reduced page more, which has no other entry.
    fn reduced(mut self) -> Small {
        self.pages.push(vec![Entry { tag: SUBFILE, ty: 4, count: 1, value: 1 }]);
        self
    }

    // With so many further pages.
    fn pages(self, n: usize) -> Small {
        (0..n).fold(self, |f, _| f.page())
    }

    // With a CZ block that states P and M. The first page's strip stands behind it.
    fn shots(mut self, p: u64, m: u64) -> Small {
        self.cz[1] = 272;
        self.cz.resize(68, 0);
        self.cz[66] = p;
        self.cz[67] = m;
        self.value(OFFSETS, (BLOCK + 272) as u64).with(CZ, |e| e.count = 272)
    }

    // With these strips on the last page, by place and length. The arrays stand behind the data.
    fn strips(mut self, strips: &[(u64, u64)]) -> Small {
        let n = strips.len() as u64;
        let at = (BLOCK + 4 * self.cz.len() + self.data.len()) as u64;
        let numbers = strips.iter().map(|s| s.0 as u32).chain(strips.iter().map(|s| s.1 as u32));
        let big = self.big;
        self.data.extend(numbers.flat_map(|n| if big { n.to_be_bytes() } else { n.to_le_bytes() }));
        let array = |e: &mut Entry, place: u64, first: u64| (e.ty, e.count, e.value) = (4, n, if n == 1 { first } else { place });
        self.with(OFFSETS, |e| array(e, at, strips[0].0)).with(COUNTS, |e| array(e, at + 4 * n, strips[0].1))
    }

    // With strips of these lengths, one behind the other from the data's start on.
    fn cut(self, lengths: &[u64]) -> Small {
        let first = (BLOCK + 4 * self.cz.len()) as u64;
        let places = lengths.iter().scan(first, |at, n| Some(std::mem::replace(at, *at + n)));
        let strips: Vec<(u64, u64)> = places.zip(lengths.iter().copied()).collect();
        self.strips(&strips)
    }

    // With these values in the last page's first entry of a tag: in the entry where they fit, otherwise behind the data.
    fn values(mut self, tag: u64, ty: u64, values: &[u64]) -> Small {
        let bytes = self.numbers(ty, values);
        let mut value = (BLOCK + 4 * self.cz.len() + self.data.len()) as u64;
        match <[u8; 4]>::try_from([&bytes[..], &[0; 3]].concat()[..4].to_vec()) {
            _ if 4 < bytes.len() => self.data.extend(&bytes),
            // File::entry puts a value of this sort at the field's start
            _ if ty == 3 && values.len() == 1 => value = values[0],
            Ok(field) if self.big => value = u32::from_be_bytes(field) as u64,
            Ok(field) => value = u32::from_le_bytes(field) as u64,
            Err(short) => panic!("{short:?}"),
        }
        self.with(tag, |e| (e.ty, e.count, e.value) = (ty, values.len() as u64, value))
    }

    // With these BitsPerSample values.
    fn bits(self, ty: u64, values: &[u64]) -> Small {
        self.values(BITS, ty, values)
    }

    // The file with such values behind all else, of which so many bytes are missing.
    fn values_at_end(self, tag: u64, ty: u64, values: &[u64], missing: usize) -> Vec<u8> {
        let bytes = self.numbers(ty, values);
        let at = self.bytes().len() as u64;
        let f = self.with(tag, |e| (e.ty, e.count, e.value) = (ty, values.len() as u64, at));
        [&f.bytes()[..], &bytes[..bytes.len() - missing]].concat()
    }

    fn bits_at_end(self, ty: u64, values: &[u64], missing: usize) -> Vec<u8> {
        self.values_at_end(BITS, ty, values, missing)
    }

    // The bytes of values of a type.
    fn numbers(&self, ty: u64, values: &[u64]) -> Vec<u8> {
        let size = size_of(ty) as usize;
        let bytes = |n: &u64| if self.big { n.to_be_bytes()[8 - size..].to_vec() } else { n.to_le_bytes()[..size].to_vec() };
        values.iter().flat_map(bytes).collect()
    }

    fn back(mut self, directory: usize) -> Small {
        self.back = directory + 1;
        self
    }

    fn bytes(&self) -> Vec<u8> {
        let block = 4 * self.cz.len();
        let mut places = vec![BLOCK + block + self.data.len()];
        for p in &self.pages {
            places.push(places.last().unwrap() + 2 + 12 * p.len() + 4);
        }
        let mut f = File::new(self.big, *places.last().unwrap());
        for (i, &word) in self.cz.iter().enumerate() {
            f.put(BLOCK + 4 * i, word, 4);
        }
        f.bytes[BLOCK + block..places[0]].copy_from_slice(&self.data);
        f.put(4, if self.pages.is_empty() { 0 } else { places[0] as u64 }, 4);
        for (i, p) in self.pages.iter().enumerate() {
            let at = places[i];
            f.put(at, p.len() as u64, 2);
            for (k, e) in p.iter().enumerate() {
                f.entry(at + 2 + 12 * k, e.tag, e.ty, e.count, e.value);
            }
            let next = match self.back {
                _ if i + 1 < self.pages.len() => places[i + 1],
                0 => 0,
                directory => places[directory - 1],
            };
            f.put(at + 2 + 12 * p.len(), next as u64, 4);
        }
        f.bytes.truncate(f.bytes.len() - self.cut);
        f.bytes
    }
}

// The header, and a chain of no directory.
fn headers(list: &mut Vec<Vec<u8>>) {
    // exactly 8 bytes with a first pointer of 0 are a header, and then there is no page; one byte less is none
    list.push(b"II\x2a\0\0\0\0\0".to_vec());
    list.push(b"MM\0\x2a\0\0\0\0".to_vec());
    list.push(b"II\x2a\0\0\0\0".to_vec());
    list.push(b"II\x2a\0\x08\0\0\0".to_vec());
    // the mark's second byte, in files that are right otherwise
    for (big, mark) in [(true, b"MI"), (false, b"IM"), (true, b"Mm"), (false, b"I\0")] {
        let mut f = Small { big, ..small() }.bytes();
        f[..2].copy_from_slice(mark);
        list.push(f);
    }
}

// What the second page must have as the first, each part by itself; and what a default is, by a page that states it.
fn geometry(list: &mut Vec<Vec<u8>>) {
    let two = || small().cz(Z, 2).page();
    for (tag, other) in [(WIDTH, 3), (HEIGHT, 2), (SAMPLES, 0), (BITS, 16), (FORMAT, 2), (COMPRESSION, 5), (PLANAR, 2)] {
        list.push(two().value(tag, other).bytes());
    }
    list.push(two().value(PLANAR, 3).bytes());
    for tag in [SAMPLES, BITS, FORMAT, COMPRESSION, PLANAR, WIDTH, HEIGHT] {
        // absent by itself; absent on the second page
        list.push(small().without(tag).bytes());
        list.push(two().without(tag).bytes());
    }
    // absent, stated as 0
    for tag in [WIDTH, HEIGHT] {
        list.push(small().without(tag).cz(Z, 2).page().value(tag, 0).bytes());
    }
    // more pages than expected, fewer, and as many
    list.push(small().page().bytes());
    list.push(small().cz(Z, 3).page().bytes());
    list.push(two().bytes());
    // the arrays' lengths before the geometry, and that before the number of strips
    list.push(two().value(WIDTH, 3).with(COUNTS, |e| e.count = 2).bytes());
    list.push(two().with(OFFSETS, |e| e.count = 2).with(COUNTS, |e| e.count = 2).bytes());
    list.push(two().value(WIDTH, 3).with(OFFSETS, |e| e.count = 2).with(COUNTS, |e| e.count = 2).bytes());
}

// Entries: the CZ entry's bytes, strip arrays of no values, and what is found first.
fn entries(list: &mut Vec<Vec<u8>>) {
    // a compression that isn't taken comes after every entry
    let packed = || small().value(COMPRESSION, 5);
    for count in [4, 5, 7, 8] {
        list.push(packed().with(CZ, |e| e.count = count).bytes());
    }
    for (ty, count) in [(3, 2), (4, 1), (5, 0), (5, 1), (13, 28), (0, 28)] {
        list.push(packed().with(CZ, |e| (e.ty, e.count) = (ty, count)).bytes());
    }
    for ty in [0, 1, 2, 5, 12, 13, 65535] {
        list.push(packed().with(OFFSETS, |e| (e.ty, e.count) = (ty, 0)).with(COUNTS, |e| (e.ty, e.count) = (ty, 0)).bytes());
        list.push(small().reduced().entry(OFFSETS, ty, 0, 0).bytes());
    }
    // a reduced page: its arrays' lengths are held to each other, and to no other page's
    list.push(small().reduced().entry(OFFSETS, 3, 1, 8).bytes());
    list.push(small().reduced().entry(COUNTS, 3, 1, 8).bytes());
    list.push(small().reduced().entry(OFFSETS, 3, 2, 8).entry(COUNTS, 3, 2, 8).bytes());
    list.push(small().reduced().entry(WIDTH, 3, 1, 9).entry(COMPRESSION, 3, 1, 5).bytes());
    // a number above 65,535, and one past the file after it; then the other way round
    for tag in [SAMPLES, BITS, FORMAT, COMPRESSION] {
        list.push(small().entry(tag, 4, 1, 65535).bytes());
        list.push(small().entry(tag, 4, 1, 65536).entry(WIDTH, 3, 3, 0xffff).bytes());
        list.push(small().entry(WIDTH, 3, 3, 0xffff).entry(tag, 4, 1, 65536).bytes());
    }
    for tag in [PLANAR, SUBFILE] {
        list.push(small().entry(tag, 4, 1, 65536).bytes());
    }
    // a scalar and a strip array out of line: from the file's last byte on, and from past its end on
    for place in [0, 0xffff] {
        let end = |f: &Small| f.bytes().len() as u64 - 1;
        let scalar = small().entry(WIDTH, 4, 2, 0);
        let at = end(&scalar) + place;
        list.push(scalar.value_of_last(at).bytes());
        let array = small().entry(COUNTS, 1, 6, 0).entry(OFFSETS, 1, 6, 0);
        let at = end(&array) + place;
        list.push(array.value_of_last(at).bytes());
    }
    // a directory that ends before its next pointer, and has a bad entry too: the pointer is read first
    for cut in [1, 4] {
        list.push(Small { cut, ..small().entry(WIDTH, 13, 1, 2) }.bytes());
    }
    // a next pointer that leads outside the file is followed only after the entries
    let mut outside = small().entry(WIDTH, 13, 1, 2).bytes();
    let end = outside.len();
    outside[end - 4..].copy_from_slice(&0xffff_fff0u32.to_le_bytes());
    list.push(outside);
}

// Chains: many directories, and circles that have a bad directory.
fn chains(list: &mut Vec<Vec<u8>>) {
    for reduced in [1, 20, 21] {
        let mut f = small();
        for _ in 0..reduced {
            f = f.reduced();
        }
        list.push(f.bytes());
    }
    let circle = || small().reduced().back(0);
    list.push(circle().bytes());
    list.push(small().reduced().reduced().back(1).bytes());
    // the last directory is bad: its entry, its arrays, its geometry
    list.push(circle().entry(WIDTH, 13, 1, 2).bytes());
    list.push(circle().entry(OFFSETS, 3, 1, 8).bytes());
    list.push(small().page().value(WIDTH, 3).back(0).bytes());
    list.push(small().reduced().page().value(BITS, 16).back(1).bytes());
    list.push(small().reduced().page().with(OFFSETS, |e| e.count = 0).back(2).bytes());
    // no page but reduced ones, which have a compression that isn't taken
    let mut none = small();
    none.pages[0].push(Entry { tag: SUBFILE, ty: 4, count: 1, value: 4 });
    list.push(none.clone().value(COMPRESSION, 5).bytes());
    list.push(none.bytes());
}

// The checks of the description, two faults each, where the two have other numbers.
fn orders(list: &mut Vec<Vec<u8>>) {
    let interleaved = || small().value(SAMPLES, 2).cz(CHANNELS, 2);
    let time = || small().cz(T, 2);
    let kind = || small().value(BITS, 9);
    let packed = || small().value(COMPRESSION, 5);
    // compression and kind before the CZ entry, and before each fault of the CZ block
    for f in [kind(), packed()] {
        list.push(f.clone().without(CZ).bytes());
        list.push(f.clone().cz(0, 1).bytes());
        list.push(f.clone().cz(1, 27).bytes());
        list.push(f.clone().value(CZ, 0xffff_fff0).bytes());
        list.push(f.clone().cz(X, 9).bytes());
        list.push(f.clone().cz(CHANNELS, 9).bytes());
        list.push(f.page().value(COMPRESSION, 5).value(BITS, 9).bytes());
    }
    // no CZ entry; the CZ block's refusals before the agreement's: X of 0 beside an XY that differs
    list.push(small().without(CZ).bytes());
    list.push(small().cz(X, 0).bytes());
    list.push(small().cz(CHANNELS, 0).cz(X, 9).bytes());
    // "XY, channels, [..] strips per channel, layout, page count". Neither a T of 2 nor interleaved channels are a fault among these, but with
    // a page too few it is 2 by the page count
    for f in [time(), time().page(), interleaved(), interleaved().cz(T, 2)] {
        list.push(f.clone().bytes());
        list.push(f.clone().cz(X, 9).bytes());
        list.push(f.clone().cz(Y, 9).bytes());
        list.push(f.clone().cz(CHANNELS, 9).bytes());
        list.push(f.clone().with(OFFSETS, |e| e.count = 0).with(COUNTS, |e| e.count = 0).bytes());
        list.push(f.clone().cz(Z, 2).bytes());
        list.push(f.clone().cz(Z, 0x7fff_ffff).bytes());
    }
    // three strips for two channels, interleaved or not
    let mut three = interleaved();
    three.data = vec![36, 0, 36, 0, 36, 0, 2, 0, 2, 0, 2, 0];
    let strips = |f: Small, n: u64| f.with(OFFSETS, |e| (e.count, e.value) = (n, 36)).with(COUNTS, |e| (e.count, e.value) = (n, 42));
    list.push(strips(three.clone(), 3).bytes());
    list.push(strips(three.clone().value(PLANAR, 2), 3).bytes());
    list.push(strips(three.clone().value(PLANAR, 2).cz(Z, 2), 3).bytes());
    list.push(strips(three.value(PLANAR, 2).cz(T, 2), 3).bytes());
    // a scene's count that is none beside T 2, and by itself
    for t in [1, 2] {
        list.push(small().cz(T, t).shots(0xffff_ffff, 1).bytes());
    }
    list.push(time().shots(1, 0x8000_0000).page().bytes());
}

// Series: which T there is, and how many pages it calls for.
fn times(list: &mut Vec<Vec<u8>>) {
    // one page: 0 and 1 open, a negative T is 3, a larger one calls for more pages
    for t in [0, 1, 2, 3, 0x7fff_ffff, 0x8000_0000, 0xffff_ffff] {
        list.push(small().cz(T, t).bytes());
    }
    list.push(small().cz(T, 2).cz(0, 1).bytes());
    list.push(small().cz(T, 0xffff_ffff).page().bytes());
    // T, Z and pages: as many as T x Z, and as many as a wrong count would want
    for (t, z, pages) in [(2, 1, 2), (2, 0, 2), (2, 2, 4), (3, 2, 6), (0, 2, 2), (2, 1, 1), (2, 1, 3), (2, 2, 2), (2, 2, 3), (2, 3, 5)] {
        list.push(small().cz(T, t).cz(Z, z).pages(pages - 1).bytes());
    }
    // reduced pages count for nothing, and the order of the file's numbers is kept
    list.push(small().cz(T, 2).reduced().page().bytes());
    list.push(Small { big: true, ..small().cz(T, 2).page() }.bytes());
    // with scenes: P, M, T, Z and pages
    for (p, m, t, z, pages) in [(2, 1, 2, 1, 4), (1, 2, 3, 0, 6), (0, 5, 2, 1, 2), (2, 1, 2, 1, 2), (2, 1, 2, 1, 3), (2, 2, 2, 1, 4)] {
        list.push(small().cz(T, t).cz(Z, z).shots(p, m).pages(pages - 1).bytes());
    }
    // products that pass 64 bits: the first by 4, which is how many pages there are
    list.push(small().cz(T, 49_477).cz(Z, 384_773).shots(34_724, 27_905).pages(3).bytes());
    list.push(small().cz(T, 0x7fff_ffff).cz(Z, 0x7fff_ffff).shots(0x7fff_ffff, 0x7fff_ffff).bytes());
    // the geometry of a later time point's page, and its number of strips
    list.push(small().cz(T, 2).page().value(WIDTH, 3).bytes());
    list.push(small().cz(T, 2).page().with(OFFSETS, |e| e.count = 2).with(COUNTS, |e| e.count = 2).bytes());
}

// A page of two pixels of so many interleaved channels of 8 bits, in one strip. The sample at pixel p of channel c is 16 x p + c.
fn chunky(channels: u64) -> Small {
    let mut f = small().value(SAMPLES, channels).cz(CHANNELS, channels).value(COUNTS, 2 * channels);
    f.data = (0..2).flat_map(|p| (0..channels).map(move |c| (16 * p + c) as u8)).collect();
    f
}

// Interleaved channels: which they are, that their strips must only be more than none, and what pages must agree in.
fn interleaved(list: &mut Vec<Vec<u8>>) {
    // "any value but 2 with several channels"; one channel never is, whatever the tag says, and 0 is one channel. Of several channels in one
    // strip the planar ones are 2
    let sorts = |f: Small, list: &mut Vec<Vec<u8>>| {
        list.push(f.clone().without(PLANAR).bytes());
        for value in [0, 1, 2, 3] {
            list.push(f.clone().value(PLANAR, value).bytes());
        }
        for value in [2, 65_537, 65_538, 0x8000_0002] {
            list.push(f.clone().with(PLANAR, |e| (e.ty, e.value) = (4, value)).bytes());
        }
        // the last entry counts, and of several values the first
        list.push(f.clone().value(PLANAR, 2).entry(PLANAR, 3, 1, 1).bytes());
        list.push(f.clone().entry(PLANAR, 3, 1, 2).bytes());
        list.push(f.clone().without(PLANAR).entry(PLANAR, 3, 2, 2 << 16 | 1).bytes());
        list.push(f.without(PLANAR).entry(PLANAR, 3, 2, 1 << 16 | 2).bytes());
    };
    sorts(small(), list);
    sorts(chunky(2), list);
    list.push(Small { big: true, ..chunky(2) }.bytes());
    list.push(Small { big: true, ..chunky(2) }.with(PLANAR, |e| (e.ty, e.value) = (4, 65_538)).bytes());
    let most = small().value(SAMPLES, 65_535).cz(CHANNELS, 65_535);
    for f in [small().value(SAMPLES, 0), small().without(SAMPLES), chunky(3), most] {
        list.push(f.clone().without(PLANAR).bytes());
        list.push(f.value(PLANAR, 2).bytes());
    }
    // the channels' number is still held to the CZ block's, and before it the width
    list.push(chunky(3).cz(CHANNELS, 2).bytes());
    list.push(chunky(3).cz(CHANNELS, 1).bytes());
    list.push(small().cz(CHANNELS, 2).bytes());
    list.push(chunky(2).cz(CHANNELS, 0).bytes());
    // strips of any number, in pixels or not; planar ones by the channels
    for lengths in [&[6][..], &[5, 1], &[1, 5], &[2, 2, 2], &[1, 1, 1, 3], &[0, 6, 0, 0, 0]] {
        list.push(chunky(3).cut(lengths).bytes());
        list.push(chunky(3).value(PLANAR, 2).cut(lengths).bytes());
    }
    let none = |f: Small| f.with(OFFSETS, |e| e.count = 0).with(COUNTS, |e| e.count = 0);
    list.push(none(chunky(3)).bytes());
    list.push(none(chunky(3)).without(PLANAR).bytes());
    list.push(none(chunky(3).value(PLANAR, 2)).bytes());
    list.push(chunky(3).without(OFFSETS).without(COUNTS).bytes());
    // a strip outside the file opens, and so does a total that isn't the picture's
    for count in [1, 5, 7, 65_535] {
        list.push(chunky(3).value(COUNTS, count).bytes());
    }
    // pages: 1, 3 and none agree, and 2 with none of them; so of one channel. Then the number of channels and of strips
    for f in [chunky(2), small()] {
        let two = |first: u64, second: u64| {
            let of = |value: u64, f: Small| if value == 0 { f.without(PLANAR) } else { f.value(PLANAR, value) };
            let channels = f.cz[CHANNELS];
            of(second, of(first, f.clone().cz(Z, 2)).page().value(SAMPLES, channels).value(COUNTS, 2 * channels)).bytes()
        };
        for (first, second) in [(1, 1), (1, 3), (3, 0), (0, 1), (2, 2), (1, 2), (2, 0), (0, 2), (2, 3)] {
            list.push(two(first, second));
        }
    }
    list.push(chunky(2).cz(Z, 2).page().bytes());
    list.push(chunky(2).cz(Z, 2).page().value(SAMPLES, 3).bytes());
    list.push(chunky(2).cz(Z, 2).page().value(SAMPLES, 2).with(OFFSETS, |e| e.count = 2).with(COUNTS, |e| e.count = 2).bytes());
    list.push(chunky(2).reduced().bytes());
    list.push(chunky(2).reduced().entry(SAMPLES, 3, 1, 5).entry(PLANAR, 3, 1, 2).bytes());
    // what comes before, which is 3, and after, beside channels that are interleaved
    let packed = || chunky(2).value(COMPRESSION, 5);
    for f in [packed(), none(packed()), chunky(2).value(BITS, 9), chunky(2).cz(X, 0), chunky(2).cz(X, 9), chunky(2).without(CZ)] {
        list.push(f.bytes());
    }
    for (p, m) in [(1, 1), (2, 1), (0xffff_ffff, 1), (1, 0x8000_0000)] {
        list.push(chunky(2).shots(p, m).bytes());
        list.push(none(chunky(2).shots(p, m)).bytes());
    }
    // with time points and scenes: as many pages, and one too few
    let page = |f: Small| f.page().value(SAMPLES, 2).value(COUNTS, 4);
    list.push(page(chunky(2).cz(T, 2)).bytes());
    list.push(chunky(2).cz(T, 2).bytes());
    list.push(page(page(page(chunky(2).cz(T, 2).shots(2, 1)))).bytes());
    list.push(page(page(chunky(2).cz(T, 2).shots(2, 1))).bytes());
    list.push(chunky(2).cz(T, 0).cz(Z, 0).bytes());
    // colours and names of each channel
    let mut block = vec![0; 20];
    block[12] = 20;
    block[16] = 32;
    block.extend([1, 2, 3, 0, 4, 5, 6, 0, 7, 8, 9, 0]);
    for name in [&b"Red"[..], b"", b"Blue\0"] {
        block.extend([name.len() as u8, 0, 0, 0]);
        block.extend(name);
    }
    list.push(of_channel_block(chunky(3), &block));
    list.push(of_channel_block(chunky(3), &block[..43]));
}

// Bits stated for each channel, with the number that opening answers: "On a full page the count must be 1 or SamplesPerPixel (0 taken as 1), and
// all values equal. [..] The other values are read only when the count is SamplesPerPixel, in turn, each compared before the next; one past
// the file is 1."
pub fn bits() -> Answered {
    let mut list = Vec::new();
    values_and_counts(&mut list);
    pages_of_bits(&mut list);
    bits_in_turn(&mut list);
    list
}

pub type Answered = Vec<(Vec<u8>, usize)>;

fn values_and_counts(list: &mut Answered) {
    let mut add = |f: Small, number| list.push((f.bytes(), number));
    add(chunky(2), 0);
    add(chunky(2).bits(3, &[8, 8]), 0);
    add(chunky(2).bits(3, &[16, 8]), 8);
    add(chunky(2).bits(3, &[8, 8, 8]), 8);
    add(chunky(3).bits(3, &[8, 8]), 8);
    add(chunky(2).value(PLANAR, 2).cut(&[2, 2]).bits(3, &[8, 16]), 8);
    // one channel takes one value
    for f in [small(), small().value(SAMPLES, 0), small().without(SAMPLES)] {
        add(f.clone(), 0);
        add(f.bits(3, &[8, 8]), 8);
    }
    // a count isn't cut to 16 bits, nor a value; of no value it is 2, as ever
    add(small().bits(3, &[8, 8, 8]).with(BITS, |e| e.count = 65_537), 8);
    add(small().bits(3, &[8, 8, 8]).with(BITS, |e| e.count = 0), 2);
    add(chunky(3).bits(4, &[16, 65_552, 16]), 8);
    add(chunky(3).bits(4, &[16, 16, 16]), 0);
    // each type, in both orders; the last value is compared too
    for (ty, big) in [(1, true), (6, false), (7, true), (8, true), (9, false), (11, true)] {
        add(Small { big, ..chunky(3) }.bits(ty, &[8, 8, 8]), 0);
        add(Small { big, ..chunky(3) }.bits(ty, &[8, 8, 9]), 8);
    }
    add(Small { big: true, ..chunky(2) }.bits(3, &[8, 8]), 0);
    // a missing tag isn't held to it
    add(chunky(2).without(BITS), 3);
    // SamplesPerPixel is that of the whole directory
    let after = |f: Small| f.without(BITS).entry(BITS, 3, 1, 8).bits(3, &[8, 8, 8]);
    add(after(chunky(3).value(SAMPLES, 1)).entry(SAMPLES, 3, 1, 3), 0);
    add(after(small().value(SAMPLES, 3)).entry(SAMPLES, 3, 1, 1), 8);
    // of several entries the last counts, with its count and its values
    add(small().bits(3, &[8, 9]).entry(BITS, 3, 1, 8), 0);
    add(small().entry(BITS, 3, 2, 9 << 16 | 8), 8);
    add(chunky(2).value(BITS, 16).entry(BITS, 3, 2, 8 << 16 | 8), 0);
    add(chunky(2).bits(3, &[8, 8]).entry(BITS, 3, 2, 8 << 16 | 16), 8);
}

// Full pages and reduced ones, and the place in the order.
fn pages_of_bits(list: &mut Answered) {
    let mut add = |f: Small, number| list.push((f.bytes(), number));
    let uneven = || chunky(2).bits(3, &[8, 16]);
    let two = |first: Small, channels| first.cz(Z, 2).page().value(SAMPLES, channels).value(COUNTS, 2 * channels);
    // a reduced page is held to nothing of it; NewSubfileType 2 is a full one
    let reduced = |values: &[u64]| small().reduced().entry(BITS, 3, 1, 8).bits(3, values);
    add(reduced(&[8, 16]), 0);
    add(reduced(&[8, 16, 8]), 0);
    add(reduced(&[8, 16]).entry(SUBFILE, 3, 1, 2), 8);
    // pages of one value and of one for each channel agree
    add(two(chunky(2), 2).bits(3, &[8, 8]), 0);
    // after the entries and the strip arrays' lengths, before the geometry and the number of strips
    add(uneven().entry(WIDTH, 13, 1, 2), 2);
    add(uneven().with(COUNTS, |e| e.count = 2), 2);
    add(two(chunky(2), 2).bits(3, &[8, 16]).value(HEIGHT, 2), 8);
    add(two(chunky(2), 2).bits(3, &[8, 8]).value(HEIGHT, 2), 3);
    add(two(chunky(2), 2).bits(3, &[8, 16]).with(OFFSETS, |e| e.count = 2).with(COUNTS, |e| e.count = 2), 8);
    add(two(chunky(2), 2).bits(3, &[8, 8]).with(OFFSETS, |e| e.count = 2).with(COUNTS, |e| e.count = 2), 2);
    // the page's own SamplesPerPixel, also where it isn't the first page's
    add(two(chunky(2), 3).bits(3, &[8, 8]), 8);
    add(two(chunky(2), 3).bits(3, &[8, 8, 16]), 8);
    add(two(chunky(2), 3).bits(3, &[8, 8, 8]), 3);
    // before what the whole file is held to
    add(uneven().value(COMPRESSION, 5).without(CZ), 8);
    // in the directory's turn: after an earlier one's refusals, before a later one's
    add(two(two(chunky(2), 2).value(WIDTH, 3), 2).bits(3, &[8, 16]), 3);
    add(two(uneven(), 2).entry(WIDTH, 13, 1, 2), 8);
    // a chain that comes back is 1, if no page in it is uneven
    add(chunky(2).bits(3, &[8, 8]).back(0), 1);
    add(two(chunky(2), 2).bits(3, &[8, 16]).back(0), 8);
}

// Values that the file's end cuts off.
fn bits_in_turn(list: &mut Answered) {
    let mut add = |f: Vec<u8>, number| list.push((f, number));
    for (values, missing, number) in
        [([8, 8, 8], 0, 0), ([8, 8, 8], 1, 1), ([8, 8, 8], 3, 1), ([8, 8, 8], 5, 1), ([8, 16, 8], 1, 8), ([8, 16, 8], 3, 1)]
    {
        add(chunky(3).bits_at_end(3, &values, missing), number);
    }
    // nothing is read of a wrong count, nor of a reduced page
    add(chunky(3).bits_at_end(3, &[8; 5], 1), 8);
    add(small().reduced().entry(BITS, 3, 1, 8).bits_at_end(3, &[8, 16, 8], 1), 0);
    // the strip arrays come first, the geometry later
    add(chunky(3).with(COUNTS, |e| e.count = 2).bits_at_end(3, &[8; 3], 1), 2);
    let page = chunky(3).cz(Z, 2).page().value(SAMPLES, 3).value(COUNTS, 6);
    add(page.value(HEIGHT, 2).bits_at_end(3, &[8; 3], 1), 1);
}

// Signed entry types, with the number that opening answers: "Types 6, 8 and 9 are to be read as two's complement [..] 9, a negative value, [..]
// as soon as that value is read: a scalar in its entry's turn, an array value by value, a further bits value before it is compared."
pub fn signs() -> Answered {
    let mut list = Vec::new();
    negative_scalars(&mut list);
    negative_arrays(&mut list);
    negative_bits(&mut list);
    signs_in_turn(&mut list);
    list
}

const SBYTE: u64 = 6;
const SSHORT: u64 = 8;
const SLONG: u64 = 9;
const FLOAT: u64 = 11;

// A number below zero, of which the low bytes are stored.
fn minus(n: u64) -> u64 {
    n.wrapping_neg()
}

// The small file without the scalars whose absence says the same; and with a page more of that sort.
fn lean() -> Small {
    thinned(small())
}

fn thinned(f: Small) -> Small {
    [SAMPLES, COMPRESSION, PLANAR, FORMAT].into_iter().fold(f, |f, tag| f.without(tag))
}

fn lean_page(f: Small) -> Small {
    thinned(f.cz(Z, 2).page())
}

// A page that has nothing but its width, and so is 3 once its entries are read: enough for what is refused earlier.
fn bare() -> Small {
    let width = Entry { tag: WIDTH, ty: 3, count: 1, value: 2 };
    Small { cz: Vec::new(), data: Vec::new(), pages: vec![vec![width]], ..small() }
}

fn negative_scalars(list: &mut Answered) {
    let mut add = |f: Small, number| list.push((f.bytes(), number));
    // with a scalar's value in a type, before all other entries
    let first = |mut f: Small, tag: u64, ty: u64, value: u64| {
        f.pages[0].insert(0, Entry { tag, ty, count: 1, value: 0 });
        f.values(tag, ty, &[value])
    };
    // each scalar, also where a number above 65,535 is refused
    for (tag, ty) in [SUBFILE, WIDTH, HEIGHT, PLANAR].into_iter().zip([SLONG, SSHORT, SBYTE, SLONG]) {
        add(first(bare(), tag, ty, minus(1)), 9);
    }
    for tag in [BITS, COMPRESSION, SAMPLES, FORMAT] {
        add(first(bare(), tag, SLONG, minus(1)), 9);
    }
    add(first(bare(), COMPRESSION, SLONG, 65_536), 2);
    add(first(bare(), COMPRESSION, SSHORT, minus(1)), 9);
    add(first(lean(), SUBFILE, SBYTE, minus(1)), 9);
    // the sign is the top bit of the type's own width; the value stands at the field's start
    for big in [false, true] {
        for (ty, value, number) in [
            (SBYTE, 127, 0),
            (SBYTE, 128, 9),
            (SBYTE, 255, 9),
            (SSHORT, 255, 0),
            (SSHORT, 0x7fff, 0),
            (SSHORT, 0x8000, 9),
            (SLONG, 0xffff, 0),
            (SLONG, 0x7fff_ffff, 0),
            (SLONG, 1 << 31, 9),
            (FLOAT, 0xffff_ffff, 0),
        ] {
            if !big || [128, 255, 0x8000, 1 << 31].contains(&value) {
                add(first(Small { big, ..if number == 9 { bare() } else { lean() } }, PLANAR, ty, value), number);
            }
        }
    }
    // other types have none; this width isn't the CZ block's
    add(first(lean(), PLANAR, 7, 255), 0);
    add(first(lean(), PLANAR, 4, 0xffff_ffff), 0);
    add(lean().values(WIDTH, FLOAT, &[1 << 31 | 2]), 2);
    // zero and above as before
    add(lean().values(WIDTH, SBYTE, &[2]).values(HEIGHT, SLONG, &[1]).values(BITS, SSHORT, &[8]), 0);
    add(Small { big: true, ..lean() }.values(WIDTH, SSHORT, &[2]).values(HEIGHT, SBYTE, &[1]).values(BITS, SLONG, &[8]), 0);
    // only the first value is read, in line and out of line
    for ty in [SBYTE, SSHORT, SLONG] {
        add(lean().values(WIDTH, ty, &[2, minus(1)]), 0);
        add(bare().values(WIDTH, ty, &[minus(1), 2]), 9);
    }
    // an entry that a later one overrules, and a later one
    add(lean().values(WIDTH, SSHORT, &[minus(1)]).entry(WIDTH, 3, 1, 2), 9);
    add(bare().entry(WIDTH, SLONG, 1, minus(1)), 9);
    // a reduced page's
    add(lean().reduced().entry(WIDTH, SLONG, 1, minus(1)), 9);
    add(lean().reduced().entry(WIDTH, SLONG, 1, 9), 0);
    // a tag that isn't read, and the CZ entry: its field is a place, whatever the type, also one past the file
    add(lean().entry(CZ + 1, SLONG, 1, minus(1)), 0);
    add(lean().with(CZ, |e| (e.ty, e.count) = (SLONG, 7)), 0);
    add(lean().with(CZ, |e| (e.ty, e.count, e.value) = (SLONG, 7, 0xffff_fff0)), 2);
    // nor the CZ block's own numbers
    add(lean().cz(T, minus(1)), 3);
}

fn negative_arrays(list: &mut Answered) {
    let strips = |places: &[u64]| lean().strips(&places.iter().map(|&at| (at, 1)).collect::<Vec<_>>());
    // a page that has nothing but a strip array
    let alone = |tag| {
        let mut f = bare();
        f.pages[0][0].tag = tag;
        f
    };
    let mut add = |f: Vec<u8>, number| list.push((f, number));
    add(lean().values(OFFSETS, SLONG, &[minus(1)]).bytes(), 9);
    for (tag, ty) in [(OFFSETS, SSHORT), (OFFSETS, SBYTE), (COUNTS, SLONG)] {
        add(alone(tag).values(tag, ty, &[minus(1)]).bytes(), 9);
    }
    add(lean().values(OFFSETS, SLONG, &[36]).values(COUNTS, SBYTE, &[2]).bytes(), 0);
    // a FLOAT's or a LONG's strip outside the file
    add(lean().values(OFFSETS, FLOAT, &[0xffff_ffff]).bytes(), 0);
    add(lean().values(OFFSETS, 4, &[0xffff_ffff]).bytes(), 0);
    // each place of the value, in line and out of line
    for at in 0..3 {
        let mut values = [36; 3];
        values[at] = minus(7);
        for (ty, big) in [(SBYTE, true), (SSHORT, false), (SLONG, at == 1)] {
            add(Small { big, ..alone(OFFSETS) }.values(OFFSETS, ty, &values).bytes(), 9);
        }
    }
    add(strips(&[36; 3]).values(OFFSETS, SSHORT, &[36; 3]).bytes(), 0);
    add(alone(OFFSETS).values(OFFSETS, SSHORT, &[36, minus(1)]).bytes(), 9);
    add(Small { big: true, ..alone(COUNTS) }.values(COUNTS, SSHORT, &[minus(1), 1]).bytes(), 9);
    // value by value, where the file ends within them
    add(alone(OFFSETS).values_at_end(OFFSETS, SLONG, &[minus(1), 8], 1), 9);
    add(alone(OFFSETS).values_at_end(OFFSETS, SLONG, &[8, minus(1)], 1), 1);
    add(alone(OFFSETS).values_at_end(OFFSETS, SLONG, &[8, minus(1), 8], 1), 9);
    add(alone(COUNTS).values_at_end(COUNTS, SSHORT, &[8, minus(1), 8], 4), 1);
    // the type, the number of values and the limit of strips come before any value
    let array = |ty, count| alone(OFFSETS).with(OFFSETS, |e| (e.ty, e.count, e.value) = (ty, count, minus(1))).bytes();
    add(array(10, 1), 2);
    add(array(13, 1), 2);
    add(array(SLONG, 0), 3);
    for (count, number) in [(100_000, 9), (100_001, 2)] {
        let at = alone(OFFSETS).bytes().len() as u64;
        let f = alone(OFFSETS).with(OFFSETS, |e| (e.ty, e.count, e.value) = (SLONG, count, at));
        add([f.bytes(), vec![0xff; 4]].concat(), number);
    }
    // unequal arrays come later; then an entry that is overruled, and a reduced page's
    add(lean().values(OFFSETS, SSHORT, &[36, minus(1)]).bytes(), 9);
    add(lean().values(OFFSETS, SLONG, &[minus(1)]).entry(OFFSETS, 3, 1, 36).bytes(), 9);
    let reduced = |ty, value| lean().reduced().entry(OFFSETS, ty, 1, value).entry(COUNTS, 3, 1, 1).bytes();
    add(reduced(SLONG, minus(1)), 9);
    add(reduced(SLONG, 8), 0);
    add(lean().reduced().entry(OFFSETS, SLONG, 0, minus(1)).bytes(), 0);
}

fn negative_bits(list: &mut Answered) {
    let chunky = |n: u64| chunky(n).without(COMPRESSION).without(PLANAR).without(FORMAT);
    let mut add = |f: Small, number| list.push((f.bytes(), number));
    // before it is compared; of a wrong count nothing more is read
    for (ty, big) in [(SBYTE, false), (SSHORT, true), (SLONG, false)] {
        add(Small { big, ..chunky(2) }.bits(ty, &[8, minus(8)]), 9);
        add(Small { big, ..chunky(2) }.bits(ty, &[8, 8]), 0);
    }
    add(lean().bits(SBYTE, &[8, minus(8)]), 8);
    add(chunky(3).bits(SBYTE, &[8, minus(8)]), 8);
    add(chunky(2).bits(FLOAT, &[8, 1 << 31 | 8]), 8);
    // in turn
    add(chunky(3).bits(SSHORT, &[8, minus(8), 16]), 9);
    add(chunky(3).bits(SSHORT, &[8, 16, minus(8)]), 8);
    add(chunky(3).bits(SLONG, &[8, 8, minus(8)]), 9);
    // the first value in its entry's turn
    add(chunky(2).bits(SBYTE, &[minus(8), 8]).with(COUNTS, |e| e.count = 2), 9);
    add(lean().bits(SBYTE, &[minus(8), 8]), 9);
    // of several entries only the last has further values
    add(lean().bits(SBYTE, &[8, minus(8)]).entry(BITS, 3, 1, 8), 0);
    add(lean().bits(SBYTE, &[minus(8), 8]).entry(BITS, 3, 1, 8), 9);
    // the channels' number is below zero: not a wrong count
    add(chunky(2).bits(3, &[8, 8]).values(SAMPLES, SBYTE, &[minus(2)]), 9);
    // a reduced page's further values aren't read
    let reduced = lean().reduced().entry(BITS, 3, 1, 8).entry(SAMPLES, 3, 1, 2);
    add(reduced.clone().bits(SBYTE, &[8, minus(8)]), 0);
    add(reduced.bits(SBYTE, &[minus(8), 8]), 9);
    // after the strip arrays' lengths, before the geometry
    add(chunky(2).bits(SBYTE, &[8, minus(8)]).with(COUNTS, |e| e.count = 2), 2);
    let two = lean_page(chunky(2)).entry(SAMPLES, 3, 1, 2).value(HEIGHT, 2);
    add(two.bits(SBYTE, &[8, minus(8)]), 9);
    // where the file ends within them
    let mut add = |missing, values: &[u64], number| list.push((chunky(3).bits_at_end(SSHORT, values, missing), number));
    add(2, &[8, minus(8), 8], 9);
    add(3, &[8, minus(8), 8], 1);
    add(1, &[8, 8, minus(8)], 1);
}

// The place in the order: along the entries, and along the chain.
fn signs_in_turn(list: &mut Answered) {
    let mut add = |f: Small, number| list.push((f.bytes(), number));
    let negative = |f: Small| f.entry(HEIGHT, SLONG, 1, minus(1));
    // an entry before it, and one behind it
    add(negative(bare().entry(WIDTH, 13, 1, 2)), 2);
    add(negative(bare()).entry(WIDTH, 13, 1, 2), 9);
    add(negative(bare().entry(COMPRESSION, 4, 1, 65_536)), 2);
    add(negative(bare()).entry(COMPRESSION, 4, 1, 65_536), 9);
    add(negative(bare().entry(WIDTH, 3, 3, 0xffff)), 1);
    add(negative(bare()).entry(WIDTH, 3, 3, 0xffff), 9);
    add(negative(bare().entry(CZ, 1, 4, 0)), 2);
    add(negative(bare().entry(OFFSETS, 4, 2, 0xffff)), 1);
    add(negative(bare().entry(OFFSETS, 4, 100_001, 8)), 2);
    // the same entry: its type, its count, its place
    for (ty, count, number) in [(13, 1, 2), (2, 1, 2), (SLONG, 0, 2), (SLONG, 2, 1)] {
        add(bare().entry(HEIGHT, ty, count, minus(1)), number);
    }
    // the directory's next pointer, or a part of it, isn't in the file
    for cut in [1, 4] {
        add(Small { cut, ..negative(bare()) }, 1);
    }
    // where it leads comes later: outside the file here
    let mut outside = bare();
    outside.pages.push(Vec::new());
    add(Small { cut: 5, ..outside.clone() }, 1);
    outside.pages[0].push(Entry { tag: HEIGHT, ty: SLONG, count: 1, value: minus(1) });
    add(Small { cut: 5, ..outside }, 9);
    // unequal arrays, other faults of the whole file
    add(negative(lean().with(COUNTS, |e| e.count = 2)), 9);
    add(negative(lean().entry(COMPRESSION, 3, 1, 5).without(CZ)), 9);
    // two pages: what the first is refused for, then the second's entries, then what the pages are held to
    let two = lean_page;
    let uneven = || lean().bits(3, &[8, 8]);
    add(negative(two(uneven())), 8);
    add(two(negative(lean())).bits(3, &[8, 8]), 9);
    add(negative(two(lean()).value(WIDTH, 3)), 9);
    add(negative(two(two(lean()).value(WIDTH, 3))), 3);
    add(negative(two(two(lean()).with(OFFSETS, |e| e.count = 2).with(COUNTS, |e| e.count = 2))), 2);
    add(negative(two(lean()).with(OFFSETS, |e| e.count = 2)), 9);
    add(negative(two(lean().with(OFFSETS, |e| e.count = 2))), 2);
    // a chain that comes back is followed once before it is 1
    add(negative(two(lean())).back(0), 9);
    add(two(lean().values(WIDTH, SLONG, &[2])).back(0), 1);
}

// A file that ends with this channel block, or with as much as there is of one.
fn with_channel_block(block: &[u8]) -> Vec<u8> {
    of_channel_block(small(), block)
}

fn of_channel_block(mut f: Small, block: &[u8]) -> Vec<u8> {
    f.cz[1] = 112;
    f.cz.resize(28, 0);
    f = f.with(CZ, |e| e.count = 112);
    // the directory comes after the CZ block here, so that the file can end inside the channel block
    let mut bytes = f.bytes();
    let directory = bytes.split_off(BLOCK + 112 + f.data.len());
    bytes.truncate(BLOCK + 112);
    let at = bytes.len();
    bytes.extend(directory);
    let place = bytes.len();
    bytes.extend(block);
    bytes[4..8].copy_from_slice(&(at as u32).to_le_bytes());
    bytes[BLOCK + 108..BLOCK + 112].copy_from_slice(&(place as u32).to_le_bytes());
    bytes
}

// Files whose lookups show a rule.
fn channel_blocks(list: &mut Vec<Vec<u8>>) {
    // a block that ends after its first pointer, for every place of its end; that pointer leads to the bytes before it
    let tables = [1, 2, 3, 4, 5, 6, 7, 8, 9, 10, 11, 12, 4, 0, 0, 0, 8, 0, 0, 0];
    for present in [12, 15, 16, 19, 20] {
        list.push(with_channel_block(&tables[..present]));
    }
    // no colours, and the names behind the pointers: one that ends with the file, one that lacks its last byte
    let mut names = vec![0; 20];
    names[16] = 20;
    names.extend([3, 0, 0, 0, b'D', b'y', b'e']);
    list.push(with_channel_block(&names));
    list.push(with_channel_block(&names[..26]));
    // the name's last sequence isn't whole, and the byte after the name would make it so
    names.truncate(20);
    names.extend([2, 0, 0, 0, 0xe2, 0x82, 0x82]);
    list.push(with_channel_block(&names));
}

// A file that states voxel sizes, a colour and a name, and words of its description that are other than opening gives them: a word's place,
// its value, and whether the words are a description then (include/lsm.h).
pub fn described() -> (Vec<u8>, Vec<(usize, usize, bool)>) {
    let mut names = vec![0; 20];
    names[12] = 4;
    names[16] = 20;
    names[4..8].copy_from_slice(&[1, 2, 3, 4]);
    names.extend([3, 0, 0, 0, b'D', b'y', b'e']);
    let mut f = with_channel_block(&names);
    for (i, size) in [1e-6f64, 2e-6, 3e-6].into_iter().enumerate() {
        f[BLOCK + 40 + 8 * i..BLOCK + 48 + 8 * i].copy_from_slice(&size.to_le_bytes());
    }
    let no = |place, value| (place, value, false);
    let yes = |place, value| (place, value, true);
    let nan = 0x7fc0_0000;
    let infinite = 0x7f80_0000;
    let wide = 1 << 32;
    let list = vec![
        no(0, 2),
        no(0, usize::MAX),
        no(1, 4),
        no(10, 2),
        no(11, nan),
        no(11, infinite + 1),
        no(11, wide),
        no(12, nan),
        no(12, wide),
        no(13, 4),
        no(14, nan),
        no(14, wide),
        no(15, 2),
        no(18, 2),
        no(18, usize::MAX),
        yes(0, 1),
        yes(1, 3),
        yes(3, 0),
        yes(3, 2),
        yes(10, 0),
        yes(11, infinite),
        yes(11, 0),
        yes(12, 0xff80_0000),
        yes(13, 1),
        yes(14, infinite),
        yes(15, 0),
        yes(16, 8),
        yes(16, usize::MAX),
        yes(16, f.len()),
        yes(17, 0),
        yes(17, 2),
        yes(17, usize::MAX),
        yes(18, 1),
    ];
    (f, list)
}

// A rectangle's or a plane's call: the file, scene, t, c, z, and the rectangle x, y, w, h.
pub type Call = (Vec<u8>, [usize; 4], Option<[usize; 4]>);

// A time series of one channel of 8 bits, a page for each time point: the picture's width and height, and of each page the strips' places
// and lengths.
fn paged(w: u64, h: u64, pages: &[&[(u64, u64)]]) -> Vec<u8> {
    let mut f = small().cz(X, w).cz(Y, h).cz(T, pages.len() as u64);
    f.data.clear();
    for (i, strips) in pages.iter().enumerate() {
        f = f.pages((i != 0) as usize).value(WIDTH, w).value(HEIGHT, h).with(WIDTH, |e| e.ty = 4).with(HEIGHT, |e| e.ty = 4);
        f = f.strips(strips);
    }
    f.bytes()
}

// One page of it alone.
fn strips(w: u64, h: u64, strips: &[(u64, u64)]) -> Vec<u8> {
    paged(w, h, &[strips])
}

// A picture above 4 GiB, 65,536 bytes wide, in two strips outside the file: with these lengths each holds whole rows, or doesn't.
const WIDE: u64 = 1 << 16;
const HALF: u64 = 1 << 31;
const WHOLE: [(u64, u64); 2] = [(8, HALF), (8, HALF + WIDE)];
const SPLIT: [(u64, u64); 2] = [(8, HALF + 1), (8, HALF + WIDE - 1)];

// Two time points of such a picture: both in whole rows, or only one of them.
pub fn large_series() -> Vec<Vec<u8>> {
    [[WHOLE, WHOLE], [WHOLE, SPLIT], [SPLIT, WHOLE]].iter().map(|pages| paged(WIDE, WIDE + 1, &[&pages[0], &pages[1]])).collect()
}

// Whether the large picture is read by rows is what the answers tell, 2 for a strip outside the file and 4 for the size. Then strips that
// end with the file, and a byte past it.
pub fn calls() -> Vec<Call> {
    let large = |counts: [u64; 2]| strips(WIDE, WIDE + 1, &[(8, counts[0]), (8, counts[1])]);
    let corner = Some([0, 0, 1, 1]);
    let mut list: Vec<Call> = Vec::new();
    for counts in [[HALF, HALF + WIDE], [HALF + 1, HALF + WIDE - 1], [HALF, HALF], [HALF, HALF + 2 * WIDE], [HALF + WIDE, HALF]] {
        list.push((large(counts), [0; 4], corner));
    }
    list.push((large([HALF, HALF + WIDE]), [0; 4], None));
    // the rectangle's size: 65,536 rows of it are the limit, one more passes it
    for h in [WIDE, WIDE + 1] {
        list.push((large([HALF, HALF + WIDE]), [0; 4], Some([0, 0, WIDE as usize, h as usize])));
    }
    let len = strips(2, 1, &[(0, 2)]).len() as u64;
    for place in [len - 2, len - 1, len] {
        list.push((strips(2, 1, &[(place, 2)]), [0; 4], None));
        list.push((strips(2, 1, &[(place, 2)]), [0; 4], corner));
    }
    // one time point without whole rows sends the rectangles of every other to plane's checks
    for f in large_series() {
        list.extend((0..2).map(|t| (f.clone(), [0, t, 0, 0], corner)));
    }
    list.extend(calls_of_series());
    list.extend(calls_of_interleaved());
    list
}

// A series in which every page has samples of its own: so many scenes, time points, planes and channels. Sample i of a channel is
// 16 x page + 4 x channel + i.
fn series(scenes: u64, times: u64, planes: u64, channels: u64) -> Vec<u8> {
    let mut f = small().cz(T, times).cz(Z, planes).cz(CHANNELS, channels);
    if scenes != 1 {
        f = f.shots(scenes, 1);
    }
    let data = (BLOCK + 4 * f.cz.len()) as u64;
    f.data.clear();
    for page in 0..scenes * times * planes {
        let at = data + f.data.len() as u64;
        // the places and the lengths of one strip or two, in line
        let (places, lengths) = if channels == 1 { (at, 2) } else { (at | (at + 2) << 16, 2 | 2 << 16) };
        f = f.pages((page != 0) as usize).value(SAMPLES, channels).value(PLANAR, channels);
        f = f.with(OFFSETS, |e| (e.count, e.value) = (channels, places)).with(COUNTS, |e| (e.count, e.value) = (channels, lengths));
        f.data.extend((0..channels).flat_map(|c| [16 * page + 4 * c, 16 * page + 4 * c + 1]).map(|n| n as u8));
    }
    f.bytes()
}

// Pictures of each time point: "scene slowest, z fastest".
fn calls_of_series() -> Vec<Call> {
    let mut list: Vec<Call> = Vec::new();
    let mut ask = |f: Vec<u8>, places: &[[usize; 4]]| {
        for &at in places {
            list.push((f.clone(), at, None));
            list.push((f.clone(), at, Some([1, 0, 1, 1])));
        }
    };
    ask(series(1, 2, 2, 1), &[[0, 0, 0, 0], [0, 0, 0, 1], [0, 1, 0, 0], [0, 1, 0, 1], [0, 2, 0, 0], [0, 0, 0, 2]]);
    ask(series(1, 3, 2, 1), &[[0, 0, 0, 1], [0, 1, 0, 0], [0, 1, 0, 1], [0, 2, 0, 0], [0, 3, 0, 0]]);
    ask(series(2, 2, 1, 1), &[[0, 1, 0, 0], [1, 0, 0, 0], [1, 1, 0, 0], [1, 2, 0, 0], [2, 1, 0, 0]]);
    ask(series(1, 2, 1, 2), &[[0, 0, 1, 0], [0, 1, 0, 0], [0, 1, 1, 0], [0, 1, 2, 0]]);
    list.push((series(1, 2, 1, 1), [0, 2, 0, 0], Some([0, 0, 0, 0])));
    list.push((series(1, 2, 1, 1), [0, 1, 0, 0], Some([2, 1, 0, 0])));
    list.push((series(1, 2, 1, 1), [0, 1, 0, 0], Some([0, 0, 3, 1])));
    list
}

// A picture of so many interleaved channels, or planar ones, above 4 GiB or just that large, with strips of these lengths outside the file.
fn large_channels(channels: u64, planar: bool, height: u64, lengths: &[u64]) -> Vec<u8> {
    let f = small().cz(X, WIDE).cz(Y, height).cz(CHANNELS, channels).value(SAMPLES, channels).value(PLANAR, 1 + planar as u64);
    let strips: Vec<(u64, u64)> = lengths.iter().map(|&n| (8, n)).collect();
    f.value(WIDTH, WIDE).value(HEIGHT, height).with(WIDTH, |e| e.ty = 4).with(HEIGHT, |e| e.ty = 4).strips(&strips).bytes()
}

// Two channels of 4 GiB, and of a row more: the strips hold whole rows, interleaved or planar ones.
pub fn large_interleaved() -> Vec<Vec<u8>> {
    let mut list = Vec::new();
    for planar in [false, true] {
        list.push(large_channels(2, planar, WIDE, &[HALF; 4]));
        list.push(large_channels(2, planar, WIDE + 1, &[HALF, HALF + WIDE, HALF, HALF + WIDE]));
    }
    list
}

// Each channel's own samples; strips that end inside pixels and samples; what the strips are held to.
fn calls_of_interleaved() -> Vec<Call> {
    let mut list: Vec<Call> = Vec::new();
    let mut ask = |f: &Small, at: [usize; 4], rects: &[[usize; 4]]| {
        list.push((f.bytes(), at, None));
        list.extend(rects.iter().map(|&rect| (f.bytes(), at, Some(rect))));
    };
    let second = [1, 0, 1, 1];
    for channels in [2, 3] {
        for c in 0..channels + 1 {
            ask(&chunky(channels as u64), [0, 0, c, 0], &[second]);
        }
    }
    for lengths in [&[5, 1][..], &[1, 5], &[2, 1, 3], &[0, 4, 2]] {
        for c in 0..3 {
            ask(&chunky(3).cut(lengths), [0, 0, c, 0], &[second]);
        }
    }
    // 2 x 2 of three channels: a row, a column, a pixel; past it, and empty ones
    let mut square = chunky(3).value(HEIGHT, 2).cz(Y, 2);
    square.data = (1..13).collect();
    let square = square.cut(&[7, 5]);
    for c in [0, 2] {
        ask(&square, [0, 0, c, 0], &[[0, 1, 2, 1], [1, 0, 1, 2], [1, 1, 1, 1], [0, 0, 2, 2], [1, 1, 2, 1], [2, 2, 0, 0], [3, 0, 0, 1]]);
    }
    // samples of 16 and 32 bits, split by the strips, in both orders
    for big in [false, true] {
        let mut f = Small { big, ..chunky(2) }.value(BITS, 16);
        f.data = (1..9).collect();
        for c in 0..2 {
            ask(&f.clone().cut(&[3, 5]), [0, 0, c, 0], &[second]);
            let mut f = f.clone().value(BITS, 32).value(FORMAT, 3);
            f.data = (1..17).collect();
            ask(&f.cut(&[5, 1, 1, 9]), [0, 0, c, 0], &[second]);
        }
    }
    // a byte too few or too many, and as many as one channel has: the strips are held to all channels, for a rectangle too
    for count in [2, 5, 7] {
        ask(&chunky(3).value(COUNTS, count), [0; 4], &[[0, 0, 1, 1], [0, 0, 1, 0]]);
    }
    // a strip outside the file that the pixel doesn't touch; no strip but one has bytes
    ask(&chunky(3).strips(&[(36, 3), (1000, 3)]), [0; 4], &[[0, 0, 1, 1]]);
    ask(&chunky(3).strips(&[(8, 0), (36, 6), (8, 0), (1000, 0)]), [0; 4], &[[0, 0, 1, 1]]);
    ask(&chunky(3).strips(&[(8, 0), (36, 6), (8, 0)]), [0, 0, 2, 0], &[[1, 0, 1, 1]]);
    // a picture of 18 bytes, where there is room for 16: 7 has the channel's length, and the rectangle's
    let mut six = chunky(2).value(WIDTH, 6).cz(X, 6).value(HEIGHT, 3).cz(Y, 3);
    six.data = (1..37).collect();
    ask(&six.cut(&[36]), [0, 0, 1, 0], &[[0, 0, 6, 3], [1, 0, 5, 3]]);
    // pages of time points, planes and scenes: a page has one strip for all channels
    let page = |f: Small| f.page().value(SAMPLES, 2).value(COUNTS, 4);
    let mut f = page(page(page(page(page(chunky(2).cz(T, 3).cz(Z, 2))))));
    f.data = (0..24).collect();
    for i in 0..6 {
        f.pages[i].iter_mut().find(|e| e.tag == OFFSETS).expect("the entry").value += 4 * i as u64;
    }
    for at in [[0, 0, 0, 0], [0, 0, 1, 1], [0, 1, 0, 0], [0, 2, 1, 0], [0, 2, 0, 1], [0, 3, 0, 0], [0, 0, 2, 0]] {
        ask(&f, at, &[second]);
    }
    // one channel that doesn't say how its samples stand: whole rows above the limit are read by rows
    let corner = Some([0, 0, 1, 1]);
    for samples in [0, 1] {
        let f = small().cz(X, WIDE).cz(Y, WIDE + 1).value(SAMPLES, samples).value(WIDTH, WIDE).value(HEIGHT, WIDE + 1);
        let f = f.with(WIDTH, |e| e.ty = 4).with(HEIGHT, |e| e.ty = 4).strips(&WHOLE);
        list.push((f.clone().without(PLANAR).bytes(), [0; 4], corner));
        list.push((f.value(PLANAR, 2).bytes(), [0; 4], corner));
    }
    // two channels of 4 GiB, and of a row more, interleaved and planar: 2 for a strip outside the file, 4 for the picture's size
    for (i, f) in large_interleaved().into_iter().enumerate() {
        // the original would reserve the planar one of 4 GiB
        list.extend((i != 2).then(|| (f.clone(), [0; 4], None)));
        list.push((f.clone(), [0, 0, 1, 0], corner));
        list.push((f, [0, 0, 1, 0], Some([WIDE as usize, 0, 1, 1])));
    }
    list.push((large_channels(2, false, WIDE + 1, &[HALF; 4]), [0; 4], Some([WIDE as usize, 0, 0, 1])));
    list
}

// A call with a description and a table that no file gave: the description's words, the table, scene, t, c, z, and the rectangle.
pub type Handed = ([usize; DESCRIPTION_WORDS], Vec<usize>, [usize; 4], Option<[usize; 4]>);

// What such calls are handed as a file.
pub const FOUR: [u8; 4] = [10, 11, 12, 13];

// `sizes` are channels, planes, height, width, scenes, pages of a time point and strips of a channel; kind 0 is U8, 1 is U16.
pub fn words(kind: usize, sizes: [usize; 7]) -> [usize; DESCRIPTION_WORDS] {
    let mut words = [0; DESCRIPTION_WORDS];
    words[1] = kind;
    words[2] = 1;
    words[3..10].copy_from_slice(&sizes);
    words[17] = 1;
    words
}

// What only a handed-in description or table can show, by the order of checks. A picture of 2^33 columns is oversized: by rows its strips
// outside the file are refused with 2, by plane's checks it is 4.
pub fn handed() -> Vec<Handed> {
    let wide = 1 << 33;
    let first = [0; 4];
    let corner = Some([0, 0, 1, 1]);
    let single = |y, x, strips| words(0, [1, 1, y, x, 1, 1, strips]);
    let mut five = words(0, [1, 2, 1, 1, 1, 2, 1]);
    five[2] = 5;
    let mut big = words(1, [1, 1, 1, 2, 1, 1, 2]);
    big[0] = 1;
    vec![
        // scene; t, c, z; size; page
        (single(1 << 40, 1, 1), vec![], [1, 1, 1, 1], None),
        (single(1 << 40, 1, 1), vec![], [0, 1, 0, 0], None),
        (single(1 << 40, 1, 1), vec![], [0, 0, 1, 0], None),
        (single(1 << 40, 1, 1), vec![], [0, 0, 0, 1], None),
        (single(1 << 40, 1, 1), vec![], first, None),
        (words(1, [1, 1, 1 << 32, 1 << 32, 1, 1, 1]), vec![], first, None),
        (words(0, [1, 1, 1, 1, 3, 1 << 63, 1]), vec![0, 1], [2, 0, 0, 0], None),
        (five, vec![0, 1], [0, 3, 0, 1], None),
        // a page not wholly in the table, "reckoned exactly"
        (words(0, [1, 2, 1, 1, 1, 2, 1]), vec![0, 1], [0, 0, 0, 1], None),
        (words(0, [1, 2, 1, 1, 1, 2, 1]), vec![0, 1, 3, 1], [0, 0, 0, 1], None),
        (words(0, [1, 2, 1, 1, 1, 2, 1]), vec![0, 1, 3], [0, 0, 0, 1], None),
        (words(0, [2, 1, 1, 1, 1, 1, 1]), vec![0, 1, 0], first, None),
        (words(0, [3, 1, 1, 1, 1, 1, 6_148_914_691_236_517_206]), vec![0, 1, 0, 1], first, None),
        (words(0, [1 << 32, 1, 1, 1, 1, 1, 1 << 31]), vec![], first, None),
        // strips in turn
        (single(1, 1, 1), vec![usize::MAX, 1], first, None),
        (single(1, 2, 1), vec![3, 2], first, None),
        (single(1, 2, 1), vec![0, 3], first, None),
        (single(1, 2, 1), vec![0, 1], first, None),
        (single(2, 2, 2), vec![1, 3, 0, 1], first, None),
        (words(0, [2, 1, 1, 1, 1, 1, 1]), vec![0, 1, 3, 1], [0, 0, 1, 0], None),
        (words(0, [1, 1, 1, 1, 2, 1, 1]), vec![0, 1, 3, 1], [1, 0, 0, 0], None),
        (big, vec![0, 3, 3, 1], first, None),
        // region: scene; t, c, z; rectangle; empty
        (single(1, 2, 1), vec![], [1, 0, 1, 0], Some([3, 0, 1, 1])),
        (single(1, 2, 1), vec![], [0, 0, 1, 0], Some([3, 0, 1, 1])),
        (single(1, wide, 1), vec![], first, Some([wide, 0, 1, 1])),
        (single(1, wide, 1), vec![], first, Some([usize::MAX, 0, 1, 1])),
        (single(1, wide, 1), vec![], first, Some([wide, 0, 0, 1])),
        (single(1, wide, 1), vec![], first, Some([0, 1, 5, 0])),
        (single(1, 2, 1), vec![], first, Some([3, 0, 0, 1])),
        // strips outside the file of another channel and page do no harm
        (words(0, [2, 1, 1, 1, 2, 1, 1]), vec![3, 1, 9, 1, 9, 1, 9, 1], first, corner),
        (single(2, 2, 2), vec![1, 3, 0, 1], first, Some([1, 0, 1, 2])),
        (big, vec![0, 3, 3, 1], first, Some([1, 0, 1, 1])),
        // the whole-row test: yes; a channel, a page, a strip that says no; a page that is missing; rows and pages that overflow
        (single(2, wide, 2), vec![0, wide, 0, wide], first, corner),
        (single(2, wide, 2), vec![0, wide, 0, wide], first, Some([0, 0, wide, 1])),
        (single(2, wide, 2), vec![0, wide + 1, 0, wide - 1], first, corner),
        (words(0, [2, 1, 2, wide, 1, 1, 1]), vec![0, 2 * wide, 0, wide], first, corner),
        (words(0, [2, 1, 2, wide, 1, 1, 1]), vec![0, 2 * wide, 0, 2 * wide], first, corner),
        (words(0, [1, 2, 1, wide, 1, 2, 1]), vec![0, wide, 0, 3], first, corner),
        (words(0, [1, 2, 1, wide, 1, 2, 1]), vec![0, wide, 0, wide], first, corner),
        (words(0, [1, 2, 1, wide, 1, 2, 1]), vec![0, wide], first, corner),
        (words(0, [1, 1, 1, wide, (1 << 31) - 1, 1 << 40, 1]), vec![0, wide], first, corner),
        (single(wide, 1, 2), vec![0, usize::MAX, 0, wide + 1], first, corner),
        // it runs over the layout's pages, not over the planes
        (words(0, [1, 2, 1, wide, 1, 1, 1]), vec![0, wide, 0, 3], first, corner),
        (words(0, [1, 1, 1, wide, 1, 2, 1]), vec![0, wide, 0, 3], first, corner),
        // past its pages
        (words(0, [1, 2, 1, 2, 1, 1, 1]), vec![0, 2, 0, 3], [0, 0, 0, 1], Some([0, 0, 2, 1])),
        (words(0, [1, 2, 1, 2, 1, 1, 1]), vec![0, 3, 0, 3], [0, 0, 0, 1], Some([0, 0, 2, 1])),
        (words(0, [1, 2, 1, 2, 2, 1, 1]), vec![0, 2, 0, 3], [0, 0, 0, 1], Some([0, 0, 2, 1])),
        (words(0, [1, 2, 1, wide, 1, 1, 1]), vec![0, wide, 0, 3], [0, 0, 0, 1], Some([2, 0, 1, 1])),
        (words(0, [1, 1, usize::MAX, 5, 1, 0, 2]), vec![0, 4, 1, 3], first, Some([0, 1, 2, 1])),
        (words(0, [1, 2, 2, 2, 1, 1, 1]), vec![0, 4, 1, 3], [0, 0, 0, 1], Some([1, 1, 1, 1])),
        (words(0, [1, 2, 2, 2, 1, 1, 1]), vec![0, 4, 1, 3], [0, 0, 0, 1], Some([0, 0, 2, 2])),
        (words(0, [1, 2, 2, 2, 1, 1, 1]), vec![0, 4, 1, 3], [0, 0, 0, 1], Some([0, 1, 1, 1])),
        (words(0, [1, 2, 2, 2, 1, 1, 1]), vec![0, 4, 1, 3], [0, 0, 0, 1], Some([1, 0, 1, 1])),
        (words(1, [1, 1, 1, 2, 1, 0, 1]), vec![0, 3], first, Some([1, 0, 1, 1])),
    ]
}

// `sizes` as above, then the time points that t is held to and those of the layout.
fn timed(sizes: [usize; 7], t: usize, layout: usize) -> [usize; DESCRIPTION_WORDS] {
    let mut words = words(0, sizes);
    words[2] = t;
    words[17] = layout;
    words
}

// The same for T, where it counts for the page and for the whole-row test. The settled inputs of past.rs have more of it.
pub fn handed_series() -> Vec<Handed> {
    let wide = 1 << 33;
    let first = [0; 4];
    let corner = Some([0, 0, 1, 1]);
    let one = [1, 1, 1, 1, 1, 1, 1];
    let large = [1, 1, 1, wide, 1, 1, 1];
    let two_scenes = [1, 1, 1, 1, 2, 1, 1];
    let bytes = || (0..4).flat_map(|i| [i, 1]).collect::<Vec<usize>>();
    let most = usize::MAX;
    vec![
        // (scene x T + t) x depth + z: T 3 and depth 2, so that neither stands for the other
        (timed([1, 2, 1, 1, 1, 2, 1], 3, 3), bytes(), [0, 1, 0, 0], None),
        (timed([1, 2, 1, 1, 1, 2, 1], 3, 3), bytes(), [0, 1, 0, 1], corner),
        (timed([1, 2, 1, 1, 1, 2, 1], 3, 3), bytes(), [0, 0, 0, 1], None),
        (timed([1, 2, 1, 1, 1, 2, 1], 3, 3), bytes(), [0, 2, 0, 0], None),
        (timed(two_scenes, 2, 2), bytes(), [0, 1, 0, 0], None),
        (timed(two_scenes, 2, 2), bytes(), [1, 0, 0, 0], corner),
        // a table that ends after t 0
        (timed(one, 2, 2), vec![3, 1], first, None),
        (timed(one, 2, 2), vec![3, 1], [0, 1, 0, 0], None),
        (timed(one, 2, 2), vec![3, 1], first, corner),
        (timed(one, 2, 2), vec![3, 1], [0, 1, 0, 0], corner),
        // t is held to the dimensions' T, pages are counted by the layout's
        (timed(two_scenes, 2, 1), bytes(), [1, 1, 0, 0], None),
        (timed(two_scenes, 1, 2), bytes(), [1, 0, 0, 0], None),
        (timed(two_scenes, 1, 2), bytes(), [0, 1, 0, 0], None),
        (timed(two_scenes, 1, 2), bytes(), [0, 1, 0, 0], Some([0, 0, 0, 0])),
        (timed(two_scenes, 3, 0), bytes(), [1, 2, 0, 0], None),
        (timed(two_scenes, 3, 0), bytes(), [1, 2, 0, 0], corner),
        (timed(two_scenes, 1, 0), bytes(), [1, 0, 0, 0], None),
        (timed(one, 0, 1), bytes(), first, None),
        (timed(one, 0, 1), bytes(), first, Some([0, 0, 0, 0])),
        (timed(one, 0, 0), bytes(), first, Some([2, 0, 1, 1])),
        (timed(two_scenes, 0, 2), bytes(), [2, 0, 0, 0], None),
        // the whole-row test over the layout's T: a page of it that is missing, and one more than it
        (timed(large, 1, 2), vec![0, wide], first, corner),
        (timed(large, 2, 1), vec![0, wide, 0, 3], first, corner),
        (timed([1, 2, 1, wide, 1, 2, 1], 2, 2), vec![0, wide, 0, wide, 0, wide, 0, 3], first, corner),
        (timed([1, 2, 1, wide, 1, 2, 1], 2, 2), vec![0, wide, 0, wide, 0, wide, 0, wide], first, corner),
        (timed([1, 1, 1, wide, 2, 1, 1], 2, 2), vec![0, wide, 0, wide, 0, wide, 0, 3], [1, 0, 0, 0], corner),
        // a page number that passes 64 bits at each of its steps, and would be page 0 if cut: scene x T, + t, x depth, + z
        (timed([1, 1, 1, 1, 1 << 33, 1, 1], 1, 1 << 32), bytes(), [1 << 32, 0, 0, 0], None),
        (timed(two_scenes, 2, most), bytes(), [1, 1, 0, 0], None),
        (timed([1, 1, 1, 1, 1, 1 << 32, 1], 1 << 33, 1), bytes(), [0, 1 << 32, 0, 0], corner),
        (timed([1, 2, 1, 1, 1, most, 1], 2, 2), bytes(), [0, 1, 0, 1], None),
        // but with a depth of 0 it is z
        (timed([1, 2, 1, 1, 1 << 40, 0, 1], 1 << 40, 1 << 40), bytes(), [1 << 32, 1 << 32, 0, 1], None),
        (timed([1, 2, 1, 1, most, 0, 1], most, most), bytes(), [most - 1, most - 1, 0, 1], corner),
        // scene; t, c, z; size; page. Scene; t, c, z; rectangle; empty; the rectangle's size or the picture's; page
        (timed([1, 1, 1, wide, 2, most, 1], 2, 2), vec![], [2, 2, 0, 0], None),
        (timed([1, 1, 1, wide, 2, most, 1], 2, 2), vec![], [1, 2, 0, 0], None),
        (timed([1, 1, 1, wide, 2, most, 1], 2, 2), vec![], [1, 1, 0, 0], None),
        (timed([1, 1, 1, 1, 2, most, 1], 2, 2), vec![], [1, 1, 0, 0], None),
        (timed([1, 1, 1, wide, 2, most, 1], 2, 2), vec![], [1, 1, 0, 0], Some([wide, 0, 1, 1])),
        (timed([1, 1, 1, wide, 2, most, 1], 2, 2), vec![], [1, 1, 0, 0], Some([wide, 0, 0, 1])),
        (timed([1, 1, 1, wide, 2, most, 1], 2, 2), vec![], [1, 1, 0, 0], corner),
        // any number of scenes
        (timed([1, 1, 1, 1, 0, 1, 1], 2, 2), bytes(), first, None),
        (timed([1, 1, 1, 1, most, 1, 1], 2, 2), bytes(), [1, 1, 0, 0], None),
    ]
}

// Interleaved channels where the page counts. The settled inputs of interleaved.rs have more of them.
pub fn handed_interleaved() -> Vec<Handed> {
    let first = [0; 4];
    let corner = Some([0, 0, 1, 1]);
    let flagged = |sizes: [usize; 7], t: usize| {
        let mut words = timed(sizes, t, t);
        words[18] = 1;
        words
    };
    let bytes = || (0..4).flat_map(|i| [i, 1]).collect::<Vec<usize>>();
    let two = [2, 2, 1, 1, 1, 2, 1];
    vec![
        // a page has the strips of all channels once: by planes, by scenes, by time points
        (flagged(two, 1), vec![0, 2, 2, 2], [0, 0, 1, 0], None),
        (flagged(two, 1), vec![0, 2, 2, 2], [0, 0, 0, 1], None),
        (flagged(two, 1), vec![0, 2, 2, 2], [0, 0, 1, 1], corner),
        (flagged(two, 1), vec![0, 2, 2], [0, 0, 1, 1], corner),
        (flagged([2, 2, 1, 1, 1, 2, 2], 1), bytes(), [0, 0, 0, 1], None),
        (flagged([2, 1, 1, 1, 2, 1, 2], 1), bytes(), [1, 0, 1, 0], None),
        (flagged([2, 1, 1, 1, 2, 1, 2], 1), bytes(), [2, 0, 1, 0], None),
        (flagged([2, 1, 1, 1, 1, 1, 2], 2), bytes(), [0, 1, 1, 0], None),
        (flagged([2, 1, 1, 1, 1, 1, 2], 2), bytes(), [0, 2, 1, 0], None),
        (flagged([2, 1, 1, 1, 1, 1, 2], 3), bytes(), [0, 2, 1, 0], None),
        (flagged([4, 1, 1, 1, 1, 1, 4], 1), bytes(), [0, 0, 2, 0], corner),
        // a depth of 0: the page is z, and no test of rows says anything
        (flagged([2, 2, 1, 1, 1, 0, 1], 1), vec![0, 2, 2, 2], [0, 0, 1, 1], corner),
        (flagged([2, 2, 1, 2, 1, 0, 1], 1), vec![0, 4, 0, 3], [0, 0, 1, 1], corner),
        // a page's words, reckoned exactly, and a page number that passes 64 bits
        (flagged([2, 1, 1, 1, 1, 1, 1 << 63], 1), bytes(), first, None),
        (flagged([2, 1, 1, 1, 1, 1, usize::MAX], 1), bytes(), first, corner),
        (flagged([2, 1, 1, 1, 1 << 33, 1 << 32, 1], 2), bytes(), [1 << 32, 0, 0, 0], None),
        // strips in turn: the sum of place and length passes 64 bits; a strip past what is left
        (flagged([2, 1, 1, 1, 1, 1, 1], 1), vec![usize::MAX, 2], first, None),
        (flagged([2, 1, 1, 1, 1, 1, 2], 1), vec![0, 2, 2, usize::MAX], first, None),
        (flagged([2, 1, 1, 1, 1, 1, 2], 1), vec![0, 3, 0, 0], first, corner),
        (flagged([2, 1, 1, 1, 1, 1, 2], 1), vec![1, 0, 2, 2], [0, 0, 1, 0], corner),
        (flagged([4, 1, 1, 1, 1, 1, 2], 1), vec![2, 2, 0, 2], [0, 0, 1, 0], None),
        // scene; t, c, z; rectangle; empty
        (flagged([2, 1, 1, 1, 1, 1, 1], 1), vec![], [1, 0, 2, 0], None),
        (flagged([2, 1, 1, 1, 1, 1, 1], 1), vec![], [0, 0, 2, 0], Some([2, 0, 1, 1])),
        (flagged([2, 1, 1, 1, 1, 1, 1], 1), vec![], first, Some([2, 0, 1, 1])),
        (flagged([2, 1, 1, 1, 1, 1, 1], 1), vec![], first, Some([1, 0, 0, 1])),
        (flagged([2, 1, 1, 1, 1, 1, 1], 1), vec![], first, Some([usize::MAX, 0, 2, 1])),
        (flagged([2, 1, 1, 1, 1, 1, 1], 1), vec![], first, corner),
    ]
}

pub fn files() -> Vec<Vec<u8>> {
    let mut list = Vec::new();
    list.push(small().bytes());
    list.push(Small { big: true, ..small() }.bytes());
    headers(&mut list);
    geometry(&mut list);
    entries(&mut list);
    chains(&mut list);
    orders(&mut list);
    times(&mut list);
    interleaved(&mut list);
    channel_blocks(&mut list);
    list.extend(bits().into_iter().chain(signs()).map(|(file, _)| file));
    list
}
