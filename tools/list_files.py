#!/usr/bin/env python3
"""Writes the files that the lister is run on, and what it must print of each, from document 01's words.

    tools/list_files.py        run at the repository's root

files/NAME.lsm and files/NAME.txt are a file and its printout. ./test runs the lister on each of them. crates/lsm_list has G alone as
its standard input. crates/lsm_list_files lists all of them: on its standard input stand, for each file, its length as four bytes, the
lowest first, and then its bytes.
"""
import struct
from pathlib import Path

FILES = {}


def file(name, data, *lines):
    FILES[name] = (bytes(data), ''.join(line + '\n' for line in lines).encode())


def bits(size):
    """A voxel size in metres as the f32 bits of its micrometres: a product of two f64, narrowed; infinite where it passes the largest."""
    try:
        return struct.pack('>f', size * 1e6).hex()
    except OverflowError:
        return '7f800000'


class Order:
    def __init__(self, mark):
        self.mark = mark.encode() * 2
        self.sign = '<' if mark == 'I' else '>'

    def pack(self, form, *values):
        return struct.pack(self.sign + form, *values)

    def entry(self, tag, kind, *values, place=None):
        """An entry of type 3 with its values in line, or of any type with its values at a place."""
        if place is None:
            return self.pack('HHI', tag, kind, len(values)) + self.pack('H' * len(values), *values).ljust(4, b'\0')
        return self.pack('HHII', tag, kind, values[0], place)


def g(order='I', size=28, t=1):
    """G, in either byte order, with another size or T in its CZ block."""
    o = Order(order)
    entries = [
        o.entry(256, 3, 2), o.entry(257, 3, 1), o.entry(258, 3, 8), o.entry(273, 3, 116), o.entry(279, 3, 2),
        o.entry(34412, 1, 28, place=88),
    ]
    head = o.mark + o.pack('HI', 42, 8) + o.pack('H', 6) + b''.join(entries) + o.pack('I', 0)
    cz = o.pack('IIIIIII', 0x0400494C, size, 2, 1, 1, 1, t)
    return head.ljust(88, b'\0') + cz + bytes([7, 9])


def converted(data, below=None):
    """The file with its entries of types 3 and 4 in types 8 and 9, as a museum's converter writes them; of one tag all values are -1."""
    o = Order(data[:1].decode())
    data = bytearray(data)
    place = struct.unpack_from(o.sign + 'I', data, 4)[0]
    while place:
        number = struct.unpack_from(o.sign + 'H', data, place)[0]
        for entry in range(place + 2, place + 2 + 12 * number, 12):
            tag, kind, count, field = struct.unpack_from(o.sign + 'HHII', data, entry)
            size = {3: 2, 4: 4}.get(kind)
            if size:
                struct.pack_into(o.sign + 'H', data, entry + 2, kind + 5)
            if tag == below:
                at = entry + 8 if size * count <= 4 else field
                data[at : at + size * count] = b'\xff' * (size * count)
        place = struct.unpack_from(o.sign + 'I', data, place + 2 + 12 * number)[0]
    return bytes(data)


def many_strips(count):
    """One page of so many strips of one byte, its arrays out of line."""
    o = Order('I')
    offsets, counts, cz = 200, 200 + 2 * count, 200 + 4 * count
    entries = [
        o.entry(256, 3, 1), o.entry(257, 3, count), o.entry(258, 3, 8), o.entry(273, 3, count, place=offsets),
        o.entry(279, 3, count, place=counts), o.entry(34412, 1, 28, place=cz),
    ]
    head = o.mark + o.pack('HI', 42, 8) + o.pack('H', 6) + b''.join(entries) + o.pack('I', 0)
    arrays = o.pack('H' * count, *[8] * count) + o.pack('H' * count, *[1] * count)
    return head.ljust(offsets, b'\0') + arrays + o.pack('IIIIIII', 0x0400494C, 28, 1, count, 1, 1, 1)


def scenes(order, voxels, positions, tiles, colors, names, sample=(16, 1), times=1, planes=1):
    """Pictures of 2 by 1 samples (bits, format), a strip to a channel, a page to each plane of a time point of a scene; a CZ block of 272
    bytes and a channel block."""
    o = Order(order)
    pages, channels = positions * tiles * times * planes, len(names)
    at = {}
    place = 8
    for page in range(pages):
        at[page] = place
        place += 2 + 12 * (10 if page == 0 else 9) + 4
    offsets = place
    counts = offsets + 4 * channels
    cz = counts + 4 * channels
    block = cz + 272
    body = b''
    for page in range(pages):
        entries = [
            o.entry(256, 3, 2), o.entry(257, 3, 1), o.entry(258, 3, sample[0]), o.entry(259, 3, 1), o.entry(273, 4, channels, place=offsets),
            o.entry(277, 3, channels), o.entry(279, 4, channels, place=counts), o.entry(284, 3, 2), o.entry(339, 3, sample[1]),
        ]
        if page == 0:
            entries.append(o.entry(34412, 1, 272, place=cz))
        body += o.pack('H', len(entries)) + b''.join(entries) + o.pack('I', at.get(page + 1, 0))
    body += o.pack('I' * channels, *[8] * channels) + o.pack('I' * channels, *[4] * channels)
    info = o.pack('IIIIIII', 0x0400494C, 272, 2, 1, planes, channels, times).ljust(40, b'\0') + o.pack('ddd', *voxels)
    info = info.ljust(108, b'\0') + o.pack('I', block)
    info = info.ljust(264, b'\0') + o.pack('II', positions, tiles)
    table = b''.join(bytes(c) + b'\0' for c in colors)
    list_of_names = b''.join(o.pack('I', len(n)) + n for n in names)
    channel_block = bytes(12) + o.pack('II', 20, 20 + len(table)) + table + list_of_names
    return o.mark + o.pack('HI', 42, 8) + body + info + channel_block


def interleaved(order, width, height, strips, planar, channels, colors, names, sample=(8,)):
    """One page of U8 whose channels share its strips, of so many bytes each; PlanarConfiguration as given, or absent; the values of BitsPerSample;
    a CZ block of 112 bytes and a channel block, with no pointer to colours or names where there are none. The last name ends the file."""
    o = Order(order)
    count = len(strips)
    entries = 7 if planar is None else 8
    offsets = 8 + 2 + 12 * entries + 4
    counts = offsets + 4 * count
    depths = counts + 4 * count
    pixels = depths + (2 * len(sample) if len(sample) > 2 else 0)
    cz = pixels + sum(strips)
    places = [pixels + sum(strips[:n]) for n in range(count)]

    def array(tag, values, place):
        return o.entry(tag, 3, *values) if count == 1 else o.entry(tag, 4, count, place=place)

    bits_per_sample = o.entry(258, 3, len(sample), place=depths) if len(sample) > 2 else o.entry(258, 3, *sample)
    tags = [
        o.entry(256, 3, width), o.entry(257, 3, height), bits_per_sample, array(273, places, offsets), o.entry(277, 3, channels),
        array(279, strips, counts), *([] if planar is None else [o.entry(284, 3, planar)]), o.entry(34412, 1, 112, place=cz),
    ]
    head = o.mark + o.pack('HI', 42, 8) + o.pack('H', entries) + b''.join(tags) + o.pack('I', 0)
    arrays = (o.pack('I' * count, *places) + o.pack('I' * count, *strips) + o.pack('H' * len(sample), *sample))[:pixels - offsets]
    samples = bytes(n % 256 for n in range(sum(strips)))
    info = o.pack('IIIIIII', 0x0400494C, 112, width, height, 1, channels, 1).ljust(108, b'\0') + o.pack('I', cz + 112)
    table = b''.join(bytes(c) + b'\0' for c in colors)
    list_of_names = b''.join(o.pack('I', len(n)) + n for n in names)
    channel_block = bytes(12) + o.pack('II', 20 if colors else 0, 20 + len(table) if names else 0) + table + list_of_names
    return head + arrays + samples + info + channel_block


file('g', g(), 'accepted', 'dims 1 1 1 1 2', 'kind 0', 'pixel - - -', 'scenes 1', 'image', 'channels 1', '- -', 'notes 0')
file('g-big-endian', g('M'), 'accepted', 'dims 1 1 1 1 2', 'kind 0', 'pixel - - -', 'scenes 1', 'image', 'channels 1', '- -', 'notes 0')
file('empty', b'', 'refused 1')
file('magic', g().replace(b'\x2a', b'\x2b', 1), 'refused 1')
file('size-27', g(size=27), 'refused 2')
file('time-2', g(t=2), 'refused 2')
file('time-0', g(t=0), 'accepted', 'dims 1 1 1 1 2', 'kind 0', 'pixel - - -', 'scenes 1', 'image', 'channels 1', '- -', 'notes 0')
file('strips-2049', many_strips(2049), 'refused 7 4098')
file('strips-2048', many_strips(2048), 'accepted', 'dims 1 1 1 2048 1', 'kind 0', 'pixel - - -', 'scenes 1', 'image', 'channels 1', '- -', 'notes 0')
file(
    'scenes', scenes('I', (5e-7, 2.5e-7, 2.5e-13), 3, 4, [(255, 0, 10), (1, 2, 3)], [b'\xc3\x28', b'Ch1\0\0']),
    'accepted', 'dims 1 2 1 1 2', 'kind 1', f'pixel {bits(5e-7)} {bits(2.5e-7)} -', 'scenes 12', *[f'image #{n}' for n in range(1, 13)],
    'channels 2', 'ff000a =efbfbd28', '010203 =436831', 'notes 1', 'placeholder 2.5e-7',
)
# the second channel's colour is where the names begin: the bytes of the first length, 0
file(
    'large-step', scenes('M', (1e-7, 3e-7, 1.015e-2), 1, 1, [(171, 205, 239)], [b'', b'x']),
    'accepted', 'dims 1 2 1 1 2', 'kind 1', f'pixel {bits(1e-7)} {bits(3e-7)} -', 'scenes 1', 'image', 'channels 2', 'abcdef =',
    '000000 =78', 'notes 1', 'too-large 1.02e4',
)
# the notes of the least and of the greatest f32 above 0
file(
    'least-step', scenes('I', (1e-7, 1e-7, 2.0**-149 / 1e6), 1, 1, [(1, 2, 3)] * 2, [b'', b'']),
    'accepted', 'dims 1 2 1 1 2', 'kind 1', f'pixel {bits(1e-7)} {bits(1e-7)} -', 'scenes 1', 'image', 'channels 2', '010203 =', '010203 =',
    'notes 1', 'placeholder 1.4e-45',
)
file(
    'greatest-step', scenes('I', (1e-7, 1e-7, (2 - 2.0**-23) * 2.0**127 / 1e6), 1, 1, [(1, 2, 3)] * 2, [b'', b'']),
    'accepted', 'dims 1 2 1 1 2', 'kind 1', f'pixel {bits(1e-7)} {bits(1e-7)} -', 'scenes 1', 'image', 'channels 2', '010203 =', '010203 =',
    'notes 1', 'too-large 3.4e38',
)
file(
    'long-names', scenes('I', (1e-6, 1e-6, 1e-6), 1, 2, [(9, 9, 9)] * 3, [b'\xff' * 1024, b'n' * 1025, b'end']),
    'accepted', 'dims 1 3 1 1 2', 'kind 1', f'pixel {bits(1e-6)} {bits(1e-6)} {bits(1e-6)}', 'scenes 2', 'image #1', 'image #2', 'channels 3',
    '090909 =' + 'efbfbd' * 1024, '090909 -', '090909 =656e64', 'notes 0',
)
# "An X or Y that turns infinite or 0 after that is kept"; kind 2 is I16, kind 3 F32
file(
    'signed', scenes('M', (1e33, 1e-60, 2e-6), 1, 1, [(0, 0, 255), (0, 255, 0)], [b'a', b'b'], sample=(16, 2)),
    'accepted', 'dims 1 2 1 1 2', 'kind 2', f'pixel {bits(1e33)} {bits(1e-60)} {bits(2e-6)}', 'scenes 1', 'image', 'channels 2', '0000ff =61',
    '00ff00 =62', 'notes 0',
)
file(
    'float', scenes('I', (4e-8, float('inf'), float('inf')), 1, 1, [(1, 0, 0)] * 2, [b'c', b'd'], sample=(32, 3)),
    'accepted', 'dims 1 2 1 1 2', 'kind 3', f'pixel {bits(4e-8)} 7f800000 -', 'scenes 1', 'image', 'channels 2', '010000 =63', '010000 =64',
    'notes 0',
)
# weekly scans of two planes at two positions: 5 weeks, in 20 pages
file(
    'weeks', scenes('I', (1e-6, 1e-6, 2e-6), 2, 1, [(0, 255, 0), (255, 0, 0)], [b'calcite', b'clay'], times=5, planes=2),
    'accepted', 'dims 5 2 2 1 2', 'kind 1', f'pixel {bits(1e-6)} {bits(1e-6)} {bits(2e-6)}', 'scenes 2', 'image #1', 'image #2', 'channels 2',
    '00ff00 =63616c63697465', 'ff0000 =636c6179', 'notes 0',
)
# a year of weeks has more strips than the lister's table
file(
    'year', scenes('M', (1e-6, 1e-6, 2e-6), 1, 1, [(0, 255, 0)] * 20, [b''] * 20, times=52, planes=2), f'refused 7 {2 * 52 * 2 * 20}',
)
# a printout that passes 65,536 bytes
file(
    'many-names', scenes('I', (1e-6, 1e-6, 1e-6), 1, 1, [(9, 9, 9)] * 11, [b'\xff' * 1024] * 11),
    'accepted', 'dims 1 11 1 1 2', 'kind 1', f'pixel {bits(1e-6)} {bits(1e-6)} {bits(1e-6)}', 'scenes 1', 'image', 'channels 11',
    *['090909 =' + 'efbfbd' * 1024] * 11, 'notes 0',
)
# "All strips then belong to every channel", and a strip may end inside a pixel
file(
    'interleaved', interleaved('I', 2, 2, [5, 1, 6], None, 3, [(255, 0, 0), (0, 255, 0), (0, 0, 255)], [b'red', b'green', b'blue']),
    'accepted', 'dims 1 3 1 2 2', 'kind 0', 'pixel - - -', 'scenes 1', 'image', 'channels 3', 'ff0000 =726564', '00ff00 =677265656e',
    '0000ff =626c7565', 'notes 0',
)
# one strip has more channels than the lister's table has room for strips
file(
    'wide', interleaved('M', 1, 1, [2049], 1, 2049, [], [b'first', b'second']),
    'accepted', 'dims 1 2049 1 1 1', 'kind 0', 'pixel - - -', 'scenes 1', 'image', 'channels 2049', '- =6669727374', '- =7365636f6e64',
    *['- -'] * 2047, 'notes 0',
)
# "the count must be 1 or SamplesPerPixel (0 taken as 1), and all values equal"
file(
    'bits-even', interleaved('M', 2, 2, [7, 5], 1, 3, [(255, 0, 0), (0, 255, 0), (0, 0, 255)], [b'red', b'green', b'blue'], sample=(8, 8, 8)),
    'accepted', 'dims 1 3 1 2 2', 'kind 0', 'pixel - - -', 'scenes 1', 'image', 'channels 3', 'ff0000 =726564', '00ff00 =677265656e',
    '0000ff =626c7565', 'notes 0',
)
file('bits-uneven', interleaved('I', 2, 2, [8], None, 2, [(255, 0, 0), (0, 255, 0)], [b'red', b'green'], sample=(16, 8)), 'refused 8')
# "Types 6, 8 and 9 are to be read as two's complement [..] Zero and above read as before"
file(
    'converted', converted(scenes('M', (1e-6, 1e-6, 2e-6), 2, 1, [(0, 255, 0), (255, 0, 0)], [b'calcite', b'clay'])),
    'accepted', 'dims 1 2 1 1 2', 'kind 1', f'pixel {bits(1e-6)} {bits(1e-6)} {bits(2e-6)}', 'scenes 2', 'image #1', 'image #2', 'channels 2',
    '00ff00 =63616c63697465', 'ff0000 =636c6179', 'notes 0',
)
# "writes strip offsets as SLONG, and one file held -1"
file('negative', converted(scenes('M', (1e-6, 1e-6, 2e-6), 2, 1, [(0, 255, 0), (255, 0, 0)], [b'calcite', b'clay']), below=273), 'refused 9')
file('too-long', bytes(65537), 'too long')
file('longest', bytes(65536), 'refused 1')


def main():
    root = Path('files')
    root.mkdir(exist_ok=True)
    whole, said = b'', b''
    for name, (data, text) in FILES.items():
        (root / f'{name}.lsm').write_bytes(data)
        (root / f'{name}.txt').write_bytes(text)
        whole += struct.pack('<I', len(data)) + data
        said += text
    for crate, stdin, stdout in (('lsm_list', *FILES['g']), ('lsm_list_files', whole, said)):
        Path('crates', crate, 'stdin').write_bytes(stdin)
        Path('crates', crate, 'stdout').write_bytes(stdout)


if __name__ == '__main__':
    main()
