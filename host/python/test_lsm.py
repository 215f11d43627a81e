"""Tests of lsm.py: python3 host/python/test_lsm.py

They need the shared library (tools/sharedlib, or LSM_LIBRARY). With numpy every test of pictures runs twice, with it and as if it weren't there. What is
left out is named with its reason.
"""
import contextlib
import copy
import ctypes
import doctest
import gc
import os
import pickle
import struct
import subprocess
import sys
import tempfile
import threading
import types
import unittest
from pathlib import Path
from unittest import mock

HERE = Path(__file__).resolve().parent
FILES = HERE.parent.parent / 'files'
sys.path.insert(0, str(HERE))
import lsm

try:
    import numpy
except ImportError:
    numpy = None
try:
    import tifffile
except ImportError:
    tifffile = None

KINDS = ('U8', 'U16', 'I16', 'F32')
# of each kind: struct's letter, bits, TIFF's SampleFormat, numpy's name
SAMPLES = {'U8': ('B', 8, 1, 'u1'), 'U16': ('H', 16, 1, '<u2'), 'I16': ('h', 16, 2, '<i2'), 'F32': ('f', 32, 3, '<f4')}


def setUpModule():
    try:
        lsm._library()
    except lsm.LibraryMissing as e:
        raise unittest.SkipTest(str(e))


# ---- made files


def sample(kind, page, c, y, x):
    """Some sample, another one for each place. All are exact in their kind, and their bytes differ."""
    n = 40503 * (page + 1) + 9973 * c + 771 * y + 263 * x
    return {'U8': n % 256, 'U16': n % 65536, 'I16': n % 65536 - 32768, 'F32': n % 65536 / 8 - 1000}[kind]


class Tiff:
    """A file that grows at its end: what stands out of line first, then the directory that names it."""

    def __init__(self, order):
        self.sign = {'little': '<', 'big': '>'}[order]
        self.data = bytearray({'little': b'II', 'big': b'MM'}[order] + self.pack('HI', 42, 0))
        self.link = 4

    def pack(self, form, *values):
        return struct.pack(self.sign + form, *values)

    def put(self, data):
        self.data += bytes(len(self.data) % 2)
        self.data += data
        return len(self.data) - len(data)

    def entry(self, tag, kind, *values):
        body = self.pack({1: 'B', 3: 'H', 4: 'I'}[kind] * len(values), *values)
        if len(body) > 4:
            body = self.pack('I', self.put(body))
        return self.pack('HHI', tag, kind, len(values)) + body.ljust(4, b'\0')

    def directory(self, *entries):
        at = self.put(self.pack('H', len(entries)) + b''.join(entries) + bytes(4))
        struct.pack_into(self.sign + 'I', self.data, self.link, at)
        self.link = len(self.data) - 4


class Scan:
    """A made LSM file. Its pages follow one another by z, then t, then scene. `data` are its bytes."""

    def __init__(self, order='little', kind='U16', x=5, y=3, c=1, z=1, t=1, scenes=1, interleaved=False, strips=1, thumbnails=False):
        self.order, self.kind, self.interleaved, self.strips, self.scenes = order, kind, interleaved, strips, scenes
        self.dims = lsm.Dims(t, c, z, y, x)
        self.tiff = Tiff(order)
        block = self.tiff.put(self.cz_block())
        for page in range(scenes * t * z):
            self.page(page, block)
            if thumbnails:
                self.tiff.directory(*[self.tiff.entry(tag, 3, n) for tag, n in ((254, 1), (256, 1), (257, 1), (258, 8), (273, 8), (279, 1))])
        self.data = bytes(self.tiff.data)

    def cz_block(self):
        d = self.dims
        head = self.tiff.pack('IIIIIII', 0x0400494C, 272, d.x, d.y, d.z, d.c, d.t).ljust(40, b'\0')
        return (head + self.tiff.pack('ddd', 5e-7, 2.5e-7, 2e-6)).ljust(264, b'\0') + self.tiff.pack('II', self.scenes, 1)

    def strip_bytes(self, page):
        """The page's strips, which may end anywhere: those of channel 0, then those of channel 1 .. or, where they share them, those of all."""
        d, letter = self.dims, SAMPLES[self.kind][0]
        if self.interleaved:
            groups = [[(c, y, x) for y in range(d.y) for x in range(d.x) for c in range(d.c)]]
        else:
            groups = [[(c, y, x) for y in range(d.y) for x in range(d.x)] for c in range(d.c)]
        for group in groups:
            samples = self.tiff.pack(letter * len(group), *[sample(self.kind, page, *at) for at in group])
            step = len(samples) // self.strips
            yield from [samples[n * step : (n + 1) * step if n + 1 < self.strips else None] for n in range(self.strips)]

    def page(self, page, block):
        tiff, d, (_, bits, form, _) = self.tiff, self.dims, SAMPLES[self.kind]
        strips = [(tiff.put(s), len(s)) for s in self.strip_bytes(page)]
        tiff.directory(
            tiff.entry(254, 4, 0), tiff.entry(256, 4, d.x), tiff.entry(257, 4, d.y), tiff.entry(258, 3, *[bits] * d.c), tiff.entry(259, 3, 1),
            tiff.entry(262, 3, 1), tiff.entry(273, 4, *[at for at, _ in strips]), tiff.entry(277, 3, d.c), tiff.entry(278, 4, d.y),
            tiff.entry(279, 4, *[n for _, n in strips]), tiff.entry(284, 3, 1 if self.interleaved else 2), tiff.entry(339, 3, form),
            tiff.pack('HHII', 34412, 1, 272, block),
        )

    def rows(self, scene=0, t=0, c=0, z=0):
        page = (scene * self.dims.t + t) * self.dims.z + z
        return [[sample(self.kind, page, c, y, x) for x in range(self.dims.x)] for y in range(self.dims.y)]

    def places(self):
        d = self.dims
        return [(s, t, c, z) for s in range(self.scenes) for t in range(d.t) for c in range(d.c) for z in range(d.z)]


def page(x, y, offsets, lengths, bits=8, after=b''):
    """A file of one page of x by y samples, with any strips. `after` stands at byte 36."""
    tiff = Tiff('little')
    block = tiff.put(tiff.pack('IIIIIII', 0x0400494C, 28, x, y, 1, 1, 1))
    tiff.put(after)
    numbers = ((256, [x]), (257, [y]), (258, [bits]), (273, offsets), (279, lengths))
    tiff.directory(*[tiff.entry(tag, 4, *n) for tag, n in numbers], tiff.pack('HHII', 34412, 1, 28, block))
    return bytes(tiff.data)


class Folder(unittest.TestCase):
    """A test with a folder for made files."""

    def setUp(self):
        folder = tempfile.TemporaryDirectory()
        self.addCleanup(folder.cleanup)
        self.folder = Path(folder.name)

    def put(self, data, name='made.lsm'):
        path = self.folder / name
        path.write_bytes(data)
        return path

    @contextlib.contextmanager
    def refused(self, kind, *values):
        """A context in which exactly this refusal is wanted."""
        with self.assertRaises(lsm.Refusal) as caught:
            yield
        self.assertIs(type(caught.exception), kind)
        self.assertEqual(caught.exception.values, dict(zip(kind.names, values)))


# ---- the module's own example, and the stored files


class Example(unittest.TestCase):
    def test_example(self):
        here = os.getcwd()
        self.addCleanup(os.chdir, here)
        os.chdir(FILES.parent)
        for module in {None, numpy}:
            with mock.patch.object(lsm, 'numpy', module):
                self.assertEqual(doctest.testmod(lsm)[0], 0)


def printout(f):
    """What the lister prints of a file, but for its lines of images and its note's figure."""

    def bits(value):
        return '-' if value is None else struct.pack('>f', value).hex()

    def channel(c):
        color = '-' if c.color is None else bytes(c.color).hex()
        return f"{color} {'-' if c.name is None else '=' + c.name.encode().hex()}"

    note = f.z_step.state in ('placeholder', 'too-large')
    return [
        'accepted', 'dims ' + ' '.join(map(str, f.dims)), f'kind {KINDS.index(f.kind)}', 'pixel ' + ' '.join(map(bits, f.pixel_size or (None,) * 3)),
        f'scenes {f.scenes}', f'channels {len(f.channels)}', *map(channel, f.channels), f'notes {note:d}', *[f.z_step.state] * note,
    ]


class StoredFiles(Folder):
    def one(self, path, said):
        if said[0].startswith('refused') and not said[0].startswith('refused 7'):
            with self.assertRaises(lsm.Refusal) as caught:
                lsm.open(path)
            self.assertEqual(f'refused {caught.exception.number}', said[0])
            return
        with lsm.open(path) as f:
            if said[0] == 'accepted':
                wanted = [line for line in said if not line.startswith('image')]
                if wanted[-2] == 'notes 1':
                    wanted[-1], figure = wanted[-1].split()
                    self.assertAlmostEqual(f.z_step.value / float(figure), 1, delta=0.05)
                self.assertEqual(printout(f), wanted)
            else:
                # The lister's table is too short for this file. Here it has the length that the refusal says.
                self.assertEqual(f'refused 7 {f._open.table[1]}', said[0])

    def test_every_file_is_what_its_printout_says(self):
        paths = sorted(FILES.glob('*.lsm'))
        self.assertGreater(len(paths), 20)
        for path in paths:
            said = path.with_suffix('.txt').read_text().splitlines()
            with self.subTest(path.name):
                if said == ['too long']:
                    with self.refused(lsm.Parse):
                        lsm.open(path)
                else:
                    self.one(path, said)

    def test_the_table_is_as_long_as_it_must_be(self):
        with lsm.open(FILES / 'year.lsm') as f:
            self.assertEqual((f.dims, f.directories), (lsm.Dims(52, 20, 2, 1, 2), 104))
            self.assertEqual(f.plane(t=51, c=19, z=1).shape, (1, 2))

    def test_attributes(self):
        with lsm.open(FILES / 'weeks.lsm') as f:
            self.assertEqual((f.dims.t, f.scenes, f.kind, f.byte_order, f.interleaved, f.directories), (5, 2, 'U16', 'little', False, 20))
            self.assertEqual((f.pixel_size, f.z_step), ((1.0, 1.0, 2.0), ('used', 2.0)))
            self.assertEqual(f.channels[1], ('clay', (255, 0, 0)))
            self.assertEqual([c.name for c in f.channels], ['calcite', 'clay'])
            self.assertEqual((f.channels[-1].name, f.channels[:1]), ('clay', [('calcite', (0, 255, 0))]))
            with self.assertRaises(IndexError):
                f.channels[2]
        with lsm.open(FILES / 'scenes.lsm') as f:
            self.assertEqual((f.pixel_size, f.z_step.state), ((0.5, 0.25, None), 'placeholder'))
        with lsm.open(FILES / 'g-big-endian.lsm') as f:
            self.assertEqual((f.byte_order, f.pixel_size, f.z_step, f.channels[0]), ('big', None, ('none', None), (None, None)))


# ---- pictures, with numpy and without


class Pictures:
    numpy = None

    def setUp(self):
        super().setUp()
        patch = mock.patch.object(lsm, 'numpy', self.numpy)
        patch.start()
        self.addCleanup(patch.stop)

    def same(self, samples, rows, kind, shape=None):
        shape = shape or (len(rows), len(rows[0]))
        self.assertEqual(samples.shape, shape)
        if self.numpy:
            self.assertEqual(samples.dtype, numpy.dtype(SAMPLES[kind][3]))
        else:
            self.assertEqual(samples.format.lstrip('<'), SAMPLES[kind][0])
        if 0 not in shape:
            self.assertEqual(samples.tolist(), rows)

    def regions(self, f, scan, at):
        """Every rectangle of the picture, empty ones too, holds what the picture holds there."""
        d, rows = scan.dims, scan.rows(*at)
        for y in range(d.y + 1):
            for h in range(d.y - y + 1):
                for x in range(0, d.x + 1):
                    for w in range(d.x - x + 1):
                        self.same(f.region(*at, x, y, w, h), [row[x : x + w] for row in rows[y : y + h]], scan.kind, (h, w))

    def both_ways(self, scan):
        with lsm.open(self.put(scan.data)) as f:
            self.assertEqual((f.dims, f.scenes, f.kind), (scan.dims, scan.scenes, scan.kind))
            self.assertEqual((f.byte_order, f.interleaved), (scan.order, scan.interleaved))
            self.assertEqual(f.dtype, SAMPLES[scan.kind][3])
            for at in scan.places():
                self.same(f.plane(*at), scan.rows(*at), scan.kind)
            self.regions(f, scan, at)

    def test_kinds_orders_and_channels(self):
        for order in ('little', 'big'):
            for kind in KINDS:
                for c, interleaved in ((1, False), (3, False), (3, True)):
                    for strips in (1, 7):
                        with self.subTest(order=order, kind=kind, c=c, interleaved=interleaved, strips=strips):
                            self.both_ways(Scan(order, kind, c=c, interleaved=interleaved, strips=strips))

    def test_scenes_times_and_depths(self):
        self.both_ways(Scan(c=2, z=3, t=2, scenes=2))
        self.both_ways(Scan('big', 'I16', c=2, z=2, t=3, scenes=2, interleaved=True, thumbnails=True))

    def test_what_is_not_named_is_0(self):
        scan = Scan(c=2, z=2, t=2)
        with lsm.open(self.put(scan.data)) as f:
            self.same(f.plane(), scan.rows(), 'U16')
            self.same(f.plane(t=1, c=1), scan.rows(0, 1, 1, 0), 'U16')

    def test_pictures_outlive_the_file(self):
        scan = Scan(y=200, x=300)
        path = self.put(scan.data)
        f = lsm.open(path)
        whole, part = f.plane(), f.region(0, 0, 0, 0, 10, 20, 30, 40)
        f.close()
        path.write_bytes(bytes(len(scan.data)))
        path.unlink()
        del f
        gc.collect()
        self.same(whole, scan.rows(), 'U16')
        self.same(part, [row[10:40] for row in scan.rows()[20:60]], 'U16')

    def test_pictures_have_memory_of_their_own(self):
        scan = Scan()
        with lsm.open(self.put(scan.data)) as f:
            one, two = f.plane(), f.plane()
            one[0, 0] = 1
            self.same(two, scan.rows(), 'U16')
            self.assertEqual(one[0, 0], 1)

    def test_a_rectangle_of_a_picture_that_is_too_large(self):
        # A strip for each row, all of the same bytes: 4 GiB and a row.
        row = bytes(n * 31 % 251 for n in range(65536))
        with lsm.open(self.put(page(65536, 65537, [36] * 65537, [65536] * 65537, after=row))) as f:
            with self.refused(lsm.OversizedAllocation, 65536 * 65537, 2**32):
                f.plane()
            self.same(f.region(0, 0, 0, 0, 65530, 65535, 6, 2), [list(row[65530:])] * 2, 'U8')

    def test_no_memory(self):
        with lsm.open(FILES / 'weeks.lsm') as f:
            with mock.patch.object(lsm, '_bytes', side_effect=MemoryError), self.refused(lsm.TooShort, 4):
                f.plane()
        with mock.patch.object(lsm, '_table', side_effect=[lsm._table(0), MemoryError]), self.refused(lsm.TooShort, 80):
            lsm.open(FILES / 'weeks.lsm')
        for make in (lsm._bytes, lsm._table):
            for needed in (2**62, 2**64 - 1):
                with self.subTest(make=make, needed=needed), self.refused(lsm.TooShort, needed):
                    lsm._lent(make, needed)


@unittest.skipUnless(numpy, f'{sys.executable} has no numpy: pictures are looked at as memoryviews alone')
class WithNumpy(Pictures, Folder):
    numpy = numpy

    def test_numpy_numbers(self):
        scan = Scan(c=2, z=2, t=2)
        with lsm.open(self.put(scan.data)) as f:
            self.same(f.plane(numpy.uint8(0), numpy.int64(1), numpy.intp(1), numpy.uint64(1)), scan.rows(0, 1, 1, 1), 'U16')
            with self.assertRaises(TypeError):
                f.plane(c=numpy.float64(1))
            with self.assertRaises(ValueError):
                f.plane(c=numpy.int8(-1))

    def test_arrays_are_writable_and_whole(self):
        with lsm.open(self.put(Scan().data)) as f:
            a = f.plane()
            self.assertTrue(a.flags.c_contiguous and a.flags.writeable and a.flags.aligned)
            self.assertIsInstance(f.dtype, numpy.dtype)

    # tifffile takes every second directory for a thumbnail, and two values of BitsPerSample for an old writer's fault: so with thumbnails, and with
    # three channels.
    @unittest.skipUnless(tifffile, f'{sys.executable} has no tifffile to judge by')
    def test_tifffile_reads_the_same(self):
        for kind in KINDS:
            scan = Scan('little', kind, x=7, y=4, c=3, z=3, t=2, scenes=2, thumbnails=True)
            path = self.put(scan.data)
            with lsm.open(path) as f, self.subTest(kind=kind):
                d = f.dims
                ours = [[[[f.plane(s, t, c, z).tolist() for c in range(d.c)] for z in range(d.z)] for t in range(d.t)] for s in range(f.scenes)]
                self.assertEqual(tifffile.imread(path).tolist(), ours)

    # tifffile reads the CZ block as little-endian, and knows no interleaved LSM: page by page it takes all of them.
    @unittest.skipUnless(tifffile, f'{sys.executable} has no tifffile to judge by')
    def test_tifffile_reads_the_same_pages(self):
        for kind in KINDS:
            for order in ('little', 'big'):
                for interleaved in (False, True):
                    scan = Scan(order, kind, x=7, y=4, c=3, z=2, interleaved=interleaved, thumbnails=True)
                    path = self.put(scan.data)
                    with lsm.open(path) as f, tifffile.TiffFile(path) as theirs, self.subTest(kind=kind, order=order, interleaved=interleaved):
                        for z in range(2):
                            page = theirs.pages[2 * z].asarray()
                            for c in range(3):
                                self.assertEqual(f.plane(c=c, z=z).tolist(), (page[..., c] if interleaved else page[c]).tolist())


class WithoutNumpy(Pictures, Folder):
    def test_the_module_does_without_numpy(self):
        script = "import sys; sys.modules['numpy'] = None; import lsm; print(lsm.numpy, lsm.open(sys.argv[1]).plane().tolist())"
        said = subprocess.run([sys.executable, '-c', script, FILES / 'g.lsm'], cwd=HERE, capture_output=True, text=True, check=True)
        self.assertEqual(said.stdout, 'None [[7, 9]]\n')


# ---- refusals and wrong calls


class Refusals(Folder):
    def test_opening(self):
        for name, kind in (('empty', lsm.Parse), ('size-27', lsm.Decode), ('bits-uneven', lsm.UnevenBits), ('negative', lsm.NegativeValue)):
            with self.subTest(name), self.refused(kind):
                lsm.open(FILES / f'{name}.lsm')
        with self.refused(lsm.Unsupported):
            lsm.open(self.put(page(2, 1, [8], [2], bits=7)))

    def test_pictures(self):
        with lsm.open(FILES / 'weeks.lsm') as f:
            for numbers, wanted in (
                ((2, 0, 0, 0), (lsm.SceneOutOfRange, 2, 2)),
                ((2**64 - 1, 9, 9, 9), (lsm.SceneOutOfRange, 2**64 - 1, 2)),
                ((1, 5, 0, 0), (lsm.OutOfRange, 1, 5, 0, 0)),
                ((1, 4, 2, 1), (lsm.OutOfRange, 1, 4, 2, 1)),
                ((0, 0, 0, 2**64 - 1), (lsm.OutOfRange, 0, 0, 0, 2**64 - 1)),
            ):
                with self.subTest(numbers):
                    with self.refused(*wanted):
                        f.plane(*numbers)
                    with self.refused(*wanted):
                        f.region(*numbers, 0, 0, 1, 1)
            for rectangle in ((0, 0, 3, 1), (2, 0, 1, 1), (0, 1, 1, 1), (2**64 - 1, 0, 2, 1), (3, 0, 0, 0)):
                with self.subTest(rectangle), self.refused(lsm.Decode):
                    f.region(0, 0, 0, 0, *rectangle)

    def test_numbers_that_are_none(self):
        with lsm.open(FILES / 'weeks.lsm') as f:
            for wrong, kind in ((-1, ValueError), (2**64, ValueError), (-2**64, ValueError), (0.0, TypeError), ('0', TypeError), (None, TypeError)):
                for place in range(8):
                    numbers = [0] * 8
                    numbers[place] = wrong
                    with self.subTest(numbers), self.assertRaises(kind):
                        f.region(*numbers)
                    if place < 4:
                        with self.subTest(numbers), self.assertRaises(kind):
                            f.plane(*numbers[:4])
            with self.assertRaisesRegex(ValueError, 'z is -1'):
                f.plane(z=-1)

    def test_what_a_refusal_says(self):
        e = lsm.OversizedAllocation(9, 8)
        self.assertEqual((e.number, e.requested, e.cap, str(e)), (4, 9, 8, '9 bytes are above the limit of 8'))
        self.assertEqual(str(lsm.OutOfRange(1, 2, 3, 4)), 'nothing at scene 1, t 2, c 3, z 4')
        self.assertEqual(str(lsm.SceneOutOfRange(5, 2)), 'no scene 5 among 2')
        self.assertEqual(str(lsm.TooShort(7)), 'lent memory is too short: 7 needed')
        kinds = lsm.Refusal.__subclasses__()
        self.assertEqual(sorted(k.number for k in kinds), list(range(1, 10)))
        for kind in kinds:
            e = kind(*range(len(kind.names)))
            again = pickle.loads(pickle.dumps(e))
            self.assertEqual((type(again), again.values, str(again)), (kind, e.values, str(e)))
            self.assertIn(kind.__name__, lsm.__all__)

    def test_an_answer_that_is_no_refusal(self):
        for number, words in ((10, [10, 0, 0, 0, 0]), (2**64 - 1, [2**64 - 1, 0, 0, 0, 0]), (3, [2, 0, 0, 0, 0]), (3, [3, 1, 0, 0, 0])):
            def wrong(room):
                room[:] = words
                return number

            with self.subTest(words), self.assertRaisesRegex(RuntimeError, 'no refusal'):
                lsm._asked(wrong, 5)

    def test_an_open_file_descriptor_is_no_path(self):
        with open(FILES / 'g.lsm', 'rb') as f:
            with self.assertRaises(TypeError):
                lsm.open(f.fileno())
            f.seek(0)

    def test_what_can_not_be_opened(self):
        for path, kind in ((FILES, IsADirectoryError), (FILES / 'nothing.lsm', FileNotFoundError), ('/dev/zero', OSError)):
            with self.subTest(path), self.assertRaises(kind) as caught:
                lsm.open(path)
            self.assertEqual(str(caught.exception.filename), str(path))


class TheLibrary(Folder):
    def opening(self, library):
        """What opening says in another process, where LSM_LIBRARY names that file."""
        script = 'import lsm, sys\ntry: lsm.open(sys.argv[1])\nexcept lsm.LibraryMissing as e: print(e)'
        environment = {**os.environ, 'LSM_LIBRARY': str(library)}
        command = [sys.executable, '-c', script, FILES / 'g.lsm']
        return subprocess.run(command, cwd=HERE, env=environment, capture_output=True, text=True, check=True).stdout

    def test_a_library_that_is_not_there(self):
        self.assertIn('run tools/sharedlib', self.opening(self.folder / 'liblsm.so'))

    def test_a_file_that_is_no_library(self):
        self.assertIn('tools/sharedlib makes one', self.opening(self.put(b'no library', 'liblsm.so')))

    def test_another_library(self):
        libc = next(line.split()[-1] for line in Path('/proc/self/maps').read_text().splitlines() if '/libc' in line)
        self.assertIn('no library of this reader', self.opening(libc))

    def test_calls_let_other_threads_run(self):
        self.assertNotIsInstance(lsm._library(), ctypes.PyDLL)


# ---- the mapping


def mapped(path):
    return str(path) in Path('/proc/self/maps').read_text()


class Mapped(Folder):
    def test_closing(self):
        path = self.put(Scan().data)
        with lsm.open(path) as f:
            channels = f.channels
            self.assertTrue(mapped(path) and not f.closed)
        self.assertTrue(f.closed and not mapped(path))
        f.close()
        self.assertEqual((f.dims.x, len(channels)), (5, 1))
        for call in (f.plane, lambda: f.region(0, 0, 0, 0, 0, 0, 1, 1), lambda: channels[0], f.__enter__):
            with self.assertRaisesRegex(ValueError, 'closed'):
                call()

    def test_the_last_reference_unmaps(self):
        path = self.put(Scan().data)
        gc.disable()
        self.addCleanup(gc.enable)
        f = lsm.open(path)
        del f
        self.assertFalse(mapped(path))
        with self.assertRaises(lsm.Refusal):
            lsm.open(self.put(b'II' + bytes(5000)))
        self.assertFalse(mapped(path))

    def test_a_call_keeps_the_file_while_it_runs(self):
        scan = Scan()
        path = self.put(scan.data)
        f = lsm.open(path)
        real = f._library.lsm_plane

        def closes_first(*arguments):
            f.close()
            self.assertTrue(mapped(path))
            return real(*arguments)

        f._library = types.SimpleNamespace(lsm_plane=closes_first)
        self.assertEqual(f.plane().tolist(), scan.rows())
        self.assertTrue(f.closed and not mapped(path))

    def test_an_open_file_is_not_copied(self):
        with lsm.open(self.put(Scan().data)) as f:
            for copied in (pickle.dumps, copy.copy, copy.deepcopy):
                with self.assertRaisesRegex(TypeError, 'open it again'):
                    copied(f)

    def test_threads(self):
        scan = Scan(kind='F32', x=40, y=30, c=2, z=3, t=4, interleaved=True)
        wanted = {at: scan.rows(*at) for at in scan.places()}
        wrong = []

        def work(f, n):
            for at in (scan.places() * 3)[n:]:
                try:
                    if f.plane(*at).tolist() != wanted[at]:
                        wrong.append(at)
                except ValueError:
                    return

        for close in (False, True):
            f = lsm.open(self.put(scan.data))
            threads = [threading.Thread(target=work, args=(f, n)) for n in range(8)]
            for thread in threads:
                thread.start()
            if close:
                f.close()
            for thread in threads:
                thread.join()
            f.close()
        self.assertEqual(wrong, [])

    def test_a_large_file_is_mapped_not_read(self):
        path = self.put(page(20000, 15000, [1000], [300_000_000]))
        os.truncate(path, 1000 + 300_000_000)
        # VmHWM, since a process begins with its parent's ru_maxrss.
        script = '''if True:
            import lsm, sys
            def peak():
                return next(int(line.split()[1]) for line in open('/proc/self/status') if line.startswith('VmHWM'))
            lsm.open('FILES/g.lsm').plane()
            before = peak()
            f = lsm.open(sys.argv[1])
            opened = peak()
            f.region(0, 0, 0, 0, 9000, 9000, 512, 512)
            print(opened - before, peak() - opened)
        '''.replace('FILES', str(FILES))
        said = subprocess.run([sys.executable, '-c', script, path], cwd=HERE, capture_output=True, text=True, check=True)
        opening, region = map(int, said.stdout.split())
        self.assertLess(opening, 4096)
        self.assertLess(region, 65536)


def main():
    done = unittest.main(exit=False).result
    for reason in sorted({reason for _, reason in done.skipped}):
        print(f'left out: {reason}', file=sys.stderr)
    sys.exit(not done.wasSuccessful())


if __name__ == '__main__':
    main()
