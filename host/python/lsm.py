"""Reads Zeiss LSM files, through the C interface of the proved reader (include/lsm.h).

>>> import lsm
>>> with lsm.open('files/weeks.lsm') as f:
...     print(f.dims, f.kind, f.scenes)
...     print(f.pixel_size)                         # in micrometres; None where the file states none
...     print([channel.name for channel in f.channels])
...     whole = f.plane(t=4, c=1)                   # scene and z are 0 where they aren't named
...     part = f.region(0, 4, 1, 0, 1, 0, 1, 1)     # scene, t, c, z, then x, y, w, h
Dims(t=5, c=2, z=2, y=1, x=2) U16 2
PixelSize(x=1.0, y=1.0, z=2.0)
['calcite', 'clay']
>>> print(whole.shape, whole[0, 1], part.shape, part[0, 0])
(1, 2) 256 (1, 1) 256

What the reader refuses is raised as a Refusal, with its number and values. A file that can't be read at all is Python's own OSError.

>>> with lsm.open('files/weeks.lsm') as f:
...     f.plane(c=2)
Traceback (most recent call last):
lsm.OutOfRange: nothing at scene 0, t 0, c 2, z 0

A picture is a numpy array of shape (h, w) where numpy is at hand, and otherwise a memoryview of that shape; samples[y, x] is a number in both. It
has memory of its own, so it lives on after the file is closed. An empty memoryview has its shape and nothing to ask for.

The file is mapped, not read: opening takes no memory for pictures that nobody asks for. So nobody may shorten it while it is open: the system ends
a program that reads a mapped page that is gone (SIGBUS).

Threads may share a file. A call lets the other threads of Python run. Closing the file waits for no call and takes nothing from one that runs.

Needs Linux on a little-endian machine of 64 bits, and the shared library, which tools/sharedlib makes. The first `open` loads it: the one that
LSM_LIBRARY names, or liblsm.so beside this file, or target/sharedlib/liblsm.so of the repository that this file stands in.
"""
import builtins
import ctypes
import errno
import mmap
import operator
import os
import stat
import sys
from collections.abc import Sequence
from typing import NamedTuple, Optional, Tuple

try:
    import numpy
except ImportError:
    numpy = None

if not (sys.platform == 'linux' and sys.byteorder == 'little' and ctypes.sizeof(ctypes.c_void_p) == 8):
    raise ImportError('lsm needs Linux on a little-endian machine of 64 bits')

__all__ = [
    'open', 'File', 'Dims', 'PixelSize', 'ZStep', 'Channel', 'LibraryMissing', 'Refusal', 'Parse', 'Decode', 'Unsupported', 'OversizedAllocation',
    'SceneOutOfRange', 'OutOfRange', 'TooShort', 'UnevenBits', 'NegativeValue',
]


# ---- refusals


class Refusal(Exception):
    """Why the reader refused. `number` is the C interface's, `values` a dict of what goes with it; each value is an attribute too."""

    number = 0
    # the names of its values, in the order of the C interface, and its sentence
    names = ()
    words = ''

    def __init__(self, *values):
        super().__init__(*values)
        self.values = dict(zip(self.names, values))
        vars(self).update(self.values)

    def __str__(self):
        return self.words.format(**self.values)


class Parse(Refusal):
    """1: the container is malformed."""

    number = 1
    words = 'malformed container'


class Decode(Refusal):
    """2: the bytes can't be the picture that they announce, or the rectangle passes the picture."""

    number = 2
    words = "the bytes can't be the picture that they announce"


class Unsupported(Refusal):
    """3: a sort of file that the reader doesn't take."""

    number = 3
    words = 'this sort of file is not supported'


class OversizedAllocation(Refusal):
    """4: a size above its limit, in bytes. A size that passes 64 bits asks for 2**64 - 1."""

    number = 4
    names = ('requested', 'cap')
    words = '{requested} bytes are above the limit of {cap}'


class SceneOutOfRange(Refusal):
    """5: the file has `count` scenes."""

    number = 5
    names = ('scene', 'count')
    words = 'no scene {scene} among {count}'


class OutOfRange(Refusal):
    """6: no such time point, channel, plane or page."""

    number = 6
    names = ('scene', 't', 'c', 'z')
    words = 'nothing at scene {scene}, t {t}, c {c}, z {z}'


class TooShort(Refusal):
    """7: this machine hasn't the memory for the answer: `needed` bytes of samples, or words of 8 bytes of the strip table."""

    number = 7
    names = ('needed',)
    words = 'lent memory is too short: {needed} needed'


class UnevenBits(Refusal):
    """8: BitsPerSample of a full page isn't one value, nor equal values, as many as there are channels."""

    number = 8
    words = "the channels' bits are uneven, or of another number than the channels"


class NegativeValue(Refusal):
    """9: an entry of a signed type has a negative value."""

    number = 9
    words = 'a value of an entry is negative'


_REFUSALS = {
    kind.number: kind
    for kind in (Parse, Decode, Unsupported, OversizedAllocation, SceneOutOfRange, OutOfRange, TooShort, UnevenBits, NegativeValue)
}


def _refusal(number, answer):
    """The refusal that a C function answered. A library whose answer is none isn't one to go on with."""
    kind = _REFUSALS.get(number)
    if kind is None or answer[0] != number or any(answer[1 + len(kind.names):]):
        return RuntimeError(f'the library returned {number} with {answer}, which is no refusal')
    return kind(*answer[1:1 + len(kind.names)])


# ---- the shared library


class LibraryMissing(OSError):
    """The shared library isn't there, or is no LSM reader."""


# What each function takes, in the order of include/lsm.h. All pointers are void here: what stands behind them is seen to below.
_POINTER, _WORD = ctypes.c_void_p, ctypes.c_size_t
_FILE, _LENT, _TABLE = (_POINTER, _WORD), (_POINTER, _WORD), (_POINTER, _WORD)
_FUNCTIONS = {
    'lsm_open': (*_FILE, *_LENT, _POINTER),
    'lsm_channel': (*_FILE, _POINTER, _WORD, *_LENT, _POINTER),
    'lsm_plane': (*_FILE, _POINTER, *_TABLE, *[_WORD] * 4, *_LENT, _POINTER),
    'lsm_region': (*_FILE, _POINTER, *_TABLE, *[_WORD] * 8, *_LENT, _POINTER),
}
# The words of an answer. Today's description has 19. Later versions add words at its end, so there is room for more, and a library gets all back that it
# gave.
_OPEN_WORDS, _CHANNEL_WORDS, _PICTURE_WORDS = 3 + 61, 8, 5
# No channel's name is longer.
_NAME_BYTES = 3072

_loaded = None


def _places():
    """Where the shared library may be, the first one first."""
    if os.environ.get('LSM_LIBRARY'):
        return [os.environ['LSM_LIBRARY']]
    here = os.path.dirname(os.path.realpath(__file__))
    return [os.path.join(here, 'liblsm.so'), os.path.normpath(os.path.join(here, '../../target/sharedlib/liblsm.so'))]


def _load():
    places = _places()
    path = next((p for p in places if os.path.exists(p)), None)
    if path is None:
        raise LibraryMissing(f"no shared library at {' or '.join(places)}: run tools/sharedlib, or name one in LSM_LIBRARY")
    try:
        # With its folder, so that a bare name in LSM_LIBRARY isn't looked for among the system's libraries.
        library = ctypes.CDLL(os.path.abspath(path))
        for name, arguments in _FUNCTIONS.items():
            function = getattr(library, name)
            function.argtypes, function.restype = arguments, _WORD
    except (OSError, AttributeError) as e:
        raise LibraryMissing(f'{path} is no library of this reader ({e}): tools/sharedlib makes one') from e
    return library


def _library():
    """The shared library, loaded by the first call."""
    global _loaded
    if _loaded is None:
        _loaded = _load()
    return _loaded


def _asked(function, words, *arguments):
    """All words that a C function answers. A refusal is raised."""
    room = (_WORD * words)()
    number = function(*arguments, room)
    answer = list(room)
    if number:
        raise _refusal(number, answer)
    return answer


def _lent(make, needed):
    """Memory to lend, of a length that a call has asked for. Where there is none, the call's refusal stands."""
    try:
        return make(needed)
    except (MemoryError, OverflowError, ValueError) as e:
        raise TooShort(needed) from e


def _bytes(n):
    """Memory for samples. numpy's isn't filled with zeros first."""
    return numpy.empty(n, 'u1') if numpy else bytearray(n)


def _table(n):
    """Memory for a strip table. There is an element also where none is lent, since the library takes no null pointer."""
    return (_WORD * max(n, 1))()


# ---- the mapped file


_C = ctypes.CDLL(None, use_errno=True)
_C.mmap.argtypes, _C.mmap.restype = (_POINTER, _WORD, ctypes.c_int, ctypes.c_int, ctypes.c_int, ctypes.c_long), _POINTER
_C.munmap.argtypes = (_POINTER, _WORD)
_MAP_FAILED = ctypes.c_void_p(-1).value


class _Mapping:
    """A file's bytes, mapped read-only, and unmapped when the last reference to this goes. A call holds a reference of its own, so that
    closing the file meanwhile takes nothing from under it.

    Python's own mmap tells the address of a mapping that may be written only, and a private one of those counts as memory to be had; so this
    asks the system itself.
    """

    # Kept here, since this may be unmapped when the module's names are gone already.
    _unmap = staticmethod(_C.munmap)
    # An empty file has nothing to map, and the library takes no null pointer.
    _nothing = _WORD()

    def __init__(self, path):
        self.size, self.address = 0, ctypes.addressof(self._nothing)
        path = os.fspath(path)
        with builtins.open(path, 'rb', buffering=0) as f:
            status = os.fstat(f.fileno())
            if not stat.S_ISREG(status.st_mode):
                raise OSError(errno.ENODEV, 'not a file that can be mapped', path)
            if status.st_size == 0:
                return
            address = _C.mmap(None, status.st_size, mmap.PROT_READ, mmap.MAP_PRIVATE, f.fileno(), 0)
        if address == _MAP_FAILED:
            number = ctypes.get_errno()
            raise OSError(number, os.strerror(number), path)
        self.size, self.address = status.st_size, address

    def __del__(self):
        if self.size:
            self._unmap(self.address, self.size)


# ---- what a file holds


class Dims(NamedTuple):
    """Time points, channels, depth, height and width; the same for every scene of a file."""

    t: int
    c: int
    z: int
    y: int
    x: int


class PixelSize(NamedTuple):
    """The size of a pixel in micrometres; z is None where no step is used."""

    x: float
    y: float
    z: Optional[float]


class ZStep(NamedTuple):
    """What became of the Z step that a file states. `state` is 'used', 'none', 'placeholder' (too small to be one, so not used) or 'too-large'
    (not used either); `value` is the step in micrometres, and None where there is none."""

    state: str
    value: Optional[float]


class Channel(NamedTuple):
    """What a file says of a channel; None where it says nothing. The colour is red, green and blue, 0 to 255."""

    name: Optional[str]
    color: Optional[Tuple[int, int, int]]


class _Kind(NamedTuple):
    """A kind of sample: its name, numpy's name of it, a memoryview's letter for it, its type in C."""

    name: str
    dtype: str
    format: str
    sample: type


_KINDS = (
    _Kind('U8', 'u1', 'B', ctypes.c_uint8),
    _Kind('U16', '<u2', 'H', ctypes.c_uint16),
    _Kind('I16', '<i2', 'h', ctypes.c_int16),
    _Kind('F32', '<f4', 'f', ctypes.c_float),
)
_STATES = ('used', 'none', 'placeholder', 'too-large')


def _float(word):
    """The 32-bit float whose bits a word is."""
    return ctypes.c_float.from_buffer(ctypes.c_uint32(word)).value


_NUMBERS = ('scene', 't', 'c', 'z', 'x', 'y', 'w', 'h')


def _words(*numbers):
    """Numbers as the C functions take them. ctypes would cut a negative one, or one above 64 bits, without a word."""
    words = [operator.index(n) for n in numbers]
    for name, n in zip(_NUMBERS, words):
        if not 0 <= n < 2**64:
            raise ValueError(f'{name} is {n}, not a number from 0 to 2**64 - 1')
    return words


class _Held(NamedTuple):
    """What a call needs of an open file. While a call has it the file stays mapped."""

    mapping: _Mapping
    # the description's words, and the strip table with its length
    description: ctypes.Array
    table: Tuple[ctypes.Array, int]

    def file(self):
        return self.mapping.address, self.mapping.size, self.description


class _Channels(Sequence):
    """The channels of an open file. Each is looked up when it is asked for, since a file may have 65,535 of them."""

    def __init__(self, file):
        self._file = file

    def __len__(self):
        return self._file.dims.c

    def __getitem__(self, index):
        at = range(len(self))[index]
        if isinstance(at, range):
            return [self._file._channel(c) for c in at]
        return self._file._channel(at)


class File:
    """An open LSM file. `open` makes one.

    dims         Dims of every scene
    scenes       how many scenes there are
    kind         'U8', 'U16', 'I16' or 'F32'
    dtype        numpy's dtype of the pictures; without numpy its name: 'u1', '<u2', '<i2' or '<f4'
    pixel_size   PixelSize, or None where the file states none
    z_step       ZStep
    channels     a sequence of Channel
    interleaved  whether the channels share their strips, pixel by pixel
    byte_order   'little' or 'big': the file's; pictures are little-endian
    directories  how many directories were visited, thumbnails among them
    """

    def __init__(self, path):
        self._library = _library()
        mapping = _Mapping(path)
        table, answer = self._opened(mapping)
        self.directories, words, description = answer[1], answer[2], answer[3:]
        self._describe(description)
        self._open = _Held(mapping, (_WORD * len(description))(*description), (table, words))

    def _opened(self, mapping):
        """The strip table, and the answer to opening. A call that lends nothing says how long the table is."""
        table = _table(0)
        try:
            return table, _asked(self._library.lsm_open, _OPEN_WORDS, mapping.address, mapping.size, table, 0)
        except TooShort as short:
            needed = short.needed
        table = _lent(_table, needed)
        return table, _asked(self._library.lsm_open, _OPEN_WORDS, mapping.address, mapping.size, table, needed)

    def _describe(self, w):
        """The description's words as attributes. include/lsm.h numbers them."""
        self.byte_order = ('little', 'big')[w[0]]
        self._kind = _KINDS[w[1]]
        self.kind = self._kind.name
        self.dtype = numpy.dtype(self._kind.dtype) if numpy else self._kind.dtype
        self.dims = Dims(*w[2:7])
        self.scenes = w[7]
        self.pixel_size, self.z_step = None, ZStep('none', None)
        if w[10]:
            state = _STATES[w[13]]
            self.z_step = ZStep(state, None if state == 'none' else _float(w[14]))
            self.pixel_size = PixelSize(_float(w[11]), _float(w[12]), self.z_step.value if state == 'used' else None)
        self.interleaved = bool(w[18])

    @property
    def channels(self):
        return _Channels(self)

    def plane(self, scene=0, t=0, c=0, z=0):
        """A whole picture: an array of shape (dims.y, dims.x)."""
        return self._picture(self._library.lsm_plane, _words(scene, t, c, z))

    def region(self, scene, t, c, z, x, y, w, h):
        """A rectangle of a picture, from column x and row y, w columns and h rows: an array of shape (h, w). It may be of a picture that is too
        large for `plane`, unless the channels are interleaved. w or h may be 0."""
        return self._picture(self._library.lsm_region, _words(scene, t, c, z, x, y, w, h))

    def close(self):
        """Lets go of the file. Pictures stay; another call raises ValueError."""
        self._open = None

    @property
    def closed(self):
        return self._open is None

    def __enter__(self):
        self._held()
        return self

    def __exit__(self, *_):
        self.close()

    def __reduce__(self):
        # A copy would have this process's address, and unmap it a second time.
        raise TypeError("an open LSM file can't be pickled or copied: open it again by its path")

    def _held(self):
        # Read once, since another thread may close the file at any moment.
        held = self._open
        if held is None:
            raise ValueError('the LSM file is closed')
        return held

    def _channel(self, c):
        held = self._held()
        name = (ctypes.c_uint8 * _NAME_BYTES)()
        answer = _asked(self._library.lsm_channel, _CHANNEL_WORDS, *held.file(), c, name, _NAME_BYTES)
        text = ctypes.string_at(name, answer[6]).decode() if answer[5] else None
        return Channel(text, tuple(answer[2:5]) if answer[1] else None)

    def _picture(self, function, at):
        """A plane or a rectangle. A call that lends nothing says how many bytes it has, and refuses what else there is to refuse: so no memory is
        taken for a picture that isn't there."""
        held = self._held()
        nothing = _WORD()
        try:
            answer = _asked(function, _PICTURE_WORDS, *held.file(), *held.table, *at, ctypes.byref(nothing), 0)
            return self._empty(answer[1], answer[2])
        except TooShort as short:
            needed = short.needed
        samples = _lent(_bytes, needed)
        first = ctypes.c_uint8.from_buffer(samples)
        _, height, width, _, _ = _asked(function, _PICTURE_WORDS, *held.file(), *held.table, *at, ctypes.byref(first), needed)
        if numpy:
            return samples.view(self._kind.dtype).reshape(height, width)
        return memoryview(samples).cast(self._kind.format, (height, width))

    def _empty(self, height, width):
        """A picture of no samples. memoryview.cast makes none, so without numpy it is that of a ctypes array."""
        if numpy:
            return numpy.empty((height, width), self._kind.dtype)
        return memoryview((self._kind.sample * width * height)())


def open(path):
    """Opens an LSM file and says what it holds. The File is its own context manager."""
    return File(path)
