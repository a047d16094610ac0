"""Traces from a seed, aimed at edges. An episode is a list of lines on one pool; a line is a tuple of its name and its fields, or ("raw", text).

The generator keeps document 01's pool beside the trace (model.py), to aim at leaves that are there.
"""

import itertools
import random

import model
from model import END, HALF, M64, PAGE, SIZES, TOP, UPPER, span

GIB = 1 << 30
EDGES = (0, GIB, 4 * GIB, 512 * GIB - GIB, 512 * GIB, HALF - GIB, HALF, UPPER - GIB, UPPER, UPPER + GIB, TOP - GIB, TOP, (1 << 64) - GIB)
OFFSETS = (0, 0x1000, 0x2000, 0x1FF000, 0x200000, 0x201000, 0x3FF000, 0x400000, 0x3FE00000, 0x3FFFF000)
BITS = (0, 0, 1, 1, 2, 3, 4, 5, 6, 7, 7, 8, 9, 9, 10, 11, 12, 13, 20, 21, 29, 30, 47, 51, 52, 58, 62, 63, 63)
INDEXES = (0, 0, 1, 2, 255, 256, 510, 511)
CALLS = ("map", "map", "map", "unmap", "update", "query", "query", "map_cont", "map_cont", "unmap_cont", "unmap_cont", "unmap_cont")


def text(line):
    """A line as it stands in a trace."""
    if line[0] == "raw":
        return line[1]
    return " ".join([line[0]] + ["-" if f is None else "%x" % f for f in line[1:]])


class Episode:
    def __init__(self, rng, calls):
        self.rng, self.calls = rng, calls
        self.anchors = [rng.choice(EDGES) for _ in range(rng.choice((1, 2, 3)))]
        self.spots = []
        self.lines = []

    # Arguments

    def size(self):
        return self.rng.choice((SIZES[0], SIZES[0], SIZES[0], SIZES[1], SIZES[1], SIZES[2]))

    def flags(self):
        rng = self.rng
        if rng.random() < 0.12:
            return rng.choice((0, 0, 32, 64, 96))
        flags = 0
        for bit in (4, 8, 16, 32, 64):
            if rng.random() < 0.45:
                flags |= bit
        if rng.random() < 0.03:
            flags |= 1 << rng.choice((0, 1, 7, 8, 9, 31, 32, 63))
        return flags

    def vaddr(self):
        rng = self.rng
        where = rng.random()
        if self.spots and where < 0.5:
            start, size = rng.choice(self.spots)
            vaddr = start + rng.choice((0, 0, 0, PAGE, size // 2, size - PAGE, size, -PAGE, size - 1, 0x200000, size - 0x200000))
        elif where < 0.97:
            vaddr = rng.choice(self.anchors) + rng.choice(OFFSETS)
        else:
            vaddr = rng.getrandbits(64)
        if rng.random() < 0.06:
            vaddr += rng.choice((1, 0x800, 0xFFF, -1))
        return vaddr & M64

    def aligned(self, size):
        vaddr = self.vaddr()
        return vaddr if self.rng.random() < 0.08 else vaddr // size * size

    def paddr(self, size):
        rng = self.rng
        where = rng.random()
        if where < 0.15:
            paddr = 0
        elif where < 0.7:
            paddr = rng.randrange(64) * size
        elif where < 0.8:
            paddr = self.pool.base // size * size
        elif where < 0.9:
            paddr = END - size - rng.randrange(3) * size
        elif where < 0.95:
            paddr = rng.choice((END - size, END, END + size, 2 * END, M64 - size + 1, M64, END - PAGE)) + rng.choice((0, 1, -1, PAGE))
        else:
            paddr = rng.getrandbits(52)
        if rng.random() < 0.05:
            paddr += rng.choice((1, 0x800, PAGE))
        return paddr & M64

    def length(self, vaddr):
        rng = self.rng
        where = rng.random()
        if where < 0.5:
            size = PAGE * rng.choice((1, 1, 2, 3, 8))
        elif where < 0.75:
            size = rng.choice((0x1FF000, 0x200000, 0x201000, 0x400000, 0x600000, 0x3FE00000, GIB, GIB + PAGE, 2 * GIB))
        elif where < 0.9 and self.spots:
            start, size = rng.choice(self.spots)
            size = (start + size + rng.choice((0, PAGE, -PAGE)) - vaddr) & M64
            if size > 8 * GIB:
                size = 2 * PAGE
        elif where < 0.93:
            size = 0
        elif where < 0.96:
            size = (rng.choice((HALF, TOP, 1 << 64)) - vaddr) & M64
        else:
            size = rng.choice((HALF, 1 << 40, M64 - PAGE + 1, rng.getrandbits(64)))
        if rng.random() < 0.03:
            size = (size + rng.choice((1, 0x800))) & M64
        return size

    def call(self):
        name = self.rng.choice(self.calls)
        if name == "map":
            size = self.size()
            return name, self.aligned(size), size, self.paddr(size), self.flags()
        if name == "update":
            size = self.size()
            paddr = None if self.rng.random() < 0.4 else self.paddr(size)
            return name, self.vaddr(), paddr, None if self.rng.random() < 0.3 else self.flags()
        if name == "map_cont":
            vaddr = self.aligned(self.size())
            size = self.length(vaddr)
            paddr = self.paddr(self.size())
            if self.rng.random() < 0.5:
                # so that large pages fit
                paddr = (paddr // GIB * GIB + vaddr % GIB) & M64
            return name, vaddr, size, paddr, self.flags() | (64 if self.rng.random() < 0.5 else 0)
        if name == "unmap_cont":
            vaddr = self.aligned(PAGE)
            return name, vaddr, self.length(vaddr)
        return name, self.vaddr()

    # Lines

    def add(self, *line):
        """Appends a line and follows it."""
        self.lines.append(line)
        name = line[0]
        if name == "new":
            self.pool = model.Pool(*line[1:])
        elif name == "word":
            self.pool.set(line[1], line[2])
            self.pool.formed = None
        elif name in model.CALLS:
            refusal, values, why = model.call(self.pool, line)
            if refusal == 0 and name == "map":
                self.spots.append((line[1], line[2]))
            elif refusal == 0 and name == "map_cont" and line[2]:
                self.spots.append((line[1], line[2]))
        self.pool.log.clear()

    def step(self, n):
        self.add(*self.call())
        self.add("sum")
        if n % 8 == 7:
            self.add("dump")

    def steps(self, many):
        for n in range(many):
            self.step(n)
        self.add("dump")

    def shape(self):
        rng = self.rng
        frames = rng.randint(1, 12) if rng.random() < 0.97 else 64
        base = rng.choice((0x100000, 0x100000, 0, PAGE, 0x200000, GIB, END - PAGE * frames))
        return base, frames

    def fresh(self):
        """A fresh pool."""
        base, frames = self.shape()
        self.add("new", base, frames, 1)
        self.litter()
        self.steps(self.rng.randint(8, 40))

    def litter(self):
        """Words in frames that are not taken; most often none."""
        rng = self.rng
        for frame in range(self.pool.used, min(self.pool.frames, self.pool.used + rng.choice((0, 0, 0, 4)))):
            for k in (0, 511, rng.randrange(512)):
                self.add("word", frame * 512 + k, rng.choice((rng.getrandbits(64), self.pool.base | 7)))

    def mark(self, word):
        return word | self.rng.choice((0, 0, 0, 0x20, 0x40, 0x60))

    def ready(self):
        """A pool with ready-made tables, in any order of its frames, and ready-made leaves. Free frames hold anything."""
        rng = self.rng
        base, frames = self.shape()
        used = rng.randint(1, frames)
        self.add("new", base, frames, used)
        order = list(range(1, used))
        rng.shuffle(order)
        # level, frame, address of its first byte
        tables = [(3, 0, 0)]
        for frame in order:
            level, parent, start = rng.choice([t for t in tables if t[0] > 0])
            k = self.free_index(parent)
            if k is None:
                return self.fresh()
            self.add("word", parent * 512 + k, self.mark(base + PAGE * frame | 7))
            tables.append((level - 1, frame, start + k * span(level)))
        lower = [t for t in tables if t[0] < 3]
        for _ in range(rng.randint(0, 2 * len(lower))):
            level, frame, start = rng.choice(lower)
            k = self.free_index(frame)
            if k is None:
                continue
            size = span(level)
            paddr = self.paddr(size) % END // size * size
            self.add("word", frame * 512 + k, self.mark(model.leaf(paddr, self.flags(), level)))
            vaddr = start + k * size
            self.spots.append((vaddr | (0xFFFF << 48 if vaddr >= HALF else 0), size))
        self.litter()
        self.steps(rng.randint(5, 30))

    def free_index(self, frame):
        for _ in range(8):
            k = self.rng.choice(INDEXES)
            if frame * 512 + k not in self.pool.words:
                return k
        return None

    def damaged(self):
        """A good pool, damaged in one word, used, and mended, some times over."""
        self.ready()
        rng, pool = self.rng, self.pool
        for n in range(rng.randint(4, 12)):
            at, word = self.damage()
            old = pool.words.get(at, 0)
            self.add("word", at, word)
            self.step(n)
            if pool.formed is False:
                self.add("word", at, old)
            self.step(n)

    def damage(self):
        """A place and a word that hardly belongs there."""
        rng, pool = self.rng, self.pool
        kind = rng.random()
        if pool.words and kind < 0.35:
            at = rng.choice(sorted(pool.words))
            return at, pool.words[at] ^ 1 << rng.choice(BITS)
        if pool.words and kind < 0.4:
            return rng.choice(sorted(pool.words)), 0
        at = rng.randrange(pool.used) * 512 + rng.choice(INDEXES)
        if kind < 0.6:
            return at, pool.base + PAGE * rng.randint(-1, pool.frames) & M64 | 7
        if kind < 0.65:
            return at, rng.getrandbits(64)
        # a leaf, of some level, perhaps not aligned or with rights that do not go together
        level = rng.randrange(4)
        paddr = rng.choice((0, span(level), span(level) // 2, PAGE, END - span(level))) & END - 1
        return at, model.leaf(paddr, self.flags(), level) ^ rng.choice((0, 0, 1, 2, 1 << 63, 1 << 9))

    def misshapen(self):
        """Pools of a wrong length, base or `used`; or of the largest that is right."""
        rng = self.rng
        frames = rng.choice((1, 2, 5, 64))
        base, used = 0x100000, 1
        wrong = rng.randrange(4)
        if wrong == 0:
            frames = 0
        elif wrong == 1:
            base = rng.choice((0x100001, 0x100800, 0x100800, END - PAGE * frames, END - PAGE * frames + PAGE, END - PAGE * frames + PAGE, END, 1 << 63, M64 - PAGE + 1, M64))
        elif wrong == 2:
            used = rng.choice((0, frames, frames + 1, 2 * frames, 1 << 40, M64))
        else:
            base, used = rng.getrandbits(64), rng.getrandbits(64)
        self.add("new", base, frames, used)
        for n in range(4):
            self.step(n)

    def unreadable(self):
        """Lines that cannot be read, between lines that can."""
        rng = self.rng
        self.add("new", 0x100000, rng.randint(1, 8), 1)
        for n in range(12):
            self.step(n)
            line = text(self.call())
            kind = rng.randrange(9)
            if kind == 0:
                at = rng.randrange(len(line) + 1)
                line = line[:at] + rng.choice(" -gG\t\r\x00Ax_0") + line[at:]
            elif kind == 1:
                line = line[: rng.randrange(len(line))]
            elif kind == 2:
                line = line.upper()
            elif kind == 3:
                line += rng.choice((" ", " 0", "  ", "\r"))
            elif kind == 4:
                line = line + "0" * rng.choice((1, 17, 100, 70000 if rng.random() < 0.05 else 200))
            elif kind == 5:
                line = "new 100000 %x 1" % rng.choice((65, 0x100, M64))
            elif kind == 6:
                line = "word %x 1" % rng.choice((self.pool.frames * 512, M64, 1 << 40))
            elif kind == 7:
                line = "map 0 %x 0 4" % rng.choice((0, 1, 0x4000, 0x1001, 0x400000))
            else:
                line = rng.choice(("", "-", " ", "dump 0", "sum 1", "query -", "unmap -", "update 0 - ", "map 0 1000 - 4", "Query 0", "q 0"))
            if is_readable(line, self.pool.frames):
                continue
            self.add("raw", line)


FIELDS = {"new": 3, "word": 2, "dump": 0, "sum": 0, "map": 4, "unmap": 1, "update": 3, "query": 1, "map_cont": 4, "unmap_cont": 2}
FIELDS.update({"root": 0, "kernel": 0, "alloc": 5, "map_ext": 10, "runmap": 3, "protect": 4, "destroy": 1, "clear": 1, "mflags": 2, "vflags": 2, "check": 4})
FIELDS.update({"region": 7, "mapping": 8, "reglist": 2, "maplist": 2, "counts": 3, "page": 2, "lend": 1, "space": 0, "tree": 0})
# fields that may be `-`
DASHES = {("update", 1), ("update", 2), ("alloc", 1), ("map_ext", 1)}
# how many a field's number may count up to
BELOW = {
    ("new", 1): 65,
    ("map_ext", 8): 2,
    ("map_ext", 9): 2,
    ("region", 0): 32,
    ("region", 1): 2,
    ("mapping", 0): 64,
    ("mapping", 1): 2,
    ("reglist", 0): 32,
    ("maplist", 0): 64,
    ("page", 0): 32768,
    ("page", 1): 256,
    ("lend", 0): 32769,
}


def line_of(text, frames):
    """A line of a trace, on a pool of so many frames, as a tuple."""
    if not is_readable(text, frames):
        return "raw", text
    name, *fields = text.split(" ")
    return tuple([name] + [None if f == "-" else int(f, 16) for f in fields])


def is_readable(line, frames):
    """Whether docs/REPLAY.md lets the line be read."""
    name, *fields = line.split(" ")
    if FIELDS.get(name) != len(fields):
        return False
    numbers = []
    for k, field in enumerate(fields):
        if field == "-" and (name, k) in DASHES:
            continue
        if not 1 <= len(field) <= 16 or field.strip("0123456789abcdef"):
            return False
        if int(field, 16) >= BELOW.get((name, k), 1 << 64):
            return False
        numbers.append(int(field, 16))
    if name == "word":
        return numbers[0] < 512 * frames
    if name == "map":
        return numbers[1] in SIZES
    return True


KINDS = ("fresh",) * 8 + ("ready",) * 8 + ("damaged",) * 2 + ("misshapen",) * 3 + ("unreadable",)


def episodes(seed, calls):
    """Episodes without end."""
    rng = random.Random(seed)
    while True:
        episode = Episode(rng, calls)
        getattr(episode, rng.choice(KINDS))()
        yield episode.lines


def exhaustive(length):
    """Every trace of so many calls out of a short list, on pools of 1 to 6 frames."""
    short = [
        ("map", 0, SIZES[0], 0x5000, 12),
        ("map", 0x1000, SIZES[0], 0x1000, 0),
        ("map", 0, SIZES[1], 0x200000, 20),
        ("map", 0x200000, SIZES[1], 0, 0),
        ("map", 0, SIZES[2], GIB, 36),
        ("map", GIB - PAGE, SIZES[0], 0, 4),
        ("unmap", 0),
        ("unmap", 0x200FFF),
        ("update", 0, None, 8),
        ("update", 0x1000, 0x200000, None),
        ("update", 0, 0x1000, 16),
        ("query", 0),
        ("query", 0x200000),
        ("map_cont", 0, 0x400000, 0, 76),
        ("map_cont", 0x1FF000, 0x2000, 0x1FF000, 4),
        ("map_cont", 0, GIB, 0, 76),
        ("unmap_cont", 0, 0x1000),
        ("unmap_cont", 0x1000, 0x200000),
        ("unmap_cont", 0, 2 * GIB),
    ]
    for frames in range(1, 7):
        for some in itertools.product(short, repeat=length):
            lines = [("new", 0x100000, frames, 1)]
            for line in some:
                lines += [line, ("sum",)]
            yield lines
