"""Dumps in the making for the sweeps: sound ones, ones with one thing amiss, damaged ones, noise and zeros, of all four lengths and of wrong ones.

Each is made by a function of a source of chance, so that the same seed makes the same dumps.
"""
from disk_model import BLANK, BLOCK, DIRECTORY, KINDS, MAP, PAIRS_OF, PLACES, PRG, REL, SECTORS, SEQ, USR, entry_of
from text_form import CONTROLS

WRONG_LENGTHS = (0, 1, 174_080, 174_847, 174_849, 175_530, 175_532, 196_607, 196_609, 197_375, 197_377, 205_312, 206_114, 333_744, 349_696, 819_200,
                 16_777_216, 16_777_217)
FIRST_BYTES = (b"", b"GCR-1541\x00", b"PK\x03\x04", b"\x1f\x8b\x08")


# Dumps in the making

class File:
    """A file in the making: the place of its slot, and its blocks."""

    def __init__(self, slot, kind, data, side):
        self.slot, self.kind, self.data, self.side = slot, kind, data, side


class Draft:
    """A dump in the making: sound, with whole files alone, and whatever else changes nothing of that."""

    def __init__(self, chance, has_codes=None):
        self.chance, self.tracks = chance, chance.choice(KINDS)
        self.pairs = PAIRS_OF[self.tracks]
        self.image = bytearray(BLANK[self.tracks])
        self.has_codes = chance.random() < 0.5 if has_codes is None else has_codes
        self.codes = bytearray(chance.choices((0, 1), k=len(self.pairs)))
        self.left = [pair for pair in self.pairs if pair not in (MAP, DIRECTORY)]
        chance.shuffle(self.left)
        self.put(MAP, 0, *chance.choice(((18, 1), (0, 255), (18, 0), (99, 99))), 65, 0, *chance.randbytes(252))
        self.directory = [DIRECTORY, *self.taken(chance.choice((0, 0, 0, 1, 2, 5)))]
        for pair in self.directory:
            self.put(pair, 0, *chance.randbytes(BLOCK))
        self.link(self.directory)
        self.empty = [BLOCK * PLACES[pair] + 32 * place for pair in self.directory for place in range(8)]
        for slot in self.empty:
            self.image[slot + 2] = 0
        chance.shuffle(self.empty)
        self.files = [self.file() for _ in range(min(chance.choice((2, 2, 3, 4, 6, 14)), len(self.empty) - 2))]
        for _ in range(chance.choice((0, 0, 1))):
            self.entry(chance.choice((0x80, 0xC0, 0x10, 0x40, 0x90)), *chance.randbytes(29))
        self.mark()

    def put(self, pair, place, *values):
        start = BLOCK * PLACES[pair] + place
        self.image[start:start + len(values)] = values

    def taken(self, count):
        """This many blocks that nobody has, which are theirs now."""
        blocks = [self.left.pop() for _ in range(count)]
        for pair in blocks:
            self.put(pair, 0, *self.chance.randbytes(BLOCK))
        return blocks

    def link(self, blocks):
        for pair, following in zip(blocks, [*blocks[1:], (0, self.chance.choice((255, 0, 1, 2, self.chance.randrange(256))))]):
            self.put(pair, 0, *following)

    def entry(self, *data):
        """Fills an empty slot from its third byte on."""
        slot = self.empty.pop()
        self.image[slot + 2:slot + 2 + len(data)] = data
        return slot

    def name(self):
        alphabet = self.chance.choice((range(0x41, 0x5B), range(256), tuple(CONTROLS), b'"\\ ,{}', range(0xA1, 0x100)))
        return bytes(self.chance.choices(alphabet, k=self.chance.randrange(17))).ljust(16, b"\xa0")

    def file(self, kind=None):
        """A file that is whole."""
        chance, kind = self.chance, kind or self.chance.choice((SEQ, PRG, USR, REL))
        data, side = (self.taken(count) for count in (chance.choice((1, 1, 2, 3, 6, 20)), chance.choice((0, 1, 2)) if kind == REL else 0))
        self.link(data)
        self.link(side)
        tail = chance.choice((bytes(9), chance.randbytes(9)))
        if kind == REL:
            tail = bytes(side[0] if side else (0, chance.randrange(256))) + tail[2:]
        if kind == USR:
            # one thing short of what makes a GEOS file: its type, or the place of its records
            legal, no_pair = bytes(chance.choice(self.pairs)), bytes(chance.choice(((0, 0), (self.tracks + 1, 0), (1, 21))))
            tail = chance.choice((legal + tail[2:3] + b"\x00" + tail[4:], no_pair + tail[2:]))
        size = len(data) + len(side)
        type_byte = 0x80 | kind | chance.choice((0, 0, 0x40, 0x10, 0x70))
        return File(self.entry(type_byte, *data[0], *self.name(), *tail, *size.to_bytes(2, "little")), kind, data, side)

    def mark(self, kept=None):
        """Writes the map: of the blocks that nobody has some are marked used, or this many."""
        kept = self.chance.choice((0, 0, 1, 30)) if kept is None else kept
        free, head = set(self.left[kept:]), BLOCK * PLACES[MAP]
        for track in range(1, self.tracks + 1):
            marks = sum(1 << sector for sector in range(SECTORS[track]) if (track, sector) in free)
            unused = self.chance.choice((0, self.chance.randrange(1 << 24))) >> SECTORS[track] << SECTORS[track]
            self.image[head + entry_of(track):head + entry_of(track) + 4] = bytes([marks.bit_count()]) + (marks | unused).to_bytes(3, "little")

    def flip(self, pair):
        """Exchanges the mark of a block."""
        place = BLOCK * PLACES[MAP] + entry_of(pair[0]) + 1 + pair[1] // 8
        self.image[place] ^= 1 << pair[1] % 8
        return 1 if self.image[place] >> pair[1] % 8 & 1 else -1

    def count(self, track, change):
        place = BLOCK * PLACES[MAP] + entry_of(track)
        self.image[place] = (self.image[place] + change) % 256

    def size(self, file, size):
        self.image[file.slot + 30:file.slot + 32] = size.to_bytes(2, "little")

    def illegal(self):
        """A pair that isn't on the disk, and no end."""
        any_sector = self.chance.randrange(256)
        return self.chance.choice(((self.tracks + 1, 0), (1, 21), (18, 19), (25, 18), (35, 17), (255, 255), (self.tracks, 17), (41, any_sector)))

    def owned(self):
        return [MAP, *self.directory, *(pair for file in self.files for pair in file.data + file.side)]

    def bytes(self):
        return bytes(self.image) + (bytes(self.codes) if self.has_codes else b"")


# One thing amiss

def false_count(draft):
    draft.count(draft.chance.randint(1, draft.tracks), draft.chance.choice((1, -1, draft.chance.randrange(1, 256))))


def broken_directory(draft):
    draft.put(draft.directory[-1], 0, *draft.chance.choice((draft.chance.choice(draft.directory), draft.illegal())))


def no_kind(draft):
    slot = draft.chance.choice(draft.files).slot
    draft.image[slot + 2] = draft.image[slot + 2] & 0xF0 | draft.chance.randrange(5, 16)


def broken_file(draft):
    file = draft.chance.choice(draft.files)
    blocks, place = draft.chance.choice([(file.data, 3), (file.side or file.data, 21 if file.side else 3)])
    if draft.chance.random() < 0.3:
        track, sector = draft.illegal() if place == 21 else draft.chance.choice((draft.illegal(), (0, draft.chance.randrange(256))))
        draft.image[file.slot + place:file.slot + place + 2] = bytes((track, sector))
    else:
        draft.put(blocks[-1], 0, *draft.chance.choice((draft.chance.choice(blocks), draft.illegal())))


def shared_block(draft):
    """A file goes on to the last block of another one, of its own side blocks, of the directory, or to the map, which is its last."""
    file, other = draft.chance.sample(draft.files, 2)
    draft.put(MAP, 0, 0, 255)
    last = draft.chance.choice((other.data[-1], other.data[-1], (file.side or other.data)[-1], (other.side or other.data)[-1], draft.directory[-1], MAP))
    draft.put(file.data[-1], 0, *last)
    draft.size(file, len(file.data) + 1 + len(file.side))


def marked_free(draft):
    pair = draft.chance.choice((MAP, DIRECTORY, draft.chance.choice(draft.owned()), draft.chance.choice(draft.owned())))
    draft.count(pair[0], draft.flip(pair))


def unclosed(draft):
    draft.image[draft.chance.choice(draft.files).slot + 2] &= 0x7F


def read_error(draft):
    file = draft.chance.choice(draft.files)
    draft.has_codes = True
    draft.codes[PLACES[draft.chance.choice(file.data + file.side)]] = draft.chance.choice((*range(2, 18), 255, draft.chance.randrange(2, 256)))


def read_error_elsewhere(draft):
    draft.has_codes = True
    draft.codes[PLACES[draft.chance.choice((MAP, draft.directory[-1], draft.left[0], draft.left[-1]))]] = draft.chance.randrange(2, 256)


def false_size(draft):
    file = draft.chance.choice(draft.files)
    right = len(file.data) + len(file.side)
    draft.size(file, draft.chance.choice([size for size in (0, right - 1, right + 1, right + 256, len(file.data), 65_535) if size != right]))


def geos_file(draft):
    """A file more, if the directory isn't full."""
    if not draft.empty:
        return None
    file = draft.file(USR)
    draft.image[file.slot + 21:file.slot + 25] = bytes((*draft.chance.choice(draft.pairs), draft.chance.randrange(2), draft.chance.randrange(1, 256)))
    draft.size(file, draft.chance.choice((len(file.data), draft.chance.randrange(65_536))))
    draft.mark()
    return file


def unclosed_geos_file(draft):
    draft.image[geos_file(draft).slot + 2] &= 0x7F


ALONE = (false_count, broken_directory, no_kind, broken_file, shared_block, marked_free, unclosed, read_error, false_size, geos_file)


# One doubt

def other_version(draft):
    draft.mark(0)
    draft.put(MAP, 2, draft.chance.choice((0, 1, 0x40, 0x42, 0xFF)))


def blank_directory(draft):
    """The directory's first block is zeros, on a disk of GEOS, where blocks that belong to nobody say nothing."""
    draft.mark(0)
    draft.put(MAP, 0xAD, *b"GEOS format")
    draft.put(DIRECTORY, 0, *bytes(BLOCK))


def unowned_blocks(draft):
    """Blocks are marked used and belong to nobody; on 40 tracks they may all lie beyond track 35."""
    draft.mark(draft.chance.choice((1, 2, 30)))


def filled_block(draft):
    draft.mark(0)
    draft.put(draft.chance.choice(draft.left), 0, *b"-=[BAD SECTOR]=-" * 16)


DOUBTED = (other_version, blank_directory, unowned_blocks, filled_block)


# What a disk loses that matters most

def map_block_lost(draft):
    draft.put(MAP, 0, *bytes(BLOCK))


def map_lost(draft):
    draft.put(MAP, 4, *bytes(0x8C))
    draft.put(MAP, 0xC0, *bytes(20))


def directory_lost(draft):
    draft.put(DIRECTORY, 0, *bytes(BLOCK))


def all_lost(draft):
    draft.image[:] = bytes(len(draft.image))


LOSSES = (map_block_lost, map_lost, directory_lost, all_lost)


# Anything amiss

def random_pair(draft):
    chance = draft.chance
    no_pairs = (0, chance.randrange(256)), draft.illegal(), tuple(chance.randbytes(2))
    return chance.choice((chance.choice(draft.owned()), chance.choice(draft.pairs), MAP, DIRECTORY, *no_pairs))


def damage(draft):
    """One random change."""
    chance, pair = draft.chance, random_pair(draft)
    slot = BLOCK * PLACES[chance.choice(draft.directory)] + 32 * chance.randrange(8)
    at, track = chance.choice(draft.owned()), chance.randint(1, draft.tracks)
    kind = chance.choice((0, 1, 2, 0x80, 0x81, 0x82, 0x83, 0x84, 0x85, 0xC2, chance.randrange(256)))
    chance.choice((
        lambda: draft.put(at, 0, *pair), lambda: draft.put(chance.choice(draft.directory), 0, *pair),
        lambda: draft.image.__setitem__(slot + 2, kind), lambda: draft.count(track, chance.randrange(1, 256)), lambda: draft.flip(at),
        lambda: draft.count(at[0], draft.flip(at)), lambda: draft.image.__setitem__(slot + 30, chance.randrange(8)),
        lambda: draft.image.__setitem__(slice(slot + 3, slot + 5), bytes(pair)), lambda: draft.image.__setitem__(slice(slot + 21, slot + 23), bytes(pair)),
        lambda: draft.codes.__setitem__(PLACES[at], chance.randrange(256)), lambda: draft.put(at, chance.randrange(BLOCK), chance.randrange(256)),
        lambda: draft.image.__setitem__(slot + chance.randrange(2, 32), chance.randrange(256)), lambda: draft.put(at, 0, *chance.randbytes(BLOCK)),
    ))()


def sound(chance):
    return Draft(chance).bytes()


def one_thing(spoil):
    def made(chance):
        draft = Draft(chance)
        spoil(draft)
        return draft.bytes()
    return made


def intact(chance):
    """A disk that is sound, and of which each block that is used belongs to a file."""
    draft = Draft(chance)
    draft.mark(0)
    return draft.bytes()


def lost(chance, loss):
    """An intact disk without read codes that lost what matters most, and whose dump does not say so."""
    draft = Draft(chance, has_codes=False)
    draft.mark(0)
    loss(draft)
    return draft.bytes()


def two_things(chance):
    draft = Draft(chance)
    for spoil in chance.sample((*ALONE, read_error_elsewhere), chance.choice((2, 2, 3))):
        spoil(draft)
    return draft.bytes()


def damaged(chance):
    draft = Draft(chance)
    for _ in range(chance.choice((1, 1, 1, 2, 3, 8, 40))):
        damage(draft)
    return draft.bytes()


def noise(chance):
    """Random bytes, and perhaps links that are legal, or a directory of types that are kinds."""
    draft = Draft(chance)
    draft.image[:], draft.codes = chance.randbytes(len(draft.image)), bytearray(chance.randbytes(len(draft.codes)))
    if chance.random() < 0.5:
        for pair in draft.pairs:
            draft.put(pair, 0, *chance.choice(draft.pairs))
    if chance.random() < 0.5:
        for slot in range(2, len(draft.image), 32):
            draft.image[slot] = chance.choice((0, 0x80, 0x81, 0x82, 0x83, 0x84, 0x02))
            draft.image[slot + 1:slot + 3] = bytes(chance.choice(draft.pairs))
    return draft.bytes()


def zeros(chance):
    tracks = chance.choice(KINDS)
    return BLANK[tracks] + chance.choice((b"", bytes(len(PAIRS_OF[tracks])), chance.randbytes(len(PAIRS_OF[tracks]))))


def wrong_length(chance):
    length = chance.choice((*WRONG_LENGTHS, chance.randrange(250_000)))
    return chance.choice(FIRST_BYTES).ljust(length, b"\x00")[:length]


RECIPES = [*(one_thing(spoil) for spoil in (*ALONE, *ALONE, *DOUBTED, *DOUBTED, read_error_elsewhere, unclosed_geos_file)), *[sound] * 3,
           *[damaged] * 7, *[noise] * 2, *[two_things] * 2, zeros, wrong_length]


def all_owning(tracks, loops):
    """A directory of all blocks, of which each entry is a REL file with all blocks as its data and as its side blocks. Where it loops, so do they, its names
    are as long in text as names are, and each block has a read error."""
    image, pairs = bytearray(BLANK[tracks]), [DIRECTORY, *(pair for pair in PAIRS_OF[tracks] if pair != DIRECTORY)]
    for pair, following in zip(pairs, [*pairs[1:], DIRECTORY if loops else (0, 255)]):
        start = BLOCK * PLACES[pair]
        for slot in range(start, start + BLOCK, 32):
            image[slot + 2:slot + 32] = bytes((0x84, *DIRECTORY)) + (b"\x0e" * 16 if loops else b"ALL OF THE BLOCK") + bytes((*DIRECTORY, 254)) + bytes(8)
        image[start:start + 2] = bytes(following)
    return bytes(image) + b"\x05" * len(pairs) * loops
