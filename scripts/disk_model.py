"""A plain model of disks and of the shell's lines, written from the specification and not from the code. It is slow and simple: an image is its
bytes, whose number gives its kind, a session a list of images, and each line is worked out anew.
"""
import functools
from collections import Counter

import basic_model
import session_model
from text_form import from_text, to_text

BLOCK = 256
KINDS = (35, 40)
SECTORS = {track: 21 if track < 18 else 19 if track < 25 else 18 if track < 31 else 17 for track in range(1, 41)}
PAIRS_OF = {tracks: [(track, sector) for track in range(1, tracks + 1) for sector in range(SECTORS[track])] for tracks in KINDS}
BLANK = {tracks: bytes(BLOCK * len(pairs)) for tracks, pairs in PAIRS_OF.items()}
TRACKS = {len(image): tracks for tracks, image in BLANK.items()}
PAIRS = PAIRS_OF[35]
PLACES = {pair: place for place, pair in enumerate(PAIRS_OF[40])}
MAP, DIRECTORY = (18, 0), (18, 1)
DEL, SEQ, PRG, USR, REL = range(5)
KIND_LETTERS = {"s": SEQ, "p": PRG, "u": USR, "l": REL}
FORBIDDEN = b'*?=:,"\x0d\xa0'

TEXTS = {
    0: " OK", 1: "FILES SCRATCHED", 60: "WRITE FILE OPEN", 62: "FILE NOT FOUND", 63: "FILE EXISTS", 64: "FILE TYPE MISMATCH", 66: "ILLEGAL TRACK AND SECTOR",
    71: "DIR ERROR", 72: "DISK FULL", 80: "HOST FILE", 81: "NOTHING TO UNDO", 82: "NOTHING TO REDO", 83: "NOT ONE BLOCK",
    84: "BASIC TEXT", 85: "NOT BASIC", 86: "FILE LOST", **{number: "SYNTAX ERROR" for number in range(30, 35)}, 90: "OUT OF MEMORY",
}


class Refused(Exception):
    """A line that is refused, with its number and what comes after it."""

    def __init__(self, number, first=0, second=0):
        super().__init__(number)
        self.status = status(number, first, second)


def status(number, first=0, second=0):
    return f"{number:02},{TEXTS[number]},{first:02},{second:02}\n"


def name_in(text, allowed=b""):
    name = from_text(text)
    if name is None or not 1 <= len(name) <= 16 or any(byte in FORBIDDEN and byte not in allowed for byte in name):
        raise Refused(33)
    return name


def id_in(text):
    disk_id = from_text(text)
    if disk_id is None or len(disk_id) != 2 or any(byte in FORBIDDEN for byte in disk_id):
        raise Refused(33)
    return disk_id


def matches(pattern, name):
    if pattern[:1] == b"*" or not pattern:
        return bool(pattern) or not name
    return bool(name) and pattern[0] in (ord("?"), name[0]) and matches(pattern[1:], name[1:])


# Disks

class Slot:
    """The 32 bytes of a slot of the directory, and where they are."""

    def __init__(self, block, place, data):
        self.block, self.place, self.data = block, place, data
        self.kind, self.used, self.closed, self.locked = data[2] & 15, data[2] != 0, data[2] & 0x80 != 0, data[2] & 0x40 != 0
        self.first, self.side = tuple(data[3:5]), tuple(data[0x15:0x17])
        self.scratched = not self.used and data[3] != 0
        self.name, self.size = up_to_filler(data[5:21]), int.from_bytes(data[30:32], "little")

    def roots(self):
        """The first blocks of the chains that it owns."""
        if self.closed and self.kind != DEL:
            yield self.first
            if self.kind == REL and self.side[0] != 0:
                yield self.side


def up_to_filler(field):
    return field.split(b"\xa0")[0]


def filled(name):
    return name.ljust(16, b"\xa0")


def entry_of(track):
    """The place of a track's entry in the map's block: those of tracks 36 to 40 are apart."""
    return 4 * track if track <= 35 else 0xC0 + 4 * (track - 36)


class Disk:
    def __init__(self, image):
        self.image, self.tracks = image, TRACKS[len(image)]
        self.pairs = PAIRS_OF[self.tracks]

    def holds(self, pair):
        track, sector = pair
        return 1 <= track <= self.tracks and sector < SECTORS[track]

    def block(self, pair):
        start = BLOCK * PLACES[pair]
        return self.image[start:start + BLOCK]

    def with_block(self, pair, data):
        return self.with_blocks({pair: data})

    def with_blocks(self, blocks):
        """The disk with other bytes in the blocks of these pairs."""
        image = bytearray(self.image)
        for pair, data in blocks.items():
            start = BLOCK * PLACES[pair]
            image[start:start + BLOCK] = data
        return Disk(bytes(image))

    def with_bytes(self, slot, place, data):
        """The disk with other bytes in a slot, from a place in it on."""
        block, start = self.block(slot.block), 32 * slot.place + place
        return self.with_block(slot.block, block[:start] + data + block[start + len(data):])

    def without(self, slots):
        """The disk with these slots unused."""
        blocks = {slot.block: bytearray(self.block(slot.block)) for slot in slots}
        for slot in slots:
            blocks[slot.block][32 * slot.place + 2] = 0
        return self.with_blocks(blocks)

    def chain(self, pair):
        """The chain from a block, or None."""
        blocks = {}
        while self.holds(pair) and pair not in blocks:
            blocks[pair] = True
            link = self.block(pair)
            if link[0] == 0:
                return list(blocks)
            pair = tuple(link[:2])
        return None

    def way(self, pair):
        """The blocks to which one leads, each once, and whether the last of them is the end of a chain."""
        blocks = {}
        while self.holds(pair) and pair not in blocks:
            link = blocks[pair] = self.block(pair)
            if link[0] == 0:
                return list(blocks), True
            pair = tuple(link[:2])
        return list(blocks), False

    def content(self, blocks):
        parts = [self.block(pair) for pair in blocks]
        return b"".join(part[2:] if part[0] else part[2:part[1] + 1] for part in parts)

    def free(self):
        block = self.block(MAP)
        marks = {track: int.from_bytes(block[entry_of(track) + 1:entry_of(track) + 4], "little") for track in range(1, self.tracks + 1)}
        return {(track, sector) for track, sector in self.pairs if marks[track] >> sector & 1}

    def with_free(self, free):
        block = bytearray(self.block(MAP))
        for track in range(1, self.tracks + 1):
            bits, place = sum(1 << sector for sector in range(SECTORS[track]) if (track, sector) in free), entry_of(track)
            block[place:place + 4] = bytes([bits.bit_count()]) + bits.to_bytes(3, "little")
        return self.with_block(MAP, block)

    def counts(self):
        """The count of free blocks that the map has for each track."""
        block = self.block(MAP)
        return {track: block[entry_of(track)] for track in range(1, self.tracks + 1)}

    def slots(self):
        return self.all_slots

    @functools.cached_property
    def all_slots(self):
        blocks = {pair: self.block(pair) for pair in self.chain(DIRECTORY)}
        return [Slot(pair, place, block[32 * place:32 * place + 32]) for pair, block in blocks.items() for place in range(8)]

    def refuse_directory(self):
        if self.chain(DIRECTORY) is None:
            raise Refused(71, 2)
        if any(slot.kind > REL for slot in self.slots()):
            raise Refused(71, 3)

    def owned(self):
        """The blocks that the map, the directory and the files own."""
        self.refuse_directory()
        owned = [MAP] + self.chain(DIRECTORY)
        for slot in self.slots():
            for root in slot.roots():
                blocks = self.chain(root)
                if blocks is None:
                    raise Refused(71, 4)
                owned += blocks
        if len(set(owned)) < len(owned):
            raise Refused(71, 5)
        return set(owned)

    def refuse_unsound(self):
        free = self.free()
        marks = Counter(track for track, _ in free)
        if any(count != marks[track] for track, count in self.counts().items()):
            raise Refused(71, 1)
        if free & self.owned():
            raise Refused(71, 6)

    def written(self, name, kind, data):
        if kind == REL:
            raise Refused(64)
        self.refuse_unsound()
        slots, free, count = list(self.slots()), self.free(), max(1, -(-len(data) // 254))
        if any(slot.used and slot.name == name for slot in slots):
            raise Refused(63)
        blocks = plan(free, count)
        empty = next((slot for slot in slots if not slot.used), None)
        last = slots[-1].block
        grown = None if empty else first_of(directory_order(last), free)
        if blocks is None or not (empty or grown):
            raise Refused(72)
        disk, block, place = self, empty and empty.block, empty and empty.place
        if grown:
            disk = disk.with_block(last, bytes(grown) + disk.block(last)[2:]).with_block(grown, b"\x00\xff" + bytes(254))
            block, place = grown, 0
        entry = bytes([0x80 + kind, *blocks[0]]) + filled(name) + bytes(9) + count.to_bytes(2, "little")
        old = disk.block(block)
        disk = disk.with_block(block, old[:32 * place + 2] + entry + old[32 * place + 32:])
        contents = {}
        for number, pair in enumerate(blocks):
            part = data[254 * number:254 * number + 254]
            link = bytes(blocks[number + 1]) if number + 1 < count else bytes([0, len(part) + 1])
            contents[pair] = (link + part).ljust(BLOCK, b"\x00")
        return disk.with_blocks(contents).with_free(free - set(blocks) - {grown})

    def scratched(self, patterns):
        """The disk without the files that one of the patterns matches or more, and how many they are."""
        self.refuse_unsound()
        slots = [slot for slot in self.slots() if slot.used and slot.closed and not slot.locked and any(matches(pattern, slot.name) for pattern in patterns)]
        free = self.free()
        for slot in slots:
            free.update(pair for root in slot.roots() for pair in self.chain(root))
        return self.without(slots).with_free(free) if slots else self, len(slots)

    def left(self):
        """The scratched slots of a sound disk, by their numbers, each with the reasons why its file isn't whole."""
        owned, free, claimed, left = self.owned(), self.free(), set(), {}
        for number, slot in enumerate(self.slots()):
            if slot.scratched:
                blocks, ends = self.way(slot.first)
                holds = {"chain": not ends, "reused": not owned.isdisjoint(blocks), "marked": any(pair not in owned and pair not in free for pair in blocks),
                         "size": ends and len(blocks) != slot.size, "claimed": not claimed.isdisjoint(blocks)}
                left[number] = {word for word, so in holds.items() if so}
                claimed.update(blocks)
        return left

    def undeleted(self, name, kind):
        """The disk with a deleted file of a name again: the first that is whole, else the first that isn't lost."""
        if kind == REL:
            raise Refused(64)
        self.refuse_unsound()
        slots = self.slots()
        if not any(slot.scratched and slot.name == name for slot in slots):
            raise Refused(62)
        if any(slot.used and slot.name == name for slot in slots):
            raise Refused(63)
        left = {number: why for number, why in self.left().items() if slots[number].name == name and why <= {"claimed"}}
        if not left:
            raise Refused(86)
        slot = slots[min(left, key=lambda number: (len(left[number]), number))]
        return self.with_bytes(slot, 2, bytes([0x80 + kind])).with_free(self.free() - set(self.way(slot.first)[0]))

    def renamed(self, old, new):
        self.refuse_unsound()
        slot = next((slot for slot in self.slots() if slot.used and slot.name == old), None)
        if slot is None:
            raise Refused(62)
        if any(slot.used and slot.name == new for slot in self.slots()):
            raise Refused(63)
        return self.with_bytes(slot, 5, filled(new))

    def named(self, name, disk_id):
        """The disk with another name, and another id, if there is one."""
        head = bytearray(self.block(MAP))
        head[0x90:0xA0] = filled(name)
        if disk_id is not None:
            head[0xA2:0xA4] = disk_id
        return self.with_block(MAP, bytes(head))

    def validated(self):
        owned = self.owned()
        return self.without([slot for slot in self.slots() if not slot.closed]).with_free(set(self.pairs) - owned)

    def read(self, pattern):
        self.refuse_directory()
        slot = next((slot for slot in self.slots() if slot.used and matches(pattern, slot.name)), None)
        if slot is None:
            raise Refused(62)
        if not slot.closed:
            raise Refused(60)
        if slot.kind == DEL:
            raise Refused(64)
        blocks = self.chain(slot.first)
        if blocks is None:
            raise Refused(71, 4)
        return slot.name, self.content(blocks)

    def listing(self):
        self.refuse_directory()
        head = self.block(MAP)
        lines = [f'0 "{to_text(up_to_filler(head[0x90:0xA0])):16}" {to_text(head[0xA2:0xA4])} {to_text(head[0xA5:0xA7])}\n']
        for slot in self.slots():
            if slot.used:
                quoted, kind = f'"{to_text(slot.name)}"', ("del", "seq", "prg", "usr", "rel")[slot.kind]
                lines.append(f'{slot.size:<5} {quoted:18}{" " if slot.closed else "*"}{kind}{"<" if slot.locked else ""}\n')
        lines.append(f"{sum(count for track, count in self.counts().items() if track != 18)} blocks free.\n")
        return "".join(lines)


def formatted(name, disk_id, tracks=35):
    head = b"\x12\x01\x41\x00" + bytes(140) + filled(name) + b"\xa0\xa0" + disk_id + b"\xa02A" + b"\xa0" * 4 + bytes(85)
    disk = Disk(BLANK[tracks]).with_block(MAP, head).with_block(DIRECTORY, b"\x00\xff" + bytes(254))
    return disk.with_free(set(disk.pairs) - {MAP, DIRECTORY})


# The order of search, on both kinds: if there are 35 tracks no block of another is free

def along(tracks):
    return [(track, sector) for track in tracks for sector in range(SECTORS[track])]


def from_sector(track, sector, interleave):
    """The sectors of a track after one of them: on by the interleave, and one less where that goes round."""
    count = SECTORS[track]
    start = sector + interleave
    if start >= count:
        start = max(start - count - 1, 0)
    return [(track, (start + step) % count) for step in range(count)]


FIRST_ORDER = along([track for distance in range(1, 18) for track in (18 - distance, 18 + distance)] + [*range(36, 41)])


@functools.cache
def next_order(last):
    track, sector = last
    if track < 18:
        rest = [*range(track - 1, 0, -1), *range(19, 41), *range(17, track, -1)]
    else:
        rest = [*range(track + 1, 41), *range(17, 0, -1), *range(19, track)]
    return from_sector(track, sector, 10) + along(rest)


def directory_order(last):
    return from_sector(*last, 3) if last[0] == 18 else along([18])


def first_of(order, free):
    return next((pair for pair in order if pair in free), None)


def plan(free, count):
    """The blocks of a file of this many, or None if too few are free."""
    left, blocks = set(free), []
    while len(blocks) < count:
        block = first_of(next_order(blocks[-1]) if blocks else FIRST_ORDER, left)
        if block is None:
            return None
        blocks.append(block)
        left.remove(block)
    return blocks


# Lines

FEWEST_AND_MOST = {"format": (1, 1), "list": (0, 0), "read": (1, 2), "write": (1, 2), "crunch": (1, 2), "petcat": (1, 1), "type": (1, 1), "name": (1, 1), "delete": (1, 1_024), "undelete": (1, 1), "rename": (2, 2), "validate": (0, 0),
                   "block": (2, 2), "bread": (3, 3), "bwrite": (3, 3), "undo": (0, 0), "redo": (0, 0), "history": (0, 0), "save": (0, 1), "keep": (1, 1), "quit": (0, 0)}


def words_of(line):
    if any(not 32 <= byte <= 126 for byte in line):
        raise Refused(30)
    words, rest = [], line.decode()
    while rest := rest.lstrip(" "):
        if rest[0] == '"':
            word, quote, rest = rest[1:].partition('"')
            if not quote:
                raise Refused(30)
        else:
            word = rest.replace('"', " ").split(" ")[0]
            rest = rest[len(word):]
        if rest and rest[0] != " ":
            raise Refused(30)
        words.append(word)
    return words


def number_in(word):
    if not (1 <= len(word) <= 3 and word.isdigit() and int(word) <= 255):
        raise Refused(30)
    return int(word)


def block_in(disk, track, sector):
    pair = (number_in(track), number_in(sector))
    if not disk.holds(pair):
        raise Refused(66, *pair)
    return pair


def kind_in(letter):
    if letter not in KIND_LETTERS:
        raise Refused(30)
    return KIND_LETTERS[letter]


def host_in(word):
    if not 1 <= len(word) <= 255:
        raise Refused(33)
    return word


class Shell:
    """A session, the files of a folder, and the names of its folders."""

    def __init__(self, image, files, folders, home):
        self.images, self.cursor, self.files, self.folders, self.home = [Disk(image)], 0, dict(files), {".", "..", *folders}, home
        self.accepted = self.refused = 0
        self.refusals = []  # of each refused line its number in the script and its bytes

    @classmethod
    def started(cls, arguments, files, folders=()):
        """The shell that begins where these arguments follow `shell`: that of an image, a blank one, or the session of a file, if it is one."""
        if arguments[:1] == ["--resume"]:
            images, cursor = session_model.resumed(files[arguments[1]])
            shell = cls(images[0], files, folders, "".join(arguments[2:]))
            shell.images, shell.cursor = [Disk(image) for image in images], cursor
            return shell
        if arguments[:1] == ["--tracks"]:
            return cls(BLANK[int(arguments[1])], files, folders, "")
        return cls(files[arguments[0]] if arguments else BLANK[35], files, folders, "".join(arguments))

    def fetch(self, name):
        if name in self.folders or name.rpartition("/")[0] in self.files:
            raise Refused(80, 2)
        if name not in self.files:
            raise Refused(80, 1)
        if len(self.files[name]) > 1_048_576:
            raise Refused(80, 3)
        return self.files[name]

    def store(self, name, data):
        folder = name.rpartition("/")[0]
        if name in self.folders or folder and folder not in self.folders:
            raise Refused(80, 2)
        self.files[name] = data

    def add(self, disk):
        self.images[self.cursor + 1:] = [disk]
        self.cursor += 1

    def output_of(self, line):
        """What an accepted line prints."""
        word, *arguments = words_of(line)
        if word not in FEWEST_AND_MOST:
            raise Refused(31)
        fewest, most = FEWEST_AND_MOST[word]
        if len(arguments) < fewest or word == "save" and not arguments and not self.home:
            raise Refused(34)
        if len(arguments) > most:
            raise Refused(30)
        shown = getattr(self, f"do_{word}")(self.images[self.cursor], *arguments)
        return status(1, shown) if isinstance(shown, int) else (shown or "") + status(0)

    def do_format(self, disk, word):
        name, comma, disk_id = word.partition(",")
        if not comma:
            raise Refused(30)
        self.add(formatted(name_in(name), id_in(disk_id), disk.tracks))

    def do_name(self, disk, word):
        name, comma, disk_id = word.partition(",")
        self.add(disk.named(name_in(name), id_in(disk_id) if comma else None))

    def do_list(self, disk):
        return disk.listing()

    def do_read(self, disk, pattern, host=None):
        pattern = name_in(pattern, b"*?")
        if host is not None:
            host_in(host)
        name, data = disk.read(pattern)
        if host is None:
            host = to_text(name)
            if host in ("", ".", "..") or "/" in host:
                raise Refused(33)
        self.store(host, data)

    def do_write(self, disk, host, word=None):
        host_in(host)
        name, _, kind = (host.rpartition("/")[2], "", "p") if word is None else word.partition(",") if "," in word else (word, "", "p")
        kind, name = kind_in(kind), name_in(name)
        self.add(disk.written(name, kind, self.fetch(host)))

    def do_crunch(self, disk, host, word=None):
        host_in(host)
        name = name_in(host.rpartition("/")[2] if word is None else word)
        text = self.fetch(host)
        try:
            file = basic_model.crunch(0x0801, text)
        except basic_model.Fault as fault:
            raise Refused(84, fault.number, fault.line) from fault
        self.add(disk.written(name, PRG, file))

    def do_petcat(self, disk, pattern):
        _, data = disk.read(name_in(pattern, b"*?"))
        try:
            return basic_model.listing(data)
        except basic_model.Fault as fault:
            raise Refused(85, fault.number) from fault

    def do_type(self, disk, pattern):
        _, data = disk.read(name_in(pattern, b"*?"))
        lines = data.split(b"\r")
        return "".join(to_text(line) + "\n" for line in (lines if lines[-1] else lines[:-1]))

    def do_delete(self, disk, *arguments):
        patterns = [name_in(argument, b"*?") for argument in arguments]
        disk, count = disk.scratched(patterns)
        self.add(disk)
        return count

    def do_undelete(self, disk, word):
        name, comma, kind = word.partition(",")
        kind, name = kind_in(kind if comma else "p"), name_in(name)
        self.add(disk.undeleted(name, kind))

    def do_rename(self, disk, old, new):
        old, new = name_in(old), name_in(new)
        self.add(disk.renamed(old, new))

    def do_validate(self, disk):
        self.add(disk.validated())

    def do_block(self, disk, track, sector):
        data = disk.block(block_in(disk, track, sector))
        return "".join(f"{start:02x}:" + "".join(f" {byte:02x}" for byte in data[start:start + 16]) + "\n" for start in range(0, BLOCK, 16))

    def do_bread(self, disk, host, track, sector):
        host_in(host)
        self.store(host, disk.block(block_in(disk, track, sector)))

    def do_bwrite(self, disk, host, track, sector):
        host_in(host)
        pair, data = block_in(disk, track, sector), self.fetch(host)
        if len(data) != BLOCK:
            raise Refused(83)
        self.add(disk.with_block(pair, data))

    def do_undo(self, _):
        if self.cursor == 0:
            raise Refused(81)
        self.cursor -= 1

    def do_redo(self, _):
        if self.cursor + 1 == len(self.images):
            raise Refused(82)
        self.cursor += 1

    def do_history(self, _):
        pairs = zip(self.images, self.images[1:])
        counts = [sum(before.block(pair) != after.block(pair) for pair in before.pairs) for before, after in pairs]
        return "".join(f"{number} {count} {'done' if number <= self.cursor else 'undone'}\n" for number, count in enumerate(counts, 1))

    def do_save(self, disk, host=None):
        self.store(self.home if host is None else host_in(host), disk.image)

    def do_keep(self, _, host):
        self.store(host_in(host), session_model.kept([disk.image for disk in self.images], self.cursor))

    def do_quit(self, _):
        pass

    def run(self, script, stops=False):
        """What a script prints, which ends after the first refused line where `stops` is set."""
        printed = []
        for number, line in enumerate(lines_of(script), 1):
            if stops and self.refused:
                break
            if len(line.removesuffix(b"\n")) > 1_024:
                self.refused += 1
                self.refusals.append((number, line))
                printed.append(status(32))
                continue
            text = line.removesuffix(b"\r\n").removesuffix(b"\n")
            if text.lstrip(b" ")[:1] in (b"", b";"):
                continue
            try:
                printed.append(self.output_of(text))
                self.accepted += 1
            except Refused as refused:
                printed.append(refused.status)
                self.refused += 1
                self.refusals.append((number, text))
                continue
            if words_of(text)[0] == "quit":
                break
        return "".join(printed)


def lines_of(script):
    return [line + b"\n" for line in script.split(b"\n")[:-1]] + [line for line in script.split(b"\n")[-1:] if line]
