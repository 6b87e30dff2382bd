"""A plain model of G64 files: the dump that one is read as, bit by bit, and a writer of them.

Written from the specification, not from the code. Bits of a track are a text of 0 and 1."""

import re

SECTORS = [0] + [21] * 17 + [19] * 7 + [18] * 6 + [17] * 10
CODES = ("01010 01011 10010 10011 01110 01111 10110 10111 "
         "01001 11001 11010 11011 01101 11101 11110 10101").split()
NIBBLES = {code: nibble for nibble, code in enumerate(CODES)}
BYTES = [CODES[byte >> 4] + CODES[byte & 15] for byte in range(256)]
BLOCKS = [(track, sector) for track in range(1, 41) for sector in range(SECTORS[track])]


def number(data):
    return int.from_bytes(data, "little")


def entry(file, k):
    """The bytes of entry k, or no bytes if there is no such track."""
    if k >= file[9]:
        return b""
    offset = number(file[12 + 4 * k:16 + 4 * k])
    if offset == 0 or offset + 2 > len(file):
        return b""
    length = number(file[offset:offset + 2])
    return file[offset + 2:offset + 2 + length].ljust(length, b"\0")


class Circle:
    """A track: its bits, its starts, and what begins at a start."""

    def __init__(self, track):
        bits = "".join(f"{byte:08b}" for byte in track)
        self.size, self.starts, self.values = len(bits), [], {}
        if "0" not in bits:
            return
        # a byte has ten bits: of a circle of few bits it goes round more than once
        self.bits = bits * (2 + 10 // self.size)
        first = bits.index("0") + 1
        once_round = bits[first:] + bits[:first]
        self.starts = sorted((first + run.end() - 1) % self.size for run in re.finditer("1{10,}0", once_round))

    def value(self, place, k):
        """Byte k of what begins at a place, or None if it has no value. Those that were looked for are kept: each block asks for all headers."""
        if (place, k) not in self.values:
            at = (place + 10 * k) % self.size
            high, low = NIBBLES.get(self.bits[at:at + 5]), NIBBLES.get(self.bits[at + 5:at + 10])
            self.values[place, k] = None if high is None or low is None else 16 * high + low
        return self.values[place, k]

    def after(self, start):
        return self.starts[(self.starts.index(start) + 1) % len(self.starts)]

    def headers(self, track=None, sector=None):
        """The headers, rising; those that name a block, if one is given."""
        for start in self.starts:
            if self.value(start, 0) == 8:
                named = (self.value(start, 3), self.value(start, 2))
                if track is None and None not in named or named == (track, sector):
                    yield start

    def is_good(self, start):
        values = [self.value(start, k) for k in range(1, 6)]
        return None not in values and values[0] == values[1] ^ values[2] ^ values[3] ^ values[4]

    def id(self, start):
        return self.value(start, 5), self.value(start, 4)

    def data(self, start):
        """Bytes 1 to 256 of what follows a header, or None if that is no data block; and
        whether all have values and the checksum is right."""
        follows = self.after(start)
        if self.value(follows, 0) != 7:
            return None, False
        values = [self.value(follows, k) for k in range(1, 258)]
        total = 0
        for value in values[:256]:
            total ^= value or 0
        return bytes(value or 0 for value in values[:256]), None not in values and total == values[256]

    def code(self, start, disk_id):
        if not self.is_good(start):
            return 9
        if disk_id is not None and self.id(start) != disk_id:
            return 11
        data, whole = self.data(start)
        return 4 if data is None else 1 if whole else 5

    def block(self, track, sector, disk_id):
        """The code of a block, and its bytes."""
        blank = bytes(256)
        if not self.starts:
            return 3, blank
        named = list(self.headers(track, sector))
        if not named:
            return 2, blank
        chosen = next((start for start in named if self.code(start, disk_id) == 1), named[0])
        return self.code(chosen, disk_id), self.data(chosen)[0] or blank


def is_g64(file):
    return file.startswith(b"GCR-1541")


def disk_id(circle):
    return next((circle.id(start) for start in circle.headers(18, 0) if circle.is_good(start)), None)


def read(file):
    """The bytes of the dump, those of a D64 with codes; None for a bad G64."""
    if len(file) < 12 or len(file) < 12 + 8 * file[9] or file[8] != 0:
        return None
    circles = {track: Circle(entry(file, 2 * (track - 1))) for track in range(1, 41)}
    its_id = disk_id(circles[18])
    blocks = [circles[track].block(track, sector, its_id) for track, sector in BLOCKS]
    beyond = sum(code == 1 for code, _ in blocks[683:])
    count = 768 if beyond > 85 / 2 else 683
    return b"".join(data for _, data in blocks[:count]) + bytes(code for code, _ in blocks[:count])


def encoded(data):
    """Bytes in the group code."""
    return "".join(BYTES[byte] for byte in data)


def xor(data):
    total = 0
    for byte in data:
        total ^= byte
    return total


def header_bits(track, sector, its_id, checksum=None):
    body = [sector, track, its_id[1], its_id[0]]
    return encoded([8, xor(body) if checksum is None else checksum] + body + [15, 15])


def data_bits(data, checksum=None):
    return encoded([7] + list(data) + [xor(data) if checksum is None else checksum, 0, 0])


def track_bits(blocks, track, its_id, sync=40, gap=72, tail=64):
    """The bits of a track: its blocks, each behind a header."""
    bits = ""
    for sector, data in enumerate(blocks):
        bits += "1" * sync + header_bits(track, sector, its_id) + "01" * (gap // 2)
        bits += "1" * sync + data_bits(data) + "01" * (tail // 2)
    return bits


def flipped(bits, place):
    """Bits of which the one at a place is the other."""
    return bits[:place] + "10"[int(bits[place])] + bits[place + 1:]


def packed(bits):
    """Bits as bytes, filled up with 01."""
    bits += "01" * 8
    count = len(bits) // 8
    return int(bits[:8 * count], 2).to_bytes(count, "big")


def written(tracks, entries=84, version=0):
    """A G64 of tracks' bytes by the number of their entry."""
    size = max([len(track) for track in tracks.values()] + [7928])
    head = b"GCR-1541" + bytes([version, entries]) + size.to_bytes(2, "little")
    places, speeds, body = [0] * entries, [0] * entries, b""
    for k in sorted(tracks):
        if k < entries:
            places[k] = 12 + 8 * entries + len(body)
            speeds[k] = 3
            body += len(tracks[k]).to_bytes(2, "little") + tracks[k]
    table = b"".join(n.to_bytes(4, "little") for n in places + speeds)
    return head + table + body


def of_image(image, its_id=b"AB", count=35):
    """A sound G64 of an image's bytes."""
    tracks, place = {}, 0
    for track in range(1, count + 1):
        blocks = []
        for _ in range(SECTORS[track]):
            blocks.append(image[place:place + 256])
            place += 256
        tracks[2 * (track - 1)] = packed(track_bits(blocks, track, its_id))
    return written(tracks)
