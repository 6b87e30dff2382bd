"""A plain model of session files, written from the specification and not from the code. A history is a list of images, as bytes, and a cursor."""
BLOCK = 256
MAGIC = b"D64S"
SIZES = {35: 174_848, 40: 196_608}
NOT_SESSION, TRUNCATED, TRAILING, BAD_CURSOR, BAD_RECORD = range(1, 6)

# The most bytes of a file that is taken.
LIMIT = 67_108_864


class Fault(Exception):
    """Why bytes are no session file."""

    def __init__(self, number):
        super().__init__(number)
        self.number = number


def block(image, place):
    return image[BLOCK * place:BLOCK * place + BLOCK]


def with_blocks(image, record):
    """The image with the blocks of a record put in, and whether each was another one there."""
    image, differ = bytearray(image), True
    for place, data in record:
        differ = differ and block(image, place) != data
        image[BLOCK * place:BLOCK * place + BLOCK] = data
    return bytes(image), differ


def kept(images, cursor):
    """The session file of a history."""
    tracks = next(tracks for tracks, size in SIZES.items() if size == len(images[0]))
    file = MAGIC + bytes([tracks]) + images[cursor] + cursor.to_bytes(8, "little") + (len(images) - 1).to_bytes(8, "little")
    for number, (before, after) in enumerate(zip(images, images[1:])):
        far = before if number < cursor else after
        places = [place for place in range(len(before) // BLOCK) if block(before, place) != block(after, place)]
        file += len(places).to_bytes(2, "little") + b"".join(place.to_bytes(2, "little") + block(far, place) for place in places)
    return file


class Reading:
    """The bytes of a file, up to a place."""

    def __init__(self, file):
        self.file, self.place = file, 0

    def take(self, count):
        part = self.file[self.place:self.place + count]
        if len(part) < count:
            raise Fault(TRUNCATED)
        self.place += count
        return part

    def number(self, count):
        return int.from_bytes(self.take(count), "little")

    def record(self, size):
        """A record of an image of n bytes: places of blocks, and their bytes."""
        blocks, last = [], -1
        for _ in range(self.number(2)):
            place = self.number(2)
            if place <= last or place >= size // BLOCK:
                raise Fault(BAD_RECORD)
            blocks.append((place, self.take(BLOCK)))
            last = place
        return blocks


def resumed(file):
    """The images and the cursor of a session file, or its first fault."""
    reading = Reading(file)
    for byte in MAGIC:
        if reading.number(1) != byte:
            raise Fault(NOT_SESSION)
    tracks = reading.number(1)
    if tracks not in SIZES:
        raise Fault(NOT_SESSION)
    present, cursor, count = reading.take(SIZES[tracks]), reading.number(8), reading.number(8)
    if cursor > count:
        raise Fault(BAD_CURSOR)
    records = []
    while len(records) < count:
        records.append(reading.record(len(present)))
    if reading.place < len(file):
        raise Fault(TRAILING)
    back, differ_back = along(present, records[:cursor][::-1])
    onward, differ_onward = along(present, records[cursor:])
    if not (differ_back and differ_onward):
        raise Fault(BAD_RECORD)
    return back[::-1] + [present] + onward, cursor


def of_size(size, most=None):
    """A session file of this many bytes, an odd number: the first block of a blank image is written again and again, at most a number of times if that is given;
    the other changes are of no block, and all is undone."""
    room = (size - len(kept([bytes(SIZES[35])], 0))) // 2
    written = room // 130 if most is None else min(most, room // 130)
    empty = room - 130 * written
    record = b"\x01\x00\x00\x00"
    two = record + b"\x01" * BLOCK + record + bytes(BLOCK)
    records = (two * (written // 2 + 1))[:260 * written] + bytes(2 * empty)
    return MAGIC + bytes([35]) + bytes(SIZES[35] + 8) + (written + empty).to_bytes(8, "little") + records


def along(image, records):
    """The images that records lead to, one after another, and whether each block differs from the image's at its moment."""
    images, differ = [], True
    for record in records:
        image, differs = with_blocks(image, record)
        images.append(image)
        differ = differ and differs
    return images, differ
