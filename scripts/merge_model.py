"""A plain model of `d64sh merge`, written from the specification and not from the code: what becomes of each block of dumps of one disk, the dump that is made of
them, what is left on other tracks of G64 files, and what is printed in JSON. It is slow and simple.
"""
import hashlib
from collections import namedtuple

import g64_model
import survey_model as surveys

BLOCK, COUNTS = 256, {35: 683, 40: 768}
WORDS = ("taken", "lost", "majority", "first", "conflict")

# What is asked for.
Asked = namedtuple("Asked", "plain majority first")

# What becomes of a block: the word, the place of the dump whose bytes are taken, and the read code.
Choice = namedtuple("Choice", "word source code")


def dump_of(file):
    """The blocks of a file's dump, with their codes or None; or None if it is no dump."""
    if surveys.error_of(file):
        return None
    data = file if len(file) in surveys.KINDS_OF_DUMPS else g64_model.read(file)
    tracks, has_codes = surveys.KINDS_OF_DUMPS[len(data)]
    count = COUNTS[tracks]
    codes = list(data[BLOCK * count:]) if has_codes else [None] * count
    return [(data[BLOCK * at:BLOCK * (at + 1)], code) for at, code in enumerate(codes)]


def choice_of(asked, copies):
    """What becomes of a block of which each dump has this copy, or none."""
    good = [at for at, copy in enumerate(copies) if copy and copy[1] in (None, 0, 1)]
    if not good:
        there = [at for at, copy in enumerate(copies) if copy]
        source = next((at for at in there if copies[at][1] == 5), there[0])
        return Choice("lost", source, copies[source][1] or 0)
    contents = [copies[at][0] for at in good]
    if len(set(contents)) == 1:
        if len(good) == len(copies):
            return Choice("same", good[0], next((code for _, code in copies if code is not None), 0))
        return Choice("taken", good[0], copies[good[0]][1] or 0)
    most = max(set(contents), key=contents.count)
    if asked.majority and 2 * contents.count(most) > len(contents):
        source = good[contents.index(most)]
        return Choice("majority", source, copies[source][1] or 0)
    if asked.first:
        return Choice("first", good[0], copies[good[0]][1] or 0)
    return Choice("conflict", None, None)


class Merge:
    """A merge of files, each of which is a dump."""

    def __init__(self, asked, files):
        dumps = [dump_of(file) for file in files]
        self.asked, self.files = asked, files
        self.tracks = 40 if any(len(dump) == 768 for dump in dumps) else 35
        self.copies = [[dump[at] if at < len(dump) else None for dump in dumps] for at in range(COUNTS[self.tracks])]
        self.choices = [choice_of(asked, copies) for copies in self.copies]
        self.has_codes = not asked.plain and any(dump[0][1] is not None for dump in dumps)

    def count(self, word):
        return sum(choice.word == word for choice in self.choices)

    def bytes(self):
        """The bytes of the file that is made, or None if there is a conflict."""
        if self.count("conflict"):
            return None
        blocks = b"".join(copies[choice.source][0] for copies, choice in zip(self.copies, self.choices))
        return blocks + bytes(choice.code for choice in self.choices if self.has_codes)

    def left(self):
        """The tracks of G64 files that hold what the dump lacks."""
        entries = range(255)
        return [name_of(k) for k in entries if not (k % 2 == 0 and k // 2 < self.tracks) and any(self.lacks(file, k) for file in self.files)]

    def lacks(self, file, k):
        """Whether an entry of a file holds a sound block that the dump lacks."""
        if len(file) in surveys.KINDS_OF_DUMPS or not g64_model.is_g64(file):
            return False
        circle = g64_model.Circle(g64_model.entry(file, k))
        if not circle.starts:
            return False
        its_id = g64_model.disk_id(g64_model.Circle(g64_model.entry(file, 34)))
        return any(self.is_missing(circle.value(start, 3), circle.value(start, 2)) for start in circle.headers() if circle.code(start, its_id) == 1)

    def is_missing(self, track, sector):
        at = g64_model.BLOCKS.index((track, sector)) if (track, sector) in g64_model.BLOCKS else None
        return at is None or at >= len(self.choices) or self.choices[at].word == "lost"

    def json(self, out, names, is_written):
        """What is printed."""
        lines = [surveys.json_line({"block": "%d/%d" % g64_model.BLOCKS[at], "result": choice.word,
                                    "from": None if choice.source is None else surveys.in_json(names[choice.source]),
                                    "codes": [copy and copy[1] for copy in copies]})
                 for at, (choice, copies) in enumerate(zip(self.choices, self.copies)) if choice.word != "same"]
        data = self.bytes() if is_written else None
        return "".join(lines) + surveys.json_line(
            {"out": surveys.in_json(out), "tracks": self.tracks, "codes": self.has_codes, "blocks": len(self.choices),
             **{word: self.count(word) for word in WORDS}, "left": self.left(), "sha256": data and hashlib.sha256(data).hexdigest()})

    def status(self):
        return int(any(self.count(word) for word in ("lost", "first", "conflict")))


def name_of(k):
    """The track of an entry."""
    return f"{1 + k // 2}{'.5' if k % 2 else ''}"


def wanted(asked, out, is_there, can_be_written, names, files):
    """The status, the output in JSON, what goes to the standard error, and the bytes of the file that is made, or None. A file that cannot be read is None."""
    if is_there:
        return 2, "", f"d64sh: {surveys.shown(out)}: is there already\n", None
    if any(map(surveys.error_of, files)):
        faulty = [(name, file) for name, file in zip(names, files) if surveys.error_of(file)]
        return 2, "".join(surveys.error_json(*it) for it in faulty), "".join(surveys.error_line(*it) for it in faulty), None
    merge = Merge(asked, files)
    data = merge.bytes()
    if data is None:
        return merge.status(), merge.json(out, names, False), "", None
    if not can_be_written:
        return 2, merge.json(out, names, False), f"d64sh: {surveys.shown(out)}: cannot be written\n", None
    return merge.status(), merge.json(out, names, True), "", data
