"""A plain model of surveys of dumps, written from the specification and not from the code: what is on a dump, what is wrong with it, which of its files
are whole, and what `d64sh check`, `files`, `map` and `diff` print of it. It is slow and simple: it lists each block's owners, all of them.
"""
import functools
import hashlib
import json
import re
from collections import Counter, namedtuple
from xml.etree import ElementTree

import g64_model
from disk_model import BLANK, DEL, DIRECTORY, MAP, REL, SECTORS, USR, Disk, Slot, up_to_filler
from text_form import to_text

# How many tracks a dump of each length has, and whether codes follow its image.
KINDS_OF_DUMPS = {174_848: (35, False), 175_531: (35, True), 196_608: (40, False), 197_376: (40, True)}

# The status of the drive for each code that has one. Codes 0 and 1 are good.
STATUSES = {**{code: code + 18 for code in range(2, 12)}, 15: 74}
WORDS = ("open", "kind", "chain", "shared", "error", "size", "geos")

# The doubts, by what the text says of each; and what makes a disk one of GEOS, and a block one that a copier filled.
DOUBTS = {"version": "version byte", "blank": " blank", "unowned": "marked used and belong", "filler": "[BAD SECTOR]"}
GEOS, FILLER = b"GEOS format", b"-=[BAD SECTOR]=-" * 16
MOST_OWNERS, MOST_NAME, SHOWN_OF_LONGER, LIMIT = 8, 4_096, 64, 16_777_216

COLUMNS = ("image", "tracks", "codes", "name", "id", "dos", "entries", "whole", "free", "unowned", "sound", "amiss", "faults", "read_errors")
COLUMNS_OF_FILES = ("image", "slot", "name", "field", "kind", "type", "closed", "locked", "size", "first", "record", "blocks", "side", "bytes", "sha256",
                    "whole", "why", "conditions", "read_errors")
KIND_WORDS = ("del", "seq", "prg", "usr", "rel")
MARKS_OF_DIRECTION = {0x61C, 0x200E, 0x200F, *range(0x202A, 0x202F), *range(0x2066, 0x206A)}
# The characters that no name shows as they are, but for CSV.
HIDDEN = re.compile(f"[{re.escape(''.join(map(chr, sorted({*range(0x20), *range(0x7F, 0xA0), *MARKS_OF_DIRECTION}))))}]")

# How many faults of one number have a line each in text.
MOST_OF_A_NUMBER = 10

# The most bytes of a picture, its elements, and what the title of a block says by the character that the map has for it.
MOST_OF_PICTURE, SVG = 204_800, "{http://www.w3.org/2000/svg}"
WORDS_OF_MARKS = {"-": lambda text: text == "free", "#": lambda text: text.startswith('belongs to ') and '"' in text,
                  "=": lambda text: text in ("belongs to the map", "belongs to the directory"), "?": lambda text: text.startswith("marked used"),
                  "!": lambda text: text.startswith(("shared by", "marked free, but")), "x": lambda text: text.startswith("could not be read")}

# The blocks along the links from a pair, how that ends (`end`, `loop` or `off`), and the pair at which it does.
Way = namedtuple("Way", "blocks end to")

# Who a block belongs to: the map, the directory, or the data or the side blocks of a slot.
Owner = namedtuple("Owner", "what slot name", defaults=(None, None))


def pair_text(pair):
    return f"{pair[0]}/{pair[1]}"


def owner_members(owners):
    """The members of an object about some owners."""
    members = [{key: value for key, value in owner._asdict().items() if value is not None} for owner in owners[:MOST_OWNERS]]
    return {"owners": members, **({"more": len(owners) - MOST_OWNERS} if len(owners) > MOST_OWNERS else {})}


@functools.lru_cache(64)
def dumped(data):
    """The bytes of the dump that a file is, those of a D64; None if it is no dump."""
    if len(data) in KINDS_OF_DUMPS:
        return data
    return g64_model.read(data) if g64_model.is_g64(data) else None


class Survey:
    """All that is reported about a dump."""

    def __init__(self, data):
        data = dumped(data)
        self.tracks, self.has_codes = KINDS_OF_DUMPS[len(data)]
        size = len(BLANK[self.tracks])
        self.disk, self.codes, self.known_ways, self.known_contents = Disk(data[:size]), data[size:], {}, {}
        self.directory = self.way(DIRECTORY)
        blocks = [(pair, self.disk.block(pair)) for pair in self.directory.blocks]
        slots = [Slot(pair, place, block[32 * place:32 * place + 32]) for pair, block in blocks for place in range(8)]
        self.slots = list(enumerate(slots))
        self.entries = [(number, slot) for number, slot in self.slots if slot.used]
        self.names = {number: to_text(slot.name) for number, slot in self.entries}

    def way(self, pair):
        if pair not in self.known_ways:
            self.known_ways[pair] = self.walked(pair)
        return self.known_ways[pair]

    def walked(self, pair):
        blocks = {}
        while self.disk.holds(pair) and pair not in blocks:
            link = self.disk.block(pair)
            blocks[pair] = link
            pair = tuple(link[:2])
            if link[0] == 0:
                return Way(list(blocks), "end", pair)
        return Way(list(blocks), "loop" if pair in blocks else "off", pair)

    def ways_of(self, slot):
        """The ways of a slot, each with what its blocks are."""
        if not slot.closed or not DEL < slot.kind <= REL:
            return {}
        has_side = slot.kind == REL and slot.side[0] != 0
        return {"data": self.way(slot.first), **({"side": self.way(slot.side)} if has_side else {})}

    @functools.cached_property
    def owners(self):
        """The owners of each block that has any."""
        owners = {MAP: [Owner("map")]}
        for pair in self.directory.blocks:
            owners.setdefault(pair, []).append(Owner("directory"))
        for number, slot in self.entries:
            for what, way in self.ways_of(slot).items():
                owner = Owner(what, number, self.names[number])
                for pair in way.blocks:
                    owners.setdefault(pair, []).append(owner)
        return owners

    @functools.cached_property
    def free(self):
        return self.disk.free()

    # Faults

    @functools.cached_property
    def faults(self):
        return [fault for faults in (self.counts(), self.of_directory(), self.kinds(), self.broken(), self.shared(), self.marked_free()) for fault in faults]

    def counts(self):
        marked = Counter(track for track, _ in self.free)
        for track, count in self.disk.counts().items():
            if count != marked[track]:
                yield {"condition": 1, "track": track, "count": count, "marked": marked[track]}

    def of_directory(self):
        if self.directory.end != "end":
            yield {"condition": 2, **self.broken_end(self.directory)}

    @staticmethod
    def broken_end(way):
        return {"at": pair_text(way.blocks[-1]) if way.blocks else None, "end": way.end, "to": pair_text(way.to)}

    def kinds(self):
        for number, slot in self.entries:
            if slot.kind > REL:
                yield {"condition": 3, "slot": number, "name": self.names[number], "type": slot.data[2]}

    def broken(self):
        for number, slot in self.entries:
            for what, way in self.ways_of(slot).items():
                if way.end != "end":
                    yield {"condition": 4, "slot": number, "name": self.names[number], "what": what, **self.broken_end(way)}

    def shared(self):
        for pair in self.disk.pairs:
            if len(self.owners.get(pair, ())) > 1:
                yield {"condition": 5, "block": pair_text(pair), **owner_members(self.owners[pair])}

    def marked_free(self):
        for pair in self.disk.pairs:
            if pair in self.free and pair in self.owners:
                yield {"condition": 6, "block": pair_text(pair), **owner_members(self.owners[pair])}

    # Read errors

    @functools.cached_property
    def errors(self):
        """The code of each block that has a read error."""
        return {pair: code for pair, code in zip(self.disk.pairs, self.codes) if code > 1}

    @property
    def read_errors(self):
        return [{"block": pair_text(pair), "code": code, "status": STATUSES.get(code), **owner_members(self.owners.get(pair, []))}
                for pair, code in self.errors.items()]

    # Files

    def is_geos(self, slot):
        return slot.kind == USR and slot.data[0x18] != 0 and self.disk.holds(slot.side)

    def why(self, slot):
        """The text that says why a slot's file isn't whole, or that this isn't known; None if it isn't examined."""
        if slot.kind == DEL:
            return None
        ways = self.ways_of(slot).values()
        blocks, ends = [pair for way in ways for pair in way.blocks], all(way.end == "end" for way in ways)
        is_geos = self.is_geos(slot)
        holds = {"open": not slot.closed, "kind": slot.kind > REL, "chain": not ends, "shared": any(len(self.owners[pair]) > 1 for pair in blocks),
                 "error": any(pair in self.errors for pair in blocks), "size": bool(ways) and ends and slot.size != len(blocks) and not is_geos,
                 "geos": is_geos}
        return [word for word in WORDS if holds[word]]

    @functools.cached_property
    def all_why(self):
        """The text about each used slot, in order."""
        return [self.why(slot) for _, slot in self.entries]

    @property
    def not_whole(self):
        return sum(why not in (None, [], ["geos"]) for why in self.all_why)

    @functools.cached_property
    def doubts(self):
        """What makes the disk doubtful: signs that a reader wrote something else for what it could not read."""
        head, first = self.disk.block(MAP), self.disk.block(DIRECTORY)
        strays = [pair for pair in self.disk.pairs if pair[0] <= 35 and pair not in self.free and pair not in self.owners]
        holds = {"version": head[2] != 0x41, "blank": len(set(head)) == 1 or len(set(first)) == 1, "unowned": strays and head[0xAD:0xB8] != GEOS,
                 "filler": any(self.disk.block(pair) == FILLER for pair in self.disk.pairs)}
        return [word for word in DOUBTS if holds[word]]

    @property
    def is_amiss(self):
        return bool(self.faults or self.errors or self.not_whole or self.doubts)

    @property
    def is_list_cut(self):
        """Whether files may be missing from the directory."""
        return self.directory.end != "end" or any(pair in self.errors for pair in (MAP, *self.directory.blocks))

    @property
    def is_list_amiss(self):
        return self.is_list_cut or self.not_whole > 0

    def content(self, slot):
        """How many bytes the content of a slot's file has, and its digest, or None twice if it has no content."""
        way = self.ways_of(slot).get("data")
        if way is None or way.end != "end":
            return None, None
        if slot.first not in self.known_contents:
            content = self.disk.content(way.blocks)
            self.known_contents[slot.first] = len(content), hashlib.sha256(content).hexdigest()
        return self.known_contents[slot.first]

    def conditions(self, slot):
        """The numbers of the faults of files and blocks that name a slot."""
        ways = self.ways_of(slot).values()
        blocks = [pair for way in ways for pair in way.blocks]
        holds = {3: slot.kind > REL, 4: any(way.end != "end" for way in ways), 5: any(len(self.owners[pair]) > 1 for pair in blocks),
                 6: any(pair in self.free for pair in blocks)}
        return [number for number in holds if holds[number]]

    def file(self, number, slot, why):
        """The members of the object that `files` prints of a used slot, but for the image's name."""
        ways, (size, digest) = self.ways_of(slot), self.content(slot)
        blocks = {what: len(way.blocks) for what, way in ways.items()}
        whole = None if why in (None, ["geos"]) else not why
        return {"slot": number, "name": self.names[number], "field": slot.data[5:21].hex(), "kind": KIND_WORDS[slot.kind] if slot.kind <= REL else None,
                "type": slot.data[2], "closed": slot.closed, "locked": slot.locked, "size": slot.size, "first": pair_text(slot.first),
                "record": slot.data[0x17] if slot.kind == REL else None, "blocks": blocks.get("data"), "side": blocks.get("side"),
                "bytes": size, "sha256": digest, "whole": whole, "why": why or [], "conditions": self.conditions(slot),
                "read_errors": len({pair for way in ways.values() for pair in way.blocks if pair in self.errors})}

    @functools.cached_property
    def files(self):
        return [self.file(number, slot, why) for (number, slot), why in zip(self.entries, self.all_why)]

    # The picture

    def mark(self, pair):
        """The character of a block in the map."""
        owners, is_free = self.owners.get(pair, []), pair in self.free
        mark = "-" if is_free else ""
        if len(owners) == 1:
            mark = "#"
        if any(owner.what in ("map", "directory") for owner in owners):
            mark = "="
        if not is_free and not owners:
            mark = "?"
        if len(owners) > 1 or owners and is_free:
            mark = "!"
        return "x" if pair in self.errors else mark

    def rows_of_map(self):
        """The characters of each track."""
        return [(track, "".join(self.mark((track, sector)) for sector in range(SECTORS[track]))) for track in range(1, self.tracks + 1)]

    def members(self):
        """The members of the object that `check` prints, but for the image's name."""
        head = self.disk.block(MAP)
        counts = self.disk.counts()
        return {"tracks": self.tracks, "codes": self.has_codes, "name": to_text(up_to_filler(head[0x90:0xA0])), "id": to_text(head[0xA2:0xA4]),
                "dos": to_text(head[0xA5:0xA7]), "entries": len(self.entries), "whole": self.all_why.count([]),
                "free": sum(count for track, count in counts.items() if track != 18),
                "unowned": sum(pair not in self.free and pair not in self.owners for pair in self.disk.pairs),
                "sound": not self.faults, "amiss": self.is_amiss, "faults": self.faults, "read_errors": self.read_errors}


# Names

def kept_of(name):
    """A name of a list as it is shown: of a longer one than names may be, its beginning."""
    return name if len(name) <= MOST_NAME else name[:SHOWN_OF_LONGER] + b".."


def is_name(name):
    """Whether a name of a list is one that may be read."""
    try:
        return len(name) <= MOST_NAME and name.decode() is not None
    except UnicodeDecodeError:
        return False


def shown(name):
    """A host name as text for people: it holds no control of a terminal, and makes no line."""
    return "".join(map(shown_character, name.decode(errors="surrogateescape")))


def shown_character(character):
    code = ord(character)
    if 0xDC80 <= code <= 0xDCFF:
        return f"\\x{code - 0xDC00:02x}"
    if HIDDEN.match(character):
        return f"\\u{{{code:x}}}"
    return "\\\\" if character == "\\" else character


def in_json(name):
    """A host name as the value of a member, of which `json_line` escapes what is hidden."""
    return name.decode(errors="replace")


def in_csv(name):
    """A host name as a field: one that isn't UTF-8 is as in text."""
    try:
        return name.decode()
    except UnicodeDecodeError:
        return shown(name)


# Lines

def json_line(members):
    """An object: JSON escapes controls below a space by itself, and the rest of what is hidden is in names of the host alone."""
    return HIDDEN.sub(lambda it: f"\\u{ord(it[0]):04x}", json.dumps(members, ensure_ascii=False, separators=(",", ":"))) + "\n"


def csv_line(fields):
    return ",".join(map(csv_field, fields)) + "\n"


def csv_field(value):
    text = "" if value is None else str(value).lower() if isinstance(value, bool) else str(value)
    return '"' + text.replace('"', '""') + '"' if any(character in text for character in ',"\r\n') else text


def csv_header(digest=False):
    return csv_line([*COLUMNS, *["sha256"] * digest, "doubts", "error"])


def files_header():
    return csv_line([*COLUMNS_OF_FILES, "error"])


def error_of(data):
    """Why a file isn't reported, if so: it is None if it cannot be read."""
    if data is None or len(data) > LIMIT:
        return "cannot be read"
    return None if dumped(data) else "bad G64" if g64_model.is_g64(data) else "wrong length"


@functools.lru_cache(64)
def survey_of(data):
    return Survey(data)


def check_json(name, data, digest=False):
    """The line of a file in JSON."""
    head, error = {"image": in_json(name)}, error_of(data)
    if error:
        return json_line({**head, "error": error, **({"length": len(data)} if error == "wrong length" else {})})
    survey, digests = survey_of(data), {"sha256": hashlib.sha256(data).hexdigest()} if digest else {}
    return json_line({**head, **survey.members(), **digests, "doubts": survey.doubts})


def check_csv(name, data, digest=False):
    """The row of a file."""
    name, error = in_csv(name), error_of(data)
    if error:
        return csv_line([name, *[None] * (len(COLUMNS) + digest), error])
    members = survey_of(data).members()
    members.update(image=name, faults=len(members["faults"]), read_errors=len(members["read_errors"]))
    return csv_line([*(members[column] for column in COLUMNS), *[hashlib.sha256(data).hexdigest()] * digest, " ".join(survey_of(data).doubts), None])


def error_json(name, data):
    """The line in JSON about a file that isn't reported."""
    error = error_of(data)
    return json_line({"image": in_json(name), "error": error, **({"length": len(data)} if error == "wrong length" else {})})


def files_json(name, data):
    """The lines of the files of a dump in JSON."""
    if error_of(data):
        return error_json(name, data)
    image = {"image": in_json(name)}
    return "".join(json_line({**image, **file}) for file in survey_of(data).files)


def files_csv(name, data):
    """The rows of the files of a dump."""
    name, error = in_csv(name), error_of(data)
    if error:
        return csv_line([name, *[None] * (len(COLUMNS_OF_FILES) - 1), error])
    rows = ({"image": name, **file, "why": " ".join(file["why"]), "conditions": " ".join(map(str, file["conditions"]))} for file in survey_of(data).files)
    return "".join(csv_line([*(row[column] for column in COLUMNS_OF_FILES), None]) for row in rows)


def header_of(command, digest=False):
    """The header row of a command in CSV."""
    return files_header() if command == "files" else csv_header(digest)


def output_of(command, form, name, data, digest=False):
    """What a command prints of a file in JSON or CSV."""
    if command == "files":
        return (files_json if form == "json" else files_csv)(name, data)
    return (check_json if form == "json" else check_csv)(name, data, digest)


def diff_json(old_name, old, new_name, new):
    """The lines of what changed from a dump to another one, in JSON."""
    missing = [error_json(name, data) for name, data in ((old_name, old), (new_name, new)) if error_of(data)]
    if missing:
        return "".join(missing)
    lines, before, after = [], survey_of(old), survey_of(new)
    heads = [{key: survey.members()[key] for key in ("tracks", "codes", "name", "id", "dos", "free")} for survey in (before, after)]
    if heads[0] != heads[1]:
        lines.append({"change": "disk", "old": heads[0], "new": heads[1]})
    files = [{file["slot"]: {key: value for key, value in file.items() if key != "slot"} for file in survey.files} for survey in (before, after)]
    for slot in sorted({*files[0], *files[1]}):
        one, other = (some.get(slot) for some in files)
        if one != other:
            lines.append({"slot": slot, "change": "added" if one is None else "removed" if other is None else "changed", "old": one, "new": other})
    blocks = [pair for pair in max(before, after, key=lambda survey: survey.tracks).disk.pairs
              if not before.disk.holds(pair) or not after.disk.holds(pair) or before.disk.block(pair) != after.disk.block(pair)]
    if blocks:
        lines.append({"change": "blocks", "blocks": list(map(pair_text, blocks))})
    if before.has_codes and after.has_codes:
        codes = [pair_text(pair) for pair, one, other in zip(before.disk.pairs, before.codes, after.codes) if one != other and (one > 1 or other > 1)]
        if codes:
            lines.append({"change": "codes", "blocks": codes})
    return "".join(map(json_line, lines))


def status_of_diff(old, new):
    return 2 if error_of(old) or error_of(new) else int(dumped(old) != dumped(new))


def error_line(name, data):
    """The line on the standard error about a file that isn't reported, except for what it seems to be, or nothing."""
    error = error_of(data)
    return f"d64sh: {shown(name)}: {error}{f' {len(data)}' if error == 'wrong length' else ''}\n" if error else ""


def status_of(all_data, command="check"):
    """The exit status of a run of a command over these files."""
    if any(error_of(data) for data in all_data):
        return 2
    return int(any(survey_of(data).is_list_amiss if command == "files" else survey_of(data).is_amiss for data in all_data))


# Texts, which are free but for these

def text_lines(data):
    """How many lines there are about a dump, beside one about the blocks that are marked used and belong to nobody."""
    survey = survey_of(data)
    return 1 + len(lines_of_faults(survey)) + len(survey.errors) + survey.not_whole


def lines_of_faults(survey):
    """For each line of faults its fault, or of the faults of a number beyond the tenth the line itself, which says how many they are."""
    lines = []
    for number in range(1, 7):
        faults = [fault for fault in survey.faults if fault["condition"] == number]
        more = len(faults) - MOST_OF_A_NUMBER
        lines += [*faults[:MOST_OF_A_NUMBER], *[f"  and {more} more of these"] * (more > 0)]
    return lines


def is_fault_line(line, members):
    """Whether a line may be about a fault: it has the track, the name or the block. Of the faults beyond the tenth it is their line."""
    if isinstance(members, str):
        return line == members
    what = {1: f'track {members.get("track")}:', 2: "the directory", 3: f'"{members.get("name")}"', 4: f'"{members.get("name")}"'}.get(members["condition"])
    return line.startswith(f"  {what or members['block'] + ' '}") or members["condition"] == 4 and line.startswith(f"  the side sectors of {what}")


def is_of_unowned(line, data):
    """Whether a line may be about the blocks that are marked used and belong to nobody, which the first line doesn't say: it may be left out."""
    members = survey_of(data).members()
    return members["amiss"] and "unowned" not in survey_of(data).doubts and members["unowned"] > 0 and numbers_in(line)[:1] == [members["unowned"]]


def is_first_line(line, name, data):
    """Whether a line may be the first about a dump."""
    survey, members = survey_of(data), survey_of(data).members()
    is_clean = members["sound"] and not survey.errors and not survey.not_whole
    line, doubtful, doubts = line.partition(f", {'but' if is_clean else 'and'} doubtful: ")
    begin, _, end = line.rpartition(": ")
    head = f'{shown(name)}: "{members["name"]}" {members["id"]}'
    counts = [count for count in (len(survey.faults), len(survey.errors), survey.not_whole) if count]
    is_right = begin.startswith(head) and numbers_in(begin[len(head):]) == [members["entries"], members["free"]]
    is_right = is_right and end.startswith("sound") == members["sound"] and numbers_in(end) == counts
    return is_right and bool(doubtful) == bool(survey.doubts) and are_doubts(doubts, survey)


def are_doubts(text, survey):
    """Whether a text may say what makes a disk doubtful: it says each doubt, and of the blocks that nobody owns how many there are."""
    unowned = survey.members()["unowned"]
    is_counted = "unowned" not in survey.doubts or re.search(rf"\b{unowned} blocks? (are|is) marked used", text) is not None
    said = [word for word, phrase in DOUBTS.items() if phrase in text.replace("is marked used and belongs", "are marked used and belong")]
    return is_counted and said == survey.doubts


def is_file_line(line, file):
    """Whether a line of text may be about a file: its size, name and kind, and whether it is whole."""
    begin = f'{file["size"]:>5} "{file["name"]}"'
    rest = line[len(begin):].split(maxsplit=1)
    return line.startswith(begin) and len(rest) == 2 and rest[0] == (file["kind"] or "???") and (rest[1].split(",")[0] == "whole") == (file["whole"] is True)


def numbers_in(text):
    return [int(number) for number in re.findall("[0-9]+", text)]


# Pictures, which are free but for these

def difference_of_picture(data, text):
    """How a picture differs from what must come of it, or None: it is XML, fetches and runs nothing, and has a title for each block, which says its state."""
    survey, root = survey_of(data), ElementTree.fromstring(text)
    size = len(text.encode())
    if size > MOST_OF_PICTURE or root.tag != SVG + "svg" or not root.get("viewBox"):
        return f"the picture has {size} bytes, and begins with {root.tag}"
    if any(element.tag in (SVG + "script", SVG + "image", SVG + "a") or "href" in key for element in root.iter() for key in ("", *element.attrib)):
        return "the picture fetches or runs something"
    titles = [title.text for element in root.iter() if element is not root for title in element.findall(SVG + "title")]
    members = dict(title.split(": ", 1) for title in titles)
    if len(titles) != len(members) or list(members) != list(map(pair_text, survey.disk.pairs)):
        return f"the picture has {len(titles)} titles of blocks"
    return next((f"of {pair} the picture says {members[pair_text(pair)]!r}" for pair in survey.disk.pairs
                 if not WORDS_OF_MARKS[survey.mark(pair)](members[pair_text(pair)])), None)


# What came of a run

def without_guesses(faults):
    """The lines of standard error without what a file of a wrong length seems to be, and without the reason of one that cannot be read, which are free."""
    return re.sub(r"(?m)(: wrong length \d+|: cannot be read) \([^()\n]+\)$", r"\1", faults)


def first_difference(came, wanted):
    """The place at which two texts first differ, or None."""
    if came == wanted:
        return None
    at = next((place for place, (one, other) in enumerate(zip(came, wanted)) if one != other), min(len(came), len(wanted)))
    return f"{came[max(at - 60, 0):at + 60]!r}, not {wanted[max(at - 60, 0):at + 60]!r}"
