"""A plain model of `d64sh extract`, written from the specification and not from the code: which files of a dump are written to the host, under which
names and with which bytes, and what is printed of them.
"""
import itertools
from collections import namedtuple

import survey_model as model
from disk_model import REL

COLUMNS = (*model.COLUMNS_OF_FILES, "file")
FORBIDDEN = '/\\<>:"|?*'
DEVICES = {"con", "prn", "aux", "nul", "conin$", "conout$", "clock$", *(f"{name}{digit}" for name in ("com", "lpt") for digit in range(1, 10))}
LINES_FILE, MOST_BYTES = b"files.jsonl", 16_777_216
IS_THERE, UNWRITTEN = "is there already", "cannot be written"

# What comes of an image: the path of its folder below FOLDER, its files by their names in order, the members of each line that is printed, with the
# path of the host file, what goes to standard error, and whether a fault, which makes the status 2, or anything amiss, which makes it 1, is there.
Extracted = namedtuple("Extracted", "folder files rows faults has_failed is_amiss")


# Names

def host_stem(text):
    """A name of a disk as the host file's, without an ending."""
    stem = "".join("_" if character in FORBIDDEN else character for character in text)
    if stem[:1] == ".":
        stem = "_" + stem[1:]
    if stem[-1:] in (".", " "):
        stem = stem[:-1] + "_"
    stem = stem or "_"
    return "_" + stem if stem.split(".")[0].rstrip(" ").lower() in DEVICES else stem


class TakenNames:
    """The names that the files of an image have got, small and capital letters taken as one."""

    def __init__(self):
        self.taken, self.nexts = set(), {}

    def take(self, text, ending):
        stem = host_stem(text)
        key = f"{stem}{ending}".lower()
        for number in itertools.count(self.nexts.get(key, 1)):
            name = f"{stem}{f' ({number})' if number > 1 else ''}{ending}"
            if name.lower() not in self.taken:
                self.taken.add(name.lower())
                self.nexts[key] = number
                return name


def folder_of(name):
    """The path of an image's folder below FOLDER."""
    *folders, last = name.split(b"/")
    return b"/".join([*(part for part in folders if part not in (b"", b".", b"..")), last + b".files"])


def below(into, path):
    return into + (b"" if into.endswith(b"/") else b"/") + path


# Files

def content_of(survey, slot):
    """The content of a slot's file, or None."""
    way = survey.ways_of(slot).get("data")
    return survey.disk.content(way.blocks) if way is not None and way.end == "end" else None


def part_of(survey, slot):
    """What is left of a slot's file that has no content, or None."""
    way = survey.way(slot.first)
    if slot.kind > REL or not way.blocks:
        return None
    return survey.disk.content(way.blocks) if way.end == "end" else b"".join(survey.disk.block(pair)[2:] for pair in way.blocks)


def portions(survey, in_part):
    """Of each used slot in order the bytes that are to be written, or None, and whether they are a part."""
    for _, slot in survey.entries:
        content = content_of(survey, slot)
        if content is not None or not in_part:
            yield slot, content, False
        else:
            yield slot, part_of(survey, slot), True


def extracted(name, data, into=b".", in_part=False, refuses=lambda name, content: False):
    """What comes of a dump whose folder isn't there, where the host refuses the files of which this says so."""
    folder, survey, names = folder_of(name), model.survey_of(data), TakenNames()
    files, rows, faults, written, is_too_much, is_refused = {}, [], "", 0, False, False
    for (slot, content, is_part), members in zip(portions(survey, in_part), survey.files):
        path = None
        is_too_much = is_too_much or content is not None and written + len(content) > MOST_BYTES
        if content is not None and not is_too_much:
            written += len(content)
            own = names.take(model.to_text(slot.name), f".{model.KIND_WORDS[slot.kind]}{'.part' if is_part else ''}").encode()
            if refuses(own, content):
                is_refused = True
                faults += f"d64sh: {model.shown(below(into, folder + b'.partial/' + own))}: {UNWRITTEN}\n"
            else:
                files[own] = content
                path = below(into, folder + b"/" + own)
        rows.append((members, path))
    if is_too_much:
        faults += f"d64sh: {model.shown(name)}: too much\n"
    files[LINES_FILE] = lines("json", name, rows).encode()
    return Extracted(folder, files, rows, faults, is_too_much or is_refused, survey.is_list_amiss)


# Lines

def lines(form, name, rows):
    """What is printed of an image in JSON or CSV."""
    named = names_in(form)
    if form == "json":
        return "".join(model.json_line({"image": named(name), **file, "file": path and named(path)}) for file, path in rows)
    return "".join(model.csv_line([*({"image": named(name), **file, "why": " ".join(file["why"]), "conditions": " ".join(map(str, file["conditions"])),
                                      "file": path and named(path)}[column] for column in COLUMNS), None]) for file, path in rows)


def names_in(form):
    """The names of the host as a form has them."""
    return model.in_json if form == "json" else model.in_csv


def header(form):
    return model.csv_line([*COLUMNS, "error"]) if form == "csv" else ""


def error_lines(form, name, error, length=None):
    """What is printed of an image that isn't reported, for this error."""
    image = names_in(form)(name)
    if form == "csv":
        return model.csv_line([image, *[None] * (len(COLUMNS) - 1), error])
    return model.json_line({"image": image, "error": error, **({"length": length} if length is not None else {})}) if form == "json" else ""


def unread(form, name, data):
    """What is printed of a file that isn't read as a dump."""
    error = model.error_of(data)
    return error_lines(form, name, error, len(data) if error == "wrong length" else None)


def is_text_line(line, file, path):
    """Whether a line of text may be about a file: it is one of `files`, and then says where the file was written, or that it was not."""
    end = ", not written" if path is None else f" -> {model.shown(path)}"
    return line.endswith(end) and model.is_file_line(line[:-len(end)], file)
