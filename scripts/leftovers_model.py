"""A plain model of what is left over on dumps, written from the specification and not from the code: deleted files, and chains of blocks that no slot leads
to; what `d64sh files` and `extract` print of them, and what `extract` writes.
"""
import functools
import hashlib

import extract_model
import survey_model as model
from disk_model import REL, Slot
from extract_model import Extracted, TakenNames, below, folder_of
from text_form import to_text

WORDS = ("chain", "reused", "marked", "size", "claimed", "error")
FATAL = {"chain", "reused", "marked", "size"}
OPTIONS = ("deleted", "orphans")


class Leftovers:
    """What is left over on a dump, and what `files` and `extract` print of it."""

    def __init__(self, data):
        self.survey = model.survey_of(data)
        self.disk, self.owners, self.free, self.errors = self.survey.disk, self.survey.owners, self.survey.free, self.survey.errors
        self.scratched = [(number, slot) for number, slot in self.survey.slots if not slot.used and slot.first[0] != 0]

    def members_along(self, way):
        """The members for a way: how many blocks it has, the length and the digest of the data along it, and how many read errors."""
        content = self.disk.content(way.blocks) if way.end == "end" else None
        return {"blocks": len(way.blocks), "bytes": None if content is None else len(content),
                "sha256": None if content is None else hashlib.sha256(content).hexdigest(), "read_errors": sum(pair in self.errors for pair in way.blocks)}

    # Deleted files

    @functools.cached_property
    def why(self):
        """Why each scratched slot's file isn't whole."""
        claimed, words = set(), {}
        for number, slot in self.scratched:
            way = self.survey.way(slot.first)
            holds = {"chain": way.end != "end", "reused": any(pair in self.owners for pair in way.blocks),
                     "marked": any(pair not in self.owners and pair not in self.free for pair in way.blocks),
                     "size": way.end == "end" and len(way.blocks) != slot.size, "claimed": any(pair in claimed for pair in way.blocks),
                     "error": any(pair in self.errors for pair in way.blocks)}
            words[number] = [word for word in WORDS if holds[word]]
            claimed.update(way.blocks)
        return words

    def deleted(self, number, slot):
        """The members of the object of a scratched slot, but for the image's name."""
        along, why = self.members_along(self.survey.way(slot.first)), self.why[number]
        return {"slot": number, "name": to_text(slot.name), "field": slot.data[5:21].hex(), "kind": None, "type": 0, "closed": False, "locked": False,
                "size": slot.size, "first": model.pair_text(slot.first), "record": None, "blocks": along["blocks"], "side": None, "bytes": along["bytes"],
                "sha256": along["sha256"], "whole": not why, "why": why, "conditions": [], "read_errors": along["read_errors"]}

    # Chains that no slot leads to

    @functools.cached_property
    def left(self):
        """The blocks without owner to which no slot leads."""
        led = {pair for _, slot in self.survey.slots if slot.used or slot.first[0] != 0 for pair in self.survey.way(slot.first).blocks}
        return {pair for pair in self.disk.pairs if pair not in self.owners and pair not in led}

    @functools.cached_property
    def heads(self):
        linked = {tuple(self.disk.block(pair)[:2]) for pair in self.left}
        return [pair for pair in self.disk.pairs if pair in self.left and pair not in linked and pair[0] != 18 and self.is_orphan(self.survey.way(pair))]

    def is_orphan(self, way):
        return way.end == "end" and self.left.issuperset(way.blocks) and len(self.disk.content(way.blocks)) > 0

    @functools.cached_property
    def old_slots(self):
        """The first old slot that leads to each pair."""
        found = {}
        for pair in self.disk.pairs:
            if pair[0] == 18 and pair in self.left:
                for place in range(8):
                    slot = Slot(pair, place, self.disk.block(pair)[32 * place:32 * place + 32])
                    if slot.used and slot.kind <= REL:
                        found.setdefault(slot.first, slot)
        return found

    def orphan(self, head):
        """The members of the object of a chain, but for the image's name."""
        along, old = self.members_along(self.survey.way(head)), self.old_slots.get(head)
        named = {"name": to_text(old.name), "field": old.data[5:21].hex(), "kind": model.KIND_WORDS[old.kind], "type": old.data[2], "closed": old.closed,
                 "locked": old.locked, "size": old.size} if old else dict.fromkeys(("name", "field", "kind", "type", "closed", "locked", "size"))
        return {"slot": None, **named, "first": model.pair_text(head), "record": None, "blocks": along["blocks"], "side": None, "bytes": along["bytes"],
                "sha256": along["sha256"], "whole": None, "why": [], "conditions": [], "read_errors": along["read_errors"]}

    # What is printed and written

    def rows(self, options):
        """Each row with the last members that the options ask for, what it is, and the slot or the head."""
        files = {number: file for (number, _), file in zip(self.survey.entries, self.survey.files)}
        scratched = dict(self.scratched) if "deleted" in options else {}
        for number, slot in self.survey.slots:
            if number in files:
                yield "file", slot, files[number], self.last(options, False, False)
            elif number in scratched:
                yield "deleted", slot, self.deleted(number, slot), self.last(options, True, False)
        for head in self.heads if "orphans" in options else ():
            yield "orphan", head, self.orphan(head), self.last(options, False, True)

    @staticmethod
    def last(options, is_deleted, is_orphan):
        return {**({"deleted": is_deleted} if "deleted" in options else {}), **({"orphan": is_orphan} if "orphans" in options else {})}

    def portion(self, what, it, row, in_part):
        """The bytes that are written of a row, or None, and whether they are a part."""
        if what == "file":
            content = extract_model.content_of(self.survey, it)
            return (content, False) if content is not None or not in_part else (extract_model.part_of(self.survey, it), True)
        way = self.survey.way(it.first if what == "deleted" else it)
        if what == "orphan" or not FATAL.intersection(row["why"]):
            return self.disk.content(way.blocks), False
        if not in_part or not way.blocks:
            return None, True
        return (self.disk.content(way.blocks) if way.end == "end" else b"".join(self.disk.block(pair)[2:] for pair in way.blocks)), True

    def stem_and_ending(self, what, it, row):
        if what == "file":
            return row["name"], f".{model.KIND_WORDS[it.kind]}"
        if what == "deleted":
            return row["name"], ".deleted"
        return f"{it[0]}-{it[1]}" if row["name"] is None else row["name"], ".orphan"


@functools.lru_cache(64)
def leftovers_of(data):
    return Leftovers(data)


def columns(options, with_file=False):
    return [*model.COLUMNS_OF_FILES, *["file"] * with_file, *["deleted"] * ("deleted" in options), *["orphan"] * ("orphans" in options)]


def lines(form, name, rows, options, with_file=False):
    """What is printed of rows in JSON or CSV, with the paths of their host files."""
    named = extract_model.names_in(form)
    all_members = [{"image": named(name), **row, **({"file": path and named(path)} if with_file else {}), **last} for row, path, last in rows]
    if form == "json":
        return "".join(map(model.json_line, all_members))
    texts = ({**members, "why": " ".join(members["why"]), "conditions": " ".join(map(str, members["conditions"]))} for members in all_members)
    return "".join(model.csv_line([*(members[column] for column in columns(options, with_file)), None]) for members in texts)


def header(form, options, with_file=False):
    return model.csv_line([*columns(options, with_file), "error"]) if form == "csv" else ""


def output_of(form, name, data, options):
    """What `files` prints of a file in JSON or CSV."""
    if not model.error_of(data):
        return lines(form, name, [(row, None, last) for _, _, row, last in leftovers_of(data).rows(options)], options)
    if form == "json":
        return model.error_json(name, data)
    return model.csv_line([model.in_csv(name), *[None] * (len(columns(options)) - 1), model.error_of(data)])


def extracted(name, data, options, into=b".", in_part=False):
    """What comes of a dump whose folder isn't there."""
    folder, left, names = folder_of(name), leftovers_of(data), TakenNames()
    files, rows, written, is_too_much = {}, [], 0, False
    for what, it, row, last in left.rows(options):
        path, (content, is_part) = None, left.portion(what, it, row, in_part)
        is_too_much = is_too_much or content is not None and written + len(content) > extract_model.MOST_BYTES
        if content is not None and not is_too_much:
            written += len(content)
            stem, ending = left.stem_and_ending(what, it, row)
            own = names.take(stem, f"{ending}{'.part' if is_part else ''}").encode()
            files[own] = content
            path = below(into, folder + b"/" + own)
        rows.append((row, path, last))
    faults = f"d64sh: {model.shown(name)}: too much\n" if is_too_much else ""
    files[extract_model.LINES_FILE] = lines("json", name, rows, options, True).encode()
    return Extracted(folder, files, rows, faults, is_too_much, left.survey.is_list_amiss)


# Text, which is free but for these

def difference_of_text(data, text, options):
    """How the table of a dump differs from what it must print, or None."""
    left, printed = leftovers_of(data), text.splitlines()[1:]
    rows = list(left.rows(options))
    groups = [("file", None), ("deleted", "deleted"), ("orphan", "in no directory")]
    for what, heading in groups:
        of_group = [row for it, _, row, _ in rows if it == what]
        if heading and of_group and printed[:1] != [heading]:
            return f"not {heading!r} but {printed[:1]}"
        del printed[:1 if heading and of_group else 0]
        for row in of_group:
            if not printed or not IS_LINE[what](left, row, printed[0]):
                return f"of {row} it says {printed[:1]}"
            del printed[0]
    return None if all(line.startswith("  ") for line in printed) and bool(printed) == left.survey.is_list_cut else f"the last lines are {printed}"


def is_deleted_line(left, row, line):
    begin, hope, is_lost = f'{row["size"]:>5} "{row["name"]}"', "can be brought back", bool(FATAL.intersection(row["why"]))
    rest = line[len(begin):].strip()
    if not line.startswith(begin) or is_lost == rest.startswith(hope) or row["whole"] != (rest == hope):
        return False
    return ("reused" in row["why"]) == ("were used again by " in rest)


def is_orphan_line(left, row, line):
    return row["first"] in line and (row["name"] is None or f'"{row["name"]}"' in line) and str(row["blocks"]) in line


IS_LINE = {"file": lambda left, row, line: model.is_file_line(line, row), "deleted": is_deleted_line, "orphan": is_orphan_line}
