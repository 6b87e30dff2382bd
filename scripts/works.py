"""The works by which the program is measured: the files that they take, and of each its arguments and its script."""
import os
import subprocess
import tempfile
from collections import namedtuple
from shutil import which

import session_model

MANY = 10_000
FILES = 144

# One process: what it does, its arguments, its standard input, and the files that it makes, which must not be there.
Work = namedtuple("Work", "name arguments script made", defaults=("", ()))


def make_files(folder):
    """The host files that are written to disks."""
    sizes = {"block": 256, "five": 5_000, **{f"file{number}": 1_000 for number in range(FILES)}}
    for name, size in sizes.items():
        with open(os.path.join(folder, name), "wb") as file:
            file.write(bytes(place % 251 for place in range(size)))


def make_basic(folder):
    """1 MiB of text, of which a program can have no more than 64 KiB and the rest are remarks, and 1 MiB of program."""
    units = "".join(f"{{${0x81 + place % 31:02x}}}" for place in range(60))
    codes = b"\x99\"" + bytes(0x81 + place % 31 for place in range(60)) + b"\":\x8c:A\xb21:\x8b A\xb12 \xa7 \x89 100"
    text = "".join(f'{number} print"{units}":restore:a=1:if a>2 then goto 100\n' for number in range(550))
    text += ("; a remark that stands in the text and not in the program\n" * 20_000)[:2**20 - len(text) - 1] + "\n"
    line = b"\x01\x01\x0a\x00" + codes + b"\0"
    with open(os.path.join(folder, "text"), "w", encoding="ascii") as file:
        file.write(text)
    with open(os.path.join(folder, "program"), "wb") as file:
        file.write(b"\x01\x08" + line * (2**20 // len(line)) + b"\0\0")


def fill():
    """The lines that format a disk and fill its directory."""
    return 'format "full disk,01"\n' + "".join(f"write file{number}\n" for number in range(FILES))


def make_disks(program, folder):
    """A full disk, what it is after some changes, an empty one of 40 tracks, and one to save over."""
    shell = [program, "shell"]
    for command, script in (
        (shell, fill() + "save full.d64\n"),
        ([*shell, "full.d64"], "delete file0\nwrite five more\nrename file1 other\nsave changed.d64\n"),
        ([*shell, "--tracks", "40"], 'format "empty,02"\nsave empty.d64\n'),
        (shell, "save kept.d64\n"),
    ):
        subprocess.run(command, cwd=folder, input=script.encode(), stdout=subprocess.DEVNULL, check=True)


def make_session(folder, size):
    """A session file of this many bytes, with as many changes of one block as that holds."""
    with open(os.path.join(folder, "session"), "wb") as file:
        file.write(session_model.of_size(size))


def disk_works(program):
    """Works on single disks, on the files that the calls above make; the first is the start of a process."""
    shell = [program, "shell"]
    return [
        Work("start of a process", shell),
        Work("one file of 5,000 bytes", shell, "format d,01\nwrite five\n"),
        Work("144 files of 1,000 bytes", shell, fill() + "save made.d64\n", ("made.d64",)),
        Work("the directory of that disk", [*shell, "full.d64"], "list\n"),
        Work("all its files read", [*shell, "full.d64"], "".join(f"read file{number} /dev/null\n" for number in range(FILES))),
        Work("the map of that disk", [program, "map", "full.d64"]),
        Work("the same as a picture", [program, "map", "--format", "svg", "full.d64"]),
        Work("what changed: one file gone, one new and one renamed", [program, "diff", "full.d64", "changed.d64"]),
        Work("a save over a file", shell, "save kept.d64\n"),
        Work("a save in a new file", shell, "save made.d64\n", ("made.d64",)),
    ]


def instructions(work, folder, passed=()):
    """How many instructions one process of a work takes, by valgrind; None if that is not there."""
    if not which("valgrind"):
        return None
    for name in work.made:
        if os.path.exists(os.path.join(folder, name)):
            os.remove(os.path.join(folder, name))
    with tempfile.NamedTemporaryFile() as log, tempfile.TemporaryFile() as given:
        given.write(work.script.encode())
        given.seek(0)
        command = ["valgrind", "--tool=callgrind", "--callgrind-out-file=/dev/null", f"--log-file={log.name}", *work.arguments]
        # each variable of the environment takes instructions at the start of a process
        subprocess.run(command, cwd=folder, stdin=given, stdout=subprocess.DEVNULL, stderr=subprocess.DEVNULL, pass_fds=passed, check=False, env={"PATH": os.defpath})
        counts = [line.split()[-1] for line in log.read().decode().splitlines() if "Collected :" in line]
    return int(counts[0]) if counts else None
