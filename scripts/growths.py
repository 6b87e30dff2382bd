"""Programs that are refused memory: the settings for scripts/refused_growths.c, and what it reports."""
import os
import shutil
import struct
import subprocess
from collections import namedtuple

HERE = os.path.dirname(os.path.abspath(__file__))
NUMBERS = "=4Q"
LEAST_ROOM = 1 << 30

# How many growths a run asked for, and how many were refused, and whether the first of those was asked for again, for no more.
Growths = namedtuple("Growths", "asked refused asked_again")


def compiled(name, work):
    """Compiles scripts/NAME.c to a library to be preloaded, and returns its path."""
    library = os.path.join(work, f"{name}.so")
    subprocess.run(["cc", "-O1", "-shared", "-fPIC", "-o", library, os.path.join(HERE, f"{name}.c"), "-ldl"], check=True)
    return library


def room_in_memory():
    """A folder in memory, if the system has one: files there are stored without waiting for a disk that others keep busy. None if it has none."""
    return "/dev/shm" if os.access("/dev/shm", os.W_OK | os.X_OK) and shutil.disk_usage("/dev/shm").free > LEAST_ROOM else None


def refusing(library, file, at, goes_on=False):
    """The environment of a run whose growth of this number is refused, or none for 0, and with `goes_on` all that follow. They are counted in the file."""
    with open(file, "wb") as counts:
        counts.write(bytes(struct.calcsize(NUMBERS)))
    environment = {"LD_PRELOAD": library, "GROWTHS": file, "GROWTH_AT": str(at)}
    return {**environment, "GROWTH_ON": "1"} if goes_on else environment


def counted(file):
    """The growths of the run whose environment was made with this file."""
    with open(file, "rb") as counts:
        asked, refused, refused_size, next_size = struct.unpack(NUMBERS, counts.read())
    return Growths(asked, refused, 0 < next_size <= refused_size)
