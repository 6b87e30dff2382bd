"""What the gate runs beside `rt ci`: the scripts, the pages and the programs that they are run on; and how those scripts read their arguments."""
import argparse
import glob
import os
import re
import subprocess
import sys
import time

from crates import TOP, read_crates

PROGRAM = "crates/d64sh/out/d64sh"
GROWTHS = "crates/test_growths/out/test_growths"

# The pages: their examples are run, and the names and links in them looked up.
PAGES = [*sorted(glob.glob("*.md", root_dir=TOP)), *sorted(glob.glob("docs/*.md", root_dir=TOP))]

# Scripts that take seconds and need no program.
TEXTS = [
    ["scripts/functions-without-wrong-body"],
    ["scripts/out-of-memory-places"],
    ["scripts/crates-listed"],
    ["scripts/names-once"],
    ["scripts/check-pages", "--names", *PAGES],
    ["scripts/manual-page", "docs/MANUAL.md", "docs/d64sh.1"],
    ["scripts/same-words"],
    ["scripts/plain-words"],
    ["scripts/completions", "--try", "packaging/completions"],
]

# Scripts that take seconds on the program, and those of both lists that a change of pages alone asks for.
SHORT = [
    ["scripts/check-pages", PROGRAM, *PAGES],
    ["scripts/exit-statuses", PROGRAM],
    ["scripts/manual-texts", PROGRAM],
]

OF_PAGES = ("scripts/manual-page", "scripts/check-pages", "scripts/crates-listed", "scripts/plain-words")

# The scripts that are run on the program, with it as their only argument. Each ends with status 0 if all is well.
SWEEPS = [
    "scripts/terminal",
    "scripts/limits",
    "scripts/check-recipes",
    "scripts/compare-with-model",
    "scripts/sweep-largest",
    "scripts/sweep-stores",
    "scripts/sweep-faults",
    "scripts/sweep-memory",
    "scripts/sweep-damage",
    "scripts/sweep-undelete",
    "scripts/sweep-sessions",
    "scripts/sweep-surveys",
    "scripts/sweep-g64",
    "scripts/sweep-merge",
    "scripts/check-schema",
    "scripts/sweep-differences",
    "scripts/sweep-catalogue",
    "scripts/sweep-survey-names",
    "scripts/sweep-extract",
    "scripts/sweep-leftovers",
    "scripts/other-tools",
    "scripts/instructions",
]

# Of the crates whose programs are run, the commands that wait for it.
AFTER = [
    *((command, "d64sh") for command in SHORT),
    *(([sweep, PROGRAM], "d64sh") for sweep in SWEEPS),
    (["scripts/sweep-calls", GROWTHS], "test_growths"),
]


def after():
    """What the gate runs beside `rt ci`: commands, each with the crate that must be built before it."""
    crates = [it for it in read_crates() if glob.glob(f"{TOP}/crates/{it}/more-wrong-bodies/*.edit")]
    return [*((["scripts/wrong-bodies", "--gate", it], it) for it in crates), *AFTER]


def timed(command):
    """Runs a command, and returns whether all is well, what it printed, and its seconds."""
    begin = time.monotonic()
    try:
        done = subprocess.run(command, stdin=subprocess.DEVNULL, stdout=subprocess.PIPE, stderr=subprocess.STDOUT, text=True, errors="replace", check=False)
    except OSError as error:
        return False, f"{error}\n", 0
    return done.returncode == 0, done.stdout, round(time.monotonic() - begin)


def usage(text, arguments):
    """The exit status of a script that takes no arguments and is given some, or None; it prints the script's usage."""
    if not arguments:
        return None
    if arguments == ["--help"]:
        print(text.strip())
        return 0
    print(text.strip().splitlines()[-1], file=sys.stderr)
    return 2


def program_and_counts(text, arguments, *counts):
    """The program that a script is run on, and the counts that may follow it, or these if they are not given. If the arguments are others, the script ends with
    the usage that its text has, and with the whole text if --help is asked for."""
    about, _, synopsis = text.strip().rpartition("\n\nusage: ")
    parser = argparse.ArgumentParser(usage=synopsis, description=about, formatter_class=argparse.RawDescriptionHelpFormatter)
    program, *names = re.findall("[A-Z]+", synopsis)
    parser.add_argument(program, type=os.path.abspath, help=argparse.SUPPRESS)
    for name, count in zip(names, counts, strict=True):
        parser.add_argument(name, type=int, nargs="?", default=count, help=argparse.SUPPRESS)
    given = vars(parser.parse_args(arguments))
    return [given[name] for name in (program, *names)]
