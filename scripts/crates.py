"""The crates of crates.txt, the libraries below each, and how many checks run side by side."""
import concurrent.futures
import contextlib
import functools
import glob
import importlib.machinery
import importlib.util
import os
import re
import shutil
import subprocess
import sys
import tempfile

TOP = os.path.dirname(os.path.dirname(os.path.abspath(__file__)))
RT = os.environ.get("RT", "rt")
# What the check of a crate takes at most, in bytes, and so does a try of its tests.
MEMORY = 2_600_000_000
# What a crate costs for being there, in lines of its own.
LINES_OF_A_CRATE = 1_500


def script(name):
    """Another script of this folder, whose name has no `.py`, as a module."""
    module = name.replace("-", "_")
    loader = importlib.machinery.SourceFileLoader(module, os.path.join(TOP, "scripts", name))
    made = importlib.util.module_from_spec(importlib.util.spec_from_loader(module, loader))
    sys.modules[module] = made
    loader.exec_module(made)
    return made


@functools.cache
def kit():
    """The folder of the toolchain."""
    page = subprocess.run([RT, "doc"], stdin=subprocess.DEVNULL, stdout=subprocess.PIPE, text=True, check=True).stdout.split()
    return os.path.dirname(next(it for it in page if it.endswith("START-HERE.md")))


def version():
    """The newest version of CHANGELOG.md."""
    with open(os.path.join(TOP, "CHANGELOG.md"), encoding="utf-8") as file:
        return next(line.split()[1].rstrip(",") for line in file if line.startswith("## ") and line[3].isdigit())


def read_libraries():
    """Of each crate the libraries that its line of crates.txt names, in that order, the toolchain's too."""
    named = {}
    with open(os.path.join(TOP, "crates.txt"), encoding="utf-8") as file:
        for line in file:
            name, colon, libraries = line.split("#")[0].partition(":")
            if colon:
                named[name.strip()] = libraries.split()
    return named


def read_crates():
    """Of each crate the crates that it names, in the order of crates.txt, in which a crate comes after those."""
    named = read_libraries()
    return {name: [it for it in libraries if it in named] for name, libraries in named.items()}


def below(crates, name):
    """All crates that a crate uses, also through others."""
    return {it for library in crates[name] for it in (library, *below(crates, library))}


def lines_of(name):
    """How many lines a crate's code, definitions and lemmas have: by these its check takes longer."""
    count = 0
    for part in ("src", "specs", "proofs"):
        for folder, _, files in os.walk(os.path.join(TOP, "crates", name, part)):
            for file in files:
                with open(os.path.join(folder, file), "rb") as text:
                    count += sum(1 for _ in text)
    return count


def chains(crates, wanted):
    """Of each wanted crate what the longest chain of wanted crates costs, in lines, that begins with it, where each crate needs the one before."""
    @functools.cache
    def chain(name):
        return LINES_OF_A_CRATE + lines_of(name) + max((chain(it) for it in wanted if name in crates[it]), default=0)

    return {name: chain(name) for name in crates if name in wanted}


def at_once(others=0):
    """How many checks run side by side: one a processor, as far as memory goes, in which there is room for this many others."""
    with open("/proc/meminfo", encoding="ascii") as file:
        free = next(1024 * int(line.split()[1]) for line in file if line.startswith("MemAvailable:"))
    return max(1, min(len(os.sched_getaffinity(0)), free // MEMORY - others))


def rt(crate, *arguments, top=TOP, **how):
    """Runs rt in a crate's folder, and returns its status and what it printed on both streams."""
    done = subprocess.run([RT, *arguments], cwd=os.path.join(top, "crates", crate), stdin=subprocess.DEVNULL, stdout=subprocess.PIPE,
                          stderr=subprocess.STDOUT, text=True, errors="replace", check=False, **how)
    return done.returncode, done.stdout


def in_order(crates, wanted, call):
    """Calls a function for each wanted crate once it was true for those of them that the crate uses, as many side by side as there is room for,
    and that with the longest chain above it first. Yields each crate as it ends with what the call returned, or None if a crate below it was false."""
    lines, most = chains(crates, wanted), at_once()
    left, ended, running = sorted(lines, key=lambda it: -lines[it]), {}, {}
    with concurrent.futures.ThreadPoolExecutor(most) as pool:
        while left or running:
            ready = [it for it in left if all(ended.get(one) for one in below(crates, it) & set(wanted))]
            for crate in ready[: most - len(running)]:
                left.remove(crate)
                running[pool.submit(call, crate)] = crate
            for crate in [it for it in left if any(one in ended and not ended[one] for one in below(crates, it) & set(wanted))]:
                left.remove(crate)
                ended[crate] = None
                yield crate, None
            if not running:
                continue
            for done in concurrent.futures.wait(running, return_when=concurrent.futures.FIRST_COMPLETED).done:
                crate = running.pop(done)
                ended[crate] = done.result()
                yield crate, ended[crate]


def link_or_copy(source, target):
    """A file under another name, or a copy of it if that cannot be."""
    try:
        os.link(source, target)
    except OSError:
        shutil.copy2(source, target)


def read(*path):
    """The text of a file of the repository, or nothing if there is no such file."""
    try:
        with open(os.path.join(TOP, *path), "rb") as file:
            return file.read()
    except OSError:
        return b""


def sources_of(crate):
    """The files of a crate's code."""
    return glob.glob(os.path.join(TOP, "crates", crate, "src", "**", "*.rt"), recursive=True)


def has_tests(crate):
    return any(b"#[test]" in read(file) for file in sources_of(crate))


def is_built(crates, crate, program):
    """Whether a crate's program is there, and none of the sources that it is made of is newer."""
    if not os.path.isfile(program):
        return False
    sources = (file for it in (crate, *below(crates, crate)) for file in sources_of(it))
    return all(os.path.getmtime(file) <= os.path.getmtime(program) for file in sources)


def run_of(crate, program, left_out=()):
    """The status of a run of a crate's program, and what it prints. As in the gate it runs in a copy of data/, by its files args and stdin; some files of
    data/ can be left out."""
    with tempfile.TemporaryDirectory() as room:
        data = os.path.join(room, crate)
        if os.path.isdir(os.path.join(TOP, "crates", crate, "data")):
            shutil.copytree(os.path.join(TOP, "crates", crate, "data"), data, ignore=lambda _, names: set(left_out) & set(names))
        os.makedirs(data, exist_ok=True)
        command = [os.path.abspath(program), *read("crates", crate, "args").decode().splitlines()]
        done = subprocess.run(command, cwd=data, input=read("crates", crate, "stdin"), stdout=subprocess.PIPE, check=False)
        return done.returncode, done.stdout


def wanted_of(crate):
    """The same as the crate's files status and stdout have it."""
    return int(read("crates", crate, "status") or 0), read("crates", crate, "stdout")


def difference_of_run(crate, program):
    """What is wrong with a run of a crate's program, if anything."""
    status, printed = came = run_of(crate, program)
    return "" if came == wanted_of(crate) else f"the program ends with status {status} and prints\n{printed.decode(errors='replace')}"


def take_sources(names, top, room):
    """Makes a repository of the sources of these crates alone, without their wrong bodies."""
    for name in names:
        shutil.copytree(os.path.join(top, "crates", name), os.path.join(room, "crates", name),
                        ignore=lambda _, names: {"out", "must-fail", "more-wrong-bodies"} & set(names))
    with open(os.path.join(top, "crates.txt"), encoding="utf-8") as listed, open(os.path.join(room, "crates.txt"), "w", encoding="utf-8") as file:
        file.writelines(line for line in listed if line.partition(":")[0].strip() in names)
    if os.path.isfile(os.path.join(top, "HANDLES")):
        shutil.copy2(os.path.join(top, "HANDLES"), room)


def take_copy(names, top, room):
    """Makes a repository of these crates alone: a copy of their sources, and their libraries as they are proved."""
    take_sources(names, top, room)
    for name in names:
        source = os.path.join(top, "crates", name, "out", "rlib")
        if os.path.isdir(source):
            shutil.copytree(source, os.path.join(room, "crates", name, "out", "rlib"), copy_function=link_or_copy)


def room_for(what):
    """A folder for that time, beside what is built, so that files of it can be linked."""
    os.makedirs(os.path.join(TOP, "out"), exist_ok=True)
    return tempfile.TemporaryDirectory(prefix=f"{what}-", dir=os.path.join(TOP, "out"))


@contextlib.contextmanager
def set_apart(crates, name):
    """The top of a repository of a crate and those below it alone, to which the crate's own work moves for that time: so that rt, which lets nobody
    else work in a library while it checks what uses it, can check several such crates side by side."""
    mine = os.path.join(TOP, "crates", name, "out")
    with room_for("set-apart") as room:
        take_copy({name, *below(crates, name)}, TOP, room)
        theirs = os.path.join(room, "crates", name, "out")
        if os.path.isdir(mine):
            shutil.rmtree(theirs, ignore_errors=True)
            shutil.move(mine, theirs)
        try:
            yield room
        finally:
            if os.path.isdir(theirs):
                shutil.move(theirs, mine)


def rt_ci(folder, others=0, **how):
    """Starts `rt ci` in a folder, with as many checks side by side as there are processors, as far as memory goes, in which there is room for this many others.
    By itself it counts on more than twice the memory that a check takes here, and leaves processors idle."""
    return subprocess.Popen([RT, "ci"], cwd=folder, env={**os.environ, "RT_JOBS": str(at_once(others))}, stdin=subprocess.DEVNULL, stdout=subprocess.PIPE,
                            text=True, errors="replace", **how)


def prove(room, mark=lambda crate: None):
    """Proves the crates of a repository by `rt ci`, whose libraries stay in it, and returns its status. Prints a line for each crate, calls a function with
    each that is built, and prints all that `rt ci` printed if something is wrong."""
    # rt ci takes the top of a repository alone
    os.makedirs(os.path.join(room, ".git"), exist_ok=True)
    printed = []
    with rt_ci(room, stderr=subprocess.STDOUT) as ci:
        for line in ci.stdout:
            printed.append(line)
            built = re.match(r"rt: ((\w+) (?:proved|is kept))", line)
            if built:
                print(built[1], flush=True)
                mark(built[2])
    if ci.returncode:
        print("".join(printed), end="", flush=True)
    return ci.returncode
