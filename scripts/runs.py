"""Runs of the program on dumps: what came of one, and what it took."""
import resource
import subprocess

import survey_model as model

SECONDS = 120


def ran(program, folder, *arguments):
    """The status, the output and the faults of a run, or None if it doesn't end."""
    try:
        done = subprocess.run([program, *arguments], cwd=folder, stdin=subprocess.DEVNULL, capture_output=True, timeout=SECONDS, check=False)
    except subprocess.TimeoutExpired:
        return None
    return done.returncode, done.stdout.decode(errors="backslashreplace"), model.without_guesses(done.stderr.decode(errors="backslashreplace"))


def processor_seconds():
    """What the processes that have ended took of a processor: on a busy machine the clock says little."""
    used = resource.getrusage(resource.RUSAGE_CHILDREN)
    return used.ru_utime + used.ru_stime
