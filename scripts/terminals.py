"""Pseudo terminals: what is typed at a program there, and what the terminal then has."""
import os
import pty
import subprocess
import termios

# How long an output may take, also beside other sweeps on a busy machine.
SECONDS = 60


def until_closed(terminal):
    """What a terminal has until its other end is closed."""
    seen = b""
    try:
        while piece := os.read(terminal, 4096):
            seen += piece
    except OSError:
        pass  # the other end of a terminal is closed
    return seen


def all_of(terminal, child):
    """What a terminal has until its program has ended. Linux can report the closed end just before the last bytes: once the program has ended, a second look
    has them."""
    seen = until_closed(terminal)
    child.wait(SECONDS)
    return seen + until_closed(terminal)


def seen_at(program, arguments, typed, piped, folder=None, env=None):
    """What a session writes to its standard error, a terminal unless it is `piped`, where these lines are typed at a terminal that echoes none of them."""
    terminal, child_end = pty.openpty()
    mode = termios.tcgetattr(child_end)
    mode[3] &= ~termios.ECHO
    termios.tcsetattr(child_end, termios.TCSANOW, mode)
    error = subprocess.PIPE if piped else child_end
    with subprocess.Popen([program, *arguments], stdin=child_end, stdout=subprocess.DEVNULL, stderr=error, cwd=folder, env=env, start_new_session=True) as child:
        os.close(child_end)
        os.write(terminal, typed)
        if piped:
            seen = child.communicate(timeout=SECONDS)[1]
        else:
            seen = all_of(terminal, child)
        child.wait(SECONDS)
    os.close(terminal)
    return seen.replace(b"\r\n", b"\n")
