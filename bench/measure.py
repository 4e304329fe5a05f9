"""How long a program runs, and how much memory it takes. Needs Linux and the standard library alone."""

import ctypes
import os
import subprocess
import time

RUNS = 9
PR_SET_CHILD_SUBREAPER = 36


def adopt():
    """Processes whose parent ends become this one's, which `peak_bytes` needs."""
    ctypes.CDLL(None).prctl(PR_SET_CHILD_SUBREAPER, 1, 0, 0, 0)


def seconds(words, path, runs=RUNS):
    """The least wall time of a few runs on the file as standard input, from start to end of the process."""
    best = None
    for _ in range(runs):
        with open(path, "rb") as source:
            begun = time.perf_counter()
            subprocess.run(words, stdin=source, stdout=subprocess.DEVNULL, check=False)
            spent = time.perf_counter() - begun
        best = spent if best is None else min(best, spent)
    return best


def peak_bytes(words, document=b""):
    """The peak resident memory of a run. A process that Python starts itself counts Python's own peak as its own, so a
    shell starts it and ends, and Python inherits it. It begins its work only after that, since its input comes last."""
    read_end, write_end = os.pipe()
    script = 'exec 3<&0; { read -r _ <&3; exec "$0" "$@" <&3; } >/dev/null & echo $!'
    shell = subprocess.run(["sh", "-c", script, *words], stdin=read_end, stdout=subprocess.PIPE, check=True)
    os.close(read_end)
    with open(write_end, "wb") as pipe:
        pipe.write(b"\n" + document)
    _, _, usage = os.wait4(int(shell.stdout), 0)
    return usage.ru_maxrss * 1024


def line(cells):
    print("| " + " | ".join(cells) + " |", flush=True)
