"""How the scripts beside this one run a program and reckon what it takes."""

import hashlib
import resource
import subprocess
import sys
import time


def children_seconds():
    """The processor time of all programs that have ended so far."""
    used = resource.getrusage(resource.RUSAGE_CHILDREN)
    return used.ru_utime + used.ru_stime


def run(program, words, folder=None, status=0):
    """The seconds of processor time of one run, and what it prints. Another status than this one stops the script."""
    begin = children_seconds()
    done = subprocess.run([program, *words], cwd=folder, stdin=subprocess.DEVNULL, stdout=subprocess.PIPE)
    assert done.returncode == status, done
    return children_seconds() - begin, done.stdout


def least_of(rounds, programs, words, enough=float("inf")):
    """The least seconds of each program over some rounds, and what all of them print; they run by turns, until the seconds
    of all runs are enough."""
    least, printed, seconds = [float("inf")] * len(programs), set(), 0
    for _ in range(rounds):
        for i, program in enumerate(programs):
            took, text = run(program, words)
            least[i] = min(least[i], took)
            printed.add(text)
            seconds += took
        assert len(printed) == 1, f"{programs} print different lines for {words}"
        if seconds > enough:
            break
    return least, printed.pop()


# A run counts what its parent had when it began, so a small Python starts the program: it has some 8 MB.
STARTER = """
import os, sys
child = os.posix_spawn(sys.argv[1], sys.argv[1:], {}, file_actions=[(os.POSIX_SPAWN_OPEN, 1, "/dev/null", os.O_WRONLY, 0)])
print(os.wait4(child, 0)[2].ru_maxrss)
"""


def peak_of(program, words):
    """The most memory that one run takes, in MB."""
    done = subprocess.run([sys.executable, "-ISE", "-c", STARTER, program, *words], stdout=subprocess.PIPE, check=True)
    return int(done.stdout) / 1024


def md5_seconds(size, turns):
    """The seconds of processor time that OpenSSL takes for the digest of so many bytes."""
    block = bytes(size)
    begin = time.process_time()
    for _ in range(turns):
        hashlib.md5(block).digest()
    return (time.process_time() - begin) / turns
