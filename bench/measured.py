"""Runs of a program, measured."""
import os
import subprocess
import sys


def run(command, folder=".", script=os.devnull, limited=None):
    """Processor seconds, megabytes at the peak, and the exit status of one run of a command. What it writes is dropped.

    The system counts the memory of the process that starts a program as the program's own. So this process has to stay small.
    """
    with open(script, "rb") as given:
        nowhere = subprocess.DEVNULL
        child = subprocess.Popen(command, cwd=folder, stdin=given, stdout=nowhere, stderr=nowhere, preexec_fn=limited)
    _, status, used = os.wait4(child.pid, 0)
    child.returncode = os.waitstatus_to_exitcode(status)
    return used.ru_utime + used.ru_stime, used.ru_maxrss / 1024, child.returncode


def elsewhere(work, *arguments):
    """Does work in another process, so that its memory is not this process's."""
    child = os.fork()
    if child == 0:
        status = 1
        try:
            work(*arguments)
            status = 0
        finally:
            os._exit(status)
    if os.waitpid(child, 0)[1]:
        sys.exit(f"{work.__name__} failed")
