"""Processes with their processor time."""
import os
import subprocess


def usage_of(child):
    """Waits for the end of a process; answers what it used, with all that it started and waited for."""
    _, status, usage = os.wait4(child.pid, 0)
    child.returncode = os.waitstatus_to_exitcode(status)
    return usage


def waited_for(child):
    """Waits for the end of a process; answers the processor seconds that it took, all threads together."""
    usage = usage_of(child)
    return usage.ru_utime + usage.ru_stime


def processor_seconds(words, **settings):
    """The processor seconds of one process, what it prints, and its status, which is negative where a signal ended it."""
    with subprocess.Popen(words, stdout=subprocess.PIPE, **settings) as child:
        out = child.stdout.read().decode()
        spent = waited_for(child)
    return spent, out, child.returncode
