"""What the scripts that measure share: the time and memory of processes, modules from text, the mean of ratios."""
import math
import os
import subprocess
import sys

from tools.files import write
from tools.processes import processor_seconds


def best_of(words, times=5):
    """The least processor time of a process in `times` runs, in milliseconds, and what it prints; it has to end with 0."""
    best, out = math.inf, ''
    for _ in range(times):
        spent, out, status = processor_seconds(words)
        if status != 0:
            sys.exit(f'{words}: status {status}')
        best = min(best, spent)
    return best * 1000, out


def peak(words):
    """The bytes of memory of a process at most."""
    # Asked of `time`, since a child of this process would be counted with this process's own memory.
    ran = subprocess.run(['/usr/bin/time', '-f', '%M'] + words, capture_output=True)
    return int(ran.stderr.split()[-1]) * 1024


def geometric_mean(ratios):
    return math.exp(sum(map(math.log, ratios)) / len(ratios))


def translated(folder, name, text):
    """Writes the module of this text into the folder; answers its path."""
    wat, wasm = os.path.join(folder, name + '.wat'), os.path.join(folder, name + '.wasm')
    write(wat, text)
    subprocess.run(['wat2wasm', '-o', wasm, wat], check=True)
    return wasm
