"""The Rattle toolchain, as scripts use it."""
import importlib.machinery
import importlib.util
import os
import re
import shutil
import sys

from .files import read

# Most checks need at most this many megabytes.
MEGABYTES_OF_A_CHECK = 3_000


def module_at(name, path):
    """A script that stands elsewhere, as a module; its file may have any ending."""
    loader = importlib.machinery.SourceFileLoader(name, path)
    module = importlib.util.module_from_spec(importlib.util.spec_from_loader(name, loader))
    sys.modules[name] = module
    loader.exec_module(module)
    return module


def path_of_rt():
    """The kit's `rt`, in its folder bin."""
    path = shutil.which('rt')
    if not path:
        sys.exit("the command 'rt' of the Rattle kit is missing on the PATH")
    return os.path.realpath(path)


def in_kit(*names):
    """The path of what stands in the kit's folder under these names."""
    return os.path.join(os.path.dirname(os.path.dirname(path_of_rt())), *names)


def load_kit():
    """The kit's `rt`: it reads edits, and knows the words of a check."""
    path = path_of_rt()
    # `rt` imports what stands beside it.
    sys.path.insert(0, os.path.dirname(path))
    kit = module_at('rt_of_the_kit', path)
    kit.rtlib.guarded()
    return kit


def processors():
    """How many processors this process may use."""
    return len(os.sched_getaffinity(0))


def free_megabytes():
    return int(re.search(r'MemAvailable: *(\d+)', read('/proc/meminfo')).group(1)) // 1_000


def checks_at_once():
    """How many checks there is room for, in memory and on the processors that this process may use."""
    return max(1, min(processors(), free_megabytes() // MEGABYTES_OF_A_CHECK))
