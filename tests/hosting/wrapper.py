"""gate.hpp: wrapper.cpp, in which memory is refused too, and examples/cpp as it is shown."""
import os
import re

from tests.hosting.compiling import compile_cpp
from tests.hosting.exchanges import compare_exchange
from tests.hosting.languages import Host
from tests.hosting.plug_ins import compare_plug_ins
from tests.hosting.processes import started
from tools.files import ROOT

OF_WRAPPER = ['c++17', 'c++20']
# What the head of an example in C++ shows.
SHOWN = re.compile(r'^//     \$ \./(?:host|plugin_host|exchange) (.*)\n//     (.*)\n', re.MULTILINE)
# The library asks the wrapped ones for memory.
WRAPPED = ['-Wl,--wrap=malloc', '-Wl,--wrap=realloc']


def as_shown(tally, name, folder, work, standard):
    """An example in C++, built as its head says, and run so."""
    example, target = os.path.join(ROOT, 'examples', 'cpp', f'{name}.cpp'), os.path.join(work, f'{name}-{standard}')
    with open(example) as file:
        (shown, printed), = SHOWN.findall(file.read())
    compile_cpp(example, target, folder, standard)
    got = started([target, *shown.split()], cwd=ROOT)
    tally.expect(got == (printed.encode() + b'\n', 0, b''), f'examples/cpp/{name} by -std={standard}', got)
    return target


def wrapper(tally, folder, work, place):
    """gate.hpp in each standard, and the examples."""
    for standard in OF_WRAPPER:
        as_shown(tally, 'host', folder, work, standard)
        plug_in = as_shown(tally, 'plugin_host', folder, work, standard)
        compare_plug_ins(tally, Host(f'C++ by -std={standard}', [], [], [], {}, [plug_in]), place)
        compare_exchange(tally, f'C++ by -std={standard}', [as_shown(tally, 'exchange', folder, work, standard)], place)
        target = os.path.join(work, f'wrapper-{standard}')
        compile_cpp(os.path.join(ROOT, 'tests', 'wrapper.cpp'), target, folder, standard, WRAPPED)
        got = started([target, os.path.join(ROOT, 'examples', 'add.wasm')])
        tally.expect(got[1] == 0 and not got[2] and int(got[0]) > 0, f'wrapper.cpp by -std={standard}', got)
