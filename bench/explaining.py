"""What `gate explain` costs beside `gate check`, on the refused forms of all families (tools/worst_cases), by processor time.

For each family and refused form: milliseconds of both with one worker (the best of three processes, in turns), how many times the
check an explanation takes, the peak memory of the explanation in lengths of the module, and the verdict. An explanation whose first
line is not the verdict, or that has no other line, ends the run. The status is 1 where one takes more than --times, by default 3, or
more lengths of memory than --lengths, by default 22.
"""
import math
import os
import sys
import tempfile

from bench.measuring import peak
from tools import arguments
from tools.processes import processor_seconds
from tools.worst_cases import FAMILIES, module_of

TURNS = 3


def measured(gate, path):
    """The least seconds of a check and of an explanation, and what each prints."""
    least, said = {}, {}
    for _ in range(TURNS):
        for word in ('check', 'explain'):
            words = [gate, word, path] + (['--workers', '1'] if word == 'check' else [])
            spent, said[word], _status = processor_seconds(words)
            least[word] = min(spent, least.get(word, math.inf))
    return least, said


def main(words):
    worst, most = 0, 0
    with tempfile.TemporaryDirectory() as folder:
        path = os.path.join(folder, 'module.wasm')
        for name, (forms, _) in FAMILIES.items():
            for form in forms:
                if not form.endswith('refused') or words.only not in name:
                    continue
                contents = module_of(name, form, int(words.megabytes * 1e6), words.seed)
                with open(path, 'wb') as file:
                    file.write(contents)
                least, said = measured(words.gate, path)
                lines = said['explain'].splitlines()
                if lines[:1] != said['check'].splitlines() or len(lines) < 2:
                    sys.exit(f'{name}, {form}: check says {said["check"]!r}, and explain {said["explain"][:400]!r}')
                times = least['explain'] / least['check']
                lengths = peak([words.gate, 'explain', path]) / len(contents)
                worst, most = max(worst, times), max(most, lengths)
                print(f'{name:36}{form:14}{least["check"] * 1e3:9.1f}{least["explain"] * 1e3:9.1f}{times:7.2f}{lengths:8.1f}'
                      f'  {lines[0][:40]}', flush=True)
    print(f'at most {worst:.2f} times the check, and {most:.1f} lengths')
    return 1 if worst > words.times or most > words.lengths else 0


if __name__ == '__main__':
    parser = arguments.parser(__doc__)
    parser.add_argument('gate', metavar='GATE', help='the program, proved')
    parser.add_argument('--megabytes', type=float, default=4, help='about how large the modules are')
    parser.add_argument('--seed', type=int, default=1)
    parser.add_argument('--only', default='', help='families whose name has this text')
    parser.add_argument('--times', type=float, default=3)
    parser.add_argument('--lengths', type=float, default=22)
    sys.exit(main(parser.parse_args()))
