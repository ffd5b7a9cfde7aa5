"""Writes a module of a family (tools/worst_cases) to standard output: one that is made to cost much.

Alone it lists the families, with the forms of each. A seed makes the same module again.
"""
import sys

from tools.arguments import parser
from tools.worst_cases import FAMILIES, KEPT, module_of

if __name__ == '__main__':
    taken = parser(__doc__)
    taken.epilog = '\n'.join(f'{name}: {", ".join(forms)}' for name, (forms, _) in (FAMILIES | KEPT).items())
    taken.add_argument('name', metavar='NAME', choices=FAMILIES | KEPT, help='the family, one of those below')
    taken.add_argument('form', metavar='FORM', help='one of its forms')
    taken.add_argument('bytes', metavar='BYTES', type=int, help='about how many the module has')
    taken.add_argument('seed', metavar='SEED', type=int)
    words = taken.parse_args(sys.argv[1:] or ['--help'])
    sys.stdout.buffer.write(module_of(words.name, words.form, words.bytes, words.seed))
