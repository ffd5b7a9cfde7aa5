"""Builds the archive of the library for C, over the libraries that `rt ci` left in a tree: it proves the crate `c_api`, and builds no
archive of it. The archive lies in TREE/crates/c_api/out then, where tools/library.py looks for it.
"""
import os
import sys

from tools.arguments import parser
from tools.kit import load_kit

if __name__ == '__main__':
    taken = parser(__doc__)
    taken.add_argument('tree', metavar='TREE', help='a tree that `rt ci` has proved')
    tree = os.path.realpath(taken.parse_args().tree)
    folder = os.path.join(tree, 'crates', 'c_api')
    os.makedirs(os.path.join(folder, 'out'), exist_ok=True)
    crate = load_kit().rtlib.Crate(folder, tree, {}, name='c_api')
    crate.out = sys.stdout
    sys.exit(crate.build_static(['--jobs', '2']))
