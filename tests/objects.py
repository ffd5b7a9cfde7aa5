"""Holds what `gate explain --json` prints to its table, and to the text of `gate explain`.

rows   tests/explain_json.tsv: name, module, calls or -, the object, status. Each object is made by hand.
texts  Of each row of explain.tsv and explain_calls.tsv: the object is JSON, as Python's parser has it, and no key stands twice. Its keys
       are those of docs/FORMATS.md, in their order. Verdict, sentence, hint and calls are those of the text, and so is the status.
kinds  The rows have each kind that docs/FORMATS.md leads to, but one that no module is known for.
"""
import json
import os
import re
import subprocess
import sys
import tempfile

from tests.manual import between
from tests.rows import bytes_of, rows, text_of
from tools.arguments import program
from tools.counting import Count
from tools.files import ROOT, read, write

TABLES = os.path.join(ROOT, 'tests')
SECTION = ('## The explanation as data\n', '\n## ')
LONGEST = 600
# Nobody has found a module of that kind.
UNSEEN = {'body-malformed'}


def without_doubles(members):
    names = [name for name, _ in members]
    assert len(set(names)) == len(names), f'a key stands twice: {names}'
    return dict(members)


def parsed(text):
    """The object of what is printed, or None."""
    try:
        found = json.loads(text, object_pairs_hook=without_doubles)
    except (ValueError, AssertionError):
        return None
    return found if isinstance(found, dict) and text.endswith(b'}\n') and text.count(b'\n') == 1 else None


def keys_written():
    """The keys of the page in their order."""
    table = re.findall(r'^\| (`.*?) \|', between(read('docs/FORMATS.md'), *SECTION), re.M)
    return [key for cell in table for key in re.findall(r'`(\w+)`', cell)]


def kinds_written():
    """The kinds: names of gate_why, in small letters, with `-` for `_`."""
    return {name.lower().replace('_', '-') for name in re.findall(r'^ +GATE_WHY_(\w+) = ', read('include/gate.h'), re.M)}


def said_by(gate, *words):
    ran = subprocess.run([gate, 'explain', *words], capture_output=True, timeout=LONGEST)
    return ran.stdout, ran.returncode, ran.stderr


def lines_of(text, key):
    """What the lines with a key say."""
    return [line[10:] for line in text.decode().split('\n')[1:] if line[:10] == key.ljust(10)]


def told(text):
    """What an object has of the text of an explanation."""
    first = {'verdict': text.decode().split('\n')[0]}
    first.update({key: lines_of(text, key)[0] for key in ('because', 'hint') if lines_of(text, key)})
    return {**first, **({'calls': lines_of(text, 'calls')} if lines_of(text, 'calls') else {})}


def texts(count, gate, name, paths, keys):
    """Holds an object to the text of the same explanation."""
    text, status, _ = said_by(gate, *paths)
    printed, *rest = said_by(gate, *paths, '--json')
    found = parsed(printed)
    count.expect(found is not None, f'{name}: JSON', printed)
    if found is None:
        return
    order = [key for key in keys if key in found]
    count.equal(f'{name}: keys', list(found), order)
    count.equal(f'{name}: the text', {key: found[key] for key in ('verdict', 'because', 'hint', 'calls') if key in found}, told(text))
    count.equal(f'{name}: status', tuple(rest), (status, b''))


def main(gate):
    count, kinds = Count('objects'), set()
    with tempfile.TemporaryDirectory() as folder:
        path, calls_path = (os.path.join(folder, it) for it in ('module.wasm', 'calls'))
        for name, module, calls, wanted, status in rows('explain_json.tsv', TABLES):
            write(path, bytes_of(module))
            write(calls_path, text_of(calls))
            paths = [path] if calls == '-' else [path, calls_path]
            count.equal(name, said_by(gate, '--json', *paths), (wanted.encode() + b'\n', int(status), b''))
            kinds.add(json.loads(wanted)['kind'])
        for name, module, *_ in rows('explain.tsv', TABLES):
            write(path, bytes_of(module))
            texts(count, gate, name, [path], keys_written())
        for name, module, calls, *_ in rows('explain_calls.tsv', TABLES):
            write(path, bytes_of(module))
            write(calls_path, text_of(calls))
            texts(count, gate, name, [path, calls_path], keys_written())
    count.equal('the kinds of the rows', kinds, kinds_written() - UNSEEN)
    return count.status()


if __name__ == '__main__':
    sys.exit(main(program(__doc__)))
