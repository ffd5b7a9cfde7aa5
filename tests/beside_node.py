"""What soak.py asks node (answers.js), and which differences say nothing: limits of node's own, and what came after Core 1.0."""
import json
import os
import re
import select
import subprocess

from tools.encoding import number_at, sections

here = os.path.dirname(os.path.abspath(__file__))
# The bytes of what was added after Core 1.0 and node has: types of references and vectors, and in bodies exceptions, tail calls,
# and instructions with a prefix. FRONTS has how the first item of a section begins that Core 1.0 knows.
LATER_TYPES = {0x6F, 0x70, 0x7B, 0xD0, 0xD2, 0xFD}
LATER = LATER_TYPES | {0x06, 0x07, 0x08, 0x09, 0x12, 0x13, 0x18, 0x19, 0x1C, 0x25, 0x26, 0xD1, 0xFC, 0xFE}
FRONTS = {4: (b'\x70\0', b'\x70\1'), 5: (b'\0', b'\1'), 9: b'\0', 11: b'\0'}
OWN_LIMIT = re.compile('internal limit|implementation limit|local count too large|maximum function size|max br_table size')


def body_of(module, index):
    # The body of a defined function, without its size.
    contents = dict(sections(module)).get(10, b'')
    count, at = number_at(contents, 0)
    for _ in range(index + 1):
        size, start = number_at(contents, at)
        at = start + size
    return contents[start:at]


def is_later(number, contents):
    # Whether a section may be none of Core 1.0: another number, several tables, memories or flagged segments, other types.
    if number in FRONTS:
        return contents[:1] > b'\1' or contents[:1] == b'\1' and not contents[1:].startswith(FRONTS[number])
    return number > 11 or number in (1, 2, 6) and any(byte in LATER_TYPES for byte in contents)


def may_be_later(module, verdict):
    """Whether the part of the module that this verdict refuses may spell what was added after Core 1.0, which node has."""
    in_body, all_sections = re.match(rb'refused body (\d+) ', verdict), sections(module)
    if not in_body:
        return any(is_later(*it) for it in all_sections)
    has_imports = any(number == 2 for number, _ in all_sections)
    body = dict(all_sections)[10] if has_imports else body_of(module, int(in_body.group(1)))
    return any(byte in LATER for byte in body) or 0x11 in body and 0x80 in body


def may_grow(module, pages):
    # Whether the memory may have more pages than that.
    contents = dict(sections(module)).get(5, b'\0')
    if contents[0] == 0:
        return False
    _, at = number_at(contents, 2)
    return contents[1] == 0 or number_at(contents, at)[0] > pages


def call_of(line):
    name, *words = line.decode().split('\t')
    return [name] + [word.split(':') for word in words]


class Node:
    """A process of node, which answers for one module after the other."""

    def __init__(self):
        words = ['node', os.path.join(here, 'answers.js')]
        self.child = subprocess.Popen(words, stdin=subprocess.PIPE, stdout=subprocess.PIPE, stderr=subprocess.DEVNULL)

    def answer(self, path, calls):
        self.child.stdin.write(json.dumps([path, calls]).encode() + b'\n')
        self.child.stdin.flush()
        if not select.select([self.child.stdout], [], [], 60)[0]:
            self.child.kill()
            return {'accepted': None, 'why': 'no answer in a minute', 'ends': []}
        line = self.child.stdout.readline()
        return json.loads(line) if line else {'accepted': None, 'why': f'node ended with {self.child.wait()}', 'ends': []}

    def end(self):
        self.child.kill()
        self.child.wait()

    def difference(self, path, module, verdict, text, report, pages, count):
        """Compares what node says with this verdict and report; answers what differs, or nothing."""
        asked = []
        if report is not None and not may_grow(module, pages):
            for line, ended in zip(text.splitlines(), report.splitlines()):
                end = re.sub(rb' fuel \d+$', b'', ended.split(b' ', 1)[1]).decode()
                if re.match(r'values|trap|no-export|not-a-function|not-started \w+-outside', end):
                    asked.append((call_of(line), end))
        says = self.answer(path, [call for call, _ in asked])
        accepted = verdict == b'accepted\n'
        if says['accepted'] != accepted:
            if accepted and OWN_LIMIT.search(says['why']):
                count['own limits'] += 1
                return None
            if says['accepted'] and may_be_later(module, verdict):
                count['later features'] += 1
                return None
            return f'node: {says["accepted"]} {says["why"]}, gate: {verdict}'
        count['verdicts like node'] += 1
        for (call, end), other in zip(asked, says['ends']):
            if other != kind_in_node(end):
                return f'{call}: node: {other}, gate: {end}'
            count['calls like node'] += 1
        return None


def kind_in_node(end):
    # As node can tell it: it has one message for two traps, and does not say which segment lies outside.
    if end in ('trap uninitialized-element', 'trap type-mismatch'):
        return 'trap uninitialized-element or type-mismatch'
    return re.sub(r'-outside \d+$', '-outside', end)
