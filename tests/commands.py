"""Runs the commands that the documents and the program's help show, and compares what is printed with what they show.

A command is a line of a block of code that begins with `$ `; what is printed stands below it, standard error included. A block runs
in one shell, in a copy of the repository in which `gate`, `./gate` and `bin/gate` are the program; a document has one copy. A line
`..` stands for any lines. Where nothing is shown below a command, it has to be found and its words have to be right, no more.

Left out, and counted: a command of which a part begins with a word of LEFT_OUT, since it needs the network, other rights, the
toolchain, a release, a library that is installed, or minutes; and one whose program is not installed.
"""
import collections
import os
import re
import shutil
import subprocess
import sys
import tempfile

from tests.manual import commands_of_help
from tests.prose import Document
from tools import arguments
from tools.files import ROOT, write

DOCUMENTS = ('README.md', 'CONTRIBUTING.md', 'docs/FORMATS.md', 'docs/HOSTS.md', 'docs/GUESTS.md')
LEFT_OUT = ('sudo', './install.sh', './test', 'packaging/release', 'rt', 'duplicates', 'git', 'curl', 'wget', 'apt-get', 'sha256sum', 'tar',
            'cc', 'c++', 'cargo', 'rustc', 'go', 'pip', 'python3', 'node', 'man')
# The modules that the examples of help name and do not make.
HELP_MODULES = {
    'add.wasm': bytes.fromhex('0061736d0100000001070160027f7f017f030201000707010361646400000a09010700200020016a0b'),
    'fill.wasm': bytes.fromhex('0061736d01000000 0104 01600000 0302 0100 0a06 0104 00fc0b0b'),
    'plugin.wasm': bytes.fromhex('0061736d01000000 010a 0260000060027f7f017f 020b 0103656e76036c6f670000 0302 0101 0503 010001'
                                 '060b 027e0042000b7e0142000b 071a 03036164640001066d656d6f7279020007636f756e7465720301'
                                 '0a09 010700200020016a0b'),
}

# A shell has this status where a command is not found or cannot be started, and the program this one where its words are wrong.
WRONG_WORDS, NOT_FOUND = 64, (126, 127)
# What is written between the outputs of two commands: the status of the first.
MARK = '\x1e'

Command = collections.namedtuple('Command', 'line text shown')


def commands_of(stretch):
    """The commands of a block of code, with the lines that are shown below each."""
    found, margin = [], None
    for number, line in enumerate(stretch.text.split('\n'), stretch.line):
        begin = re.match(r'(\s*)\$ ', line)
        if begin:
            margin = len(begin[1])
            found.append(Command(number, line[begin.end():], []))
        elif found and not line.lstrip().startswith('```'):
            found[-1].shown.append(line[margin:].rstrip())
    return found


def is_left_out(command):
    """Whether a part of a command needs what a test has not."""
    parts = re.split(r'&&|\|\||[;|]', re.sub(r"'[^']*'|\"[^\"]*\"", 'TEXT', command.text.split(' #')[0]))
    firsts = [part.split()[0] for part in parts if part.split()]
    return any(word in LEFT_OUT or '/' not in word and word not in ('gate', 'cd', 'echo') and not shutil.which(word) for word in firsts)


def script(commands):
    """A script that runs them in turn, each with the status of the one before, and writes a mark with its status after each."""
    lines = ['last=0']
    for command in commands:
        lines += ['(exit $last)', command.text, 'last=$?', f"printf '{MARK}%s{MARK}' $last"]
    return '\n'.join(lines)


def agrees(printed, shown):
    """Whether the lines that are printed are those that are shown; a line `..` is any number of lines."""
    pattern = '\n'.join(r'(?:.*\n)*?.*' if line in ('..', '...') else re.escape(line) for line in shown)
    return re.fullmatch(pattern, '\n'.join(line.rstrip() for line in printed.rstrip('\n').split('\n'))) is not None


def run(commands, folder):
    """What each prints, with its status."""
    search = os.pathsep.join([os.path.join(folder, 'bin'), os.environ['PATH']])
    ran = subprocess.run(['bash', '-c', script(commands)], cwd=folder, stdin=subprocess.DEVNULL, stdout=subprocess.PIPE,
                         stderr=subprocess.STDOUT, timeout=120, env=os.environ | {'PATH': search})
    parts = ran.stdout.decode(errors='replace').split(MARK)
    return list(zip(parts[::2], map(int, parts[1::2])))


def fault(command, printed, status):
    """What is wrong with a command; nothing where it does what the document says."""
    if status in NOT_FOUND:
        return f'status {status}: {printed.strip()[:200]}'
    if command.shown:
        return '' if agrees(printed, command.shown) else f'printed {printed[:300]!r}, and the document shows {command.shown}'
    return f'status {status}, the words are wrong: {printed.strip()[:200]}' if status == WRONG_WORDS else ''


def copy_tree(program, folder):
    """A copy of what the commands read, with the program under the names that documents have for it."""
    for name in os.listdir(ROOT):
        path = os.path.join(ROOT, name)
        if os.path.isdir(path) and name not in ('.git', 'crates', 'out', 'gate'):
            shutil.copytree(path, os.path.join(folder, name), symlinks=True, ignore=shutil.ignore_patterns('__pycache__'))
        elif os.path.isfile(path) and name != 'gate':
            shutil.copy(path, folder)
    os.mkdir(os.path.join(folder, 'bin'))
    for place in ('gate', 'bin/gate'):
        os.symlink(program, os.path.join(folder, place))


def try_document(name, path, program, modules):
    """The faults of a document, how many of its commands ran, and how many were left out."""
    faults, ran, left_out = [], 0, 0
    with tempfile.TemporaryDirectory() as folder:
        copy_tree(program, folder)
        for module, contents in modules.items():
            write(os.path.join(folder, module), contents)
        for stretch in Document(path).stretches:
            commands = commands_of(stretch) if stretch.kind in ('code', 'fence') else []
            chosen = [command for command in commands if not is_left_out(command)]
            left_out += len(commands) - len(chosen)
            results = run(chosen, folder)
            ran += len(results)
            for command, (printed, status) in zip(chosen, results):
                what = fault(command, printed, status)
                faults += [f'{name}:{command.line}: `{command.text}`: {what}'] if what else []
            if len(results) < len(chosen):
                faults.append(f'{name}:{chosen[len(results)].line}: the shell ended here')
    return faults, ran, left_out


def main(program):
    """Runs the commands of all documents and of the help of each command; 1 where one has a fault, or none ran."""
    tried = [try_document(name, os.path.join(ROOT, name), program, {}) for name in DOCUMENTS]
    with tempfile.TemporaryDirectory() as folder:
        for command in commands_of_help(program):
            path = os.path.join(folder, command)
            with open(path, 'w') as file:
                subprocess.run([program, command, '--help'], stdout=file, check=True)
            tried.append(try_document(f'gate {command} --help', path, program, HELP_MODULES))
            if not tried[-1][1]:
                tried[-1][0].append(f'gate {command} --help: no command ran')
    faults, ran, left_out = sum((it[0] for it in tried), []), sum(it[1] for it in tried), sum(it[2] for it in tried)
    print('\n'.join(faults + [f'{ran} commands ran, {left_out} were left out, {len(faults)} faults']))
    return 1 if faults or not ran else 0


if __name__ == '__main__':
    sys.exit(main(arguments.program(__doc__)))
