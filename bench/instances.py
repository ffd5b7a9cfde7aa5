"""What an instance costs in `gate run`, from its making to its end, beside plain C, all in one run.

Needs wabt's wat2wasm and a C compiler. For each kind of module: nanoseconds of processor time a call of 100,000 calls of a
function that does nothing, or that writes one byte, in one process with one worker, the best of fifteen, less those of a process
on as many lines whose argument is of another type: these are read, looked up and reported as well, in texts of the same
length, but no instance is made. So the call itself is in it, and a memory's way from the pool and back: the row without a
memory says what these come to. In brackets, how many times as long bench/instances.c takes
  kept    with a memory that is kept, in which the blocks of 4,096 bytes that were touched are cleared again
  fresh   with a memory from calloc, which is freed
Slots, globals and table are had from malloc and freed in both. It measures its own processor time, the best of five.
"""
import os
import subprocess
import sys
import tempfile

sys.dont_write_bytecode = True
from bench.measuring import best_of, translated
from bench.recording import Recorder
from bench.run import compiled
from tools.arguments import program_and_results
from tools.files import write

COUNT = 100_000
COLUMNS = ['module', 'engine', 'nanoseconds', 'times_gate']
NOTHING = '(func (export "f") (param i32))'
# Name, module, and for the program in C: pages, length of the segment, writes, globals, entries of the table.
KINDS = [('no memory', NOTHING, (0, 0, 0, 0, 0)),
         ('a page, a segment of 16 bytes', f'(memory 1) (data (i32.const 0) "0123456789abcdef") {NOTHING}', (1, 16, 0, 0, 0)),
         ('16 pages, a byte is written',
          '(memory 16) (func (export "f") (param i32) (i32.store8 (i32.const 524288) (local.get 0)))', (16, 0, 1, 0, 0)),
         ('64 globals, a table of 1,000',
          '(global (mut i64) (i64.const 7)) ' * 64 + f'(table 1000 funcref) {NOTHING}', (0, 0, 0, 64, 1000))]


def by_gate(gate, module, calls):
    # Nanoseconds a call, and a line that is refused; each is run in turn, so that both meet the same load.
    spent = {'i32': 1e9, 'i64': 1e9}
    for _ in range(15):
        for kind in spent:
            write(calls, f'f\t{kind}:1\n' * COUNT)
            best, out = best_of([gate, 'run', module, calls, '--workers', '1'], 1)
            wanted = 'values' if kind == 'i32' else 'refused'
            if f' {wanted} {COUNT} ' not in out.splitlines()[-1]:
                sys.exit(f'{module}: {out.splitlines()[-1]}')
            spent[kind] = min(spent[kind], best * 1e6 / COUNT)
    return spent['i32'] - spent['i64'], spent['i64']


def by_c(program, way, sizes):
    words = [program, way] + [str(size) for size in sizes] + [str(COUNT // 10 if way == 'fresh' else COUNT)]
    return float(subprocess.run(words, capture_output=True, check=True).stdout)


def main(gate, results):
    recorder = Recorder(results, COLUMNS)
    print(f'{"ns an instance":32}{"gate":>9}{"C, kept":>18}{"C, fresh":>18}{"a refused line":>16}')
    with tempfile.TemporaryDirectory() as folder:
        program, calls = compiled(folder, 'instances', 'instances.c'), os.path.join(folder, 'calls')
        for name, text, sizes in KINDS:
            module = translated(folder, 'm', f'(module {text})')
            spent, refused = by_gate(gate, module, calls)
            others = [by_c(program, way, sizes) for way in (('kept', 'fresh') if sizes[0] else ('kept',))]
            for engine, took in zip(('gate', 'C, kept', 'C, fresh'), [spent] + others):
                recorder.add(module=name, engine=engine, nanoseconds=took, times_gate=took / spent)
            cells = [f'{other:9.1f} ({other / spent:5.2f})' for other in others] + ['-'] * (2 - len(others))
            print(f'{name:32}{spent:9.1f}' + ''.join(f'{cell:>18}' for cell in cells) + f'{refused:16.1f}', flush=True)


if __name__ == '__main__':
    main(*program_and_results(__doc__))
