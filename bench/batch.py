"""What a call on a fresh instance costs in `gate run`, beside wabt and node, all in one run.

Needs wabt's wat2wasm. For each kind of module: microseconds a call of 100,000 calls in one process, reading, judging and
writing included, with 1, 2 and 4 workers; then those of four programs of one worker each that run side by side on a quarter
of the calls each, and how many times as long one program with four workers takes than these. These are run in turn, the best
of five, so that all meet the same load. `4, CPU` is how many times as much processor time four workers take as one does, all
threads together: what is above 1 is work that only more workers make. Beside them, with the module read and validated before
the clock starts:
  wabt    bench/wabt.cc: wabt's interpreter makes an instance and calls it, a tenth as often, where its library is installed.
          (Its programs cannot be compared: wasm-interp calls each export once on one instance, and spectest-interp reads
          the module again from a file for each instance.)
  node    does the same, as often
Both measure themselves, the best of three.
"""
import os
import shutil
import subprocess
import sys
import tempfile
import time

from bench.measuring import translated
from bench.recording import Recorder
from tools.arguments import program_and_results
from tools.files import write
from tools.processes import waited_for

here = os.path.dirname(os.path.abspath(__file__))
COLUMNS = ['module', 'engine', 'workers', 'least', 'most']
KINDS = [('nothing', '(func (export "f"))', 100_000),
         ('a page, segment, store, load',
          '(memory 1) (data (i32.const 0) "\\01\\02\\03") (func (export "f") (i32.store (i32.const 8) (i32.load (i32.const 0))))', 100_000),
         ('200 turns of a loop',
          '(func (export "f") (local i32) (loop (br_if 0 (i32.lt_u (local.tee 0 (i32.add (local.get 0) (i32.const 1))) '
          '(i32.const 200)))))', 100_000),
         ('16 pages, three writes',
          '(memory 16) (func (export "f") (i32.store (i32.const 0) (i32.const 1)) (i32.store (i32.const 524288) (i32.const 1)) '
          '(i32.store (i32.const 1048572) (i32.const 1)))', 100_000),
         ('a start function',
          '(global (mut i32) (i32.const 0)) (func $s (global.set 0 (i32.const 7))) (start $s) (func (export "f"))', 100_000)]
NODE = """const m=new WebAssembly.Module(require('fs').readFileSync(process.argv[1]));
const n=+process.argv[2];const s=process.hrtime.bigint();
for(let k=0;k<n;k++)new WebAssembly.Instance(m).exports.f();console.log(Number(process.hrtime.bigint()-s)/1e3/n)"""


def seconds(commands):
    # Of these programs side by side: the time that passed, and the processor time that they took together.
    start = time.perf_counter()
    running = [subprocess.Popen(words, stdout=subprocess.DEVNULL) for words in commands]
    spent = sum(map(waited_for, running))
    if any(child.returncode for child in running):
        sys.exit(f'{commands[0]}: another status than 0')
    return time.perf_counter() - start, spent


def in_turn(runs):
    # Of each of these lists of commands both times, turn by turn.
    turns = [[seconds(commands) for commands in runs] for _ in range(5)]
    return list(zip(*turns))


def wabt_program(folder):
    # Nothing where wabt's library or its headers are not there.
    program = os.path.join(folder, 'wabt')
    words = ['c++', '-O2', '-std=c++17', '-o', program, os.path.join(here, 'wabt.cc'), '-lwabt']
    return program if subprocess.run(words, stderr=subprocess.DEVNULL).returncode == 0 else ''


def microseconds(words):
    # As the program says itself, three times; nothing where there is none.
    return [float(subprocess.run(words, capture_output=True, check=True).stdout) for _ in range(3)] if words else []


def record(recorder, name, count, turns, others):
    # Microseconds a call: a row for each number of workers, for four programs side by side, and for each peer.
    took = {('gate', workers): [clock / count * 1e6 for clock, _ in all_of] for workers, all_of in zip('124', turns)}
    took['four programs of gate', '1'] = [clock / count * 1e6 for clock, _ in turns[3]]
    took |= {(engine, '1'): all_of for engine, all_of in others.items() if all_of}
    for (engine, workers), all_of in took.items():
        recorder.add(module=name, engine=engine, workers=workers, least=min(all_of), most=max(all_of))


def main(gate, results):
    recorder = Recorder(results, COLUMNS)
    print(f'{"us a call":32}{"1 worker":>10}{"2":>8}{"4":>8}{"4 programs":>12}{"4 to these":>12}{"4, CPU":>9}{"wabt":>9}{"node":>9}')
    with tempfile.TemporaryDirectory() as folder:
        calls, quarter = os.path.join(folder, 'calls'), os.path.join(folder, 'quarter')
        wabt = wabt_program(folder)
        for name, text, count in KINDS:
            write(calls, 'f\n' * count)
            write(quarter, 'f\n' * (count // 4))
            wasm = translated(folder, 'm', f'(module {text})')
            runs = [[[gate, 'run', wasm, calls, '--workers', str(n)]] for n in (1, 2, 4)]
            turns = in_turn(runs + [[[gate, 'run', wasm, quarter, '--workers', '1']] * 4])
            best = [tuple(map(min, *all_of)) for all_of in turns]
            cells = ''.join(f'{spent / count * 1e6:{width}.2f}' for (spent, _), width in zip(best, (10, 8, 8, 12)))
            ratios = best[2][0] / best[3][0], best[2][1] / best[0][1]
            often = str(count // 10)
            others = {'wabt': microseconds(wabt and [wabt, wasm, often]),
                      'V8': microseconds(['node', '-e', NODE, wasm, often] if shutil.which('node') else [])}
            record(recorder, name, count, turns, others)
            beside = ''.join(f'{min(o):9.2f}' if o else f'{"-":>9}' for o in others.values())
            print(f'{name:32}{cells}{ratios[0]:12.2f}{ratios[1]:9.2f}{beside}', flush=True)


if __name__ == '__main__':
    main(*program_and_results(__doc__))
