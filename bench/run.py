"""Measures `gate run` beside other engines on the kernels of bench/kernels.wat, all in one run.

Needs wabt's wat2wasm and a C compiler. For each kernel: milliseconds of processor time of a fresh process of `gate` with one
worker, less those of the same process without a call; and in brackets how many times as long
  switch  bench/interpreter.c takes, the same design in plain C, by the processor time of the call alone
  goto    the same program takes where it goes from token to token by computed goto
  wabt    wasm-interp takes, counted as for gate
  jsc     JavaScriptCore's shell takes with its interpreter alone (no translation), counted as for gate over three calls,
          where it is installed
  node    takes for the call alone, by its own clock, after the module is compiled (it translates to machine code)
They take turns, so that all meet the same load, and the best of five counts (of two for wabt). Then the geometric mean of the
ratios. The results of all must be equal. Both programs in C are made by clang -O2, the kit's where there is one
(by cc where there is no clang).

Last, what calls cost, in nanoseconds: a call and its return, which is what `fib` takes by the number of its calls; and a
small call on a fresh instance (the sum of two numbers), which is what a process with 100,000 lines of it takes less one with
as many lines whose second argument is of another type, so that nothing is run: reading, judging and writing are in both (but
a result is longer to write than `bad-arguments`); and a small call on an instance that is there, which is what the calls take
more where a start function, which adds two numbers, runs before each. Of these the best of fifteen counts.

First, where objdump is installed, how many indirect jumps the function of `gate` has that holds the loop over the tokens. A
small change there makes the compiler share one jump among all tokens again, which costs a third of the speed.
"""
import os
import re
import shutil
import subprocess
import sys
import tempfile

from bench.measuring import best_of, geometric_mean, translated
from bench.recording import Recorder
from tools.arguments import program_and_results
from tools.files import write

here = os.path.dirname(os.path.abspath(__file__))
COLUMNS = ['what', 'engine', 'unit', 'least', 'most', 'times_gate']
# What an engine is called in a file of results.
NAMES = {'gate': 'gate', 'switch': 'C switch', 'goto': 'C goto', 'wabt': 'wabt', 'jsc': 'JavaScriptCore', 'node': 'V8'}
KERNELS = [('fib', 27), ('sums', 5_000_000), ('sieve', 20), ('words', 150), ('mixing', 2_000_000), ('collatz', 20_000),
           ('cases', 2_500_000), ('table', 3_000_000), ('globals', 5_000_000), ('sorting', 10), ('hashing', 60)]
# What a kernel is called in a file of results, where its name does not say what it is of.
SHOWN = {'fib': 'fib (calls)', 'sums': 'sums (locals)', 'sieve': 'sieve (bytes)', 'mixing': 'mixing (i64)', 'cases': 'cases (br_table)',
         'table': 'table (call_indirect)'}
NODE = """const fs=require('fs');const m=new WebAssembly.Module(fs.readFileSync(process.argv[1]));
let best=1e9,r;for(let i=0;i<3;i++){const f=new WebAssembly.Instance(m).exports[process.argv[2]];
const s=process.hrtime.bigint();r=f(+process.argv[3]);const t=Number(process.hrtime.bigint()-s)/1e6;if(t<best)best=t}
console.log(best,r|0)"""
JSC = """const m=new WebAssembly.Module(readFile(arguments[0],'binary'));let r=0;
for(let i=0;i<+arguments[3];i++)r=new WebAssembly.Instance(m).exports[arguments[1]](+arguments[2]);print(r|0)"""
ADD = '(func (export "add") (param i32 i32) (result i32) (i32.add (local.get 0) (local.get 1)))'
START = '(func $start (drop (i32.add (i32.const 1) (i32.const 2)))) (start $start)'
CALLS = 100_000
# The function that holds the loop over the tokens, by a part of its name, and how many indirect jumps it has at least where
# each token has its own.
LOOP, FEWEST_JUMPS = '<interpreter::run::run>', 50
# Newer compilers join the jumps that computed goto is there for, unless they are told not to; older ones know no such words.
APART = ['-mllvm', '-tail-dup-pred-size=1000', '-mllvm', '-tail-dup-succ-size=1000']


def compiler():
    # The kit's clang has no headers of its own, so it is given those of the system's compiler.
    kit = shutil.which('rt')
    clang = kit and os.path.join(os.path.dirname(os.path.realpath(kit)), '..', 'toolchain', 'bin', 'clang')
    if not clang or not os.path.exists(clang):
        return ['clang' if shutil.which('clang') else 'cc']
    return [clang, '-isystem', subprocess.run(['cc', '-print-file-name=include'], capture_output=True, check=True).stdout.decode().strip()]


def compiled(folder, name, source, *words):
    program = os.path.join(folder, name)
    subprocess.run(compiler() + ['-O2', *words, '-o', program, os.path.join(here, source)], check=True, stderr=subprocess.DEVNULL)
    return program


def machines(folder):
    try:
        threaded = compiled(folder, 'goto', 'interpreter.c', '-DTHREADED', *APART)
    except subprocess.CalledProcessError:
        threaded = compiled(folder, 'goto', 'interpreter.c', '-DTHREADED')
    return {'switch': compiled(folder, 'switch', 'interpreter.c'), 'goto': threaded}


def alone(text, name, size):
    # The module with one export, which calls the kernel: what wasm-interp can be asked to run.
    body = f'(func (export "go") (result i32) (call $go (i32.const {size})))' if name else ''
    text = re.sub(r'\(func \$?\w* ?\(export "%s"\)' % name, '(func $go', text) if name else text
    text = re.sub(r' \(export "\w+"\)', '', text).replace('(call $fib', '(call $go' if name == 'fib' else '(call $fib')
    return text.rstrip()[:-1] + body + ')'


def printed(words):
    best, value = subprocess.run(words, capture_output=True, check=True).stdout.split()
    return float(best), int(value)


def by_process(words, idle, pattern):
    spent, out = best_of(words, 1)
    result = re.search(pattern, out)
    if not result:
        sys.exit(f'{words}: {out}')
    return spent - idle, int(result.group(1))


def by_jsc(script, module, name, size):
    words = ['jsc', '--useBBQJIT=0', '--useOMGJIT=0', script, '--', module, name, str(size)]
    (spent, out), (idle, _) = best_of(words + ['3'], 1), best_of(words + ['0'], 2)
    return (spent - idle) / 3, int(out)


def engines(folder, programs, module, words, wabt_module, name, size, idle, wabt_idle):
    # Of each engine that is there, what measures one run of a kernel: milliseconds and result.
    script = os.path.join(folder, 'call.js')
    write(script, JSC)
    takes = {'gate': lambda: by_process(words, idle, r'0 values i32:(-?\d+) ')}
    takes |= {engine: lambda program=program: printed([program, module, '1', name, str(size)]) for engine, program in programs.items()}
    takes['wabt'] = lambda: by_process(['wasm-interp', wabt_module, '--run-all-exports'], wabt_idle, r'i32:(\d+)')
    if shutil.which('jsc'):
        takes['jsc'] = lambda: by_jsc(script, module, name, size)
    if shutil.which('node'):
        takes['node'] = lambda: printed(['node', '-e', NODE, module, name, str(size)])
    return takes


def in_turn(name, takes):
    # The milliseconds of each engine, turn by turn.
    turns, result = {}, None
    for turn in range(5):
        for engine, take in takes.items():
            if engine == 'wabt' and turn > 1:
                continue
            spent, value = take()
            result = value if result is None else result
            if (value - result) % 2 ** 32:
                sys.exit(f'{name}: {engine} gives {value}, gate {result}')
            turns.setdefault(engine, []).append(spent)
    return turns


def milliseconds(of_gate, of_other):
    return f'{of_other:9.1f} ({of_other / of_gate:5.2f})'


def small_calls(gate, folder):
    # Nanoseconds of a call of `add`, of one that has a start function before it, and of a line that is refused before anything
    # is run; each is run in turn, so that all meet the same load.
    plain, begun = translated(folder, 'add', f'(module {ADD})'), translated(folder, 'begun', f'(module {ADD} {START})')
    calls = os.path.join(folder, 'calls')
    kinds = [(plain, 'i32'), (begun, 'i32'), (plain, 'i64')]
    spent = [1e9] * len(kinds)
    for _ in range(15):
        for at, (module, second) in enumerate(kinds):
            write(calls, f'add\ti32:1\t{second}:2\n' * CALLS)
            spent[at] = min(spent[at], best_of([gate, 'run', module, calls, '--workers', '1'], 1)[0] * 1e6 / CALLS)
    return spent


def calls_of_fib(size):
    # fib of n makes this many calls, itself counted.
    before, last = 1, 1
    for _ in range(size - 1):
        before, last = last, before + last + 1
    return last


def show_jumps(gate):
    # How many indirect jumps the function of `gate` has that holds the loop over the tokens.
    if not shutil.which('objdump'):
        return
    text = subprocess.run(['objdump', '-d', '--no-show-raw-insn', gate], capture_output=True, check=True).stdout.decode()
    jumps, inside = 0, False
    for line in text.splitlines():
        if line.endswith('>:'):
            inside = LOOP in line
        elif inside and re.search(r'\tjmp +\*', line):
            jumps += 1
    print(f'indirect jumps of the loop over the tokens: {jumps}' + (f', WARNING: below {FEWEST_JUMPS}' if jumps < FEWEST_JUMPS else ''))


def record(recorder, name, turns):
    # A row for each engine, with how many times as long as `gate` it takes by the least of its times.
    for engine, took in turns.items():
        recorder.add(what=SHOWN.get(name, name), engine=NAMES[engine], unit='ms', least=min(took), most=max(took),
                     times_gate=min(took) / min(turns['gate']))


def main(gate, results):
    show_jumps(gate)
    recorder = Recorder(results, COLUMNS)
    with open(os.path.join(here, 'kernels.wat')) as file:
        text = file.read()
    ratios, in_fib = {}, {}
    with tempfile.TemporaryDirectory() as folder:
        programs = machines(folder)
        module, calls = translated(folder, 'kernels', text), os.path.join(folder, 'calls')
        words = [gate, 'run', module, calls, '--workers', '1', '--fuel', '1000000000', '--pages', '1024']
        write(calls, '')
        idle = best_of(words)[0]
        wabt_idle = best_of(['wasm-interp', translated(folder, 'idle', alone(text, '', 0)), '--run-all-exports'])[0]
        for name, size in KERNELS:
            write(calls, f'{name}\ti32:{size}\n')
            wabt_module = translated(folder, name, alone(text, name, size))
            turns = in_turn(name, engines(folder, programs, module, words, wabt_module, name, size, idle, wabt_idle))
            record(recorder, name, turns)
            best = {engine: min(took) for engine, took in turns.items()}
            spent = best.pop('gate')
            for engine, other in best.items():
                ratios.setdefault(engine, []).append(other / spent)
            if name == 'fib':
                print(f'{"kernel":10}{"gate, ms":>10}' + ''.join(f'{engine:>18}' for engine in best))
                in_fib = {engine: other * 1e6 / calls_of_fib(size) for engine, other in {'gate': spent, **best}.items()}
            print(f'{name:10}{spent:10.1f}' + ''.join(f'{milliseconds(spent, other):>18}' for other in best.values()), flush=True)
        for engine, all_of in ratios.items():
            print(f'geometric mean, {engine}: {geometric_mean(all_of):.2f}')
        print('a call and its return (fib), ns: ' + ', '.join(f'{engine} {of:.1f}' for engine, of in in_fib.items()))
        for engine, of in in_fib.items():
            recorder.add(what='a call and its return', engine=NAMES[engine], unit='ns', least=of, times_gate=of / in_fib['gate'])
        small, begun, refused = small_calls(gate, folder)
        recorder.add(what='a small call on an instance that is there', engine='gate', unit='ns', least=begun - small)
        recorder.add(what='a small call on a fresh instance', engine='gate', unit='ns', least=small - refused)
        print(f'a small call, ns: {begun - small:.0f} on an instance that is there, {small - refused:.0f} on a fresh one, '
              f'beside {refused:.0f} for a line that is refused')


if __name__ == '__main__':
    main(*program_and_results(__doc__))
