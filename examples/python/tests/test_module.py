"""Modules that are judged once."""
import copy
import gc
import pickle
import threading
import unittest
from collections.abc import Callable
from unittest import mock

import gate
from gate import I32, I64
from gate._library import library
from tests.modules import HEADER, ILL_TYPED, MANY, RESULTS, example, run_rows


def arguments_of(line: str) -> tuple[str, list[gate.Value]]:
    """The name and the arguments of a line of calls."""
    name, *words = line.split('\t')
    return name, [gate.value_of(word) for word in words]


def side_by_side(works: list[Callable[[], None]]) -> None:
    """Runs each in a thread, and raises what one of them raised."""
    faults: list[BaseException] = []

    def guarded(work: Callable[[], None]) -> None:
        try:
            work()
        except BaseException as fault:
            faults.append(fault)

    threads = [threading.Thread(target=guarded, args=(work,)) for work in works]
    for thread in threads:
        thread.start()
    for thread in threads:
        thread.join()
    if faults:
        raise faults[0]


class Calls(unittest.TestCase):
    def test_add(self) -> None:
        with gate.Module(example('add.wasm')) as module:
            self.assertEqual(module.call('add', I32(40), I32(2)), gate.End(gate.EndKind.VALUES, (I32(42),), fuel=1))
            self.assertEqual(module.call(b'add', I32(2 ** 31 - 1), I32(1)).values, (I32(-2 ** 31),))
            self.assertEqual(str(module.call('add', I32(40), I32(2), settings=gate.Settings(fuel=0))), 'out-of-fuel fuel 0')

    def test_rows(self) -> None:
        for name, module, calls, settings, text, status in run_rows():
            if status == 0:
                with self.subTest(name), gate.Module(module) as held:
                    for call, line in zip(calls.decode().splitlines(), text.decode().splitlines()):
                        export, values = arguments_of(call)
                        wanted = line.partition(' ')[2]
                        if wanted == 'bad-arguments':
                            self.assertRaises(gate.BadArguments, held.call, export, *values, settings=settings)
                        else:
                            self.assertEqual(str(held.call(export, *values, settings=settings)), wanted)

    def test_many_results_in_one_call(self) -> None:
        with gate.Module(MANY) as module, mock.patch.object(library, 'gate_module_call', wraps=library.gate_module_call) as called:
            self.assertEqual(module.call('many').values, tuple(map(I32, range(RESULTS))))
            self.assertEqual(called.call_count, 1)

    def test_wrong_arguments(self) -> None:
        with gate.Module(example('add.wasm')) as module:
            wrong: list[list[gate.Value]] = [[], [I32(1)], [I32(1), I64(2)], [I32(1)] * 3]
            for values in wrong:
                self.assertRaises(gate.BadArguments, module.call, 'add', *values)
            self.assertEqual(module.call('sub'), gate.End(gate.EndKind.NO_EXPORT))

    def test_refused(self) -> None:
        with self.assertRaises(gate.ModuleRefused) as caught:
            gate.Module(ILL_TYPED)
        self.assertEqual(str(caught.exception.verdict), 'refused body 0 ill-typed at 1')


class Handles(unittest.TestCase):
    def test_closed(self) -> None:
        module = gate.Module(HEADER)
        with module:
            other = module.share()
        module.close()
        for use in (lambda: module.call('f')), (lambda: module.run(b'')), module.share:
            with self.assertRaisesRegex(ValueError, 'closed'):
                use()
        self.assertEqual(other.call('f').kind, gate.EndKind.NO_EXPORT)
        other.close()

    def test_freed_once(self) -> None:
        with mock.patch.object(library, 'gate_module_free', wraps=library.gate_module_free) as free:
            with gate.Module(HEADER) as module:
                other = module.share()
            module.close()
            del module, other
            gc.collect()
            self.assertEqual(free.call_count, 2)

    def test_bytes_are_kept(self) -> None:
        data = bytearray(example('add.wasm'))
        with gate.Module(data) as module:
            data[:] = bytes(len(data))
            self.assertEqual(module.call('add', I32(1), I32(2)).values, (I32(3),))

    def test_no_copies(self) -> None:
        with gate.Module(HEADER) as module:
            makers: list[Callable[[gate.Module], object]] = [copy.copy, copy.deepcopy, pickle.dumps]
            for make in makers:
                with self.assertRaises(TypeError):
                    make(module)


class Threads(unittest.TestCase):
    ROUNDS = 2_000

    def rounds(self, module: gate.Module, first: int) -> Callable[[], None]:
        def work() -> None:
            for second in range(self.ROUNDS):
                self.assertEqual(module.call('add', I32(first), I32(second)).values, (I32(first + second),))
        return work

    def test_a_handle_each(self) -> None:
        with gate.Module(example('add.wasm')) as module:
            others = [module.share() for _ in range(8)]
        side_by_side([self.rounds(other, first) for first, other in enumerate(others)])
        for other in others:
            other.close()

    def test_one_handle(self) -> None:
        with gate.Module(example('add.wasm')) as module:
            side_by_side([self.rounds(module, first) for first in range(4)])

    def test_checks(self) -> None:
        module, verdict = example('primes.wasm'), gate.check(ILL_TYPED)

        def work() -> None:
            for _ in range(self.ROUNDS):
                self.assertTrue(gate.check(module))
                self.assertEqual(gate.check(ILL_TYPED), verdict)

        side_by_side([work] * 8)

    def test_close_waits(self) -> None:
        module = gate.Module(example('fold.wasm'))
        started = threading.Event()

        def work() -> None:
            started.set()
            try:
                while True:
                    module.call('fold', I32(0), I32(10))
            except ValueError as fault:
                self.assertEqual(str(fault), 'the module is closed')

        def end() -> None:
            started.wait()
            module.close()

        side_by_side([work, work, end])
