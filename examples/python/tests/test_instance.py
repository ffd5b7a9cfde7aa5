"""Instances that go on from call to call."""
from __future__ import annotations

import copy
import gc
import pickle
import threading
import unittest
from collections.abc import Callable
from unittest import mock

import gate
from gate import I32, End, EndKind, NotStarted, Trap
from gate._library import CCall, CInstance, library
from tests.modules import GOES_ON, HALF, LOOP, MANY, RESULTS, SEGMENT_OUTSIDE, START_TRAPS, example
from tests.test_module import side_by_side

PAGE = 65_536


def instance_of(data: bytes | bytearray, settings: gate.Settings = gate.Settings()) -> gate.Instance:
    """An instance of a module, which is closed at once."""
    with gate.Module(data) as module:
        return module.instance(settings)


def no_memory(_handle: CInstance, ended: CCall) -> int:
    """What `gate_instance_reset` answers where memory is refused."""
    ended.end, ended.reason, ended.place, ended.fuel, ended.results = 8, 0, 0, 0, 0
    return 81


class Goes(unittest.TestCase):
    def setUp(self) -> None:
        self.instance = instance_of(GOES_ON)
        self.addCleanup(self.instance.close)

    def byte(self, at: int) -> int:
        return self.instance.read(at, 1)[0]


class Calls(Goes):
    def test_started(self) -> None:
        self.assertEqual(self.instance.started, End(EndKind.VALUES, fuel=1))
        self.assertEqual(self.byte(0), 7)

    def test_call(self) -> None:
        self.instance.write(16, bytes([40]))
        self.assertEqual(self.instance.call('handle', 2), End(EndKind.VALUES, (I32(1),), fuel=1))
        self.assertEqual(self.byte(32), 42)
        self.assertEqual(self.instance.call(b'handle', I32(3)), End(EndKind.VALUES, (I32(2),), fuel=1))
        self.assertEqual(self.byte(32), 43)

    def test_a_trap_and_going_on(self) -> None:
        self.assertEqual(self.instance.call('trap'), End(EndKind.TRAP, reason=Trap.UNREACHABLE, fuel=1))
        self.assertEqual(self.instance.global_value('count'), I32(100))
        self.assertEqual(self.instance.call('handle', 0).values, (I32(101),))

    def test_many_results(self) -> None:
        with instance_of(MANY) as instance:
            self.assertEqual(instance.call('many').values, tuple(map(I32, range(RESULTS))))

    def test_settings(self) -> None:
        self.assertEqual(self.instance.call('handle', 0, settings=gate.Settings(fuel=0)), End(EndKind.OUT_OF_FUEL, fuel=0))
        with instance_of(GOES_ON, gate.Settings(fuel=1, pages=1)) as instance:
            self.assertEqual(instance.call('handle', 0).values, (I32(1),))
            # Its pages stay those that it was made with.
            self.assertEqual(instance.call('grow', 1, settings=gate.Settings(pages=2)).values, (I32(-1),))

    def test_its_own_settings(self) -> None:
        with instance_of(LOOP, gate.Settings(fuel=5)) as instance:
            self.assertEqual(instance.call('f'), End(EndKind.OUT_OF_FUEL, fuel=5))
            self.assertEqual(instance.call('f', settings=gate.Settings(fuel=7)), End(EndKind.OUT_OF_FUEL, fuel=7))

    def test_wrong_arguments(self) -> None:
        with self.assertRaisesRegex(gate.BadArguments, 'takes 1 number, and not 0'):
            self.instance.call('handle')
        self.assertEqual(self.instance.call('count'), End(EndKind.NOT_A_FUNCTION))
        self.assertEqual(self.instance.call('sub'), End(EndKind.NO_EXPORT))
        with self.assertRaisesRegex(TypeError, 'takes 1 number, and not 2'):
            self.instance.call('handle', 1, 2)
        with self.assertRaisesRegex(ValueError, 'an i32 is from -2147483648 to 4294967295'):
            self.instance.call('handle', 2 ** 32)
        self.assertEqual(self.instance.global_value('count'), I32(0))

    def test_a_function(self) -> None:
        handle, trap = self.instance.function('handle'), self.instance.function(b'trap')
        self.instance.write(16, bytes([40]))
        self.assertEqual(handle(2), End(EndKind.VALUES, (I32(1),), fuel=1))
        self.assertEqual(self.byte(32), 42)
        self.assertEqual(trap(), End(EndKind.TRAP, reason=Trap.UNREACHABLE, fuel=1))
        self.assertEqual(handle(I32(3)).value(), I32(101))
        self.assertEqual(handle(0, settings=gate.Settings(fuel=0)), End(EndKind.OUT_OF_FUEL, fuel=0))
        with self.assertRaisesRegex(gate.BadArguments, 'handle is .*: it takes 1 number, and not 0'):
            handle()
        self.instance.reset()
        self.assertEqual(handle(0).value(), I32(1))
        self.instance.close()
        with self.assertRaises(gate.Closed):
            handle(0)

    def test_no_function(self) -> None:
        for name in 'count', 'sub', b'':
            with self.assertRaises(gate.NoFunction) as caught:
                self.instance.function(name)
            self.assertEqual(caught.exception.name, name)

    def test_each_is_its_own(self) -> None:
        with gate.Module(GOES_ON) as module, module.instance() as other:
            self.instance.call('handle', 0)
            self.assertEqual(other.global_value('count'), I32(0))


class Memory(Goes):
    def test_size(self) -> None:
        self.assertEqual(self.instance.memory_size, PAGE)
        self.assertEqual(self.instance.call('grow', 1).values, (I32(1),))
        self.assertEqual(self.instance.memory_size, 2 * PAGE)
        self.assertEqual(self.byte(2 * PAGE - 1), 0)
        with instance_of(example('add.wasm')) as without:
            self.assertEqual(without.memory_size, 0)

    def test_long_reads(self) -> None:
        # More than the room that an instance has for them.
        self.instance.write(0, bytes(range(256)) * 256)
        for length in 4096, 4097, PAGE - 1:
            self.assertEqual(self.instance.read(1, length), (bytes(range(256)) * 256)[1:length + 1])

    def test_read(self) -> None:
        self.assertEqual(self.instance.read(7, 3), bytes([0, 5, 0]))
        self.assertEqual(self.instance.read(PAGE - 1, 1), b'\0')
        self.assertEqual(self.instance.read(PAGE, 0), b'')

    def test_write(self) -> None:
        for data in b'ab', bytearray(b'cd'), memoryview(b'ef'):
            self.instance.write(PAGE - 2, data)
            self.assertEqual(self.instance.read(PAGE - 3, 3), b'\0' + data)
        self.instance.write(PAGE, b'')

    def test_outside(self) -> None:
        for at, length in (PAGE - 1, 2), (PAGE, 1), (PAGE + 1, 0), (2 ** 64 - 1, 1), (2 ** 32, 4):
            uses: list[Callable[[], object]] = [lambda: self.instance.read(at, length), lambda: self.instance.write(at, b'x' * length)]
            for use in uses:
                with self.assertRaises(gate.OutsideMemory) as caught:
                    use()
                self.assertEqual((caught.exception.at, caught.exception.length, caught.exception.size), (at, length, PAGE))
        self.assertEqual(self.byte(PAGE - 1), 0)
        with self.assertRaisesRegex(gate.OutsideMemory, '1099511627776 bytes at 0 do not lie in a memory of 65536 bytes'):
            self.instance.read(0, 2 ** 40)

    def test_no_memory_at_all(self) -> None:
        with instance_of(example('add.wasm')) as without:
            for length in 0, 1:
                with self.assertRaises(gate.OutsideMemory):
                    without.read(0, length)
                with self.assertRaises(gate.OutsideMemory):
                    without.write(0, b'x' * length)

    def test_no_places(self) -> None:
        for at, length in (-1, 1), (0, -1), (2 ** 64, 1), (0, 2 ** 63):
            with self.assertRaises(ValueError):
                self.instance.read(at, length)
        with self.assertRaises(ValueError):
            self.instance.write(-1, b'x')
        with self.assertRaises(TypeError):
            self.instance.read(0.5, 1)  # type: ignore[arg-type]


class Globals(Goes):
    def test_value(self) -> None:
        self.assertEqual(self.instance.global_value('count'), I32(0))
        self.instance.call('handle', 0)
        self.assertEqual(self.instance.global_value(b'count'), I32(1))

    def test_none(self) -> None:
        for name in 'handle', 'counts', '':
            with self.assertRaisesRegex(gate.NoGlobal, f"no global is exported as '{name}'") as caught:
                self.instance.global_value(name)
            self.assertEqual(caught.exception.name, name)


class Resets(Goes):
    def test_reset(self) -> None:
        self.instance.call('trap')
        self.instance.call('grow', 1)
        self.instance.write(8, b'\xff')
        self.instance.reset()
        self.assertEqual(self.instance.memory_size, PAGE)
        self.assertEqual((self.byte(0), self.byte(8)), (7, 5))
        self.assertEqual(self.instance.global_value('count'), I32(0))
        self.assertEqual(self.instance.started, End(EndKind.VALUES, fuel=1))

    def test_call_or_reset(self) -> None:
        self.assertEqual(self.instance.call_or_reset('handle', 0).value(), I32(1))
        self.assertEqual(self.instance.call_or_reset('handle', 0).value(), I32(2))
        self.assertEqual(self.instance.call_or_reset('trap'), End(EndKind.TRAP, reason=Trap.UNREACHABLE, fuel=1))
        self.assertEqual(self.instance.global_value('count'), I32(0))
        self.instance.call('handle', 0)
        self.assertEqual(self.instance.call_or_reset('handle', 0, settings=gate.Settings(fuel=0)), End(EndKind.OUT_OF_FUEL, fuel=0))
        self.assertEqual(self.instance.global_value('count'), I32(0))
        self.instance.call('handle', 0)
        with self.assertRaises(gate.BadArguments):
            self.instance.call_or_reset('handle')
        self.assertEqual(self.instance.global_value('count'), I32(1))
        with mock.patch.object(library, 'gate_instance_reset', no_memory), self.assertRaises(gate.NoInstance):
            self.instance.call_or_reset('trap')

    def test_no_instance_after_a_reset(self) -> None:
        with mock.patch.object(library, 'gate_instance_reset', no_memory):
            with self.assertRaisesRegex(gate.NoInstance, '^no instance: no-memory$'):
                self.instance.reset()
        uses: list[Callable[[], object]] = [lambda: self.instance.call('handle', 0), lambda: self.instance.memory_size,
                                            lambda: self.instance.read(0, 1), lambda: self.instance.write(0, b'x'),
                                            lambda: self.instance.global_value('count')]
        for use in uses:
            with self.assertRaises(gate.NoInstance) as caught:
                use()
            self.assertEqual(caught.exception.end, End(EndKind.NO_MEMORY))
        self.instance.reset()
        self.assertEqual(self.instance.call('handle', 0).values, (I32(1),))

    def test_memory_refused(self) -> None:
        for function in 'gate_instance_new', 'gate_module_share':
            with gate.Module(GOES_ON) as module, mock.patch.object(library, function, return_value=70):
                with self.assertRaises(MemoryError):
                    module.instance()


class FromTheBeginning(unittest.TestCase):
    """There is no instance from the beginning."""

    def ends(self, data: bytes, wanted: End, settings: gate.Settings = gate.Settings(), place: str = '') -> None:
        with gate.Module(data) as module, self.assertRaises(gate.NoInstance) as caught:
            module.instance(settings)
        self.assertEqual((caught.exception.end, caught.exception.place), (wanted, place))
        self.assertEqual(str(caught.exception), f'no instance: {wanted}: {place}' if place else f'no instance: {wanted}')

    def test_not_started(self) -> None:
        self.ends(SEGMENT_OUTSIDE, End(EndKind.NOT_STARTED, reason=NotStarted.DATA_OUTSIDE, place=1),
                  place='it has 2 bytes from 65535 on, and the memory has 65536')
        self.ends(GOES_ON, End(EndKind.NOT_STARTED, reason=NotStarted.MEMORY_LIMIT), gate.Settings(pages=0),
                  'the memory has 1 pages, and 0 are the most')
        self.ends(HALF, End(EndKind.NOT_STARTED, reason=NotStarted.FLOATS),
                  place='function 0 "half" token 0 f32.const 0x00000000, byte 0x21')

    def test_start_function(self) -> None:
        self.ends(START_TRAPS, End(EndKind.TRAP, reason=Trap.UNREACHABLE, fuel=1))
        self.ends(GOES_ON, End(EndKind.OUT_OF_FUEL, fuel=0), gate.Settings(fuel=0))


class Handles(unittest.TestCase):
    def test_closed(self) -> None:
        with instance_of(GOES_ON) as instance:
            self.assertEqual(instance.memory_size, PAGE)
        instance.close()
        uses: list[Callable[[], object]] = [lambda: instance.call('handle', 0), lambda: instance.memory_size, lambda: instance.read(0, 1),
                                            lambda: instance.write(0, b'x'), lambda: instance.global_value('count'), instance.reset]
        for use in uses:
            with self.assertRaisesRegex(gate.Closed, '^the instance is closed$'):
                use()
        module = gate.Module(GOES_ON)
        module.close()
        with self.assertRaisesRegex(gate.Closed, '^the module is closed$'):
            module.instance()

    def test_freed_once(self) -> None:
        free_instance = mock.patch.object(library, 'gate_instance_free', wraps=library.gate_instance_free)
        free_module = mock.patch.object(library, 'gate_module_free', wraps=library.gate_module_free)
        with free_instance as of_instance, free_module as of_module:
            with gate.Module(GOES_ON) as module:
                closed, forgotten = module.instance(), module.instance()
            closed.close()
            closed.close()
            self.assertEqual((of_instance.call_count, of_module.call_count), (1, 2))
            del forgotten
            gc.collect()
            self.assertEqual((of_instance.call_count, of_module.call_count), (2, 3))

    def test_no_instance_leaves_nothing(self) -> None:
        with mock.patch.object(library, 'gate_module_free', wraps=library.gate_module_free) as free:
            with gate.Module(START_TRAPS) as module, self.assertRaises(gate.NoInstance):
                module.instance()
            self.assertEqual(free.call_count, 2)

    def test_bytes_are_kept(self) -> None:
        data = bytearray(GOES_ON)
        with instance_of(data) as instance:
            data[:] = bytes(len(data))
            gc.collect()
            self.assertEqual(instance.call('handle', 0).values, (I32(1),))
            instance.reset()
            self.assertEqual(instance.read(8, 1), b'\5')

    def test_no_copies(self) -> None:
        with instance_of(GOES_ON) as instance:
            makers: list[Callable[[gate.Instance], object]] = [copy.copy, copy.deepcopy, pickle.dumps]
            for make in makers:
                with self.assertRaisesRegex(TypeError, 'Module.instance'):
                    make(instance)


class Threads(unittest.TestCase):
    ROUNDS = 2_000

    def test_one_instance(self) -> None:
        with instance_of(GOES_ON) as instance:
            def work() -> None:
                for _ in range(self.ROUNDS):
                    self.assertEqual(instance.call('handle', 0).kind, EndKind.VALUES)

            side_by_side([work] * 4)
            self.assertEqual(instance.global_value('count'), I32(4 * self.ROUNDS))

    def test_an_instance_each(self) -> None:
        with gate.Module(GOES_ON) as module:
            def work() -> None:
                with module.instance() as instance:
                    for number in range(self.ROUNDS):
                        self.assertEqual(instance.call('handle', 0).values, (I32(number + 1),))

            side_by_side([work] * 4)

    def test_close_waits(self) -> None:
        instance, started = instance_of(GOES_ON), threading.Event()

        def work() -> None:
            started.set()
            with self.assertRaises(gate.Closed):
                while True:
                    instance.call('handle', 0)

        def end() -> None:
            started.wait()
            instance.close()

        side_by_side([work, work, end])
