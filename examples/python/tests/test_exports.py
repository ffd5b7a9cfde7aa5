"""What modules import and export, their measures, and calls by plain numbers."""
import re
import unittest
from collections.abc import Callable
from unittest import mock

import gate
from gate import I32, I64, ExportKind, FunctionType, ValueType
from gate._library import library
from tests.modules import HEADER, ILL_TYPED, MANY, RESULTS, example

# `both` of type [i64 i32] -> [i32 i64] gives its second and its first parameter; `f` of [f64] -> [], the memory `m`, the global `g`, the
# table `t` with an empty name.
ALL = HEADER + bytes.fromhex(
    '01 0c 02 60 02 7e 7f 02 7f 7e 60 01 7c 00  03 03 02 00 01  04 04 01 70 00 01  05 03 01 00 01  06 06 01 7f 00 41 05 0b'
    '07 17 05 04 62 6f 74 68 00 00  01 66 00 01  01 6d 02 00  01 67 03 00  00 01 00  0a 0b 02 06 00 20 01 20 00 0b 02 00 0b')
# Of type [i32 i64] -> [i32] the function f of env; its table t, a memory m of no module, its function h, its global g; a section `note`.
IMPORTS = HEADER + bytes.fromhex(
    '01 0a 02 60 02 7f 7e 01 7f 60 00 00  02 2a 05 03 65 6e 76 01 66 00 00  03 65 6e 76 01 74 01 70 00 01  00 01 6d 02 00 01'
    '03 65 6e 76 01 68 00 01  03 65 6e 76 01 67 03 7f 00  00 08 04 6e 6f 74 65 01 02 03')
# Its memory has two pages.
TWO_PAGES = HEADER + bytes.fromhex('05 03 01 00 02')
BOTH = FunctionType((ValueType.I64, ValueType.I32), (ValueType.I32, ValueType.I64))


class Exports(unittest.TestCase):
    def test_all_kinds(self) -> None:
        with gate.Module(ALL) as module:
            self.assertEqual(module.exports, (
                gate.Export('both', ExportKind.FUNCTION, 0, BOTH),
                gate.Export('f', ExportKind.FUNCTION, 1, FunctionType((ValueType.F64,), ())),
                gate.Export('m', ExportKind.MEMORY, 0), gate.Export('g', ExportKind.GLOBAL, 0), gate.Export('', ExportKind.TABLE, 0)))
            for export in module.exports:
                self.assertEqual(module.find(export.name), export)
            self.assertIsNone(module.find('both '))
            self.assertIsNone(module.find(b'\xff'))
            self.assertEqual('; '.join(map(str, module.exports)),
                             'both: function (i64, i32) -> (i32, i64); f: function (f64) -> (); m: memory 0; g: global 0; : table 0')

    def test_none(self) -> None:
        with gate.Module(HEADER) as module:
            self.assertEqual(module.exports, ())

    def test_a_long_name(self) -> None:
        name = 'n\u00e4' * 200
        data = name.encode()
        section = bytes([1, 0x80 | len(data) & 0x7F, len(data) >> 7]) + data + bytes([2, 0])
        module = HEADER + bytes.fromhex('05 03 01 00 01 07') + bytes([0x80 | len(section) & 0x7F, len(section) >> 7]) + section
        with gate.Module(module) as held:
            self.assertEqual(held.exports, (gate.Export(name, ExportKind.MEMORY, 0),))

    def test_closed(self) -> None:
        module = gate.Module(HEADER)
        module.close()
        uses: tuple[Callable[[], object], ...] = (
            lambda: module.exports, lambda: module.find('f'), module.starts, lambda: module.imports, lambda: module.measures,
            module.exports_text)
        for use in uses:
            with self.assertRaisesRegex(ValueError, 'closed'):
                use()


class Imports(unittest.TestCase):
    def test_all_kinds(self) -> None:
        with gate.Module(IMPORTS) as module:
            self.assertEqual(module.imports, (
                gate.Import('env', 'f', ExportKind.FUNCTION, FunctionType((ValueType.I32, ValueType.I64), (ValueType.I32,))),
                gate.Import('env', 't', ExportKind.TABLE), gate.Import('', 'm', ExportKind.MEMORY),
                gate.Import('env', 'h', ExportKind.FUNCTION, FunctionType((), ())), gate.Import('env', 'g', ExportKind.GLOBAL)))
            self.assertEqual('; '.join(map(str, module.imports)),
                             'env f: function (i32, i64) -> (i32); env t: table;  m: memory; env h: function () -> (); env g: global')
            self.assertEqual(module.exports_text(), gate.exports_text(IMPORTS))
            with module.share() as other:
                self.assertEqual((other.imports, other.exports_text()), (module.imports, module.exports_text()))

    def test_none(self) -> None:
        with gate.Module(ALL) as module:
            self.assertEqual(module.imports, ())


class Texts(unittest.TestCase):
    def test_an_accepted_module(self) -> None:
        self.assertEqual(gate.exports_text(IMPORTS).splitlines(), [
            'import "env" "f" function [i32 i64] -> [i32]', 'import "env" "t" table', 'import "" "m" memory',
            'import "env" "h" function [] -> []', 'import "env" "g" global i32', 'custom "note" 3',
            'not-started imports: import 0 "env" "f" is a function'])
        self.assertEqual(gate.exports_text(TWO_PAGES), 'starts\n')
        self.assertEqual(gate.exports_text(TWO_PAGES, gate.Settings(pages=1)),
                         'not-started memory-limit: the memory has 2 pages, and 1 are the most\n')

    def test_a_refused_module(self) -> None:
        self.assertEqual(gate.exports_text(ILL_TYPED), 'refused body 0 ill-typed at 1\n')

    def test_a_long_text(self) -> None:
        data = HEADER + bytes.fromhex('00 02 01 61') * 1000
        self.assertEqual(gate.exports_text(data), 'custom "a" 0\n' * 1000 + 'starts\n')


class Measured(unittest.TestCase):
    def test_measures(self) -> None:
        for data, measures in (HEADER, (0, 0, 0)), (example('add.wasm'), (4, 2, 2)), (ALL, (3, 2, 2)), (IMPORTS, (0, 0, 2)):
            with gate.Module(data) as module:
                self.assertEqual(module.measures, gate.Measures(*measures))


class PlainNumbers(unittest.TestCase):
    def test_by_the_type(self) -> None:
        with gate.Module(example('add.wasm')) as module:
            self.assertEqual(module.call('add', 40, 2).values, (I32(42),))
            self.assertEqual(module.call('add', 40, I32(-2)).values, (I32(38),))
            self.assertEqual(module.call('add', 1, 2 ** 31 - 1).values, (I32(-2 ** 31),))

    def test_without_a_sign(self) -> None:
        with gate.Module(example('add.wasm')) as module:
            self.assertEqual(module.call('add', 2 ** 32 - 1, 1).value(), I32(0))
            self.assertEqual(module.call('add', 2 ** 31, 0).value(), I32(-2 ** 31))
        with gate.Module(ALL) as module:
            self.assertEqual(gate.End(gate.EndKind.NOT_STARTED, reason=gate.NotStarted.FLOATS), module.call('both', 2 ** 64 - 1, 2 ** 31))
            for numbers in (2 ** 64, 0), (-2 ** 63 - 1, 0), (0, 2 ** 32), (0, -2 ** 31 - 1):
                with self.assertRaises(ValueError):
                    module.call('both', *numbers)

    def test_wrong_numbers_run_nothing(self) -> None:
        with gate.Module(example('add.wasm')) as module, \
                mock.patch.object(library, 'gate_module_call', wraps=library.gate_module_call) as called:
            lists: list[list[gate.Value | int]] = [[], [40], [I32(40)], [1, 2, 3], [I32(1)] * 3]
            for numbers in lists:
                with self.assertRaisesRegex(gate.BadArguments,
                                            rf'add is \(i32, i32\) -> \(i32\): it takes 2 numbers, and not {len(numbers)}'):
                    module.call('add', *numbers)
            for wrong in I64(2), 2.5, True, False, None, '40':
                with self.assertRaisesRegex(gate.BadArguments, f'number 1 of add is an i32, and not {re.escape(repr(wrong))}'):
                    module.call('add', 40, wrong)  # type: ignore[arg-type]
            for number in 2 ** 32, -2 ** 31 - 1:
                with self.assertRaisesRegex(ValueError, f'number 1 of add: an i32 is from .*, and not {number}'):
                    module.call('add', 1, number)
            self.assertEqual(called.call_count, 0)

    def test_no_function(self) -> None:
        with gate.Module(ALL) as module:
            self.assertEqual(module.call('sub', 1).kind, gate.EndKind.NO_EXPORT)
            self.assertEqual(module.call('m', 1).kind, gate.EndKind.NOT_A_FUNCTION)
            with self.assertRaisesRegex(TypeError, 'number 0 of f is an f64, and not 1'):
                module.call('f', 1)

    def test_many_results(self) -> None:
        with gate.Module(MANY) as module:
            self.assertEqual(module.call('many').values, tuple(map(I32, range(RESULTS))))


class Starts(unittest.TestCase):
    def test_starts(self) -> None:
        with gate.Module(TWO_PAGES) as module:
            self.assertEqual(module.starts(), gate.End(gate.EndKind.VALUES, fuel=0))
            self.assertEqual(module.starts(gate.Settings(fuel=0, pages=2)), gate.End(gate.EndKind.VALUES, fuel=0))
            self.assertEqual(module.starts(gate.Settings(pages=1)), gate.End(gate.EndKind.NOT_STARTED, reason=gate.NotStarted.MEMORY_LIMIT))

    def test_floats(self) -> None:
        with gate.Module(ALL) as module:
            self.assertEqual(str(module.starts()), 'not-started floats')
