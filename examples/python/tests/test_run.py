"""Texts of calls and reports."""
import unittest
from unittest import mock

import gate
from tests.modules import HEADER, example, run_rows


class Run(unittest.TestCase):
    def test_rows(self) -> None:
        for name, module, calls, settings, text, status in run_rows():
            with self.subTest(name):
                self.assertEqual(gate.run(module, calls, settings), gate.Report(gate.Status(status), text))

    def test_rows_of_a_module(self) -> None:
        for name, module, calls, settings, text, status in run_rows():
            with self.subTest(name):
                try:
                    with gate.Module(module) as held:
                        self.assertEqual(held.run(calls, settings), gate.Report(gate.Status(status), text))
                except gate.ModuleRefused as refused:
                    self.assertEqual((f'{refused.verdict}\n'.encode(), 2), (text, status))

    def test_short_buffer(self) -> None:
        with mock.patch('gate.report.ROOM', 1):
            self.test_rows()
            self.test_rows_of_a_module()

    def test_long_report(self) -> None:
        report = gate.run(example('add.wasm'), gate.call_line('add', gate.I32(40), gate.I32(2)) * 10_000)
        lines = [b'%d values i32:42 fuel 1\n' % number for number in range(10_000)]
        self.assertEqual(report.text, b''.join(lines) + b'total 10000 values 10000 traps 0 exhausted 0 refused 0 no-memory 0 fuel 10000\n')

    def test_ends(self) -> None:
        for name, module, calls, settings, text, status in run_rows():
            with self.subTest(name):
                ends = [line.partition(' ')[2] for line in text.decode().splitlines()[:-1]] if status == 0 else []
                self.assertEqual([str(end) for end in gate.run(module, calls, settings).ends()], ends)

    def test_examples(self) -> None:
        for name in 'fold', 'primes':
            report = gate.run(example(f'{name}.wasm'), example(f'{name}.calls'))
            self.assertEqual(report, gate.Report(gate.Status.REPORTED, example(f'{name}.report')))

    def test_refusals(self) -> None:
        self.assertEqual(gate.run(b'', b''), gate.Report(gate.Status.MODULE_REFUSED, b'refused malformed\n'))
        self.assertEqual(gate.run(HEADER, b'\n.'), gate.Report(gate.Status.CALLS_REFUSED, b'accepted\ncalls line 2 refused\n'))

    def test_wrong_settings(self) -> None:
        for limits in {'fuel': -1}, {'fuel': 1_000_000_001}, {'frames': 0}, {'frames': 4_097}, {'pages': 1_025}, {'fuel': 1 << 32}:
            with self.assertRaises(ValueError):
                gate.Settings(**limits)
        for name in 'fuel', 'frames', 'pages':
            for number in 1.5, 1.0, '1', None, True:
                with self.assertRaisesRegex(TypeError, f'{name} is a whole number'):
                    gate.Settings(**{name: number})  # type: ignore[arg-type]
