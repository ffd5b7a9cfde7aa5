"""Verdicts."""
import unittest

import gate
from tests.modules import HEADER, ILL_TYPED, judged


class Check(unittest.TestCase):
    def test_rows(self) -> None:
        for name, module, line in judged():
            with self.subTest(name):
                verdict = gate.check(module)
                self.assertEqual(str(verdict), line)
                self.assertEqual(verdict.accepted, line == 'accepted')

    def test_numbers(self) -> None:
        self.assertEqual(gate.check(HEADER), gate.Verdict())
        self.assertEqual(gate.check(HEADER[:-1]), gate.Verdict(gate.Refusal.MALFORMED))
        self.assertEqual(gate.check(ILL_TYPED), gate.Verdict(gate.Refusal.BODY_ILL_TYPED, function=0, token=1))

    def test_truth(self) -> None:
        self.assertTrue(gate.check(HEADER))
        self.assertFalse(gate.check(b''))

    def test_other_bytes(self) -> None:
        for data in bytearray(HEADER), memoryview(HEADER), memoryview(b'..' + HEADER)[2:]:
            self.assertTrue(gate.check(data))

    def test_no_bytes(self) -> None:
        for data in 'text', 8, None, [0, 1]:
            with self.assertRaises(TypeError):
                gate.check(data)  # type: ignore[arg-type]

    def test_numbers_past_their_width(self) -> None:
        widest = gate.Verdict(gate.Refusal.BODY_ILL_TYPED, function=2 ** 32 - 1, token=2 ** 64 - 1)
        self.assertEqual(str(widest), 'refused body 4294967295 ill-typed at 18446744073709551615')
        for numbers in {'function': 2 ** 32 + 5}, {'rule': 2 ** 32}, {'token': 2 ** 64}, {'function': -1}, {'token': -1}:
            with self.assertRaisesRegex(ValueError, f'{next(iter(numbers))} is from 0 to '):
                gate.Verdict(gate.Refusal.BODY_ILL_TYPED, **numbers)
        with self.assertRaisesRegex(TypeError, 'rule is a whole number'):
            gate.Verdict(gate.Refusal.RULE, rule=5.0)  # type: ignore[arg-type]

    def test_line_of_no_verdict(self) -> None:
        with self.assertRaises(ValueError):
            str(gate.Verdict(function=1))
