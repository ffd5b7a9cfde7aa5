"""Values, lines of calls, ends."""
import unittest

import gate
from gate import I32, I64


class Values(unittest.TestCase):
    def test_ranges(self) -> None:
        for kind, half in (I32, 1 << 31), (I64, 1 << 63):
            self.assertEqual(kind(-half).bits, half)
            self.assertEqual(kind(-1).bits, 2 * half - 1)
            self.assertEqual(int(kind(half - 1)), half - 1)
            self.assertEqual(kind(2 * half - 1), kind(-1))
            self.assertEqual((kind(half).number, kind(half).bits), (-half, half))
            for number in -half - 1, 2 * half:
                with self.assertRaises(ValueError):
                    kind(number)
        self.assertNotEqual(I32(1), I64(1))
        for wrong in 1.0, True, '1', None:
            with self.assertRaisesRegex(TypeError, 'an i32 is a whole number, and not '):
                I32(wrong)  # type: ignore[arg-type]

    def test_words(self) -> None:
        self.assertEqual(gate.value_of('i32:-2147483648'), I32(-2 ** 31))
        self.assertEqual(gate.value_of('i64:0'), I64(0))
        for word in '', 'i32', 'i32:', 'i32:+1', 'i32:01', 'i32:-0', 'i32:1 ', 'i32:1\n', 'f32:1', 'i32:2147483648', 'i32:\u0661':
            with self.assertRaises(ValueError):
                gate.value_of(word)

    def test_one_value(self) -> None:
        self.assertEqual(gate.End(gate.EndKind.VALUES, (I32(-1),), fuel=1).value(), I32(-1))
        for end, text in ((gate.End(gate.EndKind.TRAP, reason=gate.Trap.DIVIDE_BY_ZERO, fuel=3), 'trap divide-by-zero fuel 3'),
                          (gate.End(gate.EndKind.OUT_OF_FUEL, fuel=5), 'out-of-fuel fuel 5'),
                          (gate.End(gate.EndKind.NO_EXPORT), 'no-export'),
                          (gate.End(gate.EndKind.VALUES, fuel=1), 'not what is asked for: values fuel 1'),
                          (gate.End(gate.EndKind.VALUES, (I32(1), I64(2)), fuel=1),
                           'not what is asked for: values i32:1,i64:2 fuel 1')):
            with self.subTest(text), self.assertRaises(gate.CallError) as caught:
                end.value()
            self.assertEqual((str(caught.exception), caught.exception.end), (text, end))

    def test_no_value(self) -> None:
        gate.End(gate.EndKind.VALUES, fuel=1).no_value()
        for end in gate.End(gate.EndKind.TRAP, reason=gate.Trap.UNREACHABLE, fuel=1), gate.End(gate.EndKind.VALUES, (I32(0),), fuel=1):
            with self.assertRaises(gate.CallError):
                end.no_value()

    def test_lines(self) -> None:
        self.assertEqual(gate.call_line('add', I32(-1), I64(2)), b'add\ti32:-1\ti64:2\n')
        self.assertEqual(gate.call_line(b'\xff'), b'\xff\n')
        with self.assertRaisesRegex(TypeError, 'and not 40'):
            gate.call_line('add', 40)  # type: ignore[arg-type]
        with self.assertRaises(ValueError):
            gate.call_line('a\tb')
        with self.assertRaises(ValueError):
            gate.call_line(b'a\n')
