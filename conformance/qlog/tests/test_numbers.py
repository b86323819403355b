"""Numbers, as a log may write them."""

import unittest
from typing import Any

from qlog_to_trace.numbers import (
    NoNumberError,
    Numeral,
    duration,
    instant,
    integer_of,
    says,
    whole,
    written,
)

NO_NUMBERS: tuple[Any, ...] = (
    *("", ".", "e5", "1e", "1e+", "--5", "+-5", " 5", "5 ", "5_0", "0x5", "nan", "inf", "\u0665"),
    *(None, True, [], [5], {}),
)


class Numbers(unittest.TestCase):
    """What each text is as a number, and what is none."""

    def test_whole_numbers(self) -> None:
        for text, number in (
            ("0", 0),
            ("-0", 0),
            ("-0.0", 0),
            ("+5", 5),
            ("007", 7),
            ("5.", 5),
            ("5.000", 5),
            (".5e1", 5),
            ("5e3", 5_000),
            ("5E+3", 5_000),
            ("12000e-1", 1_200),
            ("1" + "0" * 50 + "e-50", 1),
            ("0e" + "9" * 5_000, 0),
            ("18446744073709551615", (1 << 64) - 1),
        ):
            self.assertEqual(whole(text), number, text[:40])
        others = ("1200.7", "5e-1", "-1", "18446744073709551616", "1e40", "9" * 5_000)
        for text in (*NO_NUMBERS, *others, "1e" + "9" * 5_000, "1e-" + "9" * 5_000):
            self.assertRaises(NoNumberError, whole, text)

    def test_times_are_rounded_toward_zero(self) -> None:
        for text, places, found in (
            ("4.35", 6, 4_350_000),
            ("-4.35", 6, -4_350_000),
            ("0.1234569", 3, 123),
            ("-0.1234569", 3, -123),
            ("1795474052428.5", 6, 1_795_474_052_428_500_000),
            ("9223372036854775807", 0, (1 << 63) - 1),
            # More digits than a float has, or another decimal number.
            ("1234567890123.4567890123456789", 6, 1_234_567_890_123_456_789),
            ("0.99999999999999999999999999999999", 6, 999_999),
        ):
            self.assertEqual(instant(text, places), found, text)
        for text in (*NO_NUMBERS, "9223372036854775808", "-9223372036854775808"):
            self.assertRaises(NoNumberError, instant, text, 0)

    def test_durations(self) -> None:
        for text, found in (("1.0000009", 1_000_000), ("-7", 0), ("1e12", 10**18)):
            self.assertEqual(duration(text, 6), found, text)
        for text in (*NO_NUMBERS, "1000000000000.000001"):
            self.assertRaises(NoNumberError, duration, text, 6)

    def test_the_first_digit_is_near_the_point(self) -> None:
        far = "0." + "0" * 40
        self.assertEqual((duration(far, 6), duration("1" + "0" * 41 + "e-40", 6)), (0, 10_000_000))
        for text in (far + "0", far + "1", "0e41", "1e41", "-" + "9" * 42):
            self.assertRaises(NoNumberError, duration, text, 6)

    def test_what_a_value_says(self) -> None:
        for text in ("-0", "0.0", "-0.000", "0e9", "0.0E-5"):
            self.assertFalse(says(Numeral(text)), text)
        for text in ("-1", "0.001", "1e9", "10E0"):
            self.assertTrue(says(Numeral(text)), text)
        nothing: tuple[object, ...] = (None, False, 0, "", [], {})
        self.assertEqual([says(it) for it in nothing], [False] * 6)
        self.assertEqual([says(it) for it in (True, 1, "0", [0], {"": 0})], [True] * 5)

    def test_what_a_value_is_written_as(self) -> None:
        self.assertEqual(integer_of("18446744073709551616"), 1 << 64)
        for text in ("-0", "-5", "9" * 21):
            self.assertEqual(written(integer_of(text)), text)
        for value, text in ((5, "5"), ("5", "5"), (None, ""), (True, ""), ([5], ""), ({}, "")):
            self.assertEqual(written(value), text)


if __name__ == "__main__":
    unittest.main()
