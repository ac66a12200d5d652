#!/usr/bin/env python3
"""Tests of the colours of tools/timeline: that each sign can be seen (WCAG 2.2, 1.4.11), and that deuteranopes tell signs of one
form apart (the matrix of Machado, Oliveira and Fernandes, 2009; distances in CIE Lab).

Usage: tools/test_timeline_colours.py [NAME..]
"""
import itertools
import unittest

from timeline_lib.palette import DARK, LIGHT, STYLE

SIGNS = ("tick", "stop", "letter", "lost", "call", "late", "vote", "learned", "leader", "stopped", "frame")
TEXTS = ("ink", "small", "note")
# What lies behind signs: what stands on a band of who is stopped is the sign that it stops, and lines.
PAPERS = ("paper", "candidate_fill", "leader_fill", "free_fill")
# Signs of one form: lines, edges of bands, marks of votes and entries, and signs at the scheduler.
ALIKE = [("letter", "lost", "call", "late", "learned"), ("late", "leader", "stopped"), ("vote", "learned"), ("call", "lost", "late")]
LEAST_CONTRAST, LEAST_OF_TEXT, LEAST_DISTANCE = 3, 4.5, 20
DEUTERANOPIA = ((0.367322, 0.860646, -0.227968), (0.280085, 0.672501, 0.047413), (-0.011820, 0.042940, 0.968881))


def linear(colour):
    """The three parts of a colour, of linear light."""
    parts = [int(colour[place : place + 2], 16) / 255 for place in (1, 3, 5)]
    return [part / 12.92 if part <= 0.04045 else ((part + 0.055) / 1.055) ** 2.4 for part in parts]


def luminance(parts):
    return 0.2126 * parts[0] + 0.7152 * parts[1] + 0.0722 * parts[2]


def contrast(one, other):
    low, high = sorted(luminance(linear(colour)) for colour in (one, other))
    return (high + 0.05) / (low + 0.05)


def seen(colour):
    """A colour in CIE Lab, as a deuteranope sees it."""
    red, green, blue = (min(1, max(0, sum(map(float.__mul__, row, linear(colour))))) for row in DEUTERANOPIA)
    x = (0.4124 * red + 0.3576 * green + 0.1805 * blue) / 0.9505
    y = luminance((red, green, blue))
    z = (0.0193 * red + 0.1192 * green + 0.9505 * blue) / 1.089
    x, y, z = (part ** (1 / 3) if part > 0.008856 else 7.787 * part + 16 / 116 for part in (x, y, z))
    return 116 * y - 16, 500 * (x - y), 200 * (y - z)


def distance(one, other):
    return sum((first - second) ** 2 for first, second in zip(seen(one), seen(other))) ** 0.5


class Colours(unittest.TestCase):
    def test_contrasts(self):
        for palette in (LIGHT, DARK):
            for sign, paper in itertools.product(SIGNS, PAPERS):
                self.assertGreaterEqual(contrast(palette[sign], palette[paper]), LEAST_CONTRAST, (sign, paper))
            for edge in ("stop", "stopped"):
                self.assertGreaterEqual(contrast(palette[edge], palette["stopped_fill"]), LEAST_CONTRAST, edge)
            for text, paper in itertools.product(TEXTS, ("paper", "free_fill")):
                self.assertGreaterEqual(contrast(palette[text], palette[paper]), LEAST_OF_TEXT, (text, paper))

    def test_signs_of_one_form(self):
        for palette in (LIGHT, DARK):
            for signs in ALIKE:
                for one, other in itertools.combinations(signs, 2):
                    self.assertGreaterEqual(distance(palette[one], palette[other]), LEAST_DISTANCE, (one, other))

    def test_all_colours_are_set(self):
        self.assertEqual(set(LIGHT), set(DARK))
        self.assertNotRegex(STYLE, "[A-Z]{3}")


if __name__ == "__main__":
    unittest.main()
