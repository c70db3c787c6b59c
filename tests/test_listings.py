"""Tests of the listing's checks: the independent program passes them, and each of some wrong programs does not."""

import contextlib
import functools
import io
import re
import unittest
from unittest import mock

import listing_cases
from compare import Tally
from listing_cases import LENGTHS, PIECE, check_listings, check_long_listings, check_pieces, sizes_for
from pgen_reference import listing
from test_reference import A


@functools.lru_cache
def once(data):
    """The listing, made once for each input."""
    return listing(data)


def right(data):
    """What the listing program prints."""
    return once(data).encode()


def loses_its_last_piece(data):
    """Prints whole pieces only, once there is one."""
    said = right(data)
    return said[:len(said) // PIECE * PIECE] if len(said) > PIECE else said


def loses_a_whole_last_piece(data):
    """Takes a last piece that is whole for none."""
    said = right(data)
    return said[:-PIECE] if len(said) % PIECE == 0 else said


def stops_after_two_pieces(data):
    """Has room for two pieces."""
    return right(data)[:2 * PIECE]


def prints_before_it_checks(data):
    """Prints rows and then the refusal."""
    said = right(data)
    return b"0 0 0\n" + said if said.startswith(b"refused") else said


def refuses_at_0(data):
    """Gives no place."""
    said = right(data)
    return b" ".join(said.split()[:2]) + b" 0\n" if said.startswith(b"refused") else said


def no_last_line_end(data):
    """Leaves out the last line's end."""
    return right(data)[:-1]


def one_byte_less(data):
    """Takes the greatest input for a longer one."""
    return b"too large\n" if len(data) >= 65536 else right(data)


def kinds_for_types(data):
    """Prints each leaning variant's type as 2."""
    return right(data).replace(b" 3 ", b" 2 ")


def bit_4_left_out(data):
    """Prints a phased variant's kind for its type."""
    return re.sub(rb"(?m)^(\d+) (1[6-9]|2[0-3]) ", lambda found: b"%s %d " % (found[1], int(found[2]) - 16), right(data))


@mock.patch.object(listing_cases, "listing", once)
@mock.patch.object(listing_cases, "LENGTHS", listing_cases.LENGTHS[:6])
class Listings(unittest.TestCase):
    """The checks with right and wrong programs."""

    def failed(self, check, program, *words):
        """How many comparisons fail."""
        tally = Tally()
        with contextlib.redirect_stdout(io.StringIO()):
            check(tally, program, *words)
        self.assertGreater(tally.passed + tally.failed, 0)
        return tally.failed

    def test_right(self):
        self.assertEqual(self.failed(check_listings, right, 1), 0)
        self.assertEqual(self.failed(check_long_listings, right, 1), 0)
        self.assertEqual(self.failed(check_pieces, lambda data, size: right(data), A), 0)

    def test_wrong_in_long_listings(self):
        for wrong in (loses_its_last_piece, loses_a_whole_last_piece, stops_after_two_pieces, prints_before_it_checks, one_byte_less, bit_4_left_out):
            self.assertGreater(self.failed(check_long_listings, wrong, 2), 0, wrong.__name__)

    def test_wrong_in_fresh_listings(self):
        for wrong in (prints_before_it_checks, refuses_at_0, no_last_line_end, kinds_for_types, bit_4_left_out):
            self.assertGreater(self.failed(check_listings, wrong, 2), 0, wrong.__name__)

    def test_wrong_with_pieces(self):
        self.assertEqual(self.failed(check_pieces, lambda data, size: right(data[:size]), A), 4)

    def test_valid_and_damaged(self):
        said = []
        check_listings(Tally(), lambda data: said.append(right(data)) or said[-1], 3)
        self.assertTrue(any(line.startswith(b"refused") for line in said))
        self.assertTrue(any(line[:1].isdigit() for line in said))

    def test_sizes(self):
        for length in LENGTHS:
            for digits in (1, 2):
                self.assertTrue(list(sizes_for(length, digits)), length)


if __name__ == "__main__":
    unittest.main()
