"""Tests of the reference program's refusals 12 to 18 and 23 to 25, with places worked out by hand."""

import itertools
import unittest

import pgen_reference as reference
from pgen_record import PAIRS, Refused, read_record

START = 32

LISTS = [  # N, kind, record, refusal, place within the record (or the categories)
    (5, 4, "", 12, 0), (5, 4, "80", 12, 1), (5, 4, "80808080", 12, 4),
    (5, 4, "8080808080", 15, 0), (5, 4, "ffffffff0f", 16, 0), (5, 4, "ffffffff10", 15, 0),
    (5, 4, "8000", 15, 0), (5, 4, "808080808000", 15, 0), (5, 4, "06", 16, 0),
    (5, 4, "00", 0, "00000"), (5, 6, "00", 0, "22222"), (5, 7, "00", 0, "33333"),
    (5, 4, "01", 12, 1), (5, 4, "0100", 12, 2), (5, 4, "010003", 0, "30000"),
    (5, 4, "010007", 18, 2), (5, 4, "010503", 24, 1), (5, 4, "010000", 17, 2),
    (5, 4, "01000300", 13, 3), (5, 4, "010500", 24, 1), (5, 4, "0105ff", 18, 2),
    (5, 4, "02000f", 12, 3), (5, 4, "02000f80", 12, 4), (5, 4, "02000f8000", 15, 3),
    (5, 4, "02000f8080808080", 15, 3), (5, 4, "02000fffffffff0f", 24, 3),
    (5, 4, "02000f00", 23, 3), (5, 4, "02000f05", 24, 3), (5, 4, "02000f04", 0, "30003"),
    (5, 4, "02000300", 23, 3), (5, 4, "02000301", 17, 2), (5, 4, "02000c", 17, 2),
    (5, 4, "020513", 18, 2), (5, 4, "0000", 13, 1), (5, 4, "05005503", 12, 4),
    (5, 4, "05005501010101", 12, 7), (5, 4, "0500550101010101", 0, "11111"),
    (5, 4, "0500550101010102", 24, 7), (5, 4, "0500550001010101", 17, 3),
    (5, 6, "010102", 17, 2), (5, 7, "010103", 17, 2), (5, 7, "010102", 0, "32333"),
    (5, 1, "", 12, 0), (5, 1, "04", 14, 0), (5, 1, "01", 12, 1), (5, 1, "0120", 18, 1),
    (5, 1, "0106", 12, 2), (5, 1, "010600", 0, "01100"), (5, 1, "0106010402", 0, "01102"),
    (5, 1, "0116010402", 0, "01102"), (5, 1, "0106010401", 17, 4), (5, 1, "0106010400", 17, 4),
    (5, 1, "01060000", 13, 3), (5, 1, "090300", 0, "33222"), (5, 1, "0520", 18, 1),
    (5, 0, "", 12, 0), (5, 0, "e4", 12, 1), (5, 0, "e404", 18, 1), (5, 0, "e40000", 13, 2),
    (5, 0, "e40400", 18, 1), (5, 0, "e400", 0, "01230"), (4, 0, "e4", 0, "0123"),
    (5, 2, "010101", 17, 2), (5, 2, "010102", 0, "02230"), (5, 3, "010101", 17, 2),
    (5, 3, "010102", 0, "20032"), (5, 3, "00", 0, "21032"), (5, 2, "010203", 0, "01330"),
    (256, 4, "02ff05", 12, 3), (256, 4, "02ff0501", 24, 3), (257, 4, "01000101", 0, "0" * 256 + "1"),
    (257, 4, "01010101", 24, 1), (255, 4, "01ff01", 24, 1), (257, 4, "010001", 12, 3),
]

ANCHOR = bytes([0, 1, 2, 3, 0])


def grouped(N, L, size, second, steps):
    """A kind 4 list of category 1 in two groups."""
    width = 1 if N <= 256 else 2
    values = "55" * (L // 4) + {0: "", 1: "01", 2: "05", 3: "15"}[L % 4]
    heads = bytes(width) + second.to_bytes(width, "little")
    return (f"{L:02x}" if L < 128 else f"{L % 128 + 128:02x}01") + heads.hex() + size + values + steps


class Records(unittest.TestCase):
    """Refusals 12 to 18 and 23 to 25."""

    def check(self, N, kind, record, number, expected):
        """One record, standing at START in a longer buffer."""
        data = b"\xee" * START + bytes.fromhex(record) + b"\xee" * 9
        end = START + len(record) // 2
        anchor = ANCHOR if kind in (2, 3) else None
        try:
            categories = read_record(data, START, end, kind, N, anchor).categories
            got = (0, "".join(map(str, categories)))
        except Refused as refused:
            got = (refused.number, refused.place - START)
        self.assertEqual(got, (number, expected), (N, kind, record))

    def test_small(self):
        for line in LISTS:
            self.check(*line)

    def test_groups(self):
        ones = "01" * 63
        for N, size_place in ((100, 3), (256, 3), (257, 5), (300, 5)):
            good = "1" * 65 + "0" * (N - 65)
            last = size_place - (1 if N <= 256 else 2)
            self.check(N, 4, grouped(N, 65, "00", 64, ones), 0, good)
            self.check(N, 4, grouped(N, 65, "01", 64, ones), 25, size_place)
            self.check(N, 4, grouped(N, 65, "00", 63, ones), 23, last)
            self.check(N, 4, grouped(N, 65, "00", 0, ones), 23, last)
            self.check(N, 4, grouped(N, 65, "40", 63, ones), 25, size_place)
            if N != 256:
                self.check(N, 4, grouped(N, 65, "00", N, ones), 24, last)
                self.check(N, 4, grouped(N, 65, "01", N, ones), 25, size_place)
            end = size_place + 1 + 17 + 63
            self.check(N, 4, grouped(N, 65, "00", 64, ones)[:-2], 12, end - 1)
            self.check(N, 4, grouped(N, 65, "00", 64, ones + "01"), 13, end)
            self.check(N, 4, grouped(N, 66, "00", 64, ones), 12, end)
            self.check(N, 4, grouped(N, 66, "01", 64, ones), 25, size_place)
            self.check(N, 4, grouped(N, 66, "00", 64, ones + "01"), 0, "1" * 66 + "0" * (N - 66))
        wide = "8001" + "01" * 62
        good = "1" + "0" * 127 + "1" * 63 + "0" + "1" + "0" * 107
        self.check(300, 4, grouped(300, 65, "01", 192, wide), 0, good)
        self.check(300, 4, grouped(300, 65, "00", 192, wide), 25, 5)
        self.check(300, 4, grouped(300, 65, "01", 190, wide), 23, 3)

    def test_just_what_the_writer_writes(self):
        """All short records: those accepted are those that the writer forms."""
        alphabet = bytes([0, 1, 2, 3, 4, 5, 6, 7, 8, 9, 12, 14, 15, 0x80, 0x81, 0xff])
        for N, kind in itertools.product((1, 2), (0, 1, 2, 3, 4, 6, 7)):
            anchor = bytes([2, 0][:N]) if kind in (2, 3) else b""
            accepted = set()
            for size in range(5):
                for record in map(bytes, itertools.product(alphabet, repeat=size)):
                    try:
                        read_record(record, 0, size, kind, N, anchor)
                    except Refused:
                        continue
                    accepted.add(record)
            written = set()
            for categories in itertools.product(range(4), repeat=N):
                for code in PAIRS if kind == 1 else [0]:
                    reply = reference.write_record(bytes(categories), kind, code, anchor, bytes(9))
                    record = reply[4][:reply[3]]
                    if set(record) <= set(alphabet) and len(record) < 5:
                        written.add(record)
            if kind == 1:
                self.assertLessEqual(written, accepted)
            else:
                self.assertEqual(written, accepted, (N, kind))


if __name__ == "__main__":
    unittest.main()
