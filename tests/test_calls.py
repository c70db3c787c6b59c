"""Tests of the reference program's calls: refusals 1 to 11 and 19 to 21 with the variants they name, and lent buffers."""

import unittest

import pgen_header
import pgen_reference as reference

FILL = b"\xa5"


def two_variants(types="00", lengths="0101", form="00", flags="", body="0000"):
    """A file of mode 0x10 with two records and one sample."""
    offset = 20 + len(types + lengths + flags) // 2
    return bytes.fromhex("6c1b10" + "02000000" + "01000000" + form + f"{offset:02x}" + "00" * 7
                         + types + lengths + flags + body)


def plain(M, N, form, after_form):
    """A file of mode 0x02."""
    return (bytes.fromhex("6c1b02") + M.to_bytes(4, "little") + N.to_bytes(4, "little")
            + bytes.fromhex(form + after_form))


def with_bytes(file, **changes):
    """The file with bytes changed, each given as at<place>=value."""
    later = bytearray(file)
    for name, value in changes.items():
        later[int(name[2:])] = value
    return bytes(later)


class Headers(unittest.TestCase):
    """Refusals 1 to 9 and their order."""

    def check(self, file, number, place, variant=0):
        """The header check's refusal."""
        reply = reference.header_check(file)
        self.assertEqual(reply[:3], (number, place, variant), file.hex())
        if number:
            self.assertEqual(reply[3:], (0, 0, 0, 0))

    def test_first_bytes(self):
        good = two_variants()
        self.check(good, 0, 0)
        self.check(good[:11], 1, 11)
        self.check(b"", 1, 0)
        self.check(with_bytes(good, at0=0, at2=9), 2, 0)
        self.check(with_bytes(good, at1=0), 2, 0)
        for mode in set(range(256)) - {0x02, 0x10}:
            self.check(with_bytes(good, at2=mode, at3=0), 3, 2)
        self.check(with_bytes(good, at3=0, at7=0, at11=0x10), 4, 3)
        self.check(with_bytes(good, at7=0, at11=0x10), 4, 7)
        self.check(with_bytes(good, at6=2), 4, 3)
        self.check(with_bytes(good, at3=0, at6=1), 6, len(good), 16777216)
        self.check(with_bytes(good, at3=1, at6=1), 4, 3)
        self.check(with_bytes(good, at7=1, at9=1), 4, 7)
        for form in range(256):
            allowed = form & 0x30 == 0 and form & 15 < 8
            reply = reference.header_check(with_bytes(good, at11=form))
            self.assertEqual(reply[:3] == (5, 11, 2), not allowed)
            reply = reference.header_check(with_bytes(good, at11=form, at2=2))
            self.assertEqual(reply[:3] == (5, 11, 2), form & 0x3f != 0)

    def test_types(self):
        for types, variant in (("05", 0), ("50", 1), ("02", 0), ("03", 0), ("08", 0), ("80", 1), ("23", 0),
                               ("55", 0), ("82", 0), ("f8", 0)):
            self.check(two_variants(types), 8, 20, variant)
        for types in ("20", "30", "24", "76"):
            self.check(two_variants(types), 0, 0)
        for types, variant in (("0005", 1), ("0500", 0), ("0800", 0), ("0015", 1), ("0080", 1),
                               ("0200", 0), ("4000", 0), ("0505", 0)):
            self.check(two_variants(types, form="04"), 8, 20 + variant, variant)
        for types in ("0003", "1012", "0013", "1710"):
            self.check(two_variants(types, form="04"), 0, 0)
        for types in ("1200", "1300", "1500", "1800", "3000", "5000", "9000"):
            self.check(two_variants(types, form="04"), 8, 20)

    def test_order(self):
        good = two_variants("20", flags="03", form="c0")
        self.check(good, 0, 0)
        self.check(good[:23], 6, 23, 2)
        self.check(good[:20], 6, 20, 2)
        self.check(with_bytes(good, at20=0x52, at23=7, at12=0), 7, 23, 2)
        self.check(with_bytes(good, at20=0x50, at12=0) + b"\0", 8, 20, 1)
        self.check(with_bytes(good, at12=0) + b"\0", 9, 12, 2)
        self.check(with_bytes(good, at19=1), 9, 12, 2)
        self.check(good + b"\0", 9, 27, 2)
        self.check(good[:-1], 9, 25, 2)
        self.check(with_bytes(good, at21=2, at22=0), 0, 0)
        self.check(with_bytes(good, at21=2), 9, 26, 2)
        one = bytes.fromhex("6c1b10" "01000000" "01000000" "c0" "1700000000000000" "00" "01" "01" "00")
        self.check(one, 0, 0)
        self.check(with_bytes(one, at20=0x10, at22=3), 7, 20, 1)
        self.check(with_bytes(one, at20=0x05, at22=3), 7, 22, 1)

    def test_plain(self):
        self.check(plain(2, 5, "00", "e400e400"), 0, 0)
        self.check(plain(2, 5, "c0", "03e400e400"), 0, 0)
        self.check(plain(2, 5, "c0", "04e400e400"), 7, 12, 2)
        self.check(plain(2, 5, "c0", ""), 6, 12, 2)
        self.check(plain(2, 5, "80", "e400e4"), 9, 15, 2)
        self.check(plain(2, 5, "40", "e400e40000"), 9, 17, 2)
        self.check(plain(9, 1, "c0", "ff"), 6, 13, 9)

    def test_blocks(self):
        pgen_header.BLOCK_SIZE = 2
        self.addCleanup(setattr, pgen_header, "BLOCK_SIZE", 65536)
        head = "6c1b10" "03000000" "01000000" "00"
        offsets = "22" "00000000000000" "24" "00000000000000"
        file = bytes.fromhex(head + offsets + "20" "0101" "04" "01" + "000000")
        self.assertEqual(len(file) - 3, 33)
        file = with_bytes(file, at12=33, at20=35)
        self.check(file, 0, 0)
        self.check(with_bytes(file, at20=34, at12=34), 9, 12, 3)
        self.check(with_bytes(file, at20=34) + b"\0", 9, 20, 3)
        self.check(with_bytes(file, at31=2), 8, 31, 2)
        self.check(with_bytes(file, at31=0x14), 7, 31, 3)
        self.check(with_bytes(file, at31=0x14, at28=0x05), 7, 31, 3)


class LentBuffers(unittest.TestCase):
    """Refusals 10, 11 and 21, and what a call leaves in its buffers."""

    good = plain(2, 5, "00", "e400e400")
    bad = plain(2, 5, "00", "e404e400")

    def test_sizes_before_numbers(self):
        work = FILL * 5
        self.assertEqual(reference.read(self.good, 2, FILL * 4, work), (10, 0, 2, FILL * 4, work))
        self.assertEqual(reference.read(self.good, 2, work, FILL * 4), (10, 0, 2, work, FILL * 4))
        self.assertEqual(reference.read(self.good, 2, work, work), (11, 0, 2, work, work))
        self.assertEqual(reference.lookup(self.good, 2, 5, b""), (10, 0, 2, 0, b""))
        self.assertEqual(reference.lookup(self.good, 1, 5, work), (11, 0, 1, 0, work))
        self.assertEqual(reference.lookup(self.bad, 2**64 - 1, 0, work), (11, 0, 2, 0, work))
        self.assertEqual(reference.view(self.good, 2), (11, 0, 2, b""))
        self.assertEqual(reference.view(self.bad, 0), (0, 0, 0, b"\xe4\x04"))
        self.assertEqual(reference.whole_file_check(self.bad, FILL), (10, 0, 2, 0, 0, 0, 0, FILL))

    def test_refused_record(self):
        work, later = FILL * 7, bytes(5) + FILL * 2
        self.assertEqual(reference.read(self.bad, 0, FILL * 6, work), (18, 13, 0, FILL * 6, later))
        self.assertEqual(reference.read(self.bad, 1, FILL * 6, work),
                         (0, 0, 0, bytes([0, 1, 2, 3, 0]) + FILL, later))
        self.assertEqual(reference.lookup(self.bad, 0, 0, work), (18, 13, 0, 0, later))
        self.assertEqual(reference.whole_file_check(self.bad, work), (18, 13, 0, 0, 0, 0, 0, later))
        self.assertEqual(reference.flip(self.bad, b"\1", work), (18, 13, 0, self.bad, later))

    def test_flip(self):
        work = FILL * 5
        for flip_set, held in ((b"", work), (b"\1\0", work), (b"\4", FILL * 4)):
            self.assertEqual(reference.flip(self.bad, flip_set, held), (10, 0, 2, self.bad, held))
        self.assertEqual(reference.flip(self.bad, b"\4", work), (21, 0, 2, self.bad, work))
        self.assertEqual(reference.flip(self.good, b"\2", work),
                         (0, 0, 0, plain(2, 5, "00", "e400c602"), bytes(5)))


class Writer(unittest.TestCase):
    """The writer's refusals in order."""

    def check(self, categories, kind, code, anchor, size, number, place):
        """A refused call leaves the output as it was."""
        reply = reference.write_record(bytes(categories), kind, code, bytes(anchor), FILL * size)
        self.assertEqual(reply, (number, place, 0, 0, FILL * size))

    def test_order(self):
        self.check([], 5, 7, [9], 0, 4, 0)
        self.check([9] * 65537, 5, 7, [9], 0, 4, 0)
        self.check([9], 5, 0, [9], 0, 19, 0)
        self.check([9], 1, 4, [9], 0, 19, 0)
        self.check([9], 0, 1, [9], 0, 19, 0)
        self.check([0], 2**32, 0, [], 9, 19, 0)
        self.check([9], 0, 0, [9], 0, 10, 0)
        self.check([9], 2, 0, [], 0, 10, 0)
        self.check([9], 3, 0, [1, 1], 0, 10, 0)
        self.check([0, 4, 9], 2, 0, [4, 0, 0], 0, 20, 1)
        self.check([0, 3, 3], 2, 0, [3, 0, 4], 0, 20, 2)
        self.check([0, 1, 2, 3, 0], 0, 0, [], 1, 10, 0)

    def test_counts(self):
        reply = reference.write_record(bytes(65536), 7, 0, b"", FILL * 131072)
        self.assertEqual(reply[:3], (0, 0, 0))
        self.assertEqual(reply[3], 3 + 2 * 1024 + 1023 + 16384 + 65536 - 1024)
        self.assertEqual(reference.write_record(bytes(65536), 4, 0, b"", FILL), (0, 0, 0, 1, b"\0"))


if __name__ == "__main__":
    unittest.main()
