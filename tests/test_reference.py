"""Tests of the reference program: document 01's examples and laws.

Run `python3 -m unittest -q` in this folder.
"""

import random
import unittest

import pgen_header
import pgen_reference as reference
from pgen_generate import ALL_KINDS, choose_categories, choose_samples, random_file
from pgen_parts import join_file
from pgen_record import PAIRS, Refused, exchange, read_record, read_varint, varint

A = bytes.fromhex("6c1b100300000005000000401900000000000000200402"
                  "0403e4000201060301" "0203")
FILL = b"\x5a"


def row(file, variant):
    """A variant's categories as digits."""
    N = int.from_bytes(file[7:11], "little")
    *reply, output, work = reference.read(file, variant, bytes(N), FILL * N)
    assert (reply, work) == ([0, 0, 0], bytes(N)), reply
    return "".join(map(str, output))


def flipped(file, flip_set):
    """The file after an accepted flip."""
    *reply, later, _ = reference.flip(file, flip_set, FILL * 65536)
    assert reply == [0, 0, 0], reply
    return later


def changed(file, changes):
    """The file with bytes changed at these places."""
    later = bytearray(file)
    for place, data in changes.items():
        later[place:place + len(data) // 2] = bytes.fromhex(data)
    return bytes(later)


def digits(text):
    """Categories from digits."""
    return bytes(map(int, text))


class Examples(unittest.TestCase):
    """(a) to (j)."""

    def test_a(self):
        self.assertEqual(len(A), 34)
        self.assertEqual([row(A, v) for v in range(3)], ["01230", "02231", "00300"])

    def test_b(self):
        later = flipped(A, b"\1")
        self.assertEqual(later, changed(A, {20: "30", 25: "c602", 27: "02010403", 31: "010203"}))
        self.assertEqual([row(later, v) for v in range(3)], ["21032", "02231", "00300"])

    def test_c(self):
        later = flipped(A, b"\2")
        self.assertEqual(later, changed(A, {20: "30"}))
        self.assertEqual(row(later, 1), "20031")

    def test_d(self):
        later = flipped(A, b"\3")
        self.assertEqual(later, changed(A, {25: "c602", 27: "02010403"}))
        self.assertEqual(row(later, 1), "20031")

    def test_e(self):
        later = flipped(A, b"\4")
        self.assertEqual(later, changed(A, {21: "06"}))
        self.assertEqual(row(later, 2), "22322")

    def test_f(self):
        reply = reference.write_record(digits("01103"), 1, 1, b"", FILL * 6)
        self.assertEqual(reply, (0, 0, 0, 5, bytes.fromhex("0106010403") + FILL))

    def test_g(self):
        file = bytes.fromhex("6c1b1001000000050000000016000000000000000105" "0106010403")
        later = flipped(file, b"\1")
        self.assertEqual(later[22:], bytes.fromhex("0519010403"))
        self.assertEqual(row(later, 0), "21123")
        reply = reference.write_record(digits("21123"), 1, 5, b"", FILL * 5)
        self.assertEqual(reply, (0, 0, 0, 5, bytes.fromhex("0509010403")))

    def test_h(self):
        for N, record in ((256, "010703"), (257, "01070003")):
            categories = bytes(7) + b"\3" + bytes(N - 8)
            reply = reference.write_record(categories, 4, 0, b"", FILL * 9)
            self.assertEqual(reply[:4], (0, 0, 0, len(record) // 2))
            self.assertEqual(reply[4][:reply[3]].hex(), record)

    def test_i(self):
        self.assertEqual(varint(300), bytes.fromhex("ac02"))
        self.assertEqual(read_varint(bytes.fromhex("ac02"), 0, 2), (300, 2))
        with self.assertRaises(Refused) as caught:
            read_varint(bytes.fromhex("8000"), 0, 2)
        self.assertEqual((caught.exception.number, caught.exception.place), (15, 0))

    def test_j_and_every_cut(self):
        self.assertEqual(reference.header_check(A), (0, 0, 0, 0x10, 3, 5, 0x40))
        for length in range(len(A)):
            number = 1 if length < 12 else 6 if length < 25 else 9
            refusal = (number, length, 0 if number == 1 else 3)
            cut, work = A[:length], FILL * 6
            self.assertEqual(reference.header_check(cut), refusal + (0, 0, 0, 0))
            self.assertEqual(reference.whole_file_check(cut, work), refusal + (0, 0, 0, 0, work))
            self.assertEqual(reference.read(cut, 9, b"", work), refusal + (b"", work))
            self.assertEqual(reference.lookup(cut, 9, 9, b""), refusal + (0, b""))
            self.assertEqual(reference.view(cut, 9), refusal + (b"",))
            self.assertEqual(reference.flip(cut, b"\xff", work), refusal + (cut, work))
            self.assertEqual(reference.listing(cut), f"refused {number} {length}\n")

    def test_listing(self):
        self.assertEqual(reference.listing(A), "3 5\n0 0 01230\n1 2 02231\n2 4 00300\n")
        self.assertEqual(reference.listing(A + bytes(65536 - 34)), "refused 9 65536\n")
        self.assertEqual(reference.listing(A + bytes(65537 - 34)), "too large\n")
        self.assertEqual(reference.listing(changed(A, {33: "04"})), "refused 18 33\n")


def random_set(rng, M):
    """A flip set."""
    return rng.getrandbits(M).to_bytes(-(-M // 8), "little")


def symmetric_difference(one, other):
    """The variants that are in just one of two sets."""
    return bytes(a ^ b for a, b in zip(one, other))


class Laws(unittest.TestCase):
    """What holds of every valid file, with blocks of several sizes."""

    def tearDown(self):
        pgen_header.BLOCK_SIZE = 65536

    def files(self, seed, count):
        """Valid files with their parts."""
        rng = random.Random(seed)
        for _ in range(count):
            pgen_header.BLOCK_SIZE = rng.choice([65536, 1, 2, 3, 5, 8, 16])
            N = rng.choice([1, 2, 3, 4, 5, 8, 9, 63, 64, 65, 129, 256, 257, 300])
            parts = random_file(rng, N, rng.randint(1, 14))
            yield rng, parts, join_file(parts)[0]

    def test_read_lookup_view(self):
        for rng, parts, file in self.files(1, 150):
            N, M = parts.N, parts.M()
            start = len(file) - sum(len(record.join()) for record in parts.records)
            for variant, record in enumerate(parts.records):
                body = record.join()
                reply = reference.read(file, variant, FILL * (N + 1), FILL * (N + 2))
                self.assertEqual(reply, (0, 0, 0, record.categories + FILL, bytes(N) + FILL * 2))
                sample = rng.randrange(N)
                reply = reference.lookup(file, variant, sample, FILL * N)
                self.assertEqual(reply, (0, 0, 0, record.categories[sample], bytes(N)))
                self.assertEqual(reference.view(file, variant), (0, 0, 0, file[start:start + len(body)]))
                self.assertEqual(file[start:start + len(body)], body)
                start += len(body)
            self.assertEqual(reference.whole_file_check(file, FILL * N),
                             (0, 0, 0, parts.mode, M, N, file[11], bytes(N)))

    def test_flip(self):
        for rng, parts, file in self.files(2, 200):
            M, N = parts.M(), parts.N
            s, t = random_set(rng, M), random_set(rng, M)
            later = flipped(file, s)
            self.assertEqual(reference.whole_file_check(later, bytes(N))[:3], (0, 0, 0))
            for variant, record in enumerate(parts.records):
                categories = record.categories
                if s[variant // 8] >> variant % 8 & 1:
                    categories = exchange(categories)
                self.assertEqual(reference.read(later, variant, bytes(N), bytes(N))[3], categories)
            self.assertEqual(flipped(later, s), file)
            self.assertEqual(flipped(later, t), flipped(file, symmetric_difference(s, t)))
            self.assertEqual(flipped(file, bytes(len(s))), file)

    def test_flip_changes_types_and_bodies_only(self):
        for rng, parts, file in self.files(3, 150):
            marks = join_file(parts)[1]
            later = flipped(file, random_set(rng, parts.M()))
            for place in range(marks.header_end):
                if later[place] != file[place]:
                    self.assertIn(place, marks.types)

    def test_read_then_write_back(self):
        for _, parts, file in self.files(4, 150):
            anchor = b""
            for variant, record in enumerate(parts.records):
                kind, body = record.kind, bytearray(record.join())
                code = body[0] if kind == 1 else 0
                if kind == 1:
                    for sample in record.list.samples:
                        body[1 + sample // 8] &= ~(1 << sample % 8)
                categories = reference.read(file, variant, bytes(parts.N), bytes(parts.N))[3]
                leaning = anchor if kind in (2, 3) else b""
                reply = reference.write_record(categories, kind, code, leaning, FILL * len(body))
                self.assertEqual(reply, (0, 0, 0, len(body), bytes(body)))
                if kind not in (2, 3):
                    anchor = categories

    def test_write_then_read_back(self):
        rng = random.Random(5)
        for _ in range(400):
            N = rng.choice([1, 2, 4, 5, 63, 64, 65, 200, 255, 256, 257, 300, 1000])
            categories, anchor = choose_categories(rng, N), bytearray(choose_categories(rng, N))
            for sample in choose_samples(rng, N, rng.randint(0, N)):
                anchor[sample] = categories[sample]
            for kind in ALL_KINDS:
                code = rng.choice(sorted(PAIRS)) if kind == 1 else 0
                leaning = bytes(anchor) if kind in (2, 3) else b""
                reply = reference.write_record(categories, kind, code, leaning, FILL * 3 * N + FILL * 9)
                *accepted, count, output = reply
                self.assertEqual(accepted, [0, 0, 0])
                self.assertEqual(output[count:], FILL * (3 * N + 9 - count))
                record = output[:count]
                self.assertEqual(read_record(record, 0, len(record), kind, N, leaning).categories,
                                 categories)


if __name__ == "__main__":
    unittest.main()
