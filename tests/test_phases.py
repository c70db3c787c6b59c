"""Tests of the reference program's phase tracks: refusals 8, 12, 13, 18 and 22 with places worked out by hand from document 02, and the laws."""

import itertools
import random
import unittest

import pgen_header
import pgen_reference as reference
from pgen_header import PHASED, Refused, read_header
from pgen_parts import join_file
from pgen_phase_generate import random_phased_file
from pgen_record import exchange, read_record
from pgen_rows import next_row, start_rows
from phase_laws import EXCHANGED, file_of, stored_as_written
from test_reference import FILL, A, digits, flipped, random_set, symmetric_difference

START = 32
ANCHOR = digits("01230")

TRACKS = [  # N, kind, main track, phase track, refusal, place within the track (or the phases)
    (5, 4, "00", "", 12, 0), (5, 4, "00", "00", 0, "00000"), (5, 4, "00", "01", 0, "00000"), (5, 4, "00", "02", 18, 0), (5, 4, "00", "03", 18, 0),
    (5, 4, "00", "fe", 18, 0), (5, 4, "00", "0000", 13, 1), (5, 4, "00", "0200", 18, 0), (5, 4, "00", "0101", 13, 1),
    (5, 0, "e400", "", 12, 0), (5, 0, "e400", "00", 12, 1), (5, 0, "e400", "0000", 0, "01000"), (5, 0, "e400", "0001", 0, "02000"),
    (5, 0, "e400", "0002", 18, 1), (5, 0, "e400", "0003", 18, 1), (5, 0, "e400", "000000", 13, 2), (5, 0, "e400", "0280", 18, 0),
    (5, 0, "e400", "01", 0, "00000"), (5, 0, "e400", "0100", 13, 1), (5, 0, "e400", "03", 12, 1), (5, 0, "e400", "0301", 0, "02000"),
    (5, 0, "e400", "0300", 0, "01000"), (5, 0, "e400", "05", 18, 0), (5, 0, "e400", "0701", 18, 0), (5, 0, "e400", "0302", 18, 1),
    (6, 0, "5505", "0000", 0, "111111"), (6, 0, "5505", "002a", 0, "121212"), (6, 0, "5505", "7f3f", 0, "222222"), (6, 0, "5505", "7f7f", 18, 1),
    (6, 0, "5505", "81", 18, 0), (6, 0, "5505", "01", 0, "000000"), (6, 0, "5505", "41", 12, 1), (6, 0, "5505", "4101", 0, "000002"),
    (7, 0, "5515", "ff7f", 0, "2222222"), (7, 0, "5515", "ff80", 18, 1), (7, 0, "5515", "ff", 12, 1), (7, 0, "5515", "01", 0, "0000000"),
    (7, 0, "5515", "8100", 0, "0000001"), (7, 0, "5515", "0100", 13, 1), (7, 0, "5515", "00ff", 18, 1),
    (8, 0, "5555", "00ff", 0, "22222222"), (8, 0, "5555", "00ff00", 13, 2), (8, 0, "5555", "ff", 12, 1), (8, 0, "5555", "01", 12, 1),
    (8, 0, "5555", "ff01", 12, 2), (8, 0, "5555", "ff0180", 0, "11111112"), (8, 0, "5555", "ff02ff", 18, 1), (8, 0, "5555", "0100", 0, "00000000"),
    (8, 0, "5555", "010000", 13, 2), (8, 0, "5555", "010101", 0, "00000002"), (8, 0, "5555", "ff00ff", 18, 2), (8, 0, "5555", "fe01ff", 18, 0),
    (9, 0, "555501", "00ff01", 0, "222222222"), (9, 0, "555501", "00ff", 12, 2), (9, 0, "555501", "00ff02", 18, 2),
    (9, 0, "555501", "ff03ff01", 0, "222222222"), (9, 0, "555501", "ff03ff", 12, 3), (9, 0, "555501", "ff01ff", 0, "222222220"),
    (9, 0, "555501", "ff05", 18, 1), (9, 0, "555501", "ff03ff0100", 13, 4),
    (5, 1, "0106010403", "0002", 0, "01200"), (5, 1, "0116010403", "0002", 0, "01200"), (5, 1, "0106010403", "0301", 0, "02000"),
    (5, 1, "0206010001", "0001", 0, "20000"), (5, 6, "00", "00", 0, "00000"), (5, 6, "010201", "0001", 0, "00200"), (5, 7, "010201", "0301", 0, "00200"),
    (5, 2, "00", "0001", 0, "02000"), (5, 3, "00", "0001", 0, "02000"), (5, 2, "010102", "00", 0, "00000"), (5, 2, "010102", "0001", 13, 1),
    (5, 2, "02000504", "0004", 0, "11002"), (5, 2, "02000504", "0007", 0, "22002"), (5, 2, "02000504", "0008", 18, 1), (5, 2, "02000504", "0f05", 0, "21002"),
    (5, 2, "02000504", "0b03", 0, "20002"), (5, 2, "02000504", "0b04", 18, 1), (5, 2, "02000504", "1f", 18, 0), (5, 2, "02000504", "0f", 12, 1),
    (5, 3, "010201", "0003", 0, "02200"), (5, 3, "010201", "03", 12, 1), (5, 2, "010201", "0302", 18, 1), (5, 2, "010201", "0501", 0, "00200"),
]


class Tracks(unittest.TestCase):
    """Refusals 12, 13 and 18, and readings."""

    def check(self, N, kind, main, track, number, expected):
        """One record, standing at START in a longer buffer."""
        data = b"\xee" * START + bytes.fromhex(main + track) + b"\xee" * 9
        anchor = ANCHOR if kind in (2, 3) else None
        try:
            record = read_record(data, START, START + len(main + track) // 2, kind | PHASED, N, anchor)
            got = (0, "".join(map(str, record.phases())))
        except Refused as refused:
            got = (refused.number, refused.place - START - len(main) // 2)
        self.assertEqual(got, (number, expected), (N, kind, main, track))

    def test_small(self):
        for line in TRACKS:
            self.check(*line)

    def test_main_track_first(self):
        for main, number, place in (("e4", 12, 1), ("e404", 18, 1), ("e40400", 18, 1)):
            with self.assertRaises(Refused) as caught:
                read_record(bytes.fromhex(main), 0, len(main) // 2, PHASED, 5, None)
            self.assertEqual((caught.exception.number, caught.exception.place), (number, place))

    def test_just_what_the_writer_writes(self):
        """All short tracks: those accepted are those that the writer forms and those with presence bits that are all set."""
        for H in range(4):
            row = bytes([1] * H + [0] * (4 - H))
            main = reference.write_record(row, 0, 0, b"", bytes(1))[4]
            accepted = set()
            for size in range(3):
                for track in map(bytes, itertools.product(range(256), repeat=size)):
                    with_track = main + track
                    try:
                        read_record(with_track, 0, len(with_track), PHASED, 4, None)
                    except Refused:
                        continue
                    accepted.add(track)
            written = set()
            for phases in itertools.product(range(3), repeat=H):
                count, output = reference.write_phased_record(row, bytes(phases) + bytes(4 - H), 0, 0, b"", bytes(9))[3:]
                written.add(output[1:count])
            stored = {bytes([(2 << H) - 1]) + (bytes([bits]) if H else b"") for bits in range(1 << H)}
            self.assertEqual(accepted, written | stored, H)


class Types(unittest.TestCase):
    """Refusal 8."""

    def test_types(self):
        for its_type in range(256):
            allowed = its_type & 0xe8 == 0 and its_type & 7 != 5
            for place in range(2):
                types = [0, 0]
                types[place] = its_type
                leaning = place == 0 and its_type & 7 in (2, 3)
                reply = reference.header_check(file_of(5, *((each, "00") for each in types)))
                self.assertEqual(reply[:3], (0, 0, 0) if allowed and not leaning else (8, 20 + place, place), (its_type, place))

    def test_listing(self):
        file = file_of(5, (0x10, "e4000001"), (0x12, "020106030001"), (0x14, "01020300"))
        self.assertEqual(reference.listing(file), "3 5\n0 16 01230\n1 18 02231\n2 20 00300\n")
        self.assertEqual(reference.listing(file[:-1] + b"\2"), f"refused 18 {len(file) - 1}\n")


class Writer(unittest.TestCase):
    """The writer of phases: refusals in order."""

    def check(self, categories, phases, kind, code, anchor, size, number, place):
        """A refused call leaves the output as it was."""
        reply = reference.write_phased_record(bytes(categories), bytes(phases), kind, code, bytes(anchor), FILL * size)
        self.assertEqual(reply, (number, place, 0, 0, FILL * size))

    def test_order(self):
        self.check([], [9], 5, 7, [9], 0, 4, 0)
        self.check([9] * 65537, [9], 5, 7, [9], 0, 4, 0)
        self.check([9], [], 5, 0, [9], 0, 19, 0)
        self.check([1], [1], 16, 0, [], 9, 19, 0)
        self.check([1], [1], 18, 0, [1], 9, 19, 0)
        self.check([1], [1], 0, 1, [], 9, 19, 0)
        self.check([9], [9], 2, 0, [], 0, 10, 0)
        self.check([9], [9, 9], 2, 0, [9], 0, 10, 0)
        self.check([9], [], 0, 0, [], 9, 10, 0)
        self.check([1, 4], [3, 9], 0, 0, [], 0, 20, 1)
        self.check([1, 1], [3, 9], 2, 0, [0, 4], 0, 20, 1)
        self.check([1, 1], [1, 3], 2, 0, [0, 0], 0, 22, 1)
        self.check([1, 0, 1], [2, 1, 9], 0, 0, [], 0, 22, 1)
        self.check([0, 2, 3], [0, 0, 1], 0, 0, [], 0, 22, 2)
        self.check([1, 0, 1], [2, 0, 1], 0, 0, [], 2, 10, 0)

    def test_phases_left_out(self):
        for length in (0, 4, 6, 10):
            self.check([1] * 5, [1] * length, 0, 0, [], 99, 10, 0)


class Laws(unittest.TestCase):
    """What holds of every valid file with tracks, with blocks of several sizes."""

    def tearDown(self):
        pgen_header.BLOCK_SIZE = 65536

    def files(self, seed, count):
        """Valid files with their parts."""
        rng = random.Random(seed)
        for _ in range(count):
            pgen_header.BLOCK_SIZE = rng.choice([65536, 1, 2, 3, 5, 8, 16])
            N = rng.choice([1, 2, 3, 4, 5, 8, 9, 63, 64, 65, 129, 256, 257, 300])
            parts = random_phased_file(rng, N, rng.randint(1, 14))
            yield rng, parts, join_file(parts)[0]

    def reading(self, file, variant, N):
        """Categories and phases together."""
        one, other = (call(file, variant, FILL * (N + 1), FILL * (N + 2)) for call in (reference.read, reference.read_phases))
        for reply in (one, other):
            self.assertEqual((reply[:3], reply[3][N:], reply[4]), ((0, 0, 0), FILL, bytes(N) + FILL * 2))
        return one[3][:N], other[3][:N]

    def test_readings(self):
        for _, parts, file in self.files(1, 100):
            N = parts.N
            for variant, record in enumerate(parts.records):
                self.assertEqual(self.reading(file, variant, N), (record.categories, record.phases()))
                self.assertEqual(reference.view(file, variant), (0, 0, 0, record.join()))
            self.assertEqual(reference.whole_file_check(file, FILL * N), (0, 0, 0, 0x10, parts.M(), N, file[11], bytes(N)))

    def test_flip(self):
        for rng, parts, file in self.files(2, 120):
            s, t = random_set(rng, parts.M()), random_set(rng, parts.M())
            later = flipped(file, s)
            for variant, record in enumerate(parts.records):
                wanted = record.categories, record.phases()
                if s[variant // 8] >> variant % 8 & 1:
                    wanted = exchange(wanted[0]), wanted[1].translate(EXCHANGED + bytes(253))
                self.assertEqual(self.reading(later, variant, parts.N), wanted)
            self.assertEqual(flipped(later, s), file)
            self.assertEqual(flipped(later, t), flipped(file, symmetric_difference(s, t)))
            for before, after in zip(read_header(file).types, read_header(later).types):
                self.assertEqual(before & PHASED, after & PHASED)

    def test_read_then_write_back(self):
        for _, parts, _ in self.files(3, 120):
            parts.records = [stored_as_written(record) for record in parts.records]
            file, anchor = join_file(parts)[0], b""
            for variant, record in enumerate(parts.records):
                categories, phases = self.reading(file, variant, parts.N)
                body, kind = record.join(), record.kind
                code, leaning = body[0] if kind == 1 else 0, anchor if kind in (2, 3) else b""
                if record.track:
                    reply = reference.write_phased_record(categories, phases, kind, code, leaning, FILL * (len(body) + 1))
                    self.assertEqual(reply, (0, 0, 0, len(body), body + FILL))
                anchor = anchor if kind in (2, 3) else categories

    def test_rows(self):
        for _, parts, file in self.files(4, 80):
            *_, state = start_rows(file, FILL * parts.N)
            output, work = FILL * parts.N, FILL * parts.N
            for record in parts.records:
                *reply, state, output, work = next_row(state, file, output, work)
                self.assertEqual((reply, output), ([0, 0, 0], record.categories))

    def test_no_track(self):
        for variant in range(3):
            self.assertEqual(reference.read_phases(A, variant, FILL * 6, FILL * 7), (0, 0, 0, bytes(5) + FILL, bytes(5) + FILL * 2))


if __name__ == "__main__":
    unittest.main()
