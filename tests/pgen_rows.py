"""Going through a file row by row, as pure functions: from a start, the v-th row is what a read of variant v gives.

    start_rows  (refusal, place, variant, state)                 the state is None on a refusal
    next_row    (refusal, place, variant, state, output, work)   what the state and the lent buffers are afterwards

Between the calls the work area holds the row of the last record that leans on none. `next_row` takes any
state and any file: it looks for type and length where a header that says what the state says would have
them, and checks nothing else of the file's header.
"""

from typing import NamedTuple

from pgen_header import (GREATEST_M, GREATEST_N, PLAIN_MODE, Header, Refused, leans, length_width, little, naming,
                         type_allowed, up)
from pgen_record import RECORD_REFUSALS, read_record
from pgen_reference import ACCEPTED, cleared, header_for


class Rows(NamedTuple):
    """A state: what the header said, the next variant and where its record starts, and how the
    last record that leans on none was refused: number, place and whose it was (each 0 if it was not)."""

    mode: int
    M: int
    N: int
    form: int
    variant: int
    start: int
    refusal: int = 0
    place: int = 0
    whose: int = 0

    def anchor_reply(self):
        """What the reply to the last record that leans on none began with."""
        return self.refusal, self.place, self.whose

    def told(self, refusal, place, whose):
        """The state after another such record."""
        return self._replace(refusal=refusal, place=place, whose=whose)


def start_rows(file, work):
    """A state before the first variant."""
    try:
        header = header_for(file, [work])
    except Refused as refused:
        return *refused.reply(), None
    return *ACCEPTED, Rows(header.mode, header.M, header.N, header.form, 0, header.end)


def refuse_state(rows, output, work):
    """What a row is refused for before the file is looked at."""
    if not 1 <= rows.M <= GREATEST_M:
        raise Refused(4, 3)
    if not 1 <= rows.N <= GREATEST_N:
        raise Refused(4, 7)
    if len(output) < rows.N or len(work) < rows.N:
        raise Refused(10, 0, rows.M)
    if rows.variant >= rows.M:
        raise Refused(11, 0, rows.M)


def header_of(rows):
    """The header whose first 12 bytes say what the state says."""
    numbers = rows.M.to_bytes(4, "little") + rows.N.to_bytes(4, "little")
    return Header(b"\x6c\x1b" + bytes([rows.mode]) + numbers + bytes([rows.form]))


def type_and_length(rows, file):
    """The next variant's, from this file's bytes: those past its end count as 0 (8). A record leans on no anchor
    that the state does not tell of: one that was read, or refused as a record is."""
    if rows.mode == PLAIN_MODE:
        return 0, up(rows.N, 4)
    header = header_of(rows)
    place = header.type_place(rows.variant)
    its_type = little(file[place:place + 1]) >> header.type_shift(rows.variant)
    if header.narrow():
        its_type &= 15
    if not type_allowed(its_type, rows.variant):
        raise Refused(8, place, rows.variant)
    if leans(its_type) and rows.refusal not in (0, *RECORD_REFUSALS):
        raise Refused(8, place, rows.variant)
    place = header.length_place(rows.variant)
    return its_type, little(file[place:place + length_width(rows.form)])


def next_record(rows, file):
    """The type of the next variant's record and where the record ends (8, 9)."""
    its_type, length = type_and_length(rows, file)
    if rows.start + length > len(file):
        raise Refused(9, len(file), rows.M)
    return its_type, rows.start + length


def next_row(rows, file, output, work):
    """The next variant's row; a refusal of its record moves the state on, one before it does not."""
    try:
        refuse_state(rows, output, work)
        its_type, end = next_record(rows, file)
    except Refused as refused:
        return *refused.reply(), rows, output, work
    later = rows._replace(variant=rows.variant + 1, start=end)
    leaning = leans(its_type)
    if leaning and rows.refusal:
        return *rows.anchor_reply(), later, output, work
    try:
        with naming(rows.variant):
            row = read_record(file, rows.start, end, its_type, rows.N, work[:rows.N]).categories
    except Refused as refused:
        if not leaning:
            later = later.told(*refused.reply())
            work = cleared(work, rows.N)
        return *refused.reply(), later, output, work
    if not leaning:
        later = later.told(*ACCEPTED)
        work = row + work[rows.N:]
    return *ACCEPTED, later, row + output[rows.N:], work
