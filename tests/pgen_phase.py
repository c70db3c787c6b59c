"""The phase track of a record, which follows its main track: document 02, Ask 1. Refusals 12 and 18, and the track's bytes.

A reading of phases is a byte for each sample: 0 unphased, 1 unswapped, 2 swapped.
"""

from typing import NamedTuple

from pgen_header import Refused
from pgen_packed import pack, read_array

UNPHASED, UNSWAPPED, SWAPPED = range(3)
HETEROZYGOUS = 1
TURNED = bytes([UNPHASED, SWAPPED, UNSWAPPED, *range(3, 256)])


class Track(NamedTuple):
    """Whether presence bits are stored, and the phase of each heterozygous call."""

    stored: bool
    phases: bytes


def heterozygous(categories):
    """H: the number of samples in category 1."""
    return bytes(categories).count(HETEROZYGOUS)


def read_track(file, place, end, H):
    """A track of H heterozygous calls and the place after it; each of its two parts must fit and has no unused bit set."""
    if place >= end:
        raise Refused(12, end)
    stored = bool(file[place] & 1)
    first, place = read_array(file, place, end, 1, 1 + H if stored else 1)
    presence = first[1:] if stored else [1] * H
    P = sum(presence)
    swaps, place = read_array(file, place, end, 1, P)
    bits = iter(swaps)
    return Track(stored, bytes(UNSWAPPED + next(bits) if present else UNPHASED for present in presence)), place


def form_track(track):
    """The bytes of a track."""
    presence = [int(phase != UNPHASED) for phase in track.phases]
    swaps = [int(phase == SWAPPED) for phase in track.phases if phase != UNPHASED]
    return pack([1, *presence] if track.stored else [0], 1) + pack(swaps, 1)


def written_track(categories, phases):
    """The track that the writer stores: presence bits only if a call is unphased."""
    of_calls = bytes(phase for category, phase in zip(categories, phases) if category == HETEROZYGOUS)
    return Track(UNPHASED in of_calls, of_calls)


def flipped_track(track):
    """The track, if there is one, of a flipped variant: each phase bit turned, which exchanges the readings 1 and 2."""
    return track and track._replace(phases=track.phases.translate(TURNED))


def spread(categories, track):
    """The reading of phases: 0 outside category 1, and throughout where there is no track."""
    if track is None:
        return bytes(len(categories))
    of_calls = iter(track.phases)
    return bytes(next(of_calls) if category == HETEROZYGOUS else UNPHASED for category in categories)
