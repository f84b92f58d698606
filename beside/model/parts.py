"""The parts that a tape is made of, in Python: the ring, the record, runs of bytes over files, tracking,
marks and removal, the rule of 15, bounds.

A second writing, under the names of the crates `ring_buffer`, `metadata` and `components`; the hash is
hashlib's. Nothing is proved by it.
"""

import hashlib
import re
import struct
from typing import NamedTuple, Optional

import areas
from areas import MOST, TRACKED, UNTRACKED, RingBuffer, Side

# ---- the ring's bookkeeping: document 01, "Cache steps"


def above(a, b):
    """How far a lies above b; 0 where it does not."""
    return max(0, a - b)


def reset(ring, held, first):
    """After the ring's first bytes were filled with the tape's from an index on."""
    return RingBuffer(ring.capacity, 0, held, first)


def push(ring, n, missed):
    """After n bytes were pushed, before which `missed` bytes went by the ring."""
    over = above(ring.len + n, ring.capacity)
    first = (ring.first + over + missed) % (MOST + 1)
    return RingBuffer(ring.capacity, (ring.start + over) % ring.capacity, min(ring.len + n, ring.capacity), first)


def pop(ring, amount):
    """After bytes were taken back from the end; what the ring does not hold moves its first index down."""
    return ring._replace(len=above(ring.len, amount), first=above(ring.first, above(amount, ring.len)))


def truncate(ring, tape_len):
    """The first index stays, so that an old window still finds its bytes above the length."""
    return ring._replace(len=min(ring.len, above(tape_len, ring.first)))


def prepare_write(ring, tape_len):
    """An empty ring takes the tape's length as its first index."""
    return ring._replace(first=tape_len) if ring.len == 0 else ring


def fill(ring, ring_bytes, k, count):
    """The tape's bytes from the k-th behind the first index on, also above the held ones."""
    return bytes(ring_bytes[(ring.start + k + i) % ring.capacity] for i in range(count))


def sent(ring, earlier, appended):
    """What of the unwritten bytes and those appended goes to the files now, and how many stay unwritten."""
    if len(appended) >= ring.capacity:
        return earlier + appended, 0
    if len(earlier) + len(appended) > ring.capacity:
        return earlier, len(appended)
    return b"", len(earlier) + len(appended)


# ---- the record: document 01, "The record"


class TapeMetadata(NamedTuple):
    name: bytes
    len: int
    start: int


class Reading(NamedTuple):
    """A whole record; None stands for `Reading::Empty`."""

    epoch: int
    list_len: int


HEAD_BYTES = 48


def is_name(name):
    return re.fullmatch(rb"[a-z0-9_-]{1,24}", name) is not None


def is_storable(tapes):
    names = [tape.name for tape in tapes]
    return (
        len(tapes) <= areas.MOST_NAMES
        and all(is_name(name) for name in names)
        and all(a < b for a, b in zip(names, names[1:]))
        and all(tape.start <= tape.len for tape in tapes)
    )


def encode_list(tapes):
    encoded = struct.pack("<I", len(tapes))
    for tape in tapes:
        encoded += struct.pack("<I", len(tape.name)) + tape.name + struct.pack("<QQ", tape.len, tape.start)
    return encoded


def decode_list(encoded):
    """None where document 01 answers 17."""
    tapes = []
    try:
        (count,) = struct.unpack_from("<I", encoded, 0)
        at = 4
        for _ in range(count):
            (letters,) = struct.unpack_from("<I", encoded, at)
            length, start = struct.unpack_from("<QQ", encoded, at + 4 + letters)
            tapes.append(TapeMetadata(encoded[at + 4 : at + 4 + letters], length, start))
            at += 20 + letters
    except struct.error:
        return None
    return tapes if at == len(encoded) and is_storable(tapes) else None


def record_hash(epoch, encoded):
    message = b"epoch" + struct.pack("<Q", epoch) + b"tapes" + encoded
    return hashlib.blake2b(message, digest_size=32).digest()


def encode_record(epoch, tapes):
    """A list that may not be stored (damaged areas alone have one) is written all the same; `store` is 17 then."""
    encoded = encode_list(tapes)
    return struct.pack("<I32sQI", 1, record_hash(epoch, encoded), epoch, len(encoded)) + encoded


def read_record(side):
    """Short data and a wrong hash count as no record; the version is not looked at, nor what stands behind."""
    if len(side) < HEAD_BYTES:
        return None
    _, stored, epoch, list_len = struct.unpack_from("<I32sQI", side)
    encoded = side[HEAD_BYTES : HEAD_BYTES + list_len]
    if len(encoded) < list_len or record_hash(epoch, encoded) != stored:
        return None
    return Reading(epoch, list_len)


def reading_epoch(reading):
    return reading.epoch if reading is not None else 0


def record_part(side, reading):
    return side[: HEAD_BYTES + reading.list_len] if reading is not None else b""


def pick(left, right):
    """The record that counts: left's if its epoch is larger, else right's."""
    in_left, in_right = read_record(left), read_record(right)
    if reading_epoch(in_right) < reading_epoch(in_left):
        return record_part(left, in_left)
    return record_part(right, in_right)


def next_side(left, right):
    """The file that was not picked."""
    if reading_epoch(read_record(right)) < reading_epoch(read_record(left)):
        return Side.RIGHT
    return Side.LEFT


def epoch_of(record):
    return areas.u64_at(record, 36) if record else 0


def list_of(record):
    return decode_list(record[HEAD_BYTES:]) if record else []


# ---- runs of bytes over files: document 01, "Tape steps"


class Piece(NamedTuple):
    file: int
    place: int
    count: int


def file_of(file_size, offset):
    return offset // file_size


def place_in(file_size, offset):
    return offset % file_size


def left_in(file_size, offset):
    return file_size - offset % file_size


def pieces(file_size, offset, count):
    """What of a run of bytes falls into each file."""
    while count:
        here = min(count, left_in(file_size, offset))
        yield Piece(file_of(file_size, offset), place_in(file_size, offset), here)
        offset += here
        count -= here


def write_run(disk, session, directory, file_size, offset, run):
    done = 0
    for piece in pieces(file_size, offset, len(run)):
        slot = areas.find_in(disk, directory, piece.file)
        if slot is None or not areas.get_tracking(session, slot).tracked:
            slot = areas.make_file(disk, directory, piece.file)
            untrack_above(disk, session, directory, piece.file)
            areas.put_tracking(session, slot, TRACKED)
        areas.write_at(disk, slot, piece.place, run[done : done + piece.count])
        done += piece.count


def read_run(disk, name, file_size, offset, count, is_tracked):
    """None where a file is missing, untracked or too short."""
    out = b""
    for piece in pieces(file_size, offset, count):
        slot = areas.find_file(disk, name, piece.file)
        if slot is None or not is_tracked(slot):
            return None
        part = areas.file_part(disk, slot)[piece.place : piece.place + piece.count]
        if len(part) < piece.count:
            return None
        out += part
    return out


# ---- tracking, marks and removal


def files_of(disk, directory):
    """The slots of a directory's files with the files' numbers; none where the directory is missing."""
    if directory is None:
        return []
    entries = [(slot, areas.get_entry(disk, slot)) for slot in range(areas.slot_count(disk))]
    return [(slot, entry.number) for slot, entry in entries if entry.owner == directory + 1]


def track(disk, session, directory, len_file):
    """Opening a known name: files numbered up to len's are tracked, without a mark; those above are not."""
    for slot, number in files_of(disk, directory):
        areas.put_tracking(session, slot, TRACKED if number <= len_file else UNTRACKED)


def untrack(disk, session, directory):
    for slot, _ in files_of(disk, directory):
        areas.put_tracking(session, slot, UNTRACKED)


def untrack_above(disk, session, directory, file):
    """Their bytes stay on the disk and return if the number is reached again."""
    for slot, number in files_of(disk, directory):
        if number > file:
            areas.put_tracking(session, slot, UNTRACKED)


def mark_below(disk, session, directory, start_file, began):
    """Tracked files below start's file get the epoch at which the transaction began, once and for all."""
    for slot, number in files_of(disk, directory):
        if number < start_file and areas.get_tracking(session, slot) == TRACKED:
            areas.put_tracking(session, slot, areas.marked(began))


def clear_from(disk, session, directory, len_file):
    """A truncate's commit clears the marks from len's file upward."""
    for slot, number in files_of(disk, directory):
        if number >= len_file and areas.get_tracking(session, slot).mark is not None:
            areas.put_tracking(session, slot, TRACKED)


def is_ripe(state, oldest):
    return state.mark is not None and state.mark < oldest


def remove(disk, session, directory, oldest):
    """From the lowest number on, files marked below the oldest epoch go: none above one that has to stay."""
    files = [(slot, number, areas.get_tracking(session, slot)) for slot, number in files_of(disk, directory)]
    staying = [number for _, number, state in files if state.tracked and not is_ripe(state, oldest)]
    for slot, number, state in files:
        if is_ripe(state, oldest) and number < min(staying, default=MOST + 1):
            areas.remove_file(disk, slot)
            areas.put_tracking(session, slot, UNTRACKED)


# ---- epochs


def older(epoch, epochs):
    """Rule 4: how many readers are of an older epoch."""
    return sum(e < epoch for e in epochs)


# ---- the rule of 15


class Run(NamedTuple):
    """The bytes from `base` up to `end` that are staged of a tape with files of a size."""

    directory: Optional[int]
    size: int
    base: int
    end: int


def unwritten_from(staged):
    """The offset of the bytes that the files lack. Only damaged areas have a length below their number."""
    return above(staged.len, staged.unwritten)


def staged_run(directory, file_size, staged, more):
    """What a tape has staged, with `more` bytes behind it.

    The unwritten bytes lie between base and length; where damaged areas say otherwise they count too, so that
    every file that a write will make was counted.
    """
    base = min(staged.base, unwritten_from(staged))
    return Run(directory, file_size, base, max(staged.len + more, staged.unwritten))


def lacking(disk, run):
    """How many of the run's files the disk lacks, counted by slots: a run may cover 2^63 files and more."""
    if run.end <= run.base:
        return 0
    low, high = file_of(run.size, run.base), file_of(run.size, run.end - 1)
    there = {number for _, number in files_of(disk, run.directory) if low <= number <= high}
    return high - low + 1 - len(there)


def no_slot(disk, runs):
    """Files on the disk, plus the pairs that all staged bytes cover and the disk lacks, exceed the slots."""
    return areas.count_files(disk) + sum(lacking(disk, run) for run in runs) > areas.slot_count(disk)


# ---- bounds in entries; Python's numbers don't wrap, so a product past 2^64-1 is out of every bound


def up_to(entry, index, length):
    return index * entry <= length


def in_bounds(entry, start, length, index, count):
    return start <= index * entry and (index + count) * entry <= length
