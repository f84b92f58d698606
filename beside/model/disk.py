"""The crate `disk` once more, in Python: files, directories and the two sides, in a lent area; and the area's rule."""

from enum import IntEnum
from typing import NamedTuple

from layout import Disk, copy_in, find_name, has_name, name_at, names_fit, put_name, put_u64, u64_at

# ---- disk: files


class Entry(NamedTuple):
    # The place of the directory that the file is in, plus 1; 0 if the slot is free.
    owner: int
    number: int
    len: int


def slot_count(disk):
    return u64_at(disk, Disk.SLOT_COUNT)


def get_entry(disk, slot):
    at = Disk.ENTRIES + slot * Disk.ENTRY_BYTES
    return Entry(u64_at(disk, at), u64_at(disk, at + 8), u64_at(disk, at + 16))


def put_entry(disk, slot, file):
    at = Disk.ENTRIES + slot * Disk.ENTRY_BYTES
    put_u64(disk, at, file.owner)
    put_u64(disk, at + 8, file.number)
    put_u64(disk, at + 16, file.len)


def remove_file(disk, slot):
    """The slot's bytes stay, and are no file's."""
    put_entry(disk, slot, Entry(0, 0, 0))


def make_file(disk, place, number):
    """The file of a directory and a number: met again with its bytes, or made in the first free slot."""
    met = find_in(disk, place, number)
    if met is not None:
        return met
    slot = free_slot(disk)
    if slot is not None:
        put_entry(disk, slot, Entry(place + 1, number, 0))
    return slot


def file_part(disk, slot):
    data = Disk.DATA + slot * Disk.SLOT_BYTES
    return bytes(disk[data : data + get_entry(disk, slot).len])


def write_at(disk, slot, at, src):
    """Zeros fill a hole before the bytes; the file never gets shorter."""
    file = get_entry(disk, slot)
    data = Disk.DATA + slot * Disk.SLOT_BYTES
    copy_in(disk, data + file.len, bytes(max(0, at - file.len)))
    copy_in(disk, data + at, src)
    put_entry(disk, slot, file._replace(len=max(file.len, at + len(src))))


# ---- disk: searches, each ends at the first hit


def is_file(disk, slot, place, number):
    file = get_entry(disk, slot)
    return file.owner == place + 1 and file.number == number


def is_free(disk, slot):
    return get_entry(disk, slot).owner == 0


def find_file(disk, name, number):
    """The slot of the file that a tape's name and a number say: only the first directory of that name counts."""
    for place in range(Disk.MOST_DIRECTORIES):
        if has_name(disk, Disk.DIRECTORIES, place, name):
            for slot in range(slot_count(disk)):
                if is_file(disk, slot, place, number):
                    return slot
            return None
    return None


def find_in(disk, place, number):
    """The same in a directory whose place is known."""
    return next((slot for slot in range(slot_count(disk)) if is_file(disk, slot, place, number)), None)


def free_slot(disk):
    return next((slot for slot in range(slot_count(disk)) if is_free(disk, slot)), None)


def count_files(disk):
    return sum(not is_free(disk, slot) for slot in range(slot_count(disk)))


# ---- disk: directories


def directory_name(disk, place):
    return name_at(disk, Disk.DIRECTORIES, place)


def find_directory(disk, name):
    return find_name(disk, Disk.DIRECTORIES, name)


def add_directory(disk, name):
    place = find_name(disk, Disk.DIRECTORIES, b"")
    if place is not None:
        put_name(disk, Disk.DIRECTORIES, place, name)
    return place


def empty_slot(disk, place, slot):
    if get_entry(disk, slot).owner == place + 1:
        remove_file(disk, slot)


def empty_directory(disk, place):
    """The directory stays."""
    for slot in range(slot_count(disk)):
        empty_slot(disk, place, slot)


# ---- disk: the metadata files, and an empty disk


class Side(IntEnum):
    LEFT = 0
    RIGHT = 1


def side_at(side):
    return Disk.LEFT if side is Side.LEFT else Disk.RIGHT


def side_len_at(side):
    return Disk.LEFT_LEN if side is Side.LEFT else Disk.RIGHT_LEN


def side_part(disk, side):
    at = side_at(side)
    return bytes(disk[at : at + u64_at(disk, side_len_at(side))])


def write_side(disk, side, src):
    """From the first byte on; the file never gets shorter."""
    copy_in(disk, side_at(side), src)
    put_u64(disk, side_len_at(side), max(u64_at(disk, side_len_at(side)), len(src)))


def format(disk, slots):
    """The slots' bytes are left, since no file has them."""
    copy_in(disk, 0, bytes(Disk.DATA))
    put_u64(disk, 0, Disk.MARK)
    put_u64(disk, Disk.SLOT_COUNT, slots)


# ---- layout: the rule of the disk


def disk_bytes(slots):
    return Disk.DATA + slots * Disk.SLOT_BYTES


def head_fits(disk):
    return (
        len(disk) >= Disk.DATA
        and u64_at(disk, 0) == Disk.MARK
        and 1 <= u64_at(disk, Disk.SLOT_COUNT) <= Disk.MOST_SLOTS
        and len(disk) >= disk_bytes(u64_at(disk, Disk.SLOT_COUNT))
        and u64_at(disk, Disk.LEFT_LEN) <= Disk.SIDE_BYTES
        and u64_at(disk, Disk.RIGHT_LEN) <= Disk.SIDE_BYTES
    )


def entries_fit(disk):
    entries = (get_entry(disk, slot) for slot in range(slot_count(disk)))
    return all(e.owner <= Disk.MOST_DIRECTORIES and e.len <= Disk.SLOT_BYTES for e in entries)


def is_sound_disk(disk):
    return head_fits(disk) and names_fit(disk, Disk.DIRECTORIES) and entries_fit(disk)
