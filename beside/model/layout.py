"""The crate `layout` once more, in Python: where everything stands in the two lent areas (docs/LAYOUT.md), and tables
of names; the rules stand with the rows that they look at, in `disk.py` and `session.py`. `areas.py` says what this is good for.
"""

MOST = 2**64 - 1


def u64_at(area, at):
    return int.from_bytes(area[at : at + 8], "little")


def put_u64(area, at, number):
    area[at : at + 8] = number.to_bytes(8, "little")


def copy_in(area, at, src):
    area[at : at + len(src)] = src


# ---- layout: offsets and limits


class Disk:
    MOST_SLOTS = 64
    SLOT_BYTES = 4096
    MOST_DIRECTORIES = 8
    SIDE_BYTES = 512
    MARK = int.from_bytes(b"tapedisk", "little")
    SLOT_COUNT = 8
    LEFT_LEN = 16
    RIGHT_LEN = 24
    DIRECTORIES = 32
    LEFT = 288
    RIGHT = 800
    ENTRIES = 1312
    ENTRY_BYTES = 24
    DATA = 2848


class Session:
    MOST_TAPES = 8
    MOST_READERS = 16
    # The transaction place that is the writer's, and the view that is the list of the last commit.
    WRITER = 16
    LIST = 17
    RING_BYTES = 4096
    MOST_ENTRY = 256
    MOST_FILE = 4096
    MARK = int.from_bytes(b"tapesess", "little")
    HEAD = 8
    NAMES = 48
    VIEWS = 304
    VIEW_BYTES = 192
    VIEW_ROW = 24
    TRANSACTIONS = 3760
    TRANSACTION_BYTES = 24
    TAPES = 4168
    TAPE_BYTES = 96
    # In a tape's row, behind the handle.
    RING = 24
    STAGED = 56
    TRACKING = 4936
    TRACKING_BYTES = 16
    RINGS = 5960
    BYTES = 38728


# ---- layout: tables of eight names, in both areas

PLACE_BYTES = 32
MOST_LETTERS = 24
MOST_NAMES = 8


def names_fit(area, base):
    return all(u64_at(area, base + i * PLACE_BYTES) <= MOST_LETTERS for i in range(MOST_NAMES))


def name_at(area, base, place):
    at = base + place * PLACE_BYTES
    return bytes(area[at + 8 : at + 8 + u64_at(area, at)])


def has_name(area, base, place, wanted):
    return name_at(area, base, place) == wanted


def find_name(area, base, wanted):
    """The first place with this name; of the empty name, the first free place."""
    return next((i for i in range(MOST_NAMES) if has_name(area, base, i, wanted)), None)


def put_name(area, base, place, wanted):
    """What stood behind the name stays."""
    at = base + place * PLACE_BYTES
    put_u64(area, at, len(wanted))
    copy_in(area, at + 8, wanted)
