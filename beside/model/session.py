"""The crate `session` once more, in Python: rows in and out of a lent area; and the area's rule."""

from enum import IntEnum
from typing import NamedTuple, Optional

from disk import Side
from layout import Session, copy_in, find_name, name_at, names_fit, put_name, put_u64, u64_at

# ---- session: its own fields


class Head(NamedTuple):
    # That of the last commit, and whether it was a truncate's.
    epoch: int
    cut: bool
    # The metadata file that is written next.
    side: Side
    # The last numbers given; 0 before the first.
    last_transaction: int
    last_handle: int


def side_for(word):
    return Side.LEFT if word == 0 else Side.RIGHT


def get_head(session):
    epoch, cut, side, transaction, handle = (u64_at(session, Session.HEAD + 8 * i) for i in range(5))
    return Head(epoch, cut != 0, side_for(side), transaction, handle)


def put_head(session, head):
    for i, word in enumerate(head):
        put_u64(session, Session.HEAD + 8 * i, int(word))


# ---- session: tape places


def tape_name(session, tape):
    return name_at(session, Session.NAMES, tape)


def find_tape(session, name):
    """Of the empty name, the first free place."""
    return find_name(session, Session.NAMES, name)


def put_tape_name(session, tape, name):
    put_name(session, Session.NAMES, tape, name)


# ---- session: views


class View(NamedTuple):
    listed: bool
    len: int
    start: int

    @staticmethod
    def absent():
        return View(False, 0, 0)


def get_view(session, whose, tape):
    at = Session.VIEWS + whose * Session.VIEW_BYTES + tape * Session.VIEW_ROW
    return View(u64_at(session, at) != 0, u64_at(session, at + 8), u64_at(session, at + 16))


def put_view(session, whose, tape, row):
    at = Session.VIEWS + whose * Session.VIEW_BYTES + tape * Session.VIEW_ROW
    put_u64(session, at, int(row.listed))
    put_u64(session, at + 8, row.len)
    put_u64(session, at + 16, row.start)


def copy_view(session, whose, to):
    at = Session.VIEWS + whose * Session.VIEW_BYTES
    copy_in(session, Session.VIEWS + to * Session.VIEW_BYTES, session[at : at + Session.VIEW_BYTES])


# ---- session: transactions


class Kind(IntEnum):
    CLOSED = 0
    READER = 1
    APPEND = 2
    TRUNCATE = 3


class Transaction(NamedTuple):
    kind: Kind
    number: int
    # The session's epoch when the transaction began.
    epoch: int

    @staticmethod
    def closed():
        return Transaction(Kind.CLOSED, 0, 0)


def get_transaction(session, place):
    at = Session.TRANSACTIONS + place * Session.TRANSACTION_BYTES
    return Transaction(Kind(u64_at(session, at)), u64_at(session, at + 8), u64_at(session, at + 16))


def put_transaction(session, place, row):
    at = Session.TRANSACTIONS + place * Session.TRANSACTION_BYTES
    put_u64(session, at, int(row.kind))
    put_u64(session, at + 8, row.number)
    put_u64(session, at + 16, row.epoch)


def is_open_as(session, place, number):
    row = get_transaction(session, place)
    return row.kind is not Kind.CLOSED and row.number == number


def find_transaction(session, number):
    return next((i for i in range(Session.WRITER + 1) if is_open_as(session, i, number)), None)


def is_closed(session, place):
    return get_transaction(session, place).kind is Kind.CLOSED


def free_reader(session):
    return next((i for i in range(Session.MOST_READERS) if is_closed(session, i)), None)


# ---- session: a tape's row


class Handle(NamedTuple):
    # 0 if the tape is not open in this session.
    number: int
    entry: int
    file_size: int

    @staticmethod
    def none():
        return Handle(0, 0, 0)


class RingBuffer(NamedTuple):
    capacity: int
    # The place of the first held byte, how many are held, and the first one's index in the tape.
    start: int
    len: int
    first: int

    @staticmethod
    def new(capacity, first):
        return RingBuffer(capacity, 0, 0, first)


class Staged(NamedTuple):
    touched: bool
    # The tape's length when the transaction got it.
    base: int
    len: int
    start: int
    # How many of the ring's last bytes the files lack.
    unwritten: int

    @staticmethod
    def untouched():
        return Staged(False, 0, 0, 0, 0)


def get_handle(session, tape):
    at = Session.TAPES + tape * Session.TAPE_BYTES
    return Handle(*(u64_at(session, at + 8 * i) for i in range(3)))


def put_handle(session, tape, row):
    at = Session.TAPES + tape * Session.TAPE_BYTES
    for i, word in enumerate(row):
        put_u64(session, at + 8 * i, word)


def get_ring(session, tape):
    at = Session.TAPES + tape * Session.TAPE_BYTES + Session.RING
    return RingBuffer(*(u64_at(session, at + 8 * i) for i in range(4)))


def put_ring(session, tape, row):
    at = Session.TAPES + tape * Session.TAPE_BYTES + Session.RING
    for i, word in enumerate(row):
        put_u64(session, at + 8 * i, word)


def get_staged(session, tape):
    at = Session.TAPES + tape * Session.TAPE_BYTES + Session.STAGED
    touched, *numbers = (u64_at(session, at + 8 * i) for i in range(5))
    return Staged(touched != 0, *numbers)


def put_staged(session, tape, row):
    at = Session.TAPES + tape * Session.TAPE_BYTES + Session.STAGED
    for i, word in enumerate(row):
        put_u64(session, at + 8 * i, int(word))


def is_handle(session, tape, number):
    return number != 0 and get_handle(session, tape).number == number


def find_handle(session, number):
    return next((tape for tape in range(Session.MOST_TAPES) if is_handle(session, tape, number)), None)


# ---- session: the rings' bytes, apart from their bookkeeping


def ring_part(session, tape):
    at = Session.RINGS + tape * Session.RING_BYTES
    return bytes(session[at : at + Session.RING_BYTES])


def fill_ring(session, tape, place, src):
    copy_in(session, Session.RINGS + tape * Session.RING_BYTES + place, src)


def push_ring(session, tape, ring, src):
    """Behind the held bytes, past the ring's end from its beginning on. The bookkeeping is the caller's to put."""
    at = Session.RINGS + tape * Session.RING_BYTES
    for k, byte in enumerate(src):
        session[at + (ring.start + ring.len + k) % ring.capacity] = byte


# ---- session: which slots' files are tracked


class Tracking(NamedTuple):
    tracked: bool
    # The epoch since which the file is out of its tape's range.
    mark: Optional[int]


UNTRACKED = Tracking(False, None)
TRACKED = Tracking(True, None)


def marked(epoch):
    return Tracking(True, epoch)


def get_tracking(session, slot):
    at = Session.TRACKING + slot * Session.TRACKING_BYTES
    word = u64_at(session, at)
    if word == 0:
        return UNTRACKED
    return TRACKED if word == 1 else marked(u64_at(session, at + 8))


def tracking_code(row):
    return 2 if row.mark is not None else int(row.tracked)


def tracking_epoch(row):
    return row.mark if row.mark is not None else 0


def put_tracking(session, slot, row):
    at = Session.TRACKING + slot * Session.TRACKING_BYTES
    put_u64(session, at, tracking_code(row))
    put_u64(session, at + 8, tracking_epoch(row))


# ---- session: its end and its beginning


def end(session):
    put_u64(session, 0, 0)


def clear(session, epoch, side):
    """Everything but the rings' bytes."""
    copy_in(session, 0, bytes(Session.RINGS))
    put_u64(session, 0, Session.MARK)
    put_head(session, Head(epoch, False, side, 0, 0))


def list_tape(session, place, tape):
    put_tape_name(session, place, tape.name)
    put_view(session, Session.LIST, place, View(True, tape.len, tape.start))


def begin(session, epoch, side, tapes):
    clear(session, epoch, side)
    for place, tape in enumerate(tapes):
        list_tape(session, place, tape)


# ---- layout: the rule of the session


def ring_fits(session, tape):
    ring = get_ring(session, tape)
    return (
        ring.capacity <= Session.RING_BYTES
        and ring.start < ring.capacity
        and ring.len <= ring.capacity
        and get_staged(session, tape).unwritten <= ring.len
    )


def tape_fits(session, tape):
    """The row of a tape with no handle is not looked at."""
    handle = get_handle(session, tape)
    return handle.number == 0 or (
        1 <= handle.entry <= Session.MOST_ENTRY
        and 1 <= handle.file_size <= Session.MOST_FILE
        and ring_fits(session, tape)
    )


def tapes_fit(session):
    return all(tape_fits(session, tape) for tape in range(Session.MOST_TAPES))


def kind_fits(session, place):
    kind = u64_at(session, Session.TRANSACTIONS + place * Session.TRANSACTION_BYTES)
    if place < Session.MOST_READERS:
        return kind in (Kind.CLOSED, Kind.READER)
    return kind in (Kind.CLOSED, Kind.APPEND, Kind.TRUNCATE)


def kinds_fit(session):
    return all(kind_fits(session, place) for place in range(Session.WRITER + 1))


def tables_fit(session):
    return names_fit(session, Session.NAMES) and kinds_fit(session) and tapes_fit(session)


def is_begun_session(session):
    return len(session) >= Session.BYTES and u64_at(session, 0) == Session.MARK and tables_fit(session)


def is_sound_session(session):
    if len(session) < Session.BYTES:
        return False
    return u64_at(session, 0) == 0 or is_begun_session(session)
