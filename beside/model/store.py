"""The calls over the lent areas, in Python: a second, independent writing of the store, held against the
Rust's answers. Nothing is proved by it.

Each call is document 01's, and its refusals stand in that document's order, one on a line, all of them
before the first write; `refuse_areas` is 1, `writer` and `tape_of` are 2. What the disk and the session hold
is read and written through `areas` alone. Areas that keep the layout rule and that our own calls would not
leave get an answer too; where a line is there for them alone, its comment says "damaged".
"""

import areas
import parts
from areas import MOST, Disk, Handle, Kind, RingBuffer, Session, Staged, Transaction, View

TAPES = range(Session.MOST_TAPES)
READERS = range(Session.MOST_READERS)


class Refused(Exception):
    def __init__(self, number, value):
        super().__init__(number, value)
        self.number = number
        self.value = value


def refuse(number, when, value=0):
    if when:
        raise Refused(number, value)


class Store:
    def __init__(self, disk, session):
        """Both areas are bytearrays, of any length and with any bytes in them."""
        self.disk = disk
        self.session = session

    # ---- disk and session

    def format(self, slots):
        refuse(8, not 1 <= slots <= Disk.MOST_SLOTS)
        refuse(1, len(self.disk) < areas.disk_bytes(slots) or len(self.session) < Session.BYTES)
        areas.format(self.disk, slots)
        areas.end(self.session)
        return 0

    def store(self):
        refuse(1, not (areas.is_sound_disk(self.disk) and areas.is_sound_session(self.session)))
        left = areas.side_part(self.disk, areas.Side.LEFT)
        right = areas.side_part(self.disk, areas.Side.RIGHT)
        record = parts.pick(left, right)
        tapes = parts.list_of(record)
        refuse(17, tapes is None)
        areas.begin(self.session, parts.epoch_of(record), parts.next_side(left, right), tapes)
        return parts.epoch_of(record)

    # ---- transactions begin

    def append(self):
        return self.begin(Kind.APPEND)

    def reader(self):
        return self.begin(Kind.READER)

    def truncate(self):
        return self.begin(Kind.TRUNCATE)

    def begin(self, kind):
        self.refuse_areas()
        session = self.session
        head = areas.get_head(session)
        place = areas.free_reader(session) if kind is Kind.READER else Session.WRITER
        # Only readers of an older epoch see what the cut took away.
        waits = kind is Kind.APPEND and head.cut
        waiting_for = parts.older(head.epoch, self.reader_epochs()) if waits else 0
        refuse(3, kind is not Kind.READER and not areas.is_closed(session, Session.WRITER))
        refuse(4, waiting_for > 0, waiting_for)
        refuse(5, place is None)
        refuse(18, head.last_transaction == MOST)

        number = head.last_transaction + 1
        areas.put_transaction(session, place, Transaction(kind, number, head.epoch))
        areas.copy_view(session, Session.LIST, place)
        areas.put_head(session, head._replace(last_transaction=number))
        return number

    # ---- tapes

    def open(self, transaction, name, entry, file_size, cache, start):
        self.refuse_areas()
        writer = self.writer(transaction, Kind.APPEND)
        disk, session = self.disk, self.session
        tape = areas.find_tape(session, name) if name else None
        view = areas.get_view(session, Session.WRITER, tape) if tape is not None else View.absent()
        length, start = (view.len, view.start) if view.listed else (start, start)
        refuse(6, not parts.is_name(name))
        refuse(8, not 1 <= entry <= Session.MOST_ENTRY)
        refuse(10, length % entry != 0 or start % entry != 0)
        refuse(8, not 1 <= file_size <= Session.MOST_FILE)
        refuse(7, name == b"metadata")
        refuse(8, not 1 <= cache <= Session.RING_BYTES)
        refuse(9, tape is not None and areas.get_handle(session, tape).number != 0)

        directory = areas.find_directory(disk, name)
        refuse(5, self.no_place_for(tape, directory, view.listed))
        refuse(16, view.listed and directory is None)
        first = max(parts.above(length, cache), start)
        # These bytes lie below the length, so their files are all among those that the open will track.
        held = parts.above(length, first) if view.listed else 0
        cached = parts.read_run(disk, name, file_size, first, held, is_tracked=lambda slot: True)
        refuse(16, cached is None)
        head = areas.get_head(session)
        refuse(18, head.last_handle == MOST)

        if view.listed:
            self.take_files(directory, file_size, view, writer.epoch)
        else:
            self.clean_directory(name, directory)
        if tape is None:
            tape = areas.find_tape(session, b"")
            areas.put_tape_name(session, tape, name)
        number = head.last_handle + 1
        areas.fill_ring(session, tape, 0, cached)
        areas.put_ring(session, tape, parts.reset(RingBuffer.new(cache, first), len(cached), first))
        areas.put_staged(session, tape, Staged(True, length, length, start, 0))
        areas.put_handle(session, tape, Handle(number, entry, file_size))
        areas.put_head(session, head._replace(last_handle=number))
        return number

    def put(self, transaction, handle, appended):
        self.refuse_areas()
        self.writer(transaction, Kind.APPEND)
        tape = self.tape_of(handle)
        disk, session = self.disk, self.session
        handle = areas.get_handle(session, tape)
        view = self.seen(Session.WRITER, tape)
        staged = self.staged(tape)
        directory = self.directory_of(tape)
        refuse(11, not view.listed)
        refuse(10, len(appended) % handle.entry != 0)
        refuse(18, view.len + len(appended) > MOST)
        refuse(16, directory is None)
        refuse(15, parts.no_slot(disk, self.staged_runs(tape, len(appended))))

        ring = parts.prepare_write(areas.get_ring(session, tape), staged.len)
        offset, earlier = self.unwritten(tape, ring, staged)
        to_files, unwritten = parts.sent(ring, earlier, appended)
        parts.write_run(disk, session, directory, handle.file_size, offset, to_files[: len(earlier)])
        # Apart, since in damaged areas they may not lie side by side.
        parts.write_run(disk, session, directory, handle.file_size, staged.len, to_files[len(earlier) :])
        # Of an append longer than the cache only the last bytes come into it.
        pushed = appended[parts.above(len(appended), ring.capacity) :]
        areas.push_ring(session, tape, ring, pushed)
        areas.put_ring(session, tape, parts.push(ring, len(pushed), len(appended) - len(pushed)))
        areas.put_staged(session, tape, staged._replace(len=staged.len + len(appended), unwritten=unwritten))
        return staged.len // handle.entry

    def shift(self, transaction, handle, start):
        self.refuse_areas()
        self.writer(transaction, Kind.APPEND)
        tape = self.tape_of(handle)
        entry = areas.get_handle(self.session, tape).entry
        view = self.seen(Session.WRITER, tape)
        refuse(11, not view.listed)
        refuse(13, not parts.up_to(entry, start, view.len))

        staged = self.staged(tape)
        areas.put_staged(self.session, tape, staged._replace(start=max(staged.start, start * entry)))
        return 0

    def cut(self, transaction, handle, length):
        self.refuse_areas()
        self.writer(transaction, Kind.TRUNCATE)
        tape = self.tape_of(handle)
        entry = areas.get_handle(self.session, tape).entry
        view = self.seen(Session.WRITER, tape)
        refuse(11, not view.listed)
        refuse(14, not parts.up_to(entry, length, view.len))

        staged = self.staged(tape)
        areas.put_staged(self.session, tape, staged._replace(len=length * entry, unwritten=0))
        return 0

    def read(self, transaction, handle, index, count, room):
        """Answers the bytes; `room` is the length of the caller's buffer."""
        self.refuse_areas()
        session = self.session
        place = areas.find_transaction(session, transaction)
        refuse(2, place is None)
        tape = self.tape_of(handle)
        handle = areas.get_handle(session, tape)
        view = self.seen(place, tape)
        refuse(11, not view.listed)
        refuse(12, not parts.in_bounds(handle.entry, view.start, view.len, index, count))
        refuse(10, room < count * handle.entry)

        offset, wanted = index * handle.entry, count * handle.entry
        ring = areas.get_ring(session, tape)
        # All from the first index on is the cache's, even above its length: an old window's bytes stand there.
        in_files = min(wanted, parts.above(ring.first, offset))
        name = areas.tape_name(session, tape)
        read = parts.read_run(self.disk, name, handle.file_size, offset, in_files, self.is_tracked)
        refuse(16, read is None)
        ring_bytes = areas.ring_part(session, tape)
        return read + parts.fill(ring, ring_bytes, parts.above(offset, ring.first), wanted - in_files)

    # ---- transactions end

    def commit(self, transaction):
        self.refuse_areas()
        writer = self.writer(transaction, Kind.APPEND, Kind.TRUNCATE)
        disk, session = self.disk, self.session
        head = areas.get_head(session)
        touched = [tape for tape in TAPES if self.is_touched(tape)]
        appends = writer.kind is Kind.APPEND
        tapes = self.next_list(appends)
        # Damaged areas alone have such a list; no commit writes what no store would read.
        whole = len(tapes) == sum(self.published(tape, appends).listed for tape in TAPES)
        refuse(1, not (whole and parts.is_storable(tapes)))
        refuse(18, head.epoch == MOST)
        refuse(16, any(self.directory_of(tape) is None for tape in touched))
        refuse(15, appends and parts.no_slot(disk, self.staged_runs()))

        if appends:
            for tape in touched:
                self.flush(tape)
        for tape in TAPES:
            areas.put_view(session, Session.LIST, tape, self.published(tape, appends))
        epoch = head.epoch + 1
        areas.write_side(disk, head.side, parts.encode_record(epoch, tapes))
        other = areas.Side(1 - head.side)
        areas.put_head(session, head._replace(epoch=epoch, cut=not appends, side=other))
        if appends:
            # With none open it is the writer's own epoch + 1: the new epoch, also where damaged areas differ.
            oldest = min(self.reader_epochs(), default=epoch)
            for tape in touched:
                self.remove_out_of_range(tape, writer.epoch, oldest)
        else:
            for tape in touched:
                self.cut_tape(tape)
        self.close_writer()
        return epoch

    def drop(self, transaction):
        self.refuse_areas()
        session = self.session
        place = areas.find_transaction(session, transaction)
        refuse(2, place is None)

        if place != Session.WRITER:
            areas.put_transaction(session, place, Transaction.closed())
            return 0
        if areas.get_transaction(session, place).kind is Kind.APPEND:
            for tape in TAPES:
                if self.is_touched(tape):
                    self.take_back(tape)
        self.close_writer()
        return 0

    # ---- refusals 1 and 2

    def refuse_areas(self):
        refuse(1, not (areas.is_sound_disk(self.disk) and areas.is_begun_session(self.session)))

    def writer(self, number, *kinds):
        """The transaction in the writer's place: a reader of the same number (damaged areas) is not looked at."""
        row = areas.get_transaction(self.session, Session.WRITER)
        refuse(2, row.kind not in kinds or row.number != number)
        return row

    def tape_of(self, handle):
        tape = areas.find_handle(self.session, handle)
        refuse(2, tape is None)
        return tape

    # ---- what a transaction sees, and what the writer has staged

    def reader_epochs(self):
        rows = [areas.get_transaction(self.session, place) for place in READERS]
        return [row.epoch for row in rows if row.kind is not Kind.CLOSED]

    def is_tracked(self, slot):
        return areas.get_tracking(self.session, slot).tracked

    def is_touched(self, tape):
        """A touched tape without a handle (damaged areas alone have one) counts as not touched."""
        return areas.get_handle(self.session, tape).number != 0 and areas.get_staged(self.session, tape).touched

    def seen(self, place, tape):
        """Length and start for a transaction place: the writer sees what it has staged."""
        if place == Session.WRITER and self.is_touched(tape):
            staged = areas.get_staged(self.session, tape)
            return View(True, staged.len, staged.start)
        return areas.get_view(self.session, place, tape)

    def staged(self, tape):
        """What the writer has staged of a tape; of one that it has not touched, what it begins with."""
        if self.is_touched(tape):
            return areas.get_staged(self.session, tape)
        view = areas.get_view(self.session, Session.WRITER, tape)
        return Staged(True, view.len, view.len, view.start, 0)

    def directory_of(self, tape):
        return areas.find_directory(self.disk, areas.tape_name(self.session, tape))

    def staged_runs(self, appended_to=None, more=0):
        """The staged bytes of all tapes, with `more` bytes behind those of the one appended to."""
        runs = []
        for tape in TAPES:
            if tape == appended_to or self.is_touched(tape):
                file_size = areas.get_handle(self.session, tape).file_size
                behind = more if tape == appended_to else 0
                runs.append(parts.staged_run(self.directory_of(tape), file_size, self.staged(tape), behind))
        return runs

    def unwritten(self, tape, ring, staged):
        """The bytes that the files lack, the last of the ring, and their offset."""
        count = staged.unwritten
        ring_bytes = areas.ring_part(self.session, tape)
        return parts.unwritten_from(staged), parts.fill(ring, ring_bytes, ring.len - count, count)

    def no_place_for(self, tape, directory, listed):
        """Rule 5 at open: a ninth name, or (damaged areas alone) no free place for one of fewer names."""
        disk, session = self.disk, self.session
        if tape is None and areas.find_tape(session, b"") is None:
            return True
        if listed or directory is not None:
            return False
        names = {areas.directory_name(disk, place) for place in range(Disk.MOST_DIRECTORIES)}
        names |= {areas.tape_name(session, t) for t in TAPES if areas.get_view(session, Session.WRITER, t).listed}
        return len(names - {b""}) >= Disk.MOST_DIRECTORIES or areas.find_directory(disk, b"") is None

    # ---- what an open does to a tape's directory

    def take_files(self, directory, file_size, view, began):
        """Of a known tape: no reader is heeded, since all of them have this start."""
        disk, session = self.disk, self.session
        parts.track(disk, session, directory, parts.file_of(file_size, view.len))
        parts.mark_below(disk, session, directory, parts.file_of(file_size, view.start), began)
        parts.remove(disk, session, directory, MOST)

    def clean_directory(self, name, directory):
        """Of a name absent from the view: made at once, not at commit, or emptied."""
        place = areas.find_directory(self.disk, b"") if directory is None else directory
        # Only damaged areas say that a free place has files.
        parts.untrack(self.disk, self.session, place)
        areas.empty_directory(self.disk, place)
        if directory is None:
            areas.add_directory(self.disk, name)

    # ---- what a commit and a drop do to one tape, and to the writer's place

    def published(self, tape, appends):
        """The view of a tape that a commit publishes; a truncate's start is not above its length."""
        if not self.is_touched(tape):
            return areas.get_view(self.session, Session.WRITER, tape)
        staged = areas.get_staged(self.session, tape)
        return View(True, staged.len, staged.start if appends else min(staged.start, staged.len))

    def next_list(self, appends):
        """The list as the record has it: by name in byte order; of doubles (damaged) the first place counts."""
        views = {}
        for tape in TAPES:
            view = self.published(tape, appends)
            if view.listed:
                views.setdefault(areas.tape_name(self.session, tape), view)
        views.pop(b"", None)
        return [parts.TapeMetadata(name, view.len, view.start) for name, view in sorted(views.items())]

    def flush(self, tape):
        session = self.session
        staged = areas.get_staged(session, tape)
        offset, lacking = self.unwritten(tape, areas.get_ring(session, tape), staged)
        file_size = areas.get_handle(session, tape).file_size
        parts.write_run(self.disk, session, self.directory_of(tape), file_size, offset, lacking)

    def cut_tape(self, tape):
        session = self.session
        length = areas.get_staged(session, tape).len
        areas.put_ring(session, tape, parts.truncate(areas.get_ring(session, tape), length))
        file_size = areas.get_handle(session, tape).file_size
        parts.clear_from(self.disk, session, self.directory_of(tape), parts.file_of(file_size, length))

    def remove_out_of_range(self, tape, began, oldest):
        file_size = areas.get_handle(self.session, tape).file_size
        start = areas.get_view(self.session, Session.LIST, tape).start
        directory = self.directory_of(tape)
        parts.mark_below(self.disk, self.session, directory, parts.file_of(file_size, start), began)
        parts.remove(self.disk, self.session, directory, oldest)

    def take_back(self, tape):
        """The ring gives up what was staged; a tape created in the append loses its handle and its place."""
        session = self.session
        if areas.get_view(session, Session.WRITER, tape).listed:
            staged = areas.get_staged(session, tape)
            ring = areas.get_ring(session, tape)
            areas.put_ring(session, tape, parts.pop(ring, parts.above(staged.len, staged.base)))
            return
        parts.untrack(self.disk, session, self.directory_of(tape))
        areas.put_handle(session, tape, Handle.none())
        areas.put_ring(session, tape, RingBuffer.new(0, 0))
        areas.put_tape_name(session, tape, b"")

    def close_writer(self):
        for tape in TAPES:
            areas.put_staged(self.session, tape, Staged.untouched())
        areas.put_transaction(self.session, Session.WRITER, Transaction.closed())
