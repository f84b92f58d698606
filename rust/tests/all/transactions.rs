//! Transactions as values: what drops itself, what a window shows while others commit, which areas a store takes.

use tapes::{disk_bytes, format, session_bytes, Append, Areas, Error, Lent, Owned, Reader, Shape, Store, Tape, View};

/// A store with `bytes` committed on the tape `a`.
fn with_bytes(bytes: &str) -> Result<(Store, Tape), Error> {
    let store = Store::new(8)?;
    let mut append = store.append()?;
    let tape = append.open("a", Shape { file_size: 4, cache: 4, ..Shape::default() })?;
    append.append_entries(tape, bytes)?;
    append.commit()?;
    Ok((store, tape))
}

/// Of a transaction of any kind.
fn all(view: &View, tape: Tape) -> Result<Vec<u8>, Error> {
    let start = view.start(tape)?;
    view.read_entries(tape, start, view.len(tape)? - start)
}

/// In a window of its own.
fn committed(store: &Store, tape: Tape) -> Result<Vec<u8>, Error> {
    let reader = store.reader()?;
    all(&reader, tape)
}

fn append_to(store: &Store, tape: Tape, bytes: &str) -> Result<u64, Error> {
    let mut append = store.append()?;
    append.append_entries(tape, bytes)?;
    Ok(append.commit()?)
}

#[test]
fn a_dropped_writer_leaves_what_was_committed() -> Result<(), Error> {
    let (store, tape) = with_bytes("abc")?;
    {
        let mut append = store.append()?;
        append.append_entries(tape, "defghijk")?;
        assert_eq!(all(&append, tape)?, b"abcdefghijk");
        assert_eq!(store.append().unwrap_err(), Error::WriterOpen);
        assert_eq!(store.truncate().unwrap_err(), Error::WriterOpen);
    }
    {
        let mut truncate = store.truncate()?;
        truncate.truncate_tape(tape, 1)?;
        assert_eq!(all(&truncate, tape)?, b"a");
    }
    assert_eq!(committed(&store, tape)?, b"abc");
    assert_eq!(store.epoch(), 1);
    assert_eq!(append_to(&store, tape, "d")?, 2);
    assert_eq!(committed(&store, tape)?, b"abcd");
    Ok(())
}

/// An error that is handed on with `?` drops the transactions on its way.
#[test]
fn a_writer_is_dropped_on_the_way_out_of_a_function() -> Result<(), Error> {
    fn fails(store: &Store, tape: Tape) -> Result<u64, Error> {
        let mut append = store.append()?;
        append.append_entries(tape, "staged")?;
        append.shift_start(tape, 100)?;
        Ok(append.commit()?)
    }
    let (store, tape) = with_bytes("abc")?;
    assert_eq!(fails(&store, tape), Err(Error::StartPastLength));
    assert_eq!(append_to(&store, tape, "d")?, 2);
    assert_eq!(committed(&store, tape)?, b"abcd");
    Ok(())
}

#[test]
fn dropped_readers_free_their_places() -> Result<(), Error> {
    let (store, _) = with_bytes("abc")?;
    for _ in 0..3 {
        let readers: Vec<Reader> = (0..16).map(|_| store.reader()).collect::<Result<_, _>>()?;
        assert_eq!(store.reader().unwrap_err(), Error::Full);
        drop(readers);
    }
    store.reader()?.close()?;
    Ok(())
}

#[test]
fn a_page_stands_while_others_commit() -> Result<(), Error> {
    let (store, tape) = with_bytes("0123456789")?;
    let page = store.reader()?;
    let mut append = store.append()?;
    append.append_entries(tape, "abcdef")?;
    append.shift_start(tape, 9)?;
    append.commit()?;
    let mut truncate = store.truncate()?;
    truncate.truncate_tape(tape, 2)?;
    truncate.commit()?;
    assert_eq!(all(&page, tape)?, b"0123456789");

    // the keeper waits for this page, and for none that opens now
    let later: Vec<Reader> = (0..3).map(|_| store.reader()).collect::<Result<_, _>>()?;
    assert_eq!(store.append().unwrap_err(), Error::Wait { windows: 1 });
    assert_eq!(all(&page, tape)?, b"0123456789");
    drop(page);
    assert_eq!(append_to(&store, tape, "xyz")?, 4);
    assert_eq!(all(&later[0], tape)?, b"");
    assert_eq!(committed(&store, tape)?, b"xyz");
    Ok(())
}

#[test]
fn popped_and_dropped_entries() -> Result<(), Error> {
    let store = Store::new(8)?;
    let mut append = store.append()?;
    let pairs = append.open("pairs", Shape { entry_size: 2, file_size: 3, cache: 5, ..Shape::default() })?;
    assert_eq!(append.append_entries(pairs, "aabbccdd")?, 0);
    append.shift_start(pairs, 1)?;
    append.commit()?;

    let mut truncate = store.truncate()?;
    assert_eq!(truncate.pop_entry(pairs)?, Some((3, b"dd".to_vec())));
    let mut room = *b"......";
    assert_eq!(truncate.pop_entry_into(pairs, &mut room)?, Some((2, &b"cc"[..])));
    assert_eq!(&room, b"cc....");
    assert_eq!((truncate.start(pairs)?, truncate.len(pairs)?), (1, 2));
    truncate.drop_entries(pairs, 0)?;
    assert_eq!(truncate.read_entry(pairs, 1)?, Some(b"bb".to_vec()));
    assert_eq!(truncate.read_entry_into(pairs, 1, &mut room)?, Some(&b"bb"[..]));
    assert_eq!(truncate.read_entry(pairs, 0)?, None);
    truncate.drop_entries(pairs, 1)?;
    assert_eq!(truncate.pop_entry(pairs)?, None, "the last entry is below the start");
    truncate.drop_entries(pairs, 100)?;
    truncate.commit()?;
    assert_eq!((store.reader()?.start(pairs)?, store.reader()?.len(pairs)?), (0, 0));
    Ok(())
}

#[test]
fn only_the_front_of_a_buffer_is_written() -> Result<(), Error> {
    let (store, tape) = with_bytes("0123456789")?;
    let reader = store.reader()?;
    let mut room = [b'.'; 8];
    assert_eq!(reader.read_entries_into(tape, 2, 3, &mut room)?, b"234");
    assert_eq!(&room, b"234.....");
    assert_eq!(reader.read_entries_into(tape, 2, 9, &mut room), Err(Error::OutOfBounds));
    assert_eq!(reader.read_entries_into(tape, 0, 9, &mut room), Err(Error::NotWhole));
    assert_eq!(&room, b"234.....");
    Ok(())
}

/// Opens the tape again, in a session begun since.
fn reopened<A: Areas>(append: &mut Append<A>) -> Result<Tape, Error> {
    append.open("a", Shape { file_size: 4, cache: 7, ..Shape::default() })
}

#[test]
fn a_session_begun_again_finds_what_was_committed() -> Result<(), Error> {
    let (mut store, tape) = with_bytes("0123456789")?;
    let mut append = store.append()?;
    append.append_entries(tape, "staged, then forgotten")?;
    std::mem::forget(append);
    assert_eq!(store.restart()?, 1);

    let mut append = store.append()?;
    assert_eq!(append.number(), 1);
    assert!(append.exists("a")? && !append.exists("b")?);
    let again = reopened(&mut append)?;
    assert_eq!(all(&append, again)?, b"0123456789");
    assert_eq!(append.len(tape), Err(Error::Unknown), "a tape of the old session, although the numbers are equal");
    assert_eq!(tape.number(), again.number());
    append.append_entries(again, "!")?;
    append.commit()?;

    // and from the disk's bytes alone, in areas of other kinds
    let mut kept = Owned::with_disk(store.copy_disk());
    for _ in 0..2 {
        let borrowed = Store::begin(&mut kept)?;
        assert_eq!(borrowed.epoch(), 2);
        let mut append = borrowed.append()?;
        let tape = reopened(&mut append)?;
        assert_eq!(append.read_entries(tape, 0, 11)?, b"0123456789!");
    }
    Ok(())
}

#[test]
fn lent_areas() -> Result<(), Error> {
    let (mut disk, mut session) = (vec![0xa5; disk_bytes(2) + 10], vec![0xa5; session_bytes() + 10]);
    let mut areas = Lent { disk: &mut disk, session: &mut session };
    format(&mut areas, 2)?;
    let store = Store::begin(areas)?;
    let mut append = store.append()?;
    let tape = reopened(&mut append)?;
    append.append_entries(tape, "lent")?;
    append.commit()?;
    let reader = store.reader()?;
    assert_eq!(reader.read_entries(tape, 0, 4)?, b"lent");
    drop(reader);
    let Lent { disk, session } = store.into_areas();
    assert_eq!((&disk[disk_bytes(2)..], &session[session_bytes()..]), (&[0xa5; 10][..], &[0xa5; 10][..]));
    Ok(())
}

#[test]
fn a_store_of_another_session_does_not_take_a_tape() -> Result<(), Error> {
    let (one, of_one) = with_bytes("one")?;
    let (two, of_two) = with_bytes("two")?;
    assert_eq!(of_one.number(), of_two.number());
    assert_eq!(committed(&two, of_one), Err(Error::Unknown));
    assert_eq!(committed(&one, of_one)?, b"one");
    assert_eq!(committed(&two, of_two)?, b"two");
    Ok(())
}

/// Whole stores may go from thread to thread; transactions borrow one, and stay where it is.
#[test]
fn a_store_may_be_sent() {
    fn is_send<T: Send>(_: &T) {}
    is_send(&Store::new(1));
}
