//! The metadata record as the Rust wrote it: read here for the tape list and the epoch, which the Rust's interface doesn't show, and
//! for 17, which is stricter than the Rust. And records that no call writes, for tests: any list, with the right hash around it.

use blake2::{Blake2b, Digest};

/// A tape of the list.
#[derive(Clone, Debug, PartialEq, Eq)]
pub struct Listed {
    pub name: String,
    pub len: u64,
    pub start: u64,
}

/// A record whose hash is right; its list need not decode.
#[derive(Clone, Debug, PartialEq, Eq)]
pub struct Record {
    pub epoch: u64,
    pub list: Vec<u8>,
}

/// What short data and a wrong hash count as.
const EMPTY_LIST: [u8; 4] = [0; 4];

impl Record {
    fn read(mut bytes: &[u8]) -> Option<Self> {
        let _version = take::<4>(&mut bytes)?;
        let hash = take::<32>(&mut bytes)?;
        let epoch = take::<8>(&mut bytes)?;
        let length = u32::from_le_bytes(take(&mut bytes)?) as usize;
        let list = bytes.get(..length)?;

        let record = Self { epoch: u64::from_le_bytes(epoch), list: list.to_vec() };
        (record.hash() == hash).then_some(record)
    }

    fn hash(&self) -> [u8; 32] {
        let mut hasher = Blake2b::new();
        hasher.update("epoch");
        hasher.update(self.epoch.to_le_bytes());
        hasher.update("tapes");
        hasher.update(&self.list);
        hasher.finalize()
    }

    /// As it would stand in a file.
    pub fn written(&self) -> Vec<u8> {
        let length = (self.list.len() as u32).to_le_bytes();
        [&1u32.to_le_bytes()[..], &self.hash(), &self.epoch.to_le_bytes(), &length, &self.list].concat()
    }
}

/// The bytes of a list, of names, lengths and starts as given: nothing is sorted or checked.
pub fn encode_list(tapes: &[(&str, u64, u64)]) -> Vec<u8> {
    let mut bytes = (tapes.len() as u32).to_le_bytes().to_vec();
    for (name, len, start) in tapes {
        bytes.extend((name.len() as u32).to_le_bytes());
        bytes.extend(name.bytes());
        bytes.extend(len.to_le_bytes());
        bytes.extend(start.to_le_bytes());
    }
    bytes
}

/// Left if its epoch is larger, else right.
pub fn choose(left: &[u8], right: &[u8]) -> Record {
    let read = |bytes| Record::read(bytes).unwrap_or(Record { epoch: 0, list: EMPTY_LIST.to_vec() });
    let (left, right) = (read(left), read(right));
    if left.epoch > right.epoch { left } else { right }
}

/// The list, if it keeps document 01's rule; none is 17.
pub fn decode_list(mut bytes: &[u8]) -> Option<Vec<Listed>> {
    let count = u32::from_le_bytes(take(&mut bytes)?);
    if count > 8 {
        return None;
    }

    let mut tapes: Vec<Listed> = Vec::new();
    for _ in 0..count {
        let length = u32::from_le_bytes(take(&mut bytes)?) as usize;
        let (name, rest) = bytes.split_at_checked(length)?;
        bytes = rest;
        let len = u64::from_le_bytes(take(&mut bytes)?);
        let start = u64::from_le_bytes(take(&mut bytes)?);

        let name = valid_name(name)?.to_string();
        let sorted = tapes.last().is_none_or(|last| last.name < name);
        if !sorted || start > len {
            return None;
        }
        tapes.push(Listed { name, len, start });
    }

    bytes.is_empty().then_some(tapes)
}

/// 1 to 24 bytes from a-z, 0-9, `_`, `-`.
pub fn valid_name(name: &[u8]) -> Option<&str> {
    let allowed = |byte: &u8| matches!(byte, b'a'..=b'z' | b'0'..=b'9' | b'_' | b'-');
    let valid = (1..=24).contains(&name.len()) && name.iter().all(allowed);
    valid.then(|| std::str::from_utf8(name).expect("ASCII"))
}

fn take<const N: usize>(bytes: &mut &[u8]) -> Option<[u8; N]> {
    let (taken, rest) = bytes.split_first_chunk()?;
    *bytes = rest;
    Some(*taken)
}
