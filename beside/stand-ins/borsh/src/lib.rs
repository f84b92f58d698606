//! Stand-in for `borsh`: the public Borsh rules for the types that `tapes` stores. Numbers are little-endian; lists, texts and maps
//! have a u32 count before them; maps are written in the order of their keys, and read in any order with later entries winning.

use std::{
    collections::HashMap,
    hash::Hash,
    io::{self, Error, ErrorKind, Read, Write},
};

pub use borsh_derive::{BorshDeserialize, BorshSerialize};

pub trait BorshSerialize {
    fn serialize<W: Write>(&self, writer: &mut W) -> io::Result<()>;
}

pub trait BorshDeserialize: Sized {
    fn deserialize_reader<R: Read>(reader: &mut R) -> io::Result<Self>;
}

pub fn to_vec<T: BorshSerialize>(value: &T) -> io::Result<Vec<u8>> {
    let mut bytes = Vec::new();
    value.serialize(&mut bytes)?;
    Ok(bytes)
}

/// Decodes a value that takes up all of the bytes.
pub fn from_slice<T: BorshDeserialize>(mut bytes: &[u8]) -> io::Result<T> {
    let value = T::deserialize_reader(&mut bytes)?;
    if bytes.is_empty() { Ok(value) } else { Err(Error::new(ErrorKind::InvalidData, "Not all bytes read")) }
}

fn read_array<R: Read, const N: usize>(reader: &mut R) -> io::Result<[u8; N]> {
    let mut bytes = [0; N];
    match reader.read_exact(&mut bytes) {
        Err(e) if e.kind() == ErrorKind::UnexpectedEof => {
            Err(Error::new(ErrorKind::InvalidData, "Unexpected length of input"))
        }
        read => read.map(|()| bytes),
    }
}

fn count_of(length: usize) -> io::Result<u32> {
    u32::try_from(length).map_err(|_| ErrorKind::InvalidData.into())
}

impl<T: BorshSerialize> BorshSerialize for &T {
    fn serialize<W: Write>(&self, writer: &mut W) -> io::Result<()> {
        (**self).serialize(writer)
    }
}

macro_rules! numbers {
    ($($number:ty)*) => {$(
        impl BorshSerialize for $number {
            fn serialize<W: Write>(&self, writer: &mut W) -> io::Result<()> {
                writer.write_all(&self.to_le_bytes())
            }
        }

        impl BorshDeserialize for $number {
            fn deserialize_reader<R: Read>(reader: &mut R) -> io::Result<Self> {
                read_array(reader).map(Self::from_le_bytes)
            }
        }
    )*};
}

numbers! { u32 u64 }

impl BorshSerialize for [u8; 32] {
    fn serialize<W: Write>(&self, writer: &mut W) -> io::Result<()> {
        writer.write_all(self)
    }
}

impl BorshDeserialize for [u8; 32] {
    fn deserialize_reader<R: Read>(reader: &mut R) -> io::Result<Self> {
        read_array(reader)
    }
}

fn write_bytes<W: Write>(bytes: &[u8], writer: &mut W) -> io::Result<()> {
    count_of(bytes.len())?.serialize(writer)?;
    writer.write_all(bytes)
}

impl BorshSerialize for Vec<u8> {
    fn serialize<W: Write>(&self, writer: &mut W) -> io::Result<()> {
        write_bytes(self, writer)
    }
}

impl BorshDeserialize for Vec<u8> {
    /// Takes memory for bytes that are there, never for those that a damaged count only promises.
    fn deserialize_reader<R: Read>(reader: &mut R) -> io::Result<Self> {
        let count = u32::deserialize_reader(reader)?;
        let mut bytes = Vec::new();
        reader.by_ref().take(count.into()).read_to_end(&mut bytes)?;
        if bytes.len() == count as usize {
            Ok(bytes)
        } else {
            Err(Error::new(ErrorKind::InvalidData, "Unexpected length of input"))
        }
    }
}

impl BorshSerialize for Box<str> {
    fn serialize<W: Write>(&self, writer: &mut W) -> io::Result<()> {
        write_bytes(self.as_bytes(), writer)
    }
}

impl BorshDeserialize for Box<str> {
    fn deserialize_reader<R: Read>(reader: &mut R) -> io::Result<Self> {
        let text = String::from_utf8(Vec::deserialize_reader(reader)?);
        text.map(String::into_boxed_str).map_err(|e| Error::new(ErrorKind::InvalidData, e))
    }
}

impl<K: BorshSerialize + Ord, V: BorshSerialize> BorshSerialize for HashMap<K, V> {
    fn serialize<W: Write>(&self, writer: &mut W) -> io::Result<()> {
        count_of(self.len())?.serialize(writer)?;
        let mut entries: Vec<_> = self.iter().collect();
        entries.sort_by_key(|(key, _)| *key);
        entries.iter().try_for_each(|(key, value)| {
            key.serialize(writer)?;
            value.serialize(writer)
        })
    }
}

impl<K: BorshDeserialize + Eq + Hash, V: BorshDeserialize> BorshDeserialize for HashMap<K, V> {
    fn deserialize_reader<R: Read>(reader: &mut R) -> io::Result<Self> {
        let count = u32::deserialize_reader(reader)?;
        (0..count).map(|_| Ok((K::deserialize_reader(reader)?, V::deserialize_reader(reader)?))).collect()
    }
}

#[cfg(test)]
mod tests {
    use super::*;

    #[test]
    fn maps_are_written_by_key_and_read_to_the_last_byte() {
        let map: HashMap<Box<str>, u64> = [("b".into(), 2), ("aa".into(), 1), ("a".into(), 11)].into();
        let bytes = to_vec(&map).unwrap();
        let wanted =
            b"\x03\0\0\0\x01\0\0\0a\x0b\0\0\0\0\0\0\0\x02\0\0\0aa\x01\0\0\0\0\0\0\0\x01\0\0\0b\x02\0\0\0\0\0\0\0";
        assert_eq!(bytes, wanted);
        assert_eq!(from_slice::<HashMap<Box<str>, u64>>(&bytes).unwrap(), map);

        let longer = [bytes.as_slice(), b"\0"].concat();
        let error = from_slice::<HashMap<Box<str>, u64>>(&longer).unwrap_err();
        assert_eq!(error.to_string(), "Not all bytes read");
        assert!(from_slice::<HashMap<Box<str>, u64>>(&bytes[..bytes.len() - 1]).is_err());
    }

    #[test]
    fn a_count_that_only_promises() {
        assert!(from_slice::<Vec<u8>>(b"\xff\xff\xff\xff\x01").is_err());
        assert_eq!(from_slice::<Vec<u8>>(b"\x01\0\0\0\x07").unwrap(), [7]);
    }
}
