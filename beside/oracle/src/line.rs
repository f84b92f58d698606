//! The driver's lines: fields parted by tabs. `rust/tests` reads its scripts with this file too, in its own, older edition.

/// A longer line, without its end, is unreadable.
pub const LONGEST_LINE: usize = 8500;
/// A read of more bytes (of more entries, if there is no such handle) is unreadable.
pub const LARGEST_READ: u64 = 4096;

/// A readable line. Names are any bytes: whether they keep the rule is the store's to say.
#[derive(Clone, Debug, PartialEq, Eq)]
pub enum Call {
    Format,
    Store,
    Append,
    Reader,
    Truncate,
    Open { transaction: u64, name: Vec<u8>, entry: u64, file: u64, cache: u64, start: u64 },
    Put { transaction: u64, handle: u64, bytes: Vec<u8> },
    Shift { transaction: u64, handle: u64, start: u64 },
    Cut { transaction: u64, handle: u64, length: u64 },
    Read { transaction: u64, handle: u64, offset: u64, count: u64 },
    Commit { transaction: u64 },
    Drop { transaction: u64 },
}

/// Why a line is unreadable. All print the same; the kinds are told apart for the coverage table.
#[derive(Clone, Copy, Debug, PartialEq, Eq, PartialOrd, Ord)]
pub enum Unreadable {
    LongLine,
    CallWord,
    FieldCount,
    NoNumber,
    LargeNumber,
    Hex,
    LargeRead,
}

impl Call {
    /// Reads a line without its end; `entry_size` gives that of an open handle.
    pub fn parse(line: &[u8], entry_size: impl Fn(u64) -> Option<u64>) -> Result<Self, Unreadable> {
        if line.len() > LONGEST_LINE {
            return Err(Unreadable::LongLine);
        }

        let fields: Vec<&[u8]> = line.split(|byte| *byte == b'\t').collect();
        let wanted = match fields[0] {
            b"format" | b"store" | b"append" | b"reader" | b"truncate" => 1,
            b"commit" | b"drop" => 2,
            b"put" | b"shift" | b"cut" => 4,
            b"read" => 5,
            b"open" => 7,
            _ => return Err(Unreadable::CallWord),
        };
        if fields.len() != wanted {
            return Err(Unreadable::FieldCount);
        }

        match Self::from_fields(&fields)? {
            Self::Read { handle, count, .. }
                if count.saturating_mul(entry_size(handle).unwrap_or(1)) > LARGEST_READ =>
            {
                Err(Unreadable::LargeRead)
            }
            call => Ok(call),
        }
    }

    /// Of a known call word with its number of fields.
    fn from_fields(fields: &[&[u8]]) -> Result<Self, Unreadable> {
        let at = |index: usize| number(fields[index]);

        Ok(match fields[0] {
            b"format" => Self::Format,
            b"store" => Self::Store,
            b"append" => Self::Append,
            b"reader" => Self::Reader,
            b"truncate" => Self::Truncate,
            b"commit" => Self::Commit { transaction: at(1)? },
            b"drop" => Self::Drop { transaction: at(1)? },
            b"put" => Self::Put { transaction: at(1)?, handle: at(2)?, bytes: hex(fields[3])? },
            b"shift" => Self::Shift { transaction: at(1)?, handle: at(2)?, start: at(3)? },
            b"cut" => Self::Cut { transaction: at(1)?, handle: at(2)?, length: at(3)? },
            b"read" => Self::Read { transaction: at(1)?, handle: at(2)?, offset: at(3)?, count: at(4)? },
            _ => Self::Open {
                transaction: at(1)?,
                name: fields[2].to_vec(),
                entry: at(3)?,
                file: at(4)?,
                cache: at(5)?,
                start: at(6)?,
            },
        })
    }
}

/// Decimal digits, any number of zeros before them.
fn number(field: &[u8]) -> Result<u64, Unreadable> {
    if field.is_empty() || !field.iter().all(u8::is_ascii_digit) {
        return Err(Unreadable::NoNumber);
    }
    field
        .iter()
        .try_fold(0u64, |value, digit| value.checked_mul(10)?.checked_add(u64::from(digit - b'0')))
        .ok_or(Unreadable::LargeNumber)
}

/// Pairs of lower-case digits; an empty field is no bytes.
fn hex(field: &[u8]) -> Result<Vec<u8>, Unreadable> {
    let digit = |byte: u8| match byte {
        b'0'..=b'9' => Ok(byte - b'0'),
        b'a'..=b'f' => Ok(byte - b'a' + 10),
        _ => Err(Unreadable::Hex),
    };
    let pair = |pair: &[u8]| match *pair {
        [high, low] => Ok(16 * digit(high)? + digit(low)?),
        _ => Err(Unreadable::Hex),
    };
    field.chunks(2).map(pair).collect()
}

#[cfg(test)]
mod tests {
    use super::*;

    fn kind(line: &str) -> Option<Unreadable> {
        Call::parse(line.as_bytes(), |handle| (handle == 1).then_some(8)).err()
    }

    #[test]
    fn numbers_and_hex() {
        assert_eq!(kind("commit\t00000000000000000000018446744073709551615"), None);
        assert_eq!(kind("commit\t18446744073709551616"), Some(Unreadable::LargeNumber));
        for bad in ["", "+1", "-1", " 1", "1\r", "0x1", "1.0"] {
            assert_eq!(kind(&format!("drop\t{bad}")), Some(Unreadable::NoNumber));
        }
        assert_eq!(kind("put\t1\t1\t"), None);
        for bad in ["-", "0", "0A", "0g", "00 "] {
            assert_eq!(kind(&format!("put\t1\t1\t{bad}")), Some(Unreadable::Hex));
        }
    }

    #[test]
    fn words_fields_and_sizes() {
        assert_eq!(kind(""), Some(Unreadable::CallWord));
        assert_eq!(kind("store\r"), Some(Unreadable::CallWord));
        assert_eq!(kind("store\t"), Some(Unreadable::FieldCount));
        assert_eq!(kind("put\t1\t1"), Some(Unreadable::FieldCount));
        assert_eq!(kind("read\t9\t1\t0\t512"), None);
        assert_eq!(kind("read\t9\t1\t0\t513"), Some(Unreadable::LargeRead));
        assert_eq!(kind("read\t9\t2\t0\t4096"), None);
        assert_eq!(kind("read\t9\t2\t0\t4097"), Some(Unreadable::LargeRead));
        assert_eq!(kind(&format!("commit\t{:0>8493}", 1)), None);
        assert_eq!(kind(&format!("commit\t{:0>8494}", 1)), Some(Unreadable::LongLine));
    }
}
