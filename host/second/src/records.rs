//! One line of a log as a record.
//!
//! "One record a line, fields parted by one tab, decimal numbers with no leading zeros, lists parted by commas, `-` for an empty list. `-0` is
//! unreadable. A line over 512 bytes [..], an empty line, a wrong field count, a number too large for its field or anything not of these forms is 14."

use crate::store::Write;

/// "The first letter picks the record: O partitions, own, k; D identity, partition set, st, reads, writes as key=value; V identity, partition, Y or N;
/// K k; R key, st (`-` means SC)."
///
/// The two lists of a delivery stand in the [`Lists`] that were handed in.
#[derive(Clone, Copy, Debug, PartialEq, Eq)]
pub enum Record {
    Opening { partitions: u8, own: u8, k: u16 },
    Delivery { identity: u32, partitions: u8, st: u32 },
    Vote { identity: u32, partition: u8, yes: bool },
    Change { k: u16 },
    Read { key: u16, st: Option<u32> },
}

/// The lists of the delivery read last, of any length that fits a line: "more than 8" is another number than 14.
#[derive(Debug, Default)]
pub struct Lists {
    pub reads: Vec<u16>,
    pub writes: Vec<Write>,
}

/// The record that a line is, without its newline, or none if the line is unreadable.
pub fn read_record(line: &[u8], lists: &mut Lists) -> Option<Record> {
    let (&letter, rest) = line.split_first()?;
    let mut fields = Fields { rest };
    let record = match letter {
        b'O' => Record::Opening { partitions: fields.small()?, own: fields.small()?, k: fields.medium()? },
        b'D' => fields.delivery(lists)?,
        b'V' => Record::Vote { identity: fields.large()?, partition: fields.small()?, yes: fields.yes_or_no()? },
        b'K' => Record::Change { k: fields.medium()? },
        b'R' => Record::Read { key: fields.medium()?, st: fields.snapshot()? },
        _ => return None,
    };
    fields.rest.is_empty().then_some(record)
}

/// What is left of the line.
struct Fields<'a> {
    rest: &'a [u8],
}

impl Fields<'_> {
    fn delivery(&mut self, lists: &mut Lists) -> Option<Record> {
        let record = Record::Delivery { identity: self.large()?, partitions: self.small()?, st: self.large()? };
        self.list(&mut lists.reads, |item| item.number()?.try_into().ok())?;
        self.list(&mut lists.writes, Self::write)?;
        Some(record)
    }

    /// "Field limits: partition set, partition number and partition count 255"
    fn small(&mut self) -> Option<u8> {
        self.tab()?;
        self.number()?.try_into().ok()
    }

    /// "key and k 65,535"
    fn medium(&mut self) -> Option<u16> {
        self.tab()?;
        self.number()?.try_into().ok()
    }

    /// "st and identity 4,294,967,295"
    fn large(&mut self) -> Option<u32> {
        self.tab()?;
        self.number()?.try_into().ok()
    }

    /// "st (`-` means SC)"
    fn snapshot(&mut self) -> Option<Option<u32>> {
        if self.skip(b"\t-") {
            return Some(None);
        }
        self.large().map(Some)
    }

    fn yes_or_no(&mut self) -> Option<bool> {
        if self.skip(b"\tY") {
            return Some(true);
        }
        self.skip(b"\tN").then_some(false)
    }

    /// "lists parted by commas, `-` for an empty list"
    fn list<T>(&mut self, items: &mut Vec<T>, item: impl Fn(&mut Self) -> Option<T>) -> Option<()> {
        items.clear();
        self.tab()?;
        if self.skip(b"-") {
            return Some(());
        }
        loop {
            items.push(item(self)?);
            if !self.skip(b",") {
                return Some(());
            }
        }
    }

    /// "writes as key=value"
    fn write(&mut self) -> Option<Write> {
        let key = self.number()?.try_into().ok()?;
        if !self.skip(b"=") {
            return None;
        }
        Some(Write { key, value: self.value()? })
    }

    /// "value signed 64-bit", "`-0` is unreadable"
    fn value(&mut self) -> Option<i64> {
        if !self.skip(b"-") {
            return self.number()?.try_into().ok();
        }
        match self.number()? {
            0 => None,
            magnitude => 0i64.checked_sub_unsigned(magnitude),
        }
    }

    /// "decimal numbers with no leading zeros"
    fn number(&mut self) -> Option<u64> {
        const LONGEST: usize = 19; // digits; a longer one is too large for every field, and a shorter one fits 64 bits
        let mut number = 0;
        let mut length = 0;
        while let Some(digit @ b'0'..=b'9') = self.rest.get(length) {
            if length == LONGEST {
                return None;
            }
            number = number * 10 + u64::from(digit - b'0');
            length += 1;
        }
        if length == 0 || (length > 1 && self.rest[0] == b'0') {
            return None;
        }
        self.rest = &self.rest[length..];
        Some(number)
    }

    fn tab(&mut self) -> Option<()> {
        self.skip(b"\t").then_some(())
    }

    fn skip<const N: usize>(&mut self, bytes: &[u8; N]) -> bool {
        match self.rest.strip_prefix(bytes) {
            Some(rest) => {
                self.rest = rest;
                true
            }
            None => false,
        }
    }
}
