//! A call with every byte that it lends, and its answer.

/// The library's six entries.
#[derive(Clone, Copy, PartialEq, Eq, Debug)]
pub enum Entry {
    Encipher,
    Decipher,
    Seal,
    Read,
    Patch,
    List,
}

/// A patch of a list; its bytes are among those that are lent.
#[repr(C)]
#[derive(Clone, Copy, PartialEq, Eq, Debug)]
pub struct Item {
    pub bank: u32,
    pub offset: u32,
    pub start: u32,
    pub length: u32,
}

/// What a call answers: a refusal's number or 0, a count, the place of the item that is refused, which only a list answers, and by 11 the bank and
/// the page whose record was found.
#[repr(C)]
#[derive(Clone, Copy, PartialEq, Eq, Debug)]
pub struct Answer {
    pub number: u32,
    pub count: u32,
    pub place: u32,
    pub bank: u32,
    pub page: u32,
}

impl Answer {
    const NONE: Answer = Answer { number: 0, count: 0, place: 0, bank: 0, page: 0 };

    pub fn done(count: u32) -> Answer {
        Answer { count, ..Answer::NONE }
    }

    /// Refused, but not for an item, nor for another place's record.
    pub fn refused(number: u32) -> Answer {
        Answer { number, ..Answer::NONE }
    }

    /// Refused, since the record is that of another place.
    pub fn elsewhere(bank: u8, page: u8) -> Answer {
        Answer { number: 11, bank: bank.into(), page: page.into(), ..Answer::NONE }
    }
}

/// A call, before it was made or after. The block directions take the key and the bytes alone.
#[derive(Clone, PartialEq, Eq)]
pub struct Call {
    pub entry: Entry,
    pub key: Vec<u8>,
    pub pages: u32,
    pub banks: u32,
    pub image: Vec<u8>,
    pub bank: u32,
    /// The page number of a seal, the offset of a read or a patch.
    pub at: u32,
    /// The patches of a list, which names neither bank nor offset itself.
    pub items: Vec<Item>,
    /// The block, the plain bytes, the output, the patch, or what the items of a list take their bytes from.
    pub bytes: Vec<u8>,
}

impl Call {
    /// A block direction.
    pub fn on_block(entry: Entry, key: Vec<u8>, block: Vec<u8>) -> Call {
        Call { entry, key, pages: 0, banks: 0, image: Vec::new(), bank: 0, at: 0, items: Vec::new(), bytes: block }
    }
}

/// Bytes in hex.
pub fn hex(bytes: &[u8]) -> String {
    bytes.iter().map(|b| format!("{b:02x}")).collect()
}
