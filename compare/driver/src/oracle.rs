//! The same calls made by the crate: a short CBC over its two block directions, written from the rules and not from the library.

use crate::call::{Answer, Call, Entry, Item};
use cipher::{BlockCipherDecBackend, BlockCipherEncBackend, InOut, KeyInit};
use std::ops::Range;
use twofish::Twofish;

/// The bytes of a page and of a record.
pub const PAGE: usize = 256;
pub const RECORD: usize = 272;

pub fn encipher(t: &Twofish, block: &mut [u8; 16]) {
    t.encrypt_block(InOut::from(block));
}

pub fn decipher(t: &Twofish, block: &mut [u8; 16]) {
    t.decrypt_block(InOut::from(block));
}

fn xor(block: &mut [u8; 16], chain: &[u8; 16]) {
    for (b, c) in block.iter_mut().zip(chain) {
        *b ^= c;
    }
}

/// CBC with a zero first chaining block, over the place block and the page, which bytes of ff fill at its end.
pub fn sealed(t: &Twofish, bank: u8, page: u8, plain: &[u8]) -> [u8; RECORD] {
    let mut record = [0xff; RECORD];
    record[..16].fill(0);
    record[0] = bank;
    record[1] = page;
    record[16..16 + plain.len()].copy_from_slice(plain);
    let mut chain = [0; 16];
    for block in record.as_chunks_mut().0 {
        xor(block, &chain);
        encipher(t, block);
        chain = *block;
    }
    record
}

/// What the record holds by that CBC: a place block and a page.
pub fn opened(t: &Twofish, record: &[u8]) -> Vec<u8> {
    let mut held = record.to_vec();
    let mut chain = [0; 16];
    for block in held.as_chunks_mut().0 {
        let next = *block;
        decipher(t, block);
        xor(block, &chain);
        chain = next;
    }
    held
}

/// The most items of a list.
pub const ITEMS: usize = 64;

/// Makes the call.
pub fn make(call: &mut Call) -> Answer {
    made(call).map_or_else(|refused| refused, Answer::done)
}

/// The number of a refusal that is not an item's.
impl From<u32> for Answer {
    fn from(number: u32) -> Answer {
        Answer::refused(number)
    }
}

/// The crate under a key of 1 to 32 bytes, or refusal 1. The crate takes 16, 24 and 32 bytes, so zeros follow the key up to the next of these.
pub fn set_up(key: &[u8]) -> Result<Twofish, u32> {
    if key.is_empty() || key.len() > 32 {
        return Err(1);
    }
    let mut padded = key.to_vec();
    while ![16, 24, 32].contains(&padded.len()) {
        padded.push(0);
    }
    Ok(Twofish::new_from_slice(&padded).expect("a key of 16, 24 or 32 bytes"))
}

/// The count, or the first refusal that holds.
fn made(call: &mut Call) -> Result<u32, Answer> {
    let t = set_up(&call.key)?;
    match call.entry {
        Entry::Encipher => encipher(&t, block_of(call)?),
        Entry::Decipher => decipher(&t, block_of(call)?),
        Entry::Seal => {
            let length = call.bytes.len();
            let Place { bank, page, record, .. } = placed(call, call.bank, call.at, 0, length)?;
            call.image[record].copy_from_slice(&sealed(&t, bank, page, &call.bytes));
            return Ok(17);
        }
        Entry::Read => {
            let length = call.bytes.len();
            let place = reached(call, call.bank, call.at, length)?;
            let held = held(&t, call, &place)?;
            call.bytes.copy_from_slice(&held[place.first..place.first + length]);
        }
        Entry::Patch => return patched(&t, call, call.bank, call.at, &call.bytes.clone()),
        Entry::List => return listed(&t, call),
    }
    Ok(0)
}

/// The patches of a list made one by one, in its order. Every one is judged on the image as it came, before the first is made.
fn listed(t: &Twofish, call: &mut Call) -> Result<u32, Answer> {
    formed(call)?;
    if call.items.len() > ITEMS {
        return Err(Answer::refused(10));
    }
    for (place, item) in (0..).zip(&call.items) {
        judged(t, call, item).map_err(|refused| Answer { place, ..refused })?;
    }
    let mut count = 0;
    for Item { bank, offset, start, length } in call.items.clone() {
        let bytes = call.bytes[start as usize..][..length as usize].to_vec();
        count += patched(t, call, bank, offset, &bytes).expect("an item that is taken");
    }
    Ok(count)
}

/// Whether an item is taken, or its first refusal.
fn judged(t: &Twofish, call: &Call, item: &Item) -> Result<(), Answer> {
    let length = item.length as usize;
    if item.start as usize + length > call.bytes.len() {
        return Err(Answer::refused(9));
    }
    let place = reached(call, item.bank, item.offset, length)?;
    held(t, call, &place)?;
    Ok(())
}

/// A patch made, and its count.
fn patched(t: &Twofish, call: &mut Call, bank: u32, offset: u32, bytes: &[u8]) -> Result<u32, Answer> {
    let place = reached(call, bank, offset, bytes.len())?;
    let mut held = held(t, call, &place)?;
    held[place.first..place.first + bytes.len()].copy_from_slice(bytes);
    call.image[place.record].copy_from_slice(&sealed(t, place.bank, place.page, &held));
    Ok(16 - place.first as u32 / 16)
}

/// The block of a block direction, or refusal 3.
fn block_of(call: &mut Call) -> Result<&mut [u8; 16], u32> {
    call.bytes.as_mut_slice().try_into().map_err(|_| 3)
}

/// Where a call on an image goes: the page, its record in the image, and the call's first byte in the page.
struct Place {
    bank: u8,
    page: u8,
    record: Range<usize>,
    first: usize,
}

/// Refusals 4 and 5. The product is taken wide enough.
fn formed(call: &Call) -> Result<(), u32> {
    let [pages, banks] = [call.pages, call.banks].map(|n| n as usize);
    if !(1..=256).contains(&pages) || !(1..=256).contains(&banks) {
        return Err(4);
    }
    if call.image.len() != RECORD * pages * banks {
        return Err(5);
    }
    Ok(())
}

/// The place of an access by its offset.
fn reached(call: &Call, bank: u32, offset: u32, length: usize) -> Result<Place, u32> {
    placed(call, bank, offset / 256, offset as usize % PAGE, length)
}

/// The place of a page's bytes from the first on, or the lowest refusal from 4 to 7 that holds.
fn placed(call: &Call, bank: u32, page: u32, first: usize, length: usize) -> Result<Place, u32> {
    formed(call)?;
    if bank >= call.banks || page >= call.pages {
        return Err(6);
    }
    if length == 0 || length > PAGE || first + length > PAGE {
        return Err(7);
    }
    let start = RECORD * (bank * call.pages + page) as usize;
    Ok(Place { bank: bank as u8, page: page as u8, record: start..start + RECORD, first })
}

/// The page that the record at a place holds; or refusal 11, where its first block names another place, and 8 where it names none.
fn held(t: &Twofish, call: &Call, place: &Place) -> Result<Vec<u8>, Answer> {
    let mut held = opened(t, &call.image[place.record.clone()]);
    let page = held.split_off(16);
    if held[2..] != [0; 14] {
        return Err(Answer::refused(8));
    }
    if (held[0], held[1]) != (place.bank, place.page) {
        return Err(Answer::elsewhere(held[0], held[1]));
    }
    Ok(page)
}
