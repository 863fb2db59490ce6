//! The work of the library's entries, made by any other Twofish: a key is set with each call, and only the blocks that are needed are turned.

use cipher::KeyInit;
use driver::call::{Call, Entry, Item};
use driver::oracle::{self, PAGE, RECORD};
use std::ffi::{CStr, c_char};
use twofish::Twofish;

pub trait Cipher {
    fn name(&self) -> String;
    /// Whether a key of this length is taken.
    fn set(&mut self, key: &[u8]) -> bool;
    fn encipher(&self, block: &mut [u8; 16]);
    fn decipher(&self, block: &mut [u8; 16]);
}

/// The crate.
#[derive(Default)]
pub struct Crate(Option<Twofish>);

impl Cipher for Crate {
    fn name(&self) -> String {
        String::from("crate")
    }

    fn set(&mut self, key: &[u8]) -> bool {
        self.0 = Twofish::new_from_slice(key).ok();
        self.0.is_some()
    }

    fn encipher(&self, block: &mut [u8; 16]) {
        oracle::encipher(self.0.as_ref().expect("a key that was set"), block);
    }

    fn decipher(&self, block: &mut [u8; 16]) {
        oracle::decipher(self.0.as_ref().expect("a key that was set"), block);
    }
}

/// Another library, as others.h has it.
#[repr(C)]
#[derive(Clone, Copy)]
pub struct Other {
    name: *const c_char,
    set: Option<unsafe extern "C" fn(*const u8, usize) -> bool>,
    encipher: Option<unsafe extern "C" fn(*mut u8)>,
    decipher: Option<unsafe extern "C" fn(*mut u8)>,
}

unsafe extern "C" {
    #[link_name = "others"]
    static OTHERS: Other;
}

/// Those that are installed.
pub fn others() -> Vec<Other> {
    let first = &raw const OTHERS;
    // The list ends with one that has no name, and each before it has all that others.h says.
    (0..).map(|i| unsafe { *first.add(i) }).take_while(|other| !other.name.is_null()).collect()
}

impl Cipher for Other {
    fn name(&self) -> String {
        unsafe { CStr::from_ptr(self.name) }.to_string_lossy().into_owned()
    }

    fn set(&mut self, key: &[u8]) -> bool {
        self.set.is_some_and(|set| unsafe { set(key.as_ptr(), key.len()) })
    }

    fn encipher(&self, block: &mut [u8; 16]) {
        if let Some(encipher) = self.encipher {
            unsafe { encipher(block.as_mut_ptr()) }
        }
    }

    fn decipher(&self, block: &mut [u8; 16]) {
        if let Some(decipher) = self.decipher {
            unsafe { decipher(block.as_mut_ptr()) }
        }
    }
}

fn xor(block: &mut [u8; 16], chain: &[u8; 16]) {
    for (b, c) in block.iter_mut().zip(chain) {
        *b ^= c;
    }
}

/// Makes a call that the library takes. Whether it is done: not where the key's length is not taken, or the record is of another place.
pub fn make(cipher: &mut impl Cipher, call: &mut Call) -> bool {
    if !cipher.set(&call.key) {
        return false;
    }
    if call.entry == Entry::List {
        return on_records(cipher, call);
    }
    let Ok(block) = call.bytes.as_mut_slice().try_into() else {
        return on_record(cipher, call);
    };
    match call.entry {
        Entry::Encipher => cipher.encipher(block),
        Entry::Decipher => cipher.decipher(block),
        _ => return on_record(cipher, call),
    }
    true
}

fn place(bank: u8, page: u8) -> [u8; 16] {
    let mut place = [0; 16];
    place[0] = bank;
    place[1] = page;
    place
}

/// Whether a record is that of a place.
pub fn looked(cipher: &impl Cipher, bank: u8, page: u8, record: &[u8]) -> bool {
    let mut first = [0; 16];
    first.copy_from_slice(&record[..16]);
    cipher.decipher(&mut first);
    first == place(bank, page)
}

/// The same for a seal, a read or a patch.
fn on_record(cipher: &impl Cipher, call: &mut Call) -> bool {
    let sealing = call.entry == Entry::Seal;
    let (page, first) = if sealing { (call.at, 0) } else { (call.at / 256, call.at as usize % PAGE) };
    let start = RECORD * (call.bank * call.pages + page) as usize;
    let (bank, page) = (call.bank as u8, page as u8);
    let record = &mut call.image[start..start + RECORD];
    if !sealing && !looked(cipher, bank, page, record) {
        return false;
    }
    let (blocks, _) = record.as_chunks_mut();
    if sealing {
        blocks[0] = place(bank, page);
        cipher.encipher(&mut blocks[0]);
        let mut plain = [0; PAGE];
        plain[..call.bytes.len()].copy_from_slice(&call.bytes);
        chain(cipher, blocks, plain.as_chunks().0, 1);
        return true;
    }
    if call.entry == Entry::Read {
        let end = first + call.bytes.len();
        call.bytes.copy_from_slice(&opened(cipher, blocks, first, end)[first..end]);
    } else {
        patch(cipher, blocks, first, &call.bytes);
    }
    true
}

/// The same for a list: every record is looked at once, and then the patches are made.
fn on_records(cipher: &impl Cipher, call: &mut Call) -> bool {
    let start = |item: &Item| RECORD * (item.bank * call.pages + item.offset / 256) as usize;
    let its_own = |item: &Item| looked(cipher, item.bank as u8, (item.offset / 256) as u8, &call.image[start(item)..][..RECORD]);
    if !call.items.iter().all(its_own) {
        return false;
    }
    for item in &call.items {
        let (blocks, _) = call.image[start(item)..][..RECORD].as_chunks_mut();
        patch(cipher, blocks, item.offset as usize % PAGE, &call.bytes[item.start as usize..][..item.length as usize]);
    }
    true
}

/// The plain bytes of the blocks that hold those of the page from the first up to the end, at their places in the page.
fn opened(cipher: &impl Cipher, blocks: &[[u8; 16]], first: usize, end: usize) -> [u8; PAGE] {
    let mut plain = [0; PAGE];
    for (i, block) in plain.as_chunks_mut().0.iter_mut().enumerate().take(end.div_ceil(16)).skip(first / 16) {
        *block = blocks[i + 1];
        cipher.decipher(block);
        xor(block, &blocks[i]);
    }
    plain
}

/// Bytes of a record's page replaced from the first on.
fn patch(cipher: &impl Cipher, blocks: &mut [[u8; 16]], first: usize, bytes: &[u8]) {
    let mut plain = opened(cipher, blocks, first, PAGE);
    plain[first..first + bytes.len()].copy_from_slice(bytes);
    chain(cipher, blocks, plain.as_chunks().0, first / 16 + 1);
}

/// Blocks of a record from one on, enciphered in CBC over the page's plain blocks.
fn chain(cipher: &impl Cipher, blocks: &mut [[u8; 16]], plain: &[[u8; 16]], from: usize) {
    for i in from..blocks.len() {
        let mut block = plain[i - 1];
        xor(&mut block, &blocks[i - 1]);
        cipher.encipher(&mut block);
        blocks[i] = block;
    }
}
