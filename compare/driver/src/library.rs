//! The static library's entries, called on buffers with guard bytes before and after them.

use crate::call::{Answer, Call, Entry, Item};

/// What every entry but the list answers.
#[repr(C)]
struct Short {
    number: u32,
    count: u32,
    bank: u32,
    page: u32,
}

impl From<Short> for Answer {
    fn from(Short { number, count, bank, page }: Short) -> Answer {
        Answer { number, count, place: 0, bank, page }
    }
}

#[rustfmt::skip]
unsafe extern "C" {
    fn hf_encipher(key: *const u8, key_length: usize, block: *mut u8, block_length: usize) -> Short;
    fn hf_decipher(key: *const u8, key_length: usize, block: *mut u8, block_length: usize) -> Short;
    fn hf_seal(key: *const u8, key_length: usize, pages: u32, banks: u32, image: *mut u8, image_length: usize,
               bank: u32, page: u32, plain: *const u8, plain_length: usize) -> Short;
    fn hf_read(key: *const u8, key_length: usize, pages: u32, banks: u32, image: *const u8, image_length: usize,
               bank: u32, offset: u32, out: *mut u8, out_length: usize) -> Short;
    fn hf_patch(key: *const u8, key_length: usize, pages: u32, banks: u32, image: *mut u8, image_length: usize,
                bank: u32, offset: u32, bytes: *const u8, bytes_length: usize) -> Short;
    fn hf_patch_list(key: *const u8, key_length: usize, pages: u32, banks: u32, image: *mut u8, image_length: usize,
                     items: *const Item, items_length: usize, bytes: *const u8, bytes_length: usize) -> Answer;
}

/// The guard bytes on each side of a lent buffer.
const GUARD: usize = 64;

/// The guard byte at a place; neighbours differ, so that a copy of one to the other shows.
fn guard(i: usize) -> u8 {
    (i as u8).wrapping_mul(37) ^ 0xa5
}

/// A buffer as it is lent: guard bytes, the buffer, guard bytes.
pub(crate) struct Lent {
    all: Vec<u8>,
    start: usize,
    null: bool,
}

impl Lent {
    /// Where `shift` is odd, an empty buffer is a null pointer.
    pub(crate) fn new(bytes: &[u8], shift: usize) -> Lent {
        let start = GUARD + shift;
        let mut all = Vec::with_capacity(start + bytes.len() + GUARD);
        all.extend((0..start).map(guard));
        all.extend_from_slice(bytes);
        all.extend((all.len()..all.len() + GUARD).map(guard));
        let null = bytes.is_empty() && shift % 2 == 1;
        Lent { all, start, null }
    }

    pub(crate) fn pointer(&mut self) -> *mut u8 {
        if self.null { std::ptr::null_mut() } else { self.all[self.start..].as_mut_ptr() }
    }

    /// The buffer copied back, and the guard bytes that are no longer as they were.
    pub(crate) fn back(&self, name: &str, bytes: &mut [u8], damage: &mut Vec<String>) {
        let end = self.start + bytes.len();
        bytes.copy_from_slice(&self.all[self.start..end]);
        for i in (0..self.start).chain(end..self.all.len()) {
            if self.all[i] != guard(i) {
                let place = i as i64 - self.start as i64;
                damage.push(format!("guard byte {place} of {name}: {:02x} was {:02x}", self.all[i], guard(i)));
            }
        }
    }
}

/// The items' numbers, as bytes in the order in which C has them.
fn laid(items: &[Item]) -> Vec<u8> {
    items.iter().flat_map(|item| [item.bank, item.offset, item.start, item.length]).flat_map(u32::to_ne_bytes).collect()
}

/// Makes the call, with its buffers `shift` bytes from where they would lie; items lie where a number may. Gives its answer, and any guard bytes
/// and items that changed.
pub fn make(call: &mut Call, shift: usize) -> (Answer, Vec<String>) {
    let mut key = Lent::new(&call.key, shift);
    let mut image = Lent::new(&call.image, shift);
    let mut list = laid(&call.items);
    let mut items = Lent::new(&list, if list.is_empty() { shift } else { shift / 4 * 4 });
    let mut bytes = Lent::new(&call.bytes, shift);
    let lent = (items.pointer().cast::<Item>(), call.items.len());
    assert!(call.items.is_empty() || lent.0.is_aligned(), "the items lie where a number may not");
    let answer = raw(call, (key.pointer(), call.key.len()), (image.pointer(), call.image.len()), lent, (bytes.pointer(), call.bytes.len()));
    let mut damage = Vec::new();
    key.back("the key", &mut call.key, &mut damage);
    image.back("the image", &mut call.image, &mut damage);
    items.back("the items", &mut list, &mut damage);
    bytes.back("the bytes", &mut call.bytes, &mut damage);
    if list != laid(&call.items) {
        damage.push(String::from("the items changed"));
    }
    (answer, damage)
}

/// Makes the call where its bytes lie, with nothing around them.
pub fn make_in_place(call: &mut Call) -> Answer {
    let key = (call.key.as_mut_ptr(), call.key.len());
    let image = (call.image.as_mut_ptr(), call.image.len());
    let items = (call.items.as_mut_ptr(), call.items.len());
    let bytes = (call.bytes.as_mut_ptr(), call.bytes.len());
    raw(call, key, image, items, bytes)
}

/// The entry, called with buffers of the call's own lengths.
fn raw(call: &Call, key: (*mut u8, usize), image: (*mut u8, usize), items: (*mut Item, usize), bytes: (*mut u8, usize)) -> Answer {
    let Call { pages, banks, bank, at, .. } = *call;
    // Each pointer is to as many bytes or items as are said beside it, none of them shared.
    unsafe {
        match call.entry {
            Entry::Encipher => hf_encipher(key.0, key.1, bytes.0, bytes.1).into(),
            Entry::Decipher => hf_decipher(key.0, key.1, bytes.0, bytes.1).into(),
            Entry::Seal => hf_seal(key.0, key.1, pages, banks, image.0, image.1, bank, at, bytes.0, bytes.1).into(),
            Entry::Read => hf_read(key.0, key.1, pages, banks, image.0, image.1, bank, at, bytes.0, bytes.1).into(),
            Entry::Patch => hf_patch(key.0, key.1, pages, banks, image.0, image.1, bank, at, bytes.0, bytes.1).into(),
            Entry::List => hf_patch_list(key.0, key.1, pages, banks, image.0, image.1, items.0, items.1, bytes.0, bytes.1),
        }
    }
}
