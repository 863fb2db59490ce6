//! The cases of one seed: calls on blocks and on images, most of them right, the others wrong in every way that the rules name.

use crate::tally::{Check, Kind};
use driver::call::{Call, Entry, Item};
use driver::oracle::{self, ITEMS, PAGE, RECORD};
use driver::random::Random;
use driver::report::{Pair, compare};
use twofish::Twofish;

/// The key lengths that are taken without a zero after them.
const WHOLE: [usize; 3] = [16, 24, 32];

/// Numbers at which a sum, a product or a narrower type would go wrong.
const EDGES: [u32; 16] = [0, 1, 2, 15, 16, 255, 256, 257, 65_535, 65_536, 65_537, 1 << 24, 1 << 31, u32::MAX - 255, u32::MAX - 1, u32::MAX];

/// Both directions on a key and a block of the lengths that the seed names, 0 to 40 and 0 to 32, and on a key and a block that are taken.
pub fn blocks(seed: u64, check: &mut Check) -> Result<(), String> {
    let mut r = Random::new(seed);
    let key = r.bytes((seed % 41) as usize);
    let block = r.bytes((seed / 41 % 33) as usize);
    let taken = (r.bytes(WHOLE[(seed % 3) as usize]), r.bytes(16));
    for (key, block) in [(key, block), taken] {
        check.lengths(key.len(), block.len());
        for entry in [Entry::Encipher, Entry::Decipher] {
            check.call(Kind::Blocks, &mut r, Call::on_block(entry, key.clone(), block.clone()))?;
        }
    }
    Ok(())
}

/// A key of 1 to 32 bytes, one seed in two of 16, 24 or 32.
fn key(r: &mut Random, seed: u64) -> Vec<u8> {
    let n = seed / 2;
    r.bytes(if seed.is_multiple_of(2) { WHOLE[(n % 3) as usize] } else { 1 + (n % 32) as usize })
}

/// One call on a small image.
pub fn single(seed: u64, check: &mut Check) -> Result<(), String> {
    let mut r = Random::new(seed);
    let key = key(&mut r, seed);
    let (pages, banks) = (1 + r.below(5), 1 + r.below(4));
    let image = image(&mut r, &key, pages, banks);
    let mut call = call(&mut r, &key, (pages, banks), image);
    spoil(&mut r, &mut call);
    check.call(Kind::Single, &mut r, call)?;
    Ok(())
}

/// One list on a small image.
pub fn list(seed: u64, check: &mut Check) -> Result<(), String> {
    let mut r = Random::new(seed);
    let key = key(&mut r, seed);
    let (pages, banks) = (1 + r.below(5), 1 + r.below(4));
    let image = if r.once_in(3) { image(&mut r, &key, pages, banks) } else { right_image(&mut r, &key, pages, banks) };
    let mut call = list_call(&mut r, &key, (pages, banks), image);
    spoil(&mut r, &mut call);
    check.call(Kind::Lists, &mut r, call)?;
    Ok(())
}

/// A series of calls on one image, whose records are damaged now and then between them.
pub fn series(seed: u64, check: &mut Check) -> Result<(), String> {
    let mut r = Random::new(seed);
    let key = key(&mut r, seed);
    let (pages, banks) = (1 + r.below(4), 1 + r.below(3));
    let mut held = image(&mut r, &key, pages, banks);
    for _ in 0..1 + r.below(24) {
        if r.once_in(8) {
            damage(&mut r, &mut held);
        }
        let make = if r.once_in(6) { list_call } else { call };
        let mut call = make(&mut r, &key, (pages, banks), held.clone());
        spoil(&mut r, &mut call);
        let after = check.call(Kind::Series, &mut r, call)?;
        if after.image.len() == held.len() {
            held = after.image;
        }
    }
    Ok(())
}

/// Calls on a large image, at its first and last places and at one between them, and a list of all three.
pub fn large(seed: u64, check: &mut Check) -> Result<(), String> {
    let mut r = Random::new(seed);
    let key = key(&mut r, seed);
    let (pages, banks) = r.one(&[(256, 256), (255, 256), (256, 255), (64, 200), (1, 256), (256, 1)]);
    let mut held = vec![0; RECORD * pages as usize * banks as usize];
    r.fill(&mut held);
    let places = [(0, 0), (banks - 1, pages - 1), (r.below(banks), r.below(pages))];
    for place in places {
        for entry in [Entry::Seal, Entry::Read, Entry::Patch, Entry::Read] {
            let call = call_at(&mut r, entry, &key, (pages, banks), held, place);
            held = check.call(Kind::Large, &mut r, call)?.image;
        }
    }
    let items = places.map(|place| item(&mut r, place, PAGE as u32)).to_vec();
    let call =
        Call { entry: Entry::List, items, bytes: r.bytes(PAGE), ..call_at(&mut r, Entry::Patch, &key, (pages, banks), held, (0, 0)) };
    check.call(Kind::Large, &mut r, call)?;
    Ok(())
}

/// The report on two images, of which the newer has other pages here and there, and now and then something is wrong. Once in a while a bank has pages
/// in every mask.
pub fn report(seed: u64, check: &mut Check) -> Result<(), String> {
    let mut r = Random::new(seed);
    let key = key(&mut r, seed);
    let (pages, banks) = if r.once_in(40) { (r.one(&[64, 65, 200, 256]), 1) } else { (1 + r.below(5), 1 + r.below(4)) };
    let old = if r.once_in(3) { image(&mut r, &key, pages, banks) } else { right_image(&mut r, &key, pages, banks) };
    let mut new = old.clone();
    let other = image(&mut r, &key, pages, banks);
    for slot in 0..(pages * banks) as usize {
        if r.once_in(3) {
            let record = RECORD * slot..RECORD * (slot + 1);
            new[record.clone()].copy_from_slice(&other[record]);
        }
    }
    let mut pair = Pair { key, pages, banks, old, new, bank: r.below(banks) };
    match r.below(12) {
        0 => pair.key = r.bytes((seed % 41) as usize),
        1 => pair.pages = r.one(&EDGES),
        2 => pair.banks = r.one(&EDGES),
        3 => pair.old.truncate(r.below(pair.old.len() as u32) as usize),
        4 => pair.new.push(0),
        5 => pair.bank = r.one(&[banks, 255, 256, u32::MAX]),
        _ => {}
    }
    compare(&pair, &mut r, &mut check.reports)
}

/// An image of records that are right, or wrong in one way or another.
fn image(r: &mut Random, key: &[u8], pages: u32, banks: u32) -> Vec<u8> {
    let t = oracle::set_up(key).expect("a key that is taken");
    let mut image = Vec::new();
    for bank in 0..banks {
        for page in 0..pages {
            let plain = r.bytes(PAGE);
            let mut record = oracle::sealed(&t, bank as u8, page as u8, &plain);
            match r.below(12) {
                0 => r.fill(&mut record),
                1 => r.fill(&mut record[16..]),
                2 => record = oracle::sealed(&t, page as u8, bank as u8, &plain),
                3 => record[r.below(16) as usize] ^= 1 << r.below(8),
                4 => record[16 + r.below(256) as usize] ^= 1 << r.below(8),
                5 => record[..16].copy_from_slice(&near(r, &t, bank as u8, page as u8)),
                _ => {}
            }
            image.extend_from_slice(&record);
        }
    }
    image
}

/// An image whose every record is right.
fn right_image(r: &mut Random, key: &[u8], pages: u32, banks: u32) -> Vec<u8> {
    let t = oracle::set_up(key).expect("a key that is taken");
    let places = (0..banks).flat_map(|bank| (0..pages).map(move |page| (bank as u8, page as u8)));
    places.flat_map(|(bank, page)| oracle::sealed(&t, bank, page, &r.bytes(PAGE))).collect()
}

/// A first block that deciphers to the place block but for one bit.
fn near(r: &mut Random, t: &Twofish, bank: u8, page: u8) -> [u8; 16] {
    let mut block = [0; 16];
    block[0] = bank;
    block[1] = page;
    block[r.below(16) as usize] ^= 1 << r.below(8);
    oracle::encipher(t, &mut block);
    block
}

/// A bit of the image turned, or a record copied over another.
fn damage(r: &mut Random, image: &mut [u8]) {
    if r.once_in(2) {
        let i = r.below(image.len() as u32) as usize;
        image[i] ^= 1 << r.below(8);
    } else {
        let records = (image.len() / RECORD) as u32;
        let [from, to] = [r.below(records), r.below(records)].map(|slot| RECORD * slot as usize);
        image.copy_within(from..from + RECORD, to);
    }
}

/// A call on an image that is right but for the record that it meets.
fn call(r: &mut Random, key: &[u8], (pages, banks): (u32, u32), image: Vec<u8>) -> Call {
    let entry = r.one(&[Entry::Seal, Entry::Read, Entry::Patch]);
    let place = (r.below(banks), r.below(pages));
    call_at(r, entry, key, (pages, banks), image, place)
}

/// The same on a bank's page, with a first byte and a length that are often those of a block or of the page.
fn call_at(r: &mut Random, entry: Entry, key: &[u8], (pages, banks): (u32, u32), image: Vec<u8>, (bank, page): (u32, u32)) -> Call {
    let first = first(r);
    let (at, room) = if entry == Entry::Seal { (page, 256) } else { (256 * page + first, 256 - first) };
    let length = length(r, room);
    let bytes = r.bytes(length as usize);
    Call { entry, key: key.to_vec(), pages, banks, image, bank, at, items: Vec::new(), bytes }
}

/// An access' first byte in its page.
fn first(r: &mut Random) -> u32 {
    match r.below(4) {
        0 => r.one(&[0, 15, 16, 17, 240, 254, 255]),
        1 => 16 * r.below(16),
        _ => r.below(256),
    }
}

/// An access' length, where the page has so much room.
fn length(r: &mut Random, room: u32) -> u32 {
    match r.below(4) {
        0 => 1,
        1 => room,
        _ => 1 + r.below(room),
    }
}

/// A list on an image, on pages anywhere or all on one. Its items share their bytes, and once in three one of them is wrong.
fn list_call(r: &mut Random, key: &[u8], (pages, banks): (u32, u32), image: Vec<u8>) -> Call {
    let many = if r.once_in(16) { r.one(&[ITEMS - 1, ITEMS, ITEMS + 1]) } else { r.below(7) as usize };
    let length = 256 + r.below(300);
    let bytes = r.bytes(length as usize);
    let one = r.once_in(3).then(|| (r.below(banks), r.below(pages)));
    let mut items: Vec<Item> = (0..many)
        .map(|_| {
            let place = one.unwrap_or_else(|| (r.below(banks), r.below(pages)));
            item(r, place, length)
        })
        .collect();
    if !items.is_empty() && r.once_in(3) {
        let i = r.below(many as u32) as usize;
        spoil_item(r, &mut items[i], (pages, banks), length);
    }
    Call { entry: Entry::List, key: key.to_vec(), pages, banks, image, bank: 0, at: 0, items, bytes }
}

/// An item on a bank's page, of so many bytes that are lent.
fn item(r: &mut Random, (bank, page): (u32, u32), lent: u32) -> Item {
    let first = first(r);
    let length = length(r, 256 - first);
    let start = if r.once_in(4) { lent - length } else { r.below(lent - length + 1) };
    Item { bank, offset: 256 * page + first, start, length }
}

/// Up to two of an item's numbers made wrong, or brought to an edge.
fn spoil_item(r: &mut Random, item: &mut Item, (pages, banks): (u32, u32), lent: u32) {
    for _ in 0..1 + r.below(2) {
        match r.below(6) {
            0 => item.bank = number(r, banks),
            1 => item.offset = number(r, 256 * pages),
            2 => item.offset = item.offset / 256 * 256 + 255,
            3 => item.start = number(r, lent - item.length.min(lent)),
            4 => item.length = r.one(&[0, 1, 255, 256, 257, u32::MAX - item.start, 0u32.wrapping_sub(item.start)]),
            _ => (item.start, item.length) = r.one(&[(lent, 0), (lent + 1, 0), (0, lent), (u32::MAX, 2), (2, u32::MAX)]),
        }
    }
}

/// Up to three of the call's parts made wrong, or brought to an edge.
fn spoil(r: &mut Random, call: &mut Call) {
    for _ in 0..r.one(&[0, 0, 0, 0, 1, 1, 1, 2, 3]) {
        match r.below(9) {
            0 => match r.below(3) {
                0 => call.key.push(0),
                1 => call.key = r.bytes(33),
                _ => {
                    let length = r.one(&[0, 1, 8, 15, 17, 23, 25, 31, 40, 64]);
                    call.key = r.bytes(length);
                }
            },
            1 => call.pages = number(r, call.pages),
            2 => call.banks = number(r, call.banks),
            3 => (call.pages, call.banks) = (call.banks, call.pages),
            4 => {
                let length = call.image.len();
                let record = length.saturating_sub(RECORD);
                let length = r.one(&[0, 1, RECORD - 1, RECORD, record, length.saturating_sub(1), length + 1, length + RECORD]);
                call.image.resize(length, 0x3c);
            }
            5 => call.bank = number(r, call.banks),
            6 => {
                let pages = call.pages.saturating_mul(if call.entry == Entry::Seal { 1 } else { 256 });
                call.at = number(r, pages);
            }
            7 => call.at = call.at / 256 * 256 + 255,
            _ => {
                let room = (PAGE - call.at as usize % PAGE) as u32;
                let length = r.one(&[0, 1, room, room + 1, 255, 256, 257, 272, 512, 65_536, 65_537]);
                call.bytes = r.bytes(length as usize);
            }
        }
    }
}

/// A number of the edges, or one beside a bound.
fn number(r: &mut Random, bound: u32) -> u32 {
    if r.once_in(2) { r.one(&EDGES) } else { r.one(&[bound.wrapping_sub(1), bound, bound.wrapping_add(1)]) }
}
