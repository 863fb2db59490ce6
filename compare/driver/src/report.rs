//! The report on two images, beside the same worked out by the crate page by page.

use crate::library::Lent;
use crate::oracle::{PAGE, RECORD, opened, set_up};
use crate::random::Random;
use twofish::Twofish;

/// What is answered of a bank.
#[repr(C)]
#[derive(Clone, Copy, PartialEq, Eq, Debug, Default)]
struct Changes {
    number: u32,
    changed: u32,
    masks: [u64; 4],
}

/// What is answered of the whole image.
#[repr(C)]
#[derive(Clone, Copy, PartialEq, Eq, Debug, Default)]
struct Totals {
    number: u32,
    same: u32,
    changed: u32,
    unreadable: u32,
}

#[rustfmt::skip]
unsafe extern "C" {
    fn hf_compare_bank(key: *const u8, key_length: usize, pages: u32, banks: u32, old: *const u8, old_length: usize,
                       new: *const u8, new_length: usize, bank: u32) -> Changes;
    fn hf_compare_image(key: *const u8, key_length: usize, pages: u32, banks: u32, old: *const u8, old_length: usize,
                        new: *const u8, new_length: usize) -> Totals;
    fn hf_next_changed(changes: Changes, from: u32) -> u32;
}

/// Two images of one key and geometry, and a bank.
#[derive(Clone)]
pub struct Pair {
    pub key: Vec<u8>,
    pub pages: u32,
    pub banks: u32,
    pub old: Vec<u8>,
    pub new: Vec<u8>,
    pub bank: u32,
}

/// The page of a slot, if its record is that of its place.
fn page(t: &Twofish, image: &[u8], bank: u32, page: u32, pages: u32) -> Option<Vec<u8>> {
    let start = RECORD * (bank * pages + page) as usize;
    let held = opened(t, &image[start..start + RECORD]);
    let mut place = [0; 16];
    [place[0], place[1]] = [bank as u8, page as u8];
    (held[..16] == place).then(|| held[16..16 + PAGE].to_vec())
}

/// Whether a page changed, where it can be read in both images.
fn changed(t: &Twofish, pair: &Pair, bank: u32, number: u32) -> Option<bool> {
    let old = page(t, &pair.old, bank, number, pair.pages)?;
    let new = page(t, &pair.new, bank, number, pair.pages)?;
    Some(old != new)
}

/// The first refusal that holds of both reports, or the crate's schedule.
fn judged(pair: &Pair) -> Result<Twofish, u32> {
    let t = set_up(&pair.key)?;
    if !(1..=256).contains(&pair.pages) || !(1..=256).contains(&pair.banks) {
        return Err(4);
    }
    let length = RECORD * pair.pages as usize * pair.banks as usize;
    if pair.old.len() != length || pair.new.len() != length { Err(5) } else { Ok(t) }
}

fn wanted_changes(pair: &Pair) -> Changes {
    let judged = judged(pair).and_then(|t| if pair.bank < pair.banks { Ok(t) } else { Err(6) });
    let t = match judged {
        Ok(t) => t,
        Err(number) => return Changes { number, ..Changes::default() },
    };
    let mut changes = Changes::default();
    for page in (0..pair.pages).filter(|&page| changed(&t, pair, pair.bank, page) == Some(true)) {
        changes.masks[page as usize / 64] |= 1 << (page % 64);
        changes.changed += 1;
    }
    changes
}

fn wanted_totals(pair: &Pair) -> Totals {
    let t = match judged(pair) {
        Ok(t) => t,
        Err(number) => return Totals { number, ..Totals::default() },
    };
    let mut totals = Totals::default();
    for bank in 0..pair.banks {
        for page in 0..pair.pages {
            match changed(&t, pair, bank, page) {
                Some(false) => totals.same += 1,
                Some(true) => totals.changed += 1,
                None => totals.unreadable += 1,
            }
        }
    }
    totals
}

/// Both reports on the pair, and the changed pages one after another, with guard bytes around the buffers. Counts each answer's number.
pub fn compare(pair: &Pair, r: &mut Random, numbers: &mut [u64; 20]) -> Result<(), String> {
    let Pair { pages, banks, bank, .. } = *pair;
    let mut lent = [&pair.key, &pair.old, &pair.new].map(|bytes| Lent::new(bytes, r.below(16) as usize));
    let lengths = [pair.key.len(), pair.old.len(), pair.new.len()];
    let [key, old, new] = lent.each_mut().map(Lent::pointer);
    // Each pointer is to as many bytes as are said beside it.
    let (changes, totals) = unsafe {
        (
            hf_compare_bank(key, lengths[0], pages, banks, old, lengths[1], new, lengths[2], bank),
            hf_compare_image(key, lengths[0], pages, banks, old, lengths[1], new, lengths[2]),
        )
    };
    let mut damage = Vec::new();
    for (lent, bytes) in lent.iter().zip([&pair.key, &pair.old, &pair.new]) {
        let mut back = bytes.clone();
        lent.back("a buffer", &mut back, &mut damage);
        if back != *bytes {
            damage.push(String::from("a buffer that is only read changed"));
        }
    }
    let wanted = (wanted_changes(pair), wanted_totals(pair));
    if (changes, totals) != wanted || !damage.is_empty() {
        return Err(format!(
            "report with pages {pages}, banks {banks}, bank {bank}: {changes:?} {totals:?}, and by the crate {wanted:?}; {damage:?}"
        ));
    }
    for from in (0..260).chain([u32::MAX]) {
        let next = (from..256).find(|page| changes.masks[*page as usize / 64] >> (page % 64) & 1 == 1).unwrap_or(256);
        let found = unsafe { hf_next_changed(changes, from) };
        if found != next {
            return Err(format!("the next changed page from {from} on, of {:x?}: {found}, not {next}", changes.masks));
        }
    }
    numbers[changes.number as usize] += 1;
    numbers[totals.number as usize] += 1;
    Ok(())
}

/// The numbers that reports answer.
pub const NUMBERS: [usize; 5] = [0, 1, 4, 5, 6];
