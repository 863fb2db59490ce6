//! Cases without a seed: the bench values of the rules, with their numbers written out, and lengths that 32 bits do not hold.

use crate::tally::{Check, Kind};
use driver::call::{Answer, Call, Entry, Item};
use driver::library;
use driver::oracle::RECORD;
use driver::random::Random;

/// Fails with a line where something is not as it is to be.
fn wanted(holds: bool, what: &str) -> Result<(), String> {
    if holds { Ok(()) } else { Err(format!("Bench: {what}")) }
}

/// Pages 64, bank 3, page 2 is slot 194 at byte 52,768, and the patches of the rules there.
pub fn bench_values(check: &mut Check) -> Result<(), String> {
    let mut r = Random::new(0);
    let key = r.bytes(32);
    let image = r.bytes(RECORD * 64 * 4);
    let call = |entry, image: &[u8], at, bytes: &[u8]| Call {
        entry,
        key: key.clone(),
        pages: 64,
        banks: 4,
        image: image.to_vec(),
        bank: 3,
        at,
        items: Vec::new(),
        bytes: bytes.to_vec(),
    };
    let changed = |before: &[u8], after: &[u8]| (0..before.len()).filter(|&i| before[i] != after[i]).collect::<Vec<_>>();

    let sealed = check.call(Kind::Bench, &mut r, call(Entry::Seal, &image, 2, &[0x5a; 256]))?.image;
    let places = changed(&image, &sealed);
    wanted(places.iter().all(|i| (52_768..53_040).contains(i)), "a seal of bank 3, page 2 of 64 lies at byte 52,768")?;
    wanted(places.len() > 200, "a seal changes its record")?;

    let mut patched = call(Entry::Patch, &sealed, 0x0237, &[0xa5]);
    let (answer, _) = library::make(&mut patched, 0);
    wanted(answer == Answer::done(13), "a patch of one byte at 0x0237 counts 13")?;
    let places = changed(&sealed, &patched.image);
    wanted(places.iter().all(|i| (52_832..53_040).contains(i)), "it changes nothing before byte 64 of its record")?;
    check.call(Kind::Bench, &mut r, call(Entry::Patch, &sealed, 0x0237, &[0xa5]))?;

    let mut same = call(Entry::Patch, &sealed, 0x0237, &[0x5a]);
    let (answer, _) = library::make(&mut same, 0);
    wanted(answer == Answer::done(13), "a patch of the byte that is there counts the same")?;
    wanted(same.image == sealed, "a patch of the byte that is there changes no byte")?;

    for (bytes, said) in [(&[1u8] as &[u8], Answer::done(1)), (&[1, 2], Answer::refused(7))] {
        let (answer, _) = library::make(&mut call(Entry::Patch, &sealed, 0x02ff, bytes), 0);
        wanted(answer == said, "at 0x02ff a patch takes one byte and counts 1, and two bytes are 7")?;
        check.call(Kind::Bench, &mut r, call(Entry::Patch, &sealed, 0x02ff, bytes))?;
        check.call(Kind::Bench, &mut r, call(Entry::Read, &sealed, 0x02ff, bytes))?;
    }
    Ok(())
}

/// A length of 2^32 and a few bytes more, which 32 bits would cut down to one that is taken. Nothing of such a buffer is looked at, but for the bytes
/// of a list whose one item takes the last two.
pub fn huge(check: &mut Check) -> Result<(), String> {
    const PAST: usize = 1 << 32;
    let mut vast = vec![0; PAST + RECORD];
    let mut right = Call { pages: 1, banks: 1, image: vec![0; RECORD], ..Call::on_block(Entry::Seal, vec![0; 32], vec![7; 16]) };
    library::make_in_place(&mut right);
    for (entry, of, length, number) in [
        (Entry::Encipher, 'k', PAST + 16, 1),
        (Entry::Decipher, 'k', PAST + 32, 1),
        (Entry::Encipher, 'b', PAST + 16, 3),
        (Entry::Decipher, 'b', PAST + 16, 3),
        (Entry::Seal, 'k', PAST + 24, 1),
        (Entry::Seal, 'i', PAST + RECORD, 5),
        (Entry::Seal, 'b', PAST + 1, 7),
        (Entry::Read, 'i', PAST + RECORD, 5),
        (Entry::Read, 'b', PAST + 1, 7),
        (Entry::Patch, 'i', PAST + RECORD, 5),
        (Entry::Patch, 'b', PAST + 1, 7),
        (Entry::List, 'k', PAST + 32, 1),
        (Entry::List, 'i', PAST + RECORD, 5),
        (Entry::List, 'b', PAST, 9),
        (Entry::List, 'b', PAST + 1, 0),
    ] {
        let mut call = Call { entry, items: vec![Item { bank: 0, offset: 0, start: u32::MAX, length: 2 }], ..right.clone() };
        vast.resize(length, 0);
        let lent = match of {
            'k' => &mut call.key,
            'i' => &mut call.image,
            _ => &mut call.bytes,
        };
        std::mem::swap(lent, &mut vast);
        let answer = library::make_in_place(&mut call);
        let lent = match of {
            'k' => &mut call.key,
            'i' => &mut call.image,
            _ => &mut call.bytes,
        };
        std::mem::swap(lent, &mut vast);
        let said = if number == 0 { Answer::done(16) } else { Answer::refused(number) };
        wanted(answer == said, &format!("{entry:?} with {length} bytes ({of}) answered {answer:?}, not {number}"))?;
        wanted(vast.chunks(RECORD).all(|part| part == &[0; RECORD][..part.len()]), "a call changed a lent buffer past 2^32 bytes")?;
        check.count(Kind::Huge, entry, number);
    }
    Ok(())
}
