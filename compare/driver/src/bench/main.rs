//! Times the library beside the crate and other libraries, on the same work in one run: `bench FOLDER [LISTER]` writes bench.md and bench.svg there.

mod lister;
mod same;
mod table;

use driver::call::{Call, Entry, Item};
use driver::library;
use driver::oracle::{PAGE, RECORD};
use driver::random::Random;
use same::{Cipher, Crate, Other};
use std::env;
use std::time::{Duration, Instant};
use table::Row;

/// The best of so many batches counts; those of all contenders take turns.
const BATCHES: usize = 15;

/// A batch goes on for about so long.
const BATCH: Duration = Duration::from_millis(5);

/// Makes a thing so many times.
type Run<'a> = Box<dyn FnMut(u32) + 'a>;

/// Nanoseconds of each run's thing, at its best.
fn best(runs: &mut [Run]) -> Vec<f64> {
    let timed = |run: &mut Run, times: u32| {
        let start = Instant::now();
        run(times);
        start.elapsed()
    };
    let times: Vec<u32> = runs
        .iter_mut()
        .map(|run| {
            let mut times = 1;
            while timed(run, times) < BATCH {
                times *= 2;
            }
            times
        })
        .collect();
    let mut best = vec![f64::INFINITY; runs.len()];
    for _ in 0..BATCHES {
        for (i, run) in runs.iter_mut().enumerate() {
            best[i] = best[i].min(timed(run, times[i]).as_nanos() as f64 / f64::from(times[i]));
        }
    }
    best
}

/// The call of a row, on one page after another, with another first byte each time where it writes.
fn turn(call: &mut Call, i: u32) {
    if call.image.is_empty() {
        return;
    }
    let page = i * 7 % call.pages;
    call.bank = i % call.banks;
    call.at = if call.entry == Entry::Seal { page } else { 256 * page + call.at % 256 };
    for (place, item) in (0..).zip(&mut call.items) {
        item.bank = call.bank;
        item.offset = 256 * ((page + place) % call.pages) + item.offset % 256;
    }
    if call.entry != Entry::Read {
        call.bytes[0] = i as u8;
    }
}

fn by_library(mut call: Call) -> Run<'static> {
    Box::new(move |times| {
        for i in 0..times {
            turn(&mut call, i);
            assert_eq!(library::make_in_place(&mut call).number, 0);
        }
    })
}

fn by_other<'a>(mut cipher: impl Cipher + 'a, mut call: Call) -> Run<'a> {
    Box::new(move |times| {
        for i in 0..times {
            turn(&mut call, i);
            assert!(same::make(&mut cipher, &mut call));
        }
    })
}

/// A block each time, under a key that stays set.
fn one_block<'a>(mut cipher: impl Cipher + 'a, key: &[u8], entry: Entry) -> Run<'a> {
    let mut block = [0; 16];
    cipher.set(key);
    Box::new(move |times| {
        for _ in 0..times {
            match entry {
                Entry::Encipher => cipher.encipher(&mut block),
                _ => cipher.decipher(&mut block),
            }
        }
    })
}

/// Fails where another contender leaves other bytes than the library after a few turns of the call.
fn agreed(call: &Call, mut cipher: impl Cipher) {
    let (mut here, mut there) = (call.clone(), call.clone());
    for i in 0..5 {
        turn(&mut here, i);
        turn(&mut there, i);
        library::make_in_place(&mut here);
        same::make(&mut cipher, &mut there);
    }
    assert!(here == there, "{} and the library differ at {:?}", cipher.name(), call.entry);
}

/// The others that take a key of this length.
fn taking(others: &[Other], key: &[u8]) -> impl Iterator<Item = Other> {
    others.iter().copied().filter(|other| other.clone().set(key))
}

/// Times of the library, the crate and the others that take the key, with a gap for each other that does not.
fn spread(library: f64, rest: &[f64], others: &[Other], key: &[u8]) -> Vec<Option<f64>> {
    let mut rest = rest.iter().copied();
    let mut times = vec![Some(library), rest.next()];
    times.extend(others.iter().map(|other| if other.clone().set(key) { rest.next() } else { None }));
    times
}

/// The calls of the bench under one key: on a block, and on an image of 64 pages in each of four banks.
struct Calls {
    key: Vec<u8>,
    image: Vec<u8>,
}

impl Calls {
    fn new(length: usize) -> Calls {
        let mut r = Random::new(length as u64);
        let mut calls = Calls { key: r.bytes(length), image: r.bytes(RECORD * 256) };
        for slot in 0..256 {
            let mut call = Call { bank: slot / 64, at: slot % 64, ..calls.on_image(Entry::Seal, 0, PAGE) };
            r.fill(&mut call.bytes);
            library::make_in_place(&mut call);
            calls.image = call.image;
        }
        calls
    }

    fn on_block(&self, entry: Entry) -> Call {
        Call::on_block(entry, self.key.clone(), vec![0; 16])
    }

    fn on_image(&self, entry: Entry, at: u32, length: usize) -> Call {
        Call { pages: 64, banks: 4, image: self.image.clone(), at, ..Call::on_block(entry, self.key.clone(), vec![0; length]) }
    }

    /// A list of so many patches of one byte, each in another page.
    fn on_pages(&self, at: u32, many: u32) -> Call {
        let items = (0..many).map(|place| Item { bank: 0, offset: at, start: place, length: 1 }).collect();
        Call { items, ..self.on_image(Entry::List, 0, many as usize) }
    }
}

/// What a key's set-up and a block cost the library. Its entries set up with each call, so both are differences: 16 blocks lie between a
/// seal and the call on one block.
fn parts(one_block: f64, seal: f64) -> (f64, f64) {
    let block = (seal - one_block) / 16.0;
    (one_block - block, block)
}

/// The rows on blocks under a key, from runs that all took turns.
fn on_blocks(calls: &Calls, others: &[Other]) -> Vec<Row> {
    let call = calls.on_block(Entry::Encipher);
    let taking: Vec<Other> = taking(others, &calls.key).collect();
    let mut runs = vec![
        by_library(call.clone()),
        by_library(calls.on_image(Entry::Seal, 0, PAGE)),
        by_library(calls.on_image(Entry::Read, 0, PAGE)),
        by_library(calls.on_image(Entry::Read, 0, 1)),
        by_other(Crate::default(), call.clone()),
    ];
    agreed(&call, Crate::default());
    for &other in &taking {
        agreed(&call, other);
        runs.push(by_other(other, call.clone()));
    }
    for entry in [Entry::Encipher, Entry::Decipher] {
        runs.push(one_block(Crate::default(), &calls.key, entry));
        runs.extend(taking.iter().map(|&other| one_block(other, &calls.key, entry)));
    }
    let times = best(&mut runs);
    let (library, rest) = times.split_at(4);
    let (_, forth) = parts(library[0], library[1]);
    let back = (library[2] - library[3]) / 15.0;
    let bits = 8 * calls.key.len();
    let works = [
        (format!("set-up and a block, {bits}-bit key"), None, library[0]),
        (format!("a block enciphered, {bits}-bit key (*)"), Some(1), forth),
        (format!("a block deciphered, {bits}-bit key (*)"), Some(1), back),
    ];
    let rests = rest.chunks(1 + taking.len());
    works
        .into_iter()
        .zip(rests)
        .map(|((what, blocks, library), rest)| Row::new(what, blocks, None, spread(library, rest, others, &calls.key)))
        .collect()
}

/// The row of a call on an image.
fn on_image(what: &str, blocks: u32, call: &Call, calls: &Calls, others: &[Other]) -> Row {
    let mut runs = vec![
        by_library(call.clone()),
        by_library(calls.on_block(Entry::Encipher)),
        by_library(calls.on_image(Entry::Seal, 0, PAGE)),
        by_other(Crate::default(), call.clone()),
    ];
    agreed(call, Crate::default());
    for other in taking(others, &call.key) {
        agreed(call, other);
        runs.push(by_other(other, call.clone()));
    }
    let times = best(&mut runs);
    let (setup, block) = parts(times[1], times[2]);
    let measured = (times[0] - setup) / block;
    Row::new(format!("{what}, 256-bit key"), Some(blocks), Some(measured), spread(times[0], &times[3..], others, &call.key))
}

fn main() {
    let mut words = env::args().skip(1);
    let folder = words.next().expect("bench FOLDER [LISTER]");
    let others = same::others();
    let mut names = vec![String::from("library"), Crate::default().name()];
    names.extend(others.iter().map(Cipher::name));

    let mut rows = Vec::new();
    for length in [16, 24, 32] {
        rows.extend(on_blocks(&Calls::new(length), &others));
    }
    let calls = Calls::new(32);
    for (what, blocks, call) in [
        ("seal of a page", 17, calls.on_image(Entry::Seal, 0, PAGE)),
        ("read of 1 byte", 2, calls.on_image(Entry::Read, 0x37, 1)),
        ("read of 16 bytes, a block", 2, calls.on_image(Entry::Read, 0x30, 16)),
        ("read of 256 bytes", 17, calls.on_image(Entry::Read, 0, PAGE)),
        ("patch of 1 byte, the page's first", 33, calls.on_image(Entry::Patch, 0, 1)),
        ("patch of 1 byte, the page's middle", 17, calls.on_image(Entry::Patch, 128, 1)),
        ("patch of 1 byte, the page's last", 3, calls.on_image(Entry::Patch, 255, 1)),
        ("list of 16 patches of 1 byte in 16 pages", 272, calls.on_pages(128, 16)),
    ] {
        rows.push(on_image(what, blocks, &call, &calls, &others));
    }
    if let Some(lister) = words.next() {
        let times = lister::times(&lister, &calls.key);
        rows.push(Row::new(String::from("lister, each of 65,536 records (**)"), Some(1), None, times));
    }
    table::write(&folder, &names, &rows);
}
