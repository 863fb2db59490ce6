//! The lister on an image of 65,536 records, beside the crate doing the same.

use crate::same::{self, Cipher, Crate};
use crate::{BATCHES, library};
use driver::call::{Call, Entry};
use driver::oracle::{PAGE, RECORD};
use std::fmt::Write;
use std::fs::{self, File};
use std::path::Path;
use std::process::Command;
use std::time::Instant;
use std::{env, process};

const RECORDS: usize = 1 << 16;

/// What the lister reads: the geometry of 256 pages in 256 banks, the key, and an image with every tenth record wrong.
fn input(key: &[u8]) -> Vec<u8> {
    let mut call = Call {
        entry: Entry::Seal,
        key: key.to_vec(),
        pages: 256,
        banks: 256,
        image: vec![0; RECORD * RECORDS],
        bank: 0,
        at: 0,
        items: Vec::new(),
        bytes: vec![0; PAGE],
    };
    for slot in (0..RECORDS as u32).filter(|slot| slot % 10 != 0) {
        call.bank = slot / 256;
        call.at = slot % 256;
        library::make_in_place(&mut call);
    }
    [&[255, 255], key, &call.image].concat()
}

/// The lister's lines, by the crate.
fn listed(file: &Path) -> String {
    let bytes = fs::read(file).expect("the lister's input");
    let mut cipher = Crate::default();
    cipher.set(&bytes[2..34]);
    let (mut lines, mut right) = (String::new(), 0);
    for (slot, record) in bytes[34..].chunks(RECORD).enumerate() {
        let (bank, page) = (slot / 256, slot % 256);
        let ok = same::looked(&cipher, bank as u8, page as u8, record);
        right += usize::from(ok);
        writeln!(lines, "{bank:02x}:{page:02x} {}", if ok { "ok" } else { "wrong" }).unwrap();
    }
    writeln!(lines, "ok {right} of {RECORDS}").unwrap();
    lines
}

/// Nanoseconds a record: the lister's whole run, and the crate's.
pub fn times(lister: &str, key: &[u8]) -> Vec<Option<f64>> {
    let file = env::temp_dir().join(format!("hingefodder-bench-{}", process::id()));
    fs::write(&file, input(key)).expect("room for the lister's input");
    let mut best = [f64::INFINITY; 2];
    for _ in 0..BATCHES {
        let start = Instant::now();
        let output = Command::new(lister).stdin(File::open(&file).expect("the lister's input")).output().expect("the lister runs");
        best[0] = best[0].min(start.elapsed().as_nanos() as f64);
        let start = Instant::now();
        let lines = listed(&file);
        best[1] = best[1].min(start.elapsed().as_nanos() as f64);
        assert!(output.stdout == lines.as_bytes(), "the lister's lines are not the crate's");
    }
    fs::remove_file(&file).expect("the lister's input");
    best.map(|time| Some(time / RECORDS as f64)).to_vec()
}
