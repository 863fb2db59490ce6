//! A call made by the library and by the crate and held side by side, and the count of what was met.

use driver::call::{Answer, Call, Entry, Item, hex};
use driver::random::Random;
use driver::{library, oracle, report, settings};
use std::collections::BTreeSet;
use std::fmt::Write;

/// The kinds of cases.
#[derive(Clone, Copy, Debug)]
pub enum Kind {
    Bench,
    Blocks,
    Single,
    Lists,
    Series,
    Large,
    Huge,
}

const KINDS: [Kind; 7] = [Kind::Bench, Kind::Blocks, Kind::Single, Kind::Lists, Kind::Series, Kind::Large, Kind::Huge];

const ENTRIES: [(Entry, &[usize]); 6] = [
    (Entry::Encipher, &[0, 1, 3]),
    (Entry::Decipher, &[0, 1, 3]),
    (Entry::Seal, &[0, 1, 4, 5, 6, 7]),
    (Entry::Read, &[0, 1, 4, 5, 6, 7, 8, 11]),
    (Entry::Patch, &[0, 1, 4, 5, 6, 7, 8, 11]),
    (Entry::List, &[0, 1, 4, 5, 6, 7, 8, 9, 10, 11]),
];

/// How many calls of each kind were made, which answers each entry gave, and which lengths of key and block the directions met.
#[derive(Default)]
pub struct Check {
    calls: [u64; KINDS.len()],
    answers: [[u64; 12]; ENTRIES.len()],
    lengths: BTreeSet<(usize, usize)>,
    /// Which answers the calls on a store of settings gave.
    pub settings: [u64; 20],
    /// And the reports on two images.
    pub reports: [u64; 20],
}

impl Check {
    /// The call as it is after it was made, where library and crate agree in the answer and in every byte; otherwise both in full.
    pub fn call(&mut self, kind: Kind, r: &mut Random, call: Call) -> Result<Call, String> {
        let shift = r.below(16) as usize;
        let mut wanted = call.clone();
        let answer = oracle::make(&mut wanted);
        let mut got = call.clone();
        let (given, damage) = library::make(&mut got, shift);
        if given != answer || got != wanted || !damage.is_empty() {
            return Err(report(kind, &call, (answer, &wanted), (given, &got), &damage));
        }
        self.count(kind, call.entry, answer.number);
        Ok(wanted)
    }

    /// Counts a call that was made and found right.
    pub fn count(&mut self, kind: Kind, entry: Entry, number: u32) {
        self.calls[kind as usize] += 1;
        self.answers[entry as usize][number as usize] += 1;
    }

    /// Notes the lengths of a key and a block.
    pub fn lengths(&mut self, key: usize, block: usize) {
        self.lengths.insert((key, block));
    }

    /// The summary.
    pub fn summary(&self) -> String {
        let mut text = String::from("calls:");
        for kind in KINDS {
            write!(text, " {kind:?} {},", self.calls[kind as usize]).unwrap();
        }
        writeln!(text, " pairs of key and block lengths {}", self.lengths.len()).unwrap();
        for (entry, numbers) in ENTRIES {
            write!(text, "{entry:?}:").unwrap();
            for &number in numbers {
                write!(text, " number {number}: {},", self.answers[entry as usize][number]).unwrap();
            }
            text.pop();
            text.push('\n');
        }
        for (kind, numbers, met) in self.others() {
            write!(text, "{kind}:").unwrap();
            for &number in numbers {
                write!(text, " number {number}: {},", met[number]).unwrap();
            }
            text.pop();
            text.push('\n');
        }
        text
    }

    /// The calls that are no entry of an image: the numbers that they answer, and how often each was met.
    fn others(&self) -> [(&str, &[usize], &[u64; 20]); 2] {
        [("Settings", &settings::NUMBERS, &self.settings), ("Reports", &report::NUMBERS, &self.reports)]
    }

    /// The first answer that no call met, if there is one.
    pub fn never_met(&self) -> Option<String> {
        for (entry, numbers) in ENTRIES {
            for &number in numbers {
                if self.answers[entry as usize][number] == 0 {
                    return Some(format!("no {entry:?} was answered by {number}"));
                }
            }
        }
        for (kind, numbers, met) in self.others() {
            if let Some(number) = numbers.iter().find(|&&number| met[number] == 0) {
                return Some(format!("none of {kind} was answered by {number}"));
            }
        }
        None
    }
}

/// A case that does not agree: the call, both answers, and the bytes that differ.
fn report(kind: Kind, call: &Call, wanted: (Answer, &Call), got: (Answer, &Call), damage: &[String]) -> String {
    let Call { entry, pages, banks, bank, at, .. } = *call;
    let mut lines = vec![
        format!("{kind:?}: {entry:?} with pages {pages}, banks {banks}, bank {bank}, page or offset {at}"),
        format!("  crate:   {:?}", wanted.0),
        format!("  library: {:?}", got.0),
        lent("key", &call.key, &wanted.1.key, &got.1.key),
        format!("  items, bank:offset start+length:{}", items(&call.items)),
        lent("image", &call.image, &wanted.1.image, &got.1.image),
        lent("bytes", &call.bytes, &wanted.1.bytes, &got.1.bytes),
    ];
    lines.extend(damage.iter().map(|line| format!("  {line}")));
    lines.join("\n")
}

/// The items of a list.
fn items(items: &[Item]) -> String {
    items.iter().map(|item| format!(" {}:{:#06x} {}+{}", item.bank, item.offset, item.start, item.length)).collect::<Vec<_>>().join(",")
}

/// A buffer before the call, and where it differs afterwards. Of one above 4,096 bytes the seed makes the bytes again.
fn lent(name: &str, before: &[u8], wanted: &[u8], got: &[u8]) -> String {
    let shown = if before.len() > 4096 { String::from("..") } else { hex(before) };
    let mut text = format!("  {name}, {} bytes: {shown}", before.len());
    let places: Vec<usize> = (0..wanted.len()).filter(|&i| wanted[i] != got[i]).collect();
    if let (Some(&first), Some(&last)) = (places.first(), places.last()) {
        let end = last.min(first + 271) + 1;
        write!(text, "\n    {} bytes differ, from {first} to {last}", places.len()).unwrap();
        write!(text, "\n    crate:   {}", hex(&wanted[first..end])).unwrap();
        write!(text, "\n    library: {}", hex(&got[first..end])).unwrap();
    }
    text
}
