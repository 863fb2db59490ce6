//! A fixed list of questions with the crate's answers, as the program `answers` of the gate reads the first and prints the second.

use driver::call::hex;
use driver::oracle;
use driver::random::Random;
use std::fmt::Write;

const LENGTHS: [usize; 13] = [0, 1, 5, 13, 15, 16, 17, 23, 24, 25, 31, 32, 33];

/// Questions for each length: the same byte throughout first, then random ones.
const EACH: u64 = 6;
const EACH_TAKEN: u64 = 60;

const HEAD: &str = "\
# Questions, a line each: a block and a key in hex; a block alone asks with a key of no bytes. The file stdout has the answers of the crate
# twofish 0.8.0 under the key with zeros after it up to 16, 24 or 32 bytes: the block enciphered and deciphered, or the number of the refusal where
# the key has no byte or more than 32. `compare/run list` makes both.
";

/// The keys and blocks of the list.
fn asked() -> impl Iterator<Item = (Vec<u8>, [u8; 16])> {
    LENGTHS.into_iter().flat_map(|length| {
        let each = if [16, 24, 32].contains(&length) { EACH_TAKEN } else { EACH };
        (0..each).map(move |i| {
            let mut r = Random::new(1000 * length as u64 + i);
            let mut key = vec![[0, 0xff, 0x80][i as usize % 3]; length];
            let mut block = [[0, 0xff][i as usize % 2]; 16];
            if i >= 3 {
                r.fill(&mut key);
                r.fill(&mut block);
            }
            (key, block)
        })
    })
}

/// What the program reads.
pub fn questions() -> String {
    let mut text = String::from(HEAD);
    for (key, block) in asked() {
        writeln!(text, "{}", format!("{} {}", hex(&block), hex(&key)).trim_end()).unwrap();
    }
    text
}

/// What it is to print.
pub fn answers() -> String {
    let mut text = String::new();
    for (key, block) in asked() {
        let t = match oracle::set_up(&key) {
            Ok(t) => t,
            Err(number) => {
                writeln!(text, "refused: {number}").unwrap();
                continue;
            }
        };
        let (mut forth, mut back) = (block, block);
        oracle::encipher(&t, &mut forth);
        oracle::decipher(&t, &mut back);
        writeln!(text, "{} {}", hex(&forth), hex(&back)).unwrap();
    }
    text
}
