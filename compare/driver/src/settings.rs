//! The settings that can go back: series of calls on a lent store, beside a model that works every state out from the first record on.

use crate::library::Lent;
use crate::random::Random;

const SETTINGS: usize = 32;
const STORE: usize = 8192;
const RECORD: usize = 8;
const MOST: u32 = 1024;

/// What a record is answered.
#[repr(C)]
#[derive(Clone, Copy, PartialEq, Eq, Debug)]
struct Added {
    number: u32,
    used: u32,
}

/// What a reading is answered.
#[repr(C)]
#[derive(Clone, Copy, PartialEq, Eq, Debug)]
struct Reading {
    number: u32,
    values: [u32; SETTINGS],
}

#[rustfmt::skip]
unsafe extern "C" {
    fn hf_setting_set(store: *mut u8, store_length: usize, used: u32, setting: u32, value: u32) -> Added;
    fn hf_setting_go_back(store: *mut u8, store_length: usize, used: u32, version: u32) -> Added;
    fn hf_settings_read(store: *const u8, store_length: usize, used: u32, version: u32) -> Reading;
}

#[derive(Clone, Copy, Debug)]
enum Call {
    Set { setting: u32, value: u32 },
    GoBack { version: u32 },
    Read { version: u32 },
}

#[derive(PartialEq, Eq, Debug)]
enum Answer {
    Added(Added),
    Reading(Box<Reading>),
}

impl Answer {
    fn number(&self) -> u32 {
        match self {
            Answer::Added(added) => added.number,
            Answer::Reading(reading) => reading.number,
        }
    }
}

/// The states after the first 0, 1, .. used records, or 17 where one breaks the layout.
fn states(store: &[u8], used: u32) -> Result<Vec<[u32; SETTINGS]>, u32> {
    let mut states = vec![[0; SETTINGS]];
    for record in store.chunks(RECORD).take(used as usize) {
        let &[setting, kind, 0, 0, a, b, c, d] = record else { return Err(17) };
        let value = u32::from_le_bytes([a, b, c, d]);
        let mut state = states[states.len() - 1];
        match (kind, setting) {
            (0, 0..32) => state[setting as usize] = value,
            (1, 0) => state = *states.get(value as usize).ok_or(17u32)?,
            _ => return Err(17),
        }
        states.push(state);
    }
    Ok(states)
}

/// The call by the model. The call's own refusals come after 16 and 17.
fn wanted(call: Call, store: &mut [u8], used: u32) -> Answer {
    let states = if store.len() != STORE || used > MOST { Err(16) } else { states(store, used) };
    let (record, outside) = match call {
        Call::Set { setting, value } => ([setting as u8, 0, 0, 0].into_iter().chain(value.to_le_bytes()), setting > 31),
        Call::GoBack { version } => ([0, 1, 0, 0].into_iter().chain(version.to_le_bytes()), version > used),
        Call::Read { version } => {
            let read = states.and_then(|states| states.get(version as usize).copied().ok_or(18));
            let (number, values) = read.map_or_else(|number| (number, [0; SETTINGS]), |values| (0, values));
            return Answer::Reading(Box::new(Reading { number, values }));
        }
    };
    let number = match states {
        Err(number) => number,
        Ok(_) if outside => 18,
        Ok(_) if used == MOST => 19,
        Ok(_) => 0,
    };
    if number == 0 {
        let at = RECORD * used as usize;
        store[at..at + RECORD].iter_mut().zip(record).for_each(|(to, from)| *to = from);
    }
    Answer::Added(Added { number, used: used + u32::from(number == 0) })
}

/// The call by the library, its store `shift` bytes from where it would lie.
fn given(call: Call, store: &mut [u8], used: u32, shift: usize) -> (Answer, Vec<String>) {
    let mut lent = Lent::new(store, shift);
    let (pointer, length) = (lent.pointer(), store.len());
    // The pointer is to as many bytes as are said beside it.
    let answer = unsafe {
        match call {
            Call::Set { setting, value } => Answer::Added(hf_setting_set(pointer, length, used, setting, value)),
            Call::GoBack { version } => Answer::Added(hf_setting_go_back(pointer, length, used, version)),
            Call::Read { version } => Answer::Reading(Box::new(hf_settings_read(pointer, length, used, version))),
        }
    };
    let mut damage = Vec::new();
    lent.back("the store", store, &mut damage);
    (answer, damage)
}

/// A call on a store, most of them sets.
fn call(r: &mut Random, used: u32) -> Call {
    let version = if r.once_in(8) { r.one(&[0, used, used.wrapping_add(1), u32::MAX]) } else { r.below(used.min(MOST) + 1) };
    match r.below(4) {
        0 => Call::GoBack { version },
        1 => Call::Read { version },
        _ => {
            let setting = if r.once_in(12) { r.one(&[31, 32, 255, 256, u32::MAX]) } else { r.below(32) };
            Call::Set { setting, value: r.number() as u32 }
        }
    }
}

/// How many calls a series has.
const CALLS: u32 = 24;

/// A series of calls on one store, empty at first or nearly full, each with the used number that was handed back last. Now and then a call is lent
/// a damaged store, one of another length, or too high a number, and the next one the store as it was. Counts each answer's number.
pub fn series(seed: u64, numbers: &mut [u64; 20]) -> Result<(), String> {
    let mut r = Random::new(seed);
    let mut held = r.bytes(STORE);
    let mut used = 0;
    if r.once_in(4) {
        while used < MOST - 4 {
            fill_record(&mut r, &mut held, &mut used);
        }
    }
    for _ in 0..CALLS {
        let call = call(&mut r, used);
        let mut lent = held.clone();
        let mut lent_used = used;
        match r.below(12) {
            0 if used > 0 => lent[r.below(RECORD as u32 * used) as usize] ^= 1 << r.below(8),
            1 => lent.resize(r.one(&[0, 8, STORE - 1, STORE + 1]), 0),
            2 => lent_used = r.one(&[MOST, MOST + 1, u32::MAX]),
            _ => {}
        }
        let right = lent == held && lent_used == used;
        let mut after = lent.clone();
        let answer = wanted(call, &mut after, lent_used);
        let mut got = lent;
        let (said, damage) = given(call, &mut got, lent_used, r.below(16) as usize);
        if said != answer || got != after || !damage.is_empty() {
            return Err(format!("settings: {call:?} with {lent_used} used: {said:?}, and by the model {answer:?}; {damage:?}"));
        }
        numbers[answer.number() as usize] += 1;
        if let Answer::Added(added) = answer
            && right
        {
            (held, used) = (after, added.used);
        }
    }
    Ok(())
}

/// A right record laid after the used ones.
fn fill_record(r: &mut Random, store: &mut [u8], used: &mut u32) {
    let at = RECORD * *used as usize;
    let (kind, setting, value) = if r.once_in(8) { (1, 0, r.below(*used + 1)) } else { (0, r.below(32) as u8, r.number() as u32) };
    store[at..at + 4].copy_from_slice(&[setting, kind, 0, 0]);
    store[at + 4..at + RECORD].copy_from_slice(&value.to_le_bytes());
    *used += 1;
}

/// The numbers that the calls on a store answer.
pub const NUMBERS: [usize; 5] = [0, 16, 17, 18, 19];
