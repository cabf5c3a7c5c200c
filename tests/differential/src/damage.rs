//! Damages a file: truncations, foreign and broken records, lost and doubled ones.

use crate::random::Random;
use crate::records::split;
use dayformat::{set, tag, Writer, HEADER, LONGEST_BODY};

/// The file with one damage to it.
pub fn damage(random: &mut Random, file: &[u8]) -> Vec<u8> {
    match random.below(18) {
        0 => truncate(random, file),
        1 => truncate_record(random, file),
        2 | 3 => insert(random, file, unknown_record),
        4 => insert(random, file, wrong_length_record),
        5 => change_byte(random, file),
        6 => change_length(random, file),
        7 => rearrange(random, file),
        8 => insert(random, file, random_bytes),
        9 => insert_many(random, file),
        10 => damage_one_of(random, file, tag::LENGTH_OF_DAY),
        11 | 12 => damage_one_of(random, file, tag::TIMED_QUOTE),
        13 | 14 => damage_one_of(random, file, tag::TWO_BYTE_TRADE),
        15 | 16 => damage_one_of(random, file, tag::FINAL_DATE),
        _ => damage_one_of(random, file, tag::FINAL_FIX),
    }
}

/// The file with one damage to it, mostly to one of its sets.
pub fn damage_with_sets(random: &mut Random, file: &[u8]) -> Vec<u8> {
    match random.below(4) {
        0 => damage(random, file),
        1 => resize_set(random, file),
        _ => damage_one_of(random, file, set::TAG),
    }
}

fn place(random: &mut Random, length: usize) -> usize {
    random.below(length as u32 + 1) as usize
}

fn truncate(random: &mut Random, file: &[u8]) -> Vec<u8> {
    file[..place(random, file.len())].to_vec()
}

/// Ends the file after a record's tag, within its length, or within its body.
fn truncate_record(random: &mut Random, file: &[u8]) -> Vec<u8> {
    let mut records = split(file);
    records.truncate(place(random, records.len()));
    if let Some(last) = records.last_mut() {
        let kept = random.below(last.len() as u32 + 1);
        last.truncate(random.pick(&[1, 2, 3, kept as usize]));
    }
    records.concat()
}

/// Inserts new bytes between two records, mostly near an end of the file.
fn insert(random: &mut Random, file: &[u8], new: fn(&mut Random) -> Vec<u8>) -> Vec<u8> {
    let mut records = split(file);
    let near = random.below(6).min(records.len() as u32) as usize;
    let at = match random.below(3) {
        0 => near,
        1 => records.len() - near,
        _ => place(random, records.len()),
    };
    records.insert(at, new(random));
    records.concat()
}

fn insert_many(random: &mut Random, file: &[u8]) -> Vec<u8> {
    let mut damaged = file.to_vec();
    for _ in 0..random.between(2, 5) {
        let new = random.pick(&[unknown_record, wrong_length_record]);
        damaged = insert(random, &damaged, new);
    }
    damaged
}

fn unknown_record(random: &mut Random) -> Vec<u8> {
    let tag = random.pick(&[0, 13, 14, 77, 255]);
    record(random, tag)
}

fn wrong_length_record(random: &mut Random) -> Vec<u8> {
    let tag = random.pick(&tag::KNOWN);
    record(random, tag)
}

/// A whole record of the tag whose body may look like records.
fn record(random: &mut Random, tag: u8) -> Vec<u8> {
    let mut body = Writer::new();
    match random.below(4) {
        0 => {}
        1 => body.bytes.push(random.byte()),
        2 => {
            body.halt().resume().resume();
        }
        _ => body.bytes = random_bytes(random),
    }
    let mut file = Writer::new();
    file.record(tag, &body.bytes);
    file.bytes
}

fn random_bytes(random: &mut Random) -> Vec<u8> {
    (0..random.between(1, 20)).map(|_| random.byte()).collect()
}

fn change_byte(random: &mut Random, file: &[u8]) -> Vec<u8> {
    let mut damaged = file.to_vec();
    if !damaged.is_empty() {
        let at = random.below(damaged.len() as u32) as usize;
        damaged[at] ^= 1 << random.below(8);
    }
    damaged
}

fn change_length(random: &mut Random, file: &[u8]) -> Vec<u8> {
    let mut records = split(file);
    if !records.is_empty() {
        let at = random.below(records.len() as u32) as usize;
        if let Some(low) = records[at].get_mut(2) {
            *low = random.pick(&[0, 2, 3, 4, 5, 7, 8, 9, 10, 11, 12, 13, 14, 255]);
        }
    }
    records.concat()
}

/// The place of one of the records of a tag, if there is one.
fn one_of(random: &mut Random, records: &[Vec<u8>], tag: u8) -> Option<usize> {
    let is_of_tag = |place: &usize| records[*place][0] == tag;
    let places: Vec<usize> = (0..records.len()).filter(is_of_tag).collect();
    (!places.is_empty()).then(|| random.pick(&places))
}

/// Breaks, cuts off, changes, doubles or moves one of the records of a tag, if there is one.
fn damage_one_of(random: &mut Random, file: &[u8], tag: u8) -> Vec<u8> {
    let mut records = split(file);
    let Some(at) = one_of(random, &records, tag) else {
        return file.to_vec();
    };
    let next = (at + 1).min(records.len() - 1);
    match random.below(5) {
        0 => records[at] = record(random, tag),
        1 => {
            records.truncate(at + 1);
            let length = records[at].len() as u32;
            records[at].truncate(random.between(1, length.saturating_sub(1).max(1)) as usize);
        }
        2 => records[at] = change_byte(random, &records[at]),
        3 => records.insert(at, records[at].clone()),
        _ => records.swap(at, next),
    }
    records.concat()
}

/// Takes bytes from the end of a set, or adds some: a few, or about a trade.
fn resize_set(random: &mut Random, file: &[u8]) -> Vec<u8> {
    let mut records = split(file);
    if let Some(at) = one_of(random, &records, set::TAG) {
        let mut body = records[at].get(HEADER..).unwrap_or_default().to_vec();
        let change = random.pick(&[1, set::TRADE - 1, set::TRADE, set::TRADE + 1]);
        match random.chance(50) {
            true => body.truncate(body.len().saturating_sub(change)),
            false => body.extend((0..change).map(|_| random.byte())),
        }
        body.truncate(LONGEST_BODY);
        let mut resized = Writer::new();
        resized.record(set::TAG, &body);
        records[at] = resized.bytes;
    }
    records.concat()
}

/// Drops, doubles or exchanges records.
fn rearrange(random: &mut Random, file: &[u8]) -> Vec<u8> {
    let mut records = split(file);
    if !records.is_empty() {
        let first = random.below(records.len() as u32) as usize;
        let second = random.below(records.len() as u32) as usize;
        match random.below(3) {
            0 => {
                records.remove(first);
            }
            1 => records.insert(first, records[second].clone()),
            _ => records.swap(first, second),
        }
    }
    records.concat()
}
