//! Spoiled files: cut, extended, out of range, damaged and in disorder.

use crate::model::File;
use crate::random::Random;

/// Bytes just inside and outside of what 01's one-byte fields may hold.
const PROBES: [u8; 16] = [0, 1, 2, 4, 5, 8, 9, 32, 33, 63, 64, 65, 127, 128, 254, 255];

/// Calls `visit` with spoiled variants of `file`, at most about `budget` of each sort.
pub fn variants(random: &mut Random, file: &File, budget: usize, visit: &mut dyn FnMut(&[u8])) {
    truncated(random, &file.bytes, budget, visit);
    extended(random, &file.bytes, visit);
    out_of_range(random, &file.bytes, budget, visit);
    damaged(random, &file.bytes, budget / 4, visit);
    disordered(random, file, budget / 8, visit);
}

/// Every truncation, or `budget` of them.
pub fn truncated(random: &mut Random, bytes: &[u8], budget: usize, visit: &mut dyn FnMut(&[u8])) {
    for place in places(random, bytes.len(), budget) {
        visit(&bytes[..place]);
    }
}

/// One byte more.
fn extended(random: &mut Random, bytes: &[u8], visit: &mut dyn FnMut(&[u8])) {
    for more in [0, bytes.first().copied().unwrap_or(b'P'), random.byte()] {
        visit(&[bytes, &[more]].concat());
    }
}

/// Probes in the place of each byte, or of as many as `budget` allows.
fn out_of_range(random: &mut Random, bytes: &[u8], budget: usize, visit: &mut dyn FnMut(&[u8])) {
    let mut spoiled = bytes.to_vec();
    for place in places(random, bytes.len(), budget.div_ceil(PROBES.len() + 2)) {
        let good = bytes[place];
        for probe in PROBES.into_iter().chain([good.wrapping_add(1), good.wrapping_sub(1)]) {
            spoiled[place] = probe;
            visit(&spoiled);
        }
        spoiled[place] = good;
    }
}

/// Every byte replaced by every other.
pub fn every_byte(bytes: &[u8], visit: &mut dyn FnMut(&[u8])) {
    let mut spoiled = bytes.to_vec();
    for (place, good) in bytes.iter().enumerate() {
        for other in (0..=255).filter(|other| other != good) {
            spoiled[place] = other;
            visit(&spoiled);
        }
        spoiled[place] = *good;
    }
}

/// One to four bytes replaced by random ones, `times` times.
fn damaged(random: &mut Random, bytes: &[u8], times: usize, visit: &mut dyn FnMut(&[u8])) {
    if bytes.is_empty() {
        return;
    }
    for _ in 0..times {
        let mut spoiled = bytes.to_vec();
        for _ in 0..=random.below(4) {
            let place = random.below(bytes.len());
            spoiled[place] = random.byte();
        }
        visit(&spoiled);
    }
}

/// Two records swapped, one left out, one doubled, `times` times each.
fn disordered(random: &mut Random, file: &File, times: usize, visit: &mut dyn FnMut(&[u8])) {
    let ends = file.records.iter().skip(1).copied().chain([file.bytes.len()]);
    let records: Vec<&[u8]> =
        file.records.iter().zip(ends).map(|(start, end)| &file.bytes[*start..end]).collect();
    if records.is_empty() {
        return;
    }
    for _ in 0..times {
        let (p, q) = (random.below(records.len()), random.below(records.len()));
        let mut swapped = records.clone();
        swapped.swap(p, q);
        visit(&swapped.concat());
        let mut without = records.clone();
        let record = without.remove(p);
        visit(&without.concat());
        without.insert(q.min(without.len()), record);
        without.insert(p, record);
        visit(&without.concat());
    }
}

/// All numbers below `count`, or `budget` of them.
fn places(random: &mut Random, count: usize, budget: usize) -> Vec<usize> {
    if count <= budget {
        return (0..count).collect();
    }
    (0..budget).map(|_| random.below(count)).collect()
}
