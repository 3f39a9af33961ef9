//! Damage to a sheet's bytes, and memory and controls that a call may be lent: the right lengths and states and those beside.

use super::reading::Layout;
use crate::port::{Controls, Voice};
use crate::random::Random;

fn records(sheet: &[u8]) -> usize {
    sheet.len().saturating_sub(24) / 40
}

fn put(sheet: &mut [u8], at: usize, x: usize) {
    sheet[at..at + 2].copy_from_slice(&(x as u16).to_le_bytes());
}

fn half(sheet: &[u8], at: usize) -> usize {
    usize::from(u16::from_le_bytes([sheet[at], sheet[at + 1]]))
}

/// One fault. A sheet that has lost its records only changes its length or a byte.
pub fn damage(r: &mut Random, sheet: &mut Vec<u8>) {
    match if records(sheet) == 0 { r.below(2) } else { r.below(10) } {
        0 => ends(r, sheet),
        1 => flip(r, sheet),
        2 => link(r, sheet),
        3 | 4 => moved(r, sheet),
        5 => cut(r, sheet),
        6 => header(r, sheet),
        7 => kind(r, sheet),
        8 => option(r, sheet),
        _ => unused(r, sheet),
    }
}

/// Bytes more or less.
fn ends(r: &mut Random, sheet: &mut Vec<u8>) {
    let n = r.pick(&[1, 2, 39, 40, 41]);
    if r.one_in(2) {
        sheet.extend(vec![0; n]);
    } else if r.one_in(4) {
        sheet.truncate(r.below(26) as usize);
    } else {
        sheet.truncate(sheet.len().saturating_sub(n));
    }
}

fn flip(r: &mut Random, sheet: &mut [u8]) {
    if !sheet.is_empty() {
        let at = r.below(sheet.len() as u64) as usize;
        sheet[at] = if r.one_in(2) { sheet[at] ^ (1 << r.below(8)) } else { r.word() as u8 };
    }
}

/// A place of a link: in a record, its first or its next.
fn slot(r: &mut Random, sheet: &[u8]) -> (usize, usize) {
    let i = r.below(records(sheet) as u64) as usize;
    (i, 24 + 40 * i + 2 + 2 * r.below(2) as usize)
}

/// A link to anywhere, or to the bounds of check 4.
fn link(r: &mut Random, sheet: &mut [u8]) {
    let n = records(sheet);
    let (i, at) = slot(r, sheet);
    let any = r.below(n as u64) as usize;
    let to = r.pick(&[0, i, i.saturating_sub(1), i + 1, n - 1, n, n + 1, 0x8000, 0xffff, any, any, any]);
    put(sheet, at, to);
}

/// What stands from a record on is linked from a zero elsewhere: links still climb, and each record has one.
fn moved(r: &mut Random, sheet: &mut [u8]) {
    for _ in 0..20 {
        let ((_, from), (i, to)) = (slot(r, sheet), slot(r, sheet));
        let target = half(sheet, from);
        // Record 0's next stays zero.
        if target > i && half(sheet, to) == 0 && to != 24 + 4 {
            put(sheet, from, 0);
            put(sheet, to, target);
            return;
        }
    }
}

/// A record less. Often the links behind it follow, and its own chain and next are lost.
fn cut(r: &mut Random, sheet: &mut Vec<u8>) {
    let k = r.below(records(sheet) as u64) as usize;
    sheet.drain(24 + 40 * k..24 + 40 * (k + 1));
    if r.one_in(4) {
        return;
    }
    let n = records(sheet);
    put(sheet, 0, n);
    if r.one_in(4) {
        return;
    }
    for at in (0..n).flat_map(|i| [24 + 40 * i + 2, 24 + 40 * i + 4]) {
        let link = half(sheet, at);
        if link >= k && link > 0 {
            put(sheet, at, if link == k { 0 } else { link - 1 });
        }
    }
}

fn header(r: &mut Random, sheet: &mut [u8]) {
    let n = half(sheet, 0);
    match r.below(4) {
        0 => put(sheet, 0, r.pick(&[n + 1, n.wrapping_sub(1), 0, 1, 255, 256, 257, 0xffff])),
        1 => sheet[2 + r.below(2) as usize] = r.word() as u8,
        _ => {
            let any = r.word() as u32;
            let rate: u32 =
                r.pick(&[7_999, 8_000, 8_001, 191_999, 192_000, 192_001, 0, u32::MAX, 48_000 + (1 << 24), any]);
            sheet[4..8].copy_from_slice(&rate.to_le_bytes());
        }
    }
}

fn place(r: &mut Random, sheet: &[u8]) -> usize {
    24 + 40 * r.below(records(sheet) as u64) as usize
}

/// Another kind, often the one beside; often with numbers of 0, which more kinds pass.
fn kind(r: &mut Random, sheet: &mut [u8]) {
    let at = place(r, sheet);
    sheet[at] = match r.below(8) {
        0 => r.below(256) as u8,
        1 | 2 => 1 + r.below(13) as u8,
        3 | 4 => 21 + r.below(15) as u8,
        5 => 41 + r.below(6) as u8,
        6 => sheet[at].wrapping_sub(1),
        _ => sheet[at].wrapping_add(1),
    };
    if !r.one_in(3) {
        sheet[at + 1] = 0;
        sheet[at + 8..at + 40].fill(0);
    }
}

/// Another option, rather of a record whose kind has some.
fn option(r: &mut Random, sheet: &mut [u8]) {
    let mut at = place(r, sheet);
    for _ in 0..12 {
        if !matches!(sheet[at], 6 | 9 | 32 | 42 | 43) {
            at = place(r, sheet);
        }
    }
    sheet[at + 1] = if r.one_in(6) { r.word() as u8 } else { r.below(7) as u8 };
}

/// One of the two zero bytes, or any byte of the numbers, more often one of the later ones.
fn unused(r: &mut Random, sheet: &mut [u8]) {
    let at = place(r, sheet);
    let byte = match r.below(3) {
        0 => 6 + r.below(2),
        1 => 8 + r.below(32),
        _ => 8 + 4 * r.below(8),
    };
    sheet[at + byte as usize] = 1 << r.below(8);
}

/// A length that serves, and now and then one that does not.
fn lent(r: &mut Random, needed: usize, short: bool) -> usize {
    match r.below(4) {
        _ if !short => needed + r.below(4) as usize,
        0 => 0,
        1 => r.below(needed as u64 + 1) as usize,
        _ => needed.saturating_sub(1),
    }
}

/// A place of a ring of this length.
fn ring(r: &mut Random, length: u64, wrong: bool) -> u64 {
    if wrong {
        let any = r.below(length);
        r.pick(&[length, length, length + 1, u64::MAX, 1 << 63, (1 << 32) + any, (1 << 24) + length])
    } else {
        let any = r.below(length);
        r.pick(&[0, length - 1, length - 1, any, any])
    }
}

fn phase(r: &mut Random, wrong: bool) -> f32 {
    const RIGHT: [u32; 6] = [0, 0x8000_0000, 1, 0x3f7f_ffff, 0x3f00_0000, 0x0080_0000];
    const WRONG: [u32; 11] = [
        0x3f80_0000,
        0x3f80_0000,
        0x3f80_0001,
        0x7fc0_0000,
        0xffc0_0000,
        0x7f80_0001,
        0x8000_0001,
        0xbf80_0000,
        0xbf7f_ffff,
        0x7f80_0000,
        0xff80_0000,
    ];
    match wrong {
        true => f32::from_bits(r.pick(&WRONG)),
        false if r.one_in(2) => r.below(1 << 24) as f32 / (1 << 24) as f32,
        false => f32::from_bits(r.pick(&RIGHT)),
    }
}

/// A position about the last one, or a usual one. `length` is the fill's.
fn position(r: &mut Random, length: u64) -> u64 {
    const LAST: u64 = 1 << 62;
    match r.below(12) {
        0 => LAST - length,
        1 => LAST - length + 1,
        2 => r.pick(&[LAST, LAST, LAST + 1, LAST - 1, LAST + 2]),
        3 => r.pick(&[u64::MAX, u64::MAX - length + 1, 1 << 63, 3 << 61]),
        4 => LAST - r.below(600),
        5 => r.below(LAST),
        _ => r.below(1 << 25),
    }
}

pub fn controls(r: &mut Random, length: u64) -> Controls {
    let position = position(r, length);
    // Any pattern, so that a refusal is seen to hand back a NaN's payload.
    let (pitch, target, glide, bend) = match r.below(3) {
        0 => (1.0, 1.0, 1.0, 1.0),
        _ => (r.any(), r.any(), r.any(), r.any()),
    };
    Controls { position, pitch, target, glide, bend }
}

/// Numbers of any bits, in a large memory the same few again and again.
fn floats(r: &mut Random, n: usize) -> Vec<f32> {
    let some: Vec<f32> = (0..n.min(1031)).map(|_| r.any()).collect();
    (0..n).map(|k| some[k % some.len()]).collect()
}

/// A voice with memory about the needs, and a state that is valid or wrong in one place.
pub fn voice(r: &mut Random, sheet: Vec<u8>, layout: Option<&Layout>, length: u64) -> Voice {
    let none = Layout { cells: 20, registers: 5, scratch: 256, ..Layout::default() };
    let l = layout.unwrap_or(&none);
    // One time in four, one of the three is short.
    let short = r.below(12);
    let lengths = [(l.cells, 0), (l.registers, 1), (l.scratch, 2)].map(|(needed, k)| lent(r, needed, short == k));
    let (mut cells, scratch) = (floats(r, lengths[0]), floats(r, lengths[2]));
    let mut registers: Vec<u64> = (0..lengths[1]).map(|_| r.word()).collect();
    // One time in three, one place is wrong. Short memory lacks some places.
    let places = l.rings.len() + l.phases.len();
    let wrong = if r.one_in(3) { r.below(places.max(1) as u64) as usize } else { places };
    for (k, (at, len)) in l.rings.iter().enumerate() {
        if let Some(x) = registers.get_mut(*at) {
            *x = ring(r, *len, k == wrong);
        }
    }
    for (k, at) in l.phases.iter().enumerate() {
        if let Some(x) = cells.get_mut(*at) {
            *x = phase(r, l.rings.len() + k == wrong);
        }
    }
    Voice { sheet, controls: controls(r, length), cells, registers, scratch }
}
