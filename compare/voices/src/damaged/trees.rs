//! Random trees at the bounds of depth and of size.

use crate::random::{node, processor, record, source, value, Random};
use crate::sheet::Record;

/// How deep nodes nest, the record itself being depth 1.
pub fn depth(r: &Record) -> usize {
    let below = r.chain.iter().filter(|c| c.kind <= 35).map(depth);
    1 + below.max().unwrap_or(0)
}

/// A tree of exactly this depth, of at most 256 records.
pub fn deep(r: &mut Random, depth: usize) -> Record {
    loop {
        let mut tree = match r.below(6) {
            0 => processor(r),
            1 => record(11 + r.below(3) as u8, 0, vec![], vec![]),
            _ => source(r),
        };
        for _ in 1..depth {
            tree = below(r, tree);
        }
        if tree.count() <= 256 {
            return tree;
        }
    }
}

/// A node above this one. Mostly the tree stands where it is built.
fn below(r: &mut Random, tree: Record) -> Record {
    let mut chain = vec![tree];
    if r.one_in(4) {
        chain.insert(r.below(2) as usize, source(r));
    }
    match r.below(4) {
        0 => record(11, 0, vec![], chain),
        1 => record(12, 0, vec![], chain),
        _ => {
            if !r.one_in(10) {
                // The tree last, so that it is the Chain's source.
                chain.sort_by_key(depth);
            }
            chain.extend((0..r.below(2)).map(|_| processor(r)));
            record(13, 0, vec![], chain)
        }
    }
}

fn many(r: &mut Random, n: usize, kind: u8, numbers: usize) -> Vec<Record> {
    let number = |r: &mut Random| r.any().to_bits();
    (0..n).map(|_| record(kind, 0, (0..numbers).map(|_| number(r)).collect(), vec![])).collect()
}

/// A tree of this many records.
pub fn wide(r: &mut Random, total: usize) -> Record {
    let noise = |r: &mut Random| record(9, r.below(3), vec![], vec![]);
    match r.below(8) {
        0 => {
            let steps = many(r, total - 2, 52, 1);
            record(1, 0, vec![], vec![record(44, 0, vec![0x4248_0000], steps)])
        }
        1 => {
            let modes = many(r, total - 3, 51, 3);
            record(13, 0, vec![], vec![noise(r), record(31, 0, vec![0x3f80_0000], modes)])
        }
        choice => {
            let kind = 11 + choice as u8 % 3;
            let (mut chain, mut left) = (vec![], total - 1);
            while left > 0 {
                let next = match r.below(4) {
                    0 => node(r, 3),
                    1 if kind == 13 => processor(r),
                    1 => record(1, 0, vec![], vec![value(r, 20.0, 3000.0)]),
                    _ => noise(r),
                };
                if next.count() <= left {
                    left -= next.count();
                    chain.push(next);
                }
            }
            record(kind, 0, vec![], chain)
        }
    }
}
