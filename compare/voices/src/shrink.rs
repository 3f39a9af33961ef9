//! A smaller sheet and script that still differ.

use crate::script::{run, Move, Script, Tally};
use crate::sheet::{Record, Sheet};

fn is_node(r: &Record) -> bool {
    r.kind <= 35
}

/// The record with one part less: without a member of its chain, a node for its parent, a Const for a value.
fn smaller(r: &Record) -> Vec<Record> {
    let mut out = Vec::new();
    if matches!(r.kind, 11 | 12 | 13 | 31 | 44) {
        for k in 0..r.chain.len() {
            let mut less = r.clone();
            less.chain.remove(k);
            out.push(less);
        }
    }
    out.extend(r.chain.iter().filter(|c| is_node(c)).cloned());
    if (42..=46).contains(&r.kind) {
        let numbers = vec![r.numbers[0]];
        out.push(Record { kind: 41, option: 0, numbers, chain: vec![] });
    }
    for k in 0..r.chain.len() {
        for c in smaller(&r.chain[k]) {
            if is_node(&c) == is_node(&r.chain[k]) {
                let mut less = r.clone();
                less.chain[k] = c;
                out.push(less);
            }
        }
    }
    out
}

fn smaller_sheets(s: &Sheet) -> Vec<Sheet> {
    let mut out: Vec<Sheet> =
        smaller(&s.root).into_iter().map(|root| Sheet { root, order: None, ..s.clone() }).collect();
    if s.order.is_some() {
        out.push(Sheet { order: None, ..s.clone() });
    }
    out
}

fn smaller_scripts(s: &Script) -> Vec<Script> {
    let mut out = Vec::new();
    if s.position != 0 {
        out.push(Script { position: 0, ..s.clone() });
    }
    for k in 0..s.moves.len() {
        let mut less = s.clone();
        let m = less.moves.remove(k);
        out.push(less.clone());
        if let Move::Fill(n) = m {
            for to in [1, n / 2, n.saturating_sub(1)] {
                if to < n && to > 0 {
                    let mut less = s.clone();
                    less.moves[k] = Move::Fill(to);
                    out.push(less);
                }
            }
        }
    }
    out
}

/// The smallest that single steps reach.
pub fn shrink(mut sheet: Sheet, mut script: Script) -> (Sheet, Script, String) {
    let differs = |sheet: &Sheet, script: &Script| run(sheet, script, &mut Tally::default()).err();
    loop {
        if let Some(less) = smaller_sheets(&sheet).into_iter().find(|s| differs(s, &script).is_some()) {
            sheet = less;
        } else if let Some(less) = smaller_scripts(&script).into_iter().find(|s| differs(&sheet, s).is_some()) {
            script = less;
        } else {
            let found = differs(&sheet, &script).unwrap_or_default();
            return (sheet, script, found);
        }
    }
}
