//! The bounds of checks 8, 9 and 10, and how often a fill was seen on either side of each.

use super::reading::Layout;
use super::Case;

/// A bound, and whether a case stands at it.
type Edge = (&'static str, fn(&Case, &Layout) -> bool);

const LAST: u64 = 1 << 62;

fn position(case: &Case) -> u64 {
    case.voice.controls.position
}

fn lengths(case: &Case) -> [usize; 3] {
    [case.voice.cells.len(), case.voice.registers.len(), case.voice.scratch.len()]
}

/// How many of the cells, registers and scratch are lacking.
fn lacking(case: &Case, l: &Layout) -> [usize; 3] {
    let [cells, registers, scratch] = lengths(case);
    [l.cells.saturating_sub(cells), l.registers.saturating_sub(registers), l.scratch.saturating_sub(scratch)]
}

/// Whether a ring stands so many places below or above its line's length.
fn ring(case: &Case, l: &Layout, beside: i64) -> bool {
    l.rings.iter().any(|(at, length)| case.voice.registers.get(*at) == Some(&length.wrapping_add_signed(beside)))
}

fn phase(case: &Case, l: &Layout, is: fn(f32) -> bool) -> bool {
    l.phases.iter().any(|at| case.voice.cells.get(*at).is_some_and(|x| is(*x)))
}

/// By the answer of the fill.
const EDGES: [(u8, &[Edge]); 4] = [
    (
        0,
        &[
            ("memory as needed", |c, l| lengths(c) == [l.cells, l.registers, l.scratch]),
            ("ring at its last place", |c, l| ring(c, l, -1)),
            ("phase -0", |c, l| phase(c, l, |x| x == 0.0 && x.is_sign_negative())),
            ("phase below 1", |c, l| phase(c, l, |x| x == 1.0f32.next_down())),
            ("position 2^62", |c, _| position(c) == LAST),
            ("to 2^62", |c, _| position(c) < LAST && position(c) + c.out.len() as u64 == LAST),
        ],
    ),
    (
        8,
        &[
            ("a cell short", |c, l| lacking(c, l) == [1, 0, 0]),
            ("a register short", |c, l| lacking(c, l) == [0, 1, 0]),
            ("scratch short by 1", |c, l| lacking(c, l) == [0, 0, 1]),
        ],
    ),
    (
        9,
        &[
            ("ring at its length", |c, l| ring(c, l, 0)),
            ("phase 1", |c, l| phase(c, l, |x| x == 1.0)),
            ("phase below 0", |c, l| phase(c, l, |x| x == -f32::from_bits(1))),
            ("phase NaN", |c, l| phase(c, l, f32::is_nan)),
            ("position 2^62 + 1", |c, _| position(c) == LAST + 1),
        ],
    ),
    (
        10,
        &[
            ("position 2^62", |c, _| position(c) == LAST && c.out.len() == 1),
            ("to 2^62 + 1", |c, _| position(c) < LAST && position(c) + c.out.len() as u64 == LAST + 1),
        ],
    ),
];

/// How often each edge was seen, in the order of the table.
#[derive(Default)]
pub struct Counts([[u64; 6]; 4]);

impl Counts {
    pub fn add(&mut self, case: &Case, answer: u8) {
        let Ok(l) = &case.needs else { return };
        for (counts, (of, edges)) in self.0.iter_mut().zip(&EDGES) {
            if *of == answer {
                edges.iter().zip(counts).for_each(|((_, is), n)| *n += u64::from(is(case, l)));
            }
        }
    }

    /// Prints them, and gives the names of those never seen.
    pub fn print(&self) -> Vec<String> {
        let mut never = Vec::new();
        for (counts, (answer, edges)) in self.0.iter().zip(&EDGES) {
            let told: Vec<String> = edges.iter().zip(counts).map(|((name, _), n)| format!("{name}: {n}")).collect();
            println!("fill answered {answer} at {}", told.join(", "));
            let unseen = edges.iter().zip(counts).filter(|(_, n)| **n == 0);
            never.extend(unseen.map(|((name, _), _)| format!("fill {answer} at {name}")));
        }
        never
    }
}
