//! Document 01's checks and needs, read from its text: the lowest number that applies to a call, or 0. Nothing here is from
//! the port's code. The lengths of lines are asked of the Rust: the text sends to it for those of delay and reverb, and has
//! one case of a chorus's.

use original::dsp::inner::{allpass_len, comb_len, delay_line_len};
use original::streaming::proc::inner::chorus_built;

/// The last position.
const LAST: u64 = 1 << 62;

/// What a record's chain holds.
#[derive(Clone, Copy, PartialEq)]
enum Holds {
    Nothing,
    Values(usize),
    Nodes,
    Modes,
    Steps,
}
use Holds::*;

/// How many options and numbers a kind has, and what its chain holds. A kind without options has the option 0.
fn table(kind: u8) -> Option<(u8, usize, Holds)> {
    Some(match kind {
        1 | 3 | 4 => (1, 0, Values(1)),
        2 => (1, 0, Values(2)),
        5 => (1, 1, Values(2)),
        6 => (2, 2, Values(1)),
        8 => (1, 5, Nothing),
        9 => (3, 0, Nothing),
        7 | 10 => (1, 2, Nothing),
        11..=13 => (1, 0, Nodes),
        21 => (1, 0, Values(1)),
        26 => (1, 2, Values(1)),
        22..=28 => (1, 1, Values(1)),
        29 | 30 | 33 => (1, 2, Nothing),
        31 => (1, 1, Modes),
        32 => (6, 0, Values(1)),
        34 => (1, 3, Nothing),
        35 => (1, 5, Nothing),
        41 | 52 => (1, 1, Nothing),
        42 => (2, 3, Nothing),
        43 => (4, 3, Nothing),
        44 => (1, 1, Steps),
        45 => (1, 7, Nothing),
        // The seed is two numbers long.
        46 => (1, 5, Nothing),
        51 => (1, 3, Nothing),
        _ => return None,
    })
}

fn is_node(kind: u8) -> bool {
    kind <= 35
}

fn is_processor(kind: u8) -> bool {
    (21..=35).contains(&kind)
}

/// What a sheet needs, and where in the lent memory stands what check 9 and cutoff look at.
#[derive(Default)]
pub struct Layout {
    pub cells: usize,
    pub registers: usize,
    pub scratch: usize,
    /// The register of each ring place, and its line's length.
    pub rings: Vec<(usize, u64)>,
    /// The cells of the Rand phases.
    pub phases: Vec<usize>,
    /// The cells of the filters' scales; the last frequencies stand after them.
    pub filters: Vec<usize>,
    /// Whether the records stand in the order of a walk that meets a record before its chain.
    pub walked: bool,
}

struct Sheet<'a>(&'a [u8]);

impl Sheet<'_> {
    fn half(&self, at: usize) -> usize {
        usize::from(self.0[at]) + 256 * usize::from(self.0[at + 1])
    }
    fn word(&self, at: usize) -> u32 {
        (self.half(at) + 65_536 * self.half(at + 2)) as u32
    }
    fn count(&self) -> usize {
        self.half(0)
    }
    fn rate(&self) -> u32 {
        self.word(4)
    }
    fn record(&self, i: usize) -> &[u8] {
        &self.0[24 + 40 * i..][..40]
    }
    fn kind(&self, i: usize) -> u8 {
        self.record(i)[0]
    }
    fn first(&self, i: usize) -> usize {
        self.half(24 + 40 * i + 2)
    }
    fn next(&self, i: usize) -> usize {
        self.half(24 + 40 * i + 4)
    }
    fn number(&self, i: usize, k: usize) -> u32 {
        self.word(24 + 40 * i + 8 + 4 * k)
    }
    /// A record's own chain, once links are known to climb.
    fn chain(&self, i: usize) -> Vec<usize> {
        let mut chain = Vec::new();
        let mut at = self.first(i);
        while at != 0 {
            chain.push(at);
            at = self.next(at);
        }
        chain
    }

    /// 1, of the length by the count of records. What is shorter than a header has no count of its own.
    fn length_is_wrong(&self) -> bool {
        self.0.len() < 24 || self.0.len() != 24 + 40 * self.count() || self.count() < 1 || self.count() > 256
    }
    /// 2, of the rate and the header's two zero bytes.
    fn header_is_wrong(&self) -> bool {
        self.rate() < 8_000 || self.rate() > 192_000 || self.0[2] != 0 || self.0[3] != 0
    }
    /// 3, of one record by itself: its kind, its option, and what its kind leaves unused, but for the links.
    fn record_is_wrong(&self) -> bool {
        (0..self.count()).map(|i| self.record(i)).any(|r| match table(r[0]) {
            None => true,
            Some((options, numbers, _)) => {
                r[1] >= options || r[6] != 0 || r[7] != 0 || r[8 + 4 * numbers..].iter().any(|b| *b != 0)
            }
        })
    }
    /// 4: links climb, and nothing comes after record 0.
    fn link_is_wrong(&self) -> bool {
        let wrong = |i: usize, link: usize| link != 0 && (link <= i || link >= self.count());
        self.next(0) != 0 || (0..self.count()).any(|i| wrong(i, self.first(i)) || wrong(i, self.next(i)))
    }
    /// 5: one link leads to each record but the first.
    fn linking_is_wrong(&self) -> bool {
        let mut links = vec![0; self.count()];
        for i in 0..self.count() {
            links[self.first(i)] += 1;
            links[self.next(i)] += 1;
        }
        links[1..].iter().any(|n| *n != 1)
    }
    /// 6, of what chains hold, and of record 0, which has to be a node.
    fn chain_is_wrong(&self) -> bool {
        let fits = |i: usize| {
            let kinds: Vec<u8> = self.chain(i).iter().map(|c| self.kind(*c)).collect();
            match table(self.kind(i)) {
                Some((_, _, Nodes)) => kinds.iter().all(|k| is_node(*k)),
                Some((_, _, Modes)) => kinds.iter().all(|k| *k == 51),
                Some((_, _, Steps)) => kinds.iter().all(|k| *k == 52),
                Some((_, _, Values(n))) => kinds.len() == n && kinds.iter().all(|k| (41..=46).contains(k)),
                _ => kinds.is_empty(),
            }
        };
        !is_node(self.kind(0)) || !(0..self.count()).all(fits)
    }
    /// How many nodes stand below each other from this one on.
    fn nesting(&self, i: usize) -> usize {
        let below = self.chain(i).into_iter().filter(|c| is_node(self.kind(*c)));
        1 + below.map(|c| self.nesting(c)).max().unwrap_or(0)
    }
    /// 7, of the depth, which record 0 begins with 1.
    fn nesting_is_wrong(&self) -> bool {
        self.nesting(0) > 16
    }

    /// Marks what is built where a source is wanted.
    fn build_source(&self, i: usize, built: &mut [bool]) {
        let chain = self.chain(i);
        match self.kind(i) {
            kind if is_processor(kind) => {}
            11 | 12 => {
                built[i] = true;
                chain.iter().for_each(|c| self.build_source(*c, built));
            }
            13 => {
                built[i] = true;
                let source = chain.iter().rposition(|c| !is_processor(self.kind(*c)));
                if let Some(k) = source {
                    self.build_source(chain[k], built);
                }
                chain[source.map_or(0, |k| k + 1)..].iter().for_each(|c| self.build_whole(*c, built));
            }
            _ => self.build_whole(i, built),
        }
    }
    /// Marks a record and all below it.
    fn build_whole(&self, i: usize, built: &mut [bool]) {
        built[i] = true;
        self.chain(i).iter().for_each(|c| self.build_whole(*c, built));
    }

    /// The lengths of a record's lines.
    fn lines(&self, i: usize) -> Vec<u64> {
        let x = |k| f32::from_bits(self.number(i, k));
        let lines = match self.kind(i) {
            29 => vec![delay_line_len(x(0), self.rate())],
            30 => {
                let combs = (0..6).map(|k| comb_len(k, self.rate()));
                combs.chain((0..4).map(|k| allpass_len(k, self.rate()))).collect()
            }
            34 => vec![chorus_built(x(1), self.rate()).2],
            _ => vec![],
        };
        lines.into_iter().map(|n| n as u64).collect()
    }
    fn cells(&self, i: usize) -> usize {
        let line: u64 = self.lines(i).iter().sum();
        match self.kind(i) {
            1..=3 | 10 => 1,
            4 | 5 => 2,
            6 => 2 * self.number(i, 0).clamp(1, 16) as usize,
            9 => [0, 7, 1][usize::from(self.record(i)[1])],
            22..=28 => 11,
            29 | 34 => line as usize,
            30 => line as usize + 6,
            31 => 5 * self.chain(i).len(),
            32 | 35 => 4,
            46 => 3,
            _ => 0,
        }
    }

    fn preorder(&self, i: usize, order: &mut Vec<usize>) {
        order.push(i);
        self.chain(i).iter().for_each(|c| self.preorder(*c, order));
    }
    /// What the built records need together, and where in the lent memory their rings, phases and filters stand.
    fn layout(&self) -> Layout {
        let (mut built, mut order, mut l) = (vec![false; self.count()], Vec::new(), Layout::default());
        self.build_source(0, &mut built);
        self.preorder(0, &mut order);
        l.walked = order.iter().enumerate().all(|(place, i)| place == *i);
        for i in (0..self.count()).filter(|i| built[*i]) {
            let lines = self.lines(i);
            l.rings.extend(lines.iter().enumerate().map(|(k, len)| (l.registers + k, *len)));
            match self.kind(i) {
                46 => l.phases.push(l.cells + 2),
                22..=28 => l.filters.push(l.cells),
                _ => {}
            }
            l.cells += self.cells(i);
            l.registers += if matches!(self.kind(i), 9 | 10 | 46) { 1 } else { lines.len() };
            l.scratch += if matches!(self.kind(i), 11 | 12) { 256 } else { 0 };
        }
        l
    }
}

/// Checks 1 to 7, and the layout of an accepted sheet.
pub fn needs<'a>(sheet: &'a [u8]) -> Result<Layout, u8> {
    let sheet = Sheet(sheet);
    // In order, since each is worded for sheets to which those before it do not apply.
    let checks: [fn(&Sheet<'a>) -> bool; 7] = [
        Sheet::length_is_wrong,
        Sheet::header_is_wrong,
        Sheet::record_is_wrong,
        Sheet::link_is_wrong,
        Sheet::linking_is_wrong,
        Sheet::chain_is_wrong,
        Sheet::nesting_is_wrong,
    ];
    match checks.iter().position(|applies| applies(&sheet)) {
        Some(k) => Err(k as u8 + 1),
        None => Ok(sheet.layout()),
    }
}

/// What a call is lent, and a fill's position and length.
pub struct Lent<'a> {
    pub cells: &'a [f32],
    pub registers: &'a [u64],
    pub scratch: usize,
    pub position: u64,
    pub length: usize,
}

/// Checks 1 to 8, which build and cutoff make.
pub fn build(needs: &Result<Layout, u8>, lent: &Lent) -> u8 {
    match needs {
        Err(refusal) => *refusal,
        Ok(l) if lent.cells.len() < l.cells || lent.registers.len() < l.registers || lent.scratch < l.scratch => 8,
        Ok(_) => 0,
    }
}

/// Checks 1 to 10.
pub fn fill(needs: &Result<Layout, u8>, lent: &Lent) -> u8 {
    let refusal = build(needs, lent);
    let (0, Ok(l)) = (refusal, needs) else { return refusal };
    let ring_is_wrong = |(at, length): &(usize, u64)| lent.registers[*at] >= *length;
    let phase_is_right = |at: &usize| lent.cells[*at] >= 0.0 && lent.cells[*at] < 1.0;
    if lent.position > LAST || l.rings.iter().any(ring_is_wrong) || !l.phases.iter().all(phase_is_right) {
        return 9;
    }
    if u128::from(lent.position) + lent.length as u128 > u128::from(LAST) {
        return 10;
    }
    0
}
