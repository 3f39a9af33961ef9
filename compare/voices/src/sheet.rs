//! Sheets: a tree of records, its bytes, and the node of the Rust that the bytes stand for.

use original::dsl::{Adsr, Curve, DriveShape, Mode, Modulator, Node, NoiseColor, Shape, SuperWave, Value};

/// A record with its chain.
#[derive(Clone, Debug)]
pub struct Record {
    pub kind: u8,
    pub option: u8,
    pub numbers: Vec<u32>,
    pub chain: Vec<Record>,
}

#[derive(Clone, Debug)]
pub struct Sheet {
    pub rate: u32,
    pub length: u64,
    pub path: u64,
    pub root: Record,
    /// The records' numbers, in the order of the walk; None: the walk's own.
    pub order: Option<Vec<u16>>,
}

/// A record as it stands in the sheet: first and next by the walk's numbers.
struct Row<'a> {
    record: &'a Record,
    first: usize,
    next: usize,
}

fn lay<'a>(record: &'a Record, rows: &mut Vec<Row<'a>>) {
    let at = rows.len();
    rows.push(Row { record, first: 0, next: 0 });
    let mut before: Option<usize> = None;
    for r in &record.chain {
        let here = rows.len();
        match before {
            None => rows[at].first = here,
            Some(b) => rows[b].next = here,
        }
        lay(r, rows);
        before = Some(here);
    }
}

impl Record {
    pub fn count(&self) -> usize {
        1 + self.chain.iter().map(Record::count).sum::<usize>()
    }

    /// For each record but the first, in the order of the walk, the one that links to it.
    pub fn linked_from(&self) -> Vec<usize> {
        let mut rows = Vec::new();
        lay(self, &mut rows);
        let mut from = vec![0; rows.len()];
        for (i, row) in rows.iter().enumerate() {
            from[row.first] = i;
            from[row.next] = i;
        }
        from
    }
}

impl Sheet {
    pub fn bytes(&self) -> Vec<u8> {
        let mut rows = Vec::new();
        lay(&self.root, &mut rows);
        let place = |i: usize| self.order.as_ref().map_or(i as u16, |o| o[i]);
        let mut out = vec![0; 24 + 40 * rows.len()];
        out[0..2].copy_from_slice(&(rows.len() as u16).to_le_bytes());
        out[4..8].copy_from_slice(&self.rate.to_le_bytes());
        out[8..16].copy_from_slice(&self.length.to_le_bytes());
        out[16..24].copy_from_slice(&self.path.to_le_bytes());
        for (i, row) in rows.iter().enumerate() {
            let at = &mut out[24 + 40 * place(i) as usize..][..40];
            at[0] = row.record.kind;
            at[1] = row.record.option;
            at[2..4].copy_from_slice(&place(row.first).to_le_bytes());
            at[4..6].copy_from_slice(&place(row.next).to_le_bytes());
            for (k, x) in row.record.numbers.iter().enumerate() {
                at[8 + 4 * k..12 + 4 * k].copy_from_slice(&x.to_le_bytes());
            }
        }
        out
    }
}

/// Reads a sheet's bytes, by document 01's tables.
pub struct Decoder<'a>(pub &'a [u8]);

impl Decoder<'_> {
    fn word(&self, at: usize) -> u32 {
        u32::from_le_bytes(self.0[at..at + 4].try_into().unwrap())
    }
    fn long(&self, at: usize) -> u64 {
        u64::from_le_bytes(self.0[at..at + 8].try_into().unwrap())
    }
    fn byte(&self, i: usize, k: usize) -> u8 {
        self.0[24 + 40 * i + k]
    }
    fn link(&self, i: usize, k: usize) -> usize {
        u16::from_le_bytes(self.0[24 + 40 * i + k..][..2].try_into().unwrap()) as usize
    }
    fn number(&self, i: usize, k: usize) -> f32 {
        f32::from_bits(self.word(24 + 40 * i + 8 + 4 * k))
    }
    pub fn rate(&self) -> u32 {
        self.word(4)
    }
    pub fn length(&self) -> usize {
        self.long(8) as usize
    }
    pub fn path(&self) -> u64 {
        self.long(16)
    }
    fn chain(&self, i: usize) -> Vec<usize> {
        let (mut out, mut at) = (Vec::new(), self.link(i, 2));
        while at != 0 {
            out.push(at);
            at = self.link(at, 4);
        }
        out
    }
    fn adsr(&self, i: usize) -> Adsr {
        let x = |k| self.number(i, k);
        Adsr { a: x(0), d: x(1), s: x(2), r: x(3), punch: x(4) }
    }

    fn value(&self, i: usize) -> Value {
        let x = |k| self.number(i, k);
        let option = self.byte(i, 1) as usize;
        Value::Modulated(match self.byte(i, 0) {
            41 => return Value::Const(x(0)),
            42 => Modulator::Slide { from: x(0), to: x(1), secs: x(2), curve: [Curve::Lin, Curve::Exp][option] },
            43 => {
                let shape = [Shape::Sine, Shape::Square, Shape::Triangle, Shape::Saw][option];
                Modulator::Lfo { shape, rate: x(0), depth: x(1), center: x(2) }
            }
            44 => Modulator::Arp { steps: self.chain(i).iter().map(|s| self.number(*s, 0)).collect(), rate: x(0) },
            45 => Modulator::EnvMod { adsr: self.adsr(i), from: x(5), to: x(6) },
            46 => Modulator::Rand { from: x(0), to: x(1), rate: x(2), seed: self.long(24 + 40 * i + 20) },
            kind => panic!("value {kind}"),
        })
    }

    fn mode(&self, i: usize) -> Mode {
        Mode { freq: self.number(i, 0), decay: self.number(i, 1), gain: self.number(i, 2) }
    }

    pub fn node(&self, i: usize) -> Node {
        let chain = self.chain(i);
        let x = |k| self.number(i, k);
        let v = |k: usize| self.value(chain[k]);
        let nodes = || chain.iter().map(|c| self.node(*c)).collect();
        let option = self.byte(i, 1) as usize;
        match self.byte(i, 0) {
            1 => Node::Sine { freq: v(0) },
            2 => Node::Square { freq: v(0), duty: v(1) },
            3 => Node::Sawtooth { freq: v(0) },
            4 => Node::Triangle { freq: v(0) },
            5 => Node::Fm { freq: v(0), ratio: x(0), index: v(1) },
            6 => {
                let wave = [SuperWave::Sawtooth, SuperWave::Square][option];
                Node::Super { wave, freq: v(0), voices: x(0).to_bits(), detune_cents: x(1) }
            }
            7 => Node::Impact { hardness: x(0), velocity: x(1) },
            8 => Node::Env { adsr: self.adsr(i) },
            9 => Node::Noise { color: [NoiseColor::White, NoiseColor::Pink, NoiseColor::Brown][option] },
            10 => Node::Dust { density: x(0), decay: x(1) },
            11 => Node::Mix { inputs: nodes() },
            12 => Node::Mul { inputs: nodes() },
            13 => Node::Chain { stages: nodes() },
            _ => self.processor(i, &chain),
        }
    }

    fn processor(&self, i: usize, chain: &[usize]) -> Node {
        let x = |k| self.number(i, k);
        let v = || self.value(chain[0]);
        let option = self.byte(i, 1) as usize;
        match self.byte(i, 0) {
            21 => Node::Gain { amount: v() },
            22 => Node::Lowpass { cutoff: v(), q: x(0) },
            23 => Node::Highpass { cutoff: v(), q: x(0) },
            24 => Node::Bandpass { cutoff: v(), q: x(0) },
            25 => Node::Notch { cutoff: v(), q: x(0) },
            26 => Node::Peak { cutoff: v(), q: x(0), gain_db: x(1) },
            27 => Node::Lowshelf { cutoff: v(), gain_db: x(0) },
            28 => Node::Highshelf { cutoff: v(), gain_db: x(0) },
            29 => Node::Delay { secs: x(0), feedback: x(1) },
            30 => Node::Reverb { room: x(0), mix: x(1) },
            31 => Node::Modal { modes: chain.iter().map(|m| self.mode(*m)).collect(), mix: x(0) },
            32 => {
                let shape = [DriveShape::Tanh, DriveShape::Hard, DriveShape::Fold][option % 3];
                Node::Drive { amount: v(), shape, aa: if option < 3 { None } else { Some(false) } }
            }
            33 => Node::Tremolo { rate: x(0), depth: x(1) },
            34 => Node::Chorus { rate: x(0), depth: x(1), mix: x(2) },
            35 => Node::Compress { threshold: x(0), ratio: x(1), attack: x(2), release: x(3), makeup: x(4) },
            kind => panic!("node {kind}"),
        }
    }
}
