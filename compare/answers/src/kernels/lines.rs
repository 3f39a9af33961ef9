//! The lengths of the delay lines: dsp.rs, and what proc.rs builds a chorus with.

use super::operand::*;
use crate::section::{single, Section};
use original::dsp::inner;
use original::streaming::proc::inner::chorus_built;

fn length(n: usize) -> Vec<Answer> {
    vec![Answer::Number(n as u64)]
}

pub fn sections() -> Vec<Section> {
    let secs = || float(&[1e-4, 0.25, 1.0, 29.0, 30.0, 31.0], |r| r.range(0.0, 2.0));
    let depth = || between(0.0, 1.0);
    vec![
        kernel("delay_line_len", 2_500, vec![secs(), valid_rate()])
            .plain(|x| length(inner::delay_line_len(single(x[0]), x[1] as u32))),
        kernel("chorus_base", 2_000, vec![valid_rate()]).float(|x| chorus_built(0.5, x[0] as u32).0),
        kernel("chorus_swing", 2_000, vec![depth(), valid_rate()]).float(|x| chorus_built(single(x[0]), x[1] as u32).1),
        kernel("chorus_line_len", 2_000, vec![depth(), valid_rate()])
            .plain(|x| length(chorus_built(single(x[0]), x[1] as u32).2)),
        kernel("comb_len", 2_000, vec![choice(6), valid_rate()])
            .plain(|x| length(inner::comb_len(x[0] as usize, x[1] as u32))),
        kernel("allpass_len", 2_000, vec![choice(4), valid_rate()])
            .plain(|x| length(inner::allpass_len(x[0] as usize, x[1] as u32))),
    ]
}
