//! The Rust original, built from its own source. Of `render/mod.rs` and `streaming/mod.rs` there is what the kernels name.
#![allow(dead_code, unused_imports)]

extern crate derives as schemars;
extern crate derives as serde;

include!(concat!(env!("OUT_DIR"), "/modules.rs"));

pub mod render {
    pub(crate) use effects::{FilterKind, biquad_coeffs, drive_antideriv, drive_curve};
    pub(crate) use osc::{osc, poly_blep};
    include!(concat!(env!("OUT_DIR"), "/render.rs"));

    /// `rand_seed` of the floats with these bits.
    pub fn rand_seed_of(seed: u64, from: u32, to: u32, rate: u32) -> u64 {
        rand_seed(seed, f32::from_bits(from), f32::from_bits(to), f32::from_bits(rate))
    }

    /// The sequencer is not compared, and its source is not whole.
    pub(crate) fn seq_to_signal(_: &crate::dsl::Node, _: usize, _: u32, _: &mut crate::dsp::Rng) -> Vec<f32> {
        unimplemented!()
    }
}

pub mod streaming {
    include!(concat!(env!("OUT_DIR"), "/streaming.rs"));

    /// The context of a bounce at any rate.
    pub(crate) fn at_rate(sr: u32, n: usize) -> Ctx {
        Ctx { sr, n, cap: 1, offline: true }
    }
}

mod units {
    #[derive(Clone, Copy, Debug, PartialEq, PartialOrd)]
    pub struct Beat(f64);

    impl Beat {
        pub fn zero() -> Beat {
            Beat(0.0)
        }
        pub fn to_f64(self) -> f64 {
            self.0
        }
    }
}
