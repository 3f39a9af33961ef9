//! The kernels of a sample, in the order of the port's crates. The Rust's own code gives the answers.

mod dsp;
mod lines;
mod operand;
mod proc;
mod render;
mod source;
mod value;

use crate::section::Section;
use original::dsl::{Curve, DriveShape, Shape, SuperWave};

/// The choices by their numbers, which are those of their declarations.
fn shape(n: u64) -> Shape {
    [Shape::Sine, Shape::Square, Shape::Triangle, Shape::Saw][n as usize]
}

fn curve(n: u64) -> Curve {
    [Curve::Lin, Curve::Exp][n as usize]
}

fn drive_shape(n: u64) -> DriveShape {
    [DriveShape::Tanh, DriveShape::Hard, DriveShape::Fold][n as usize]
}

fn super_wave(n: u64) -> SuperWave {
    [SuperWave::Sawtooth, SuperWave::Square][n as usize]
}

pub fn sections() -> Vec<Section> {
    let first = [dsp::sections(), lines::sections(), render::sections(), value::sections()];
    let second = [source::sections(), proc::sections()];
    first.into_iter().chain(second).flatten().collect()
}
