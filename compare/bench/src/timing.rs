//! Times two functions of one type over the same inputs, in turns, and compares what they give.

use std::hint::black_box;
use std::time::Instant;

pub const INPUTS: usize = 4_096;
const RUNS: usize = 60;

/// A function of C's calling convention, whose operands come as a tuple.
pub trait Callee<Operands>: Copy {
    type Out: Copy + Default;
    fn call(self, operands: Operands) -> Self::Out;
}

impl<A, R: Copy + Default> Callee<(A,)> for extern "C" fn(A) -> R {
    type Out = R;
    fn call(self, (a,): (A,)) -> R {
        self(a)
    }
}

impl<A, B, R: Copy + Default> Callee<(A, B)> for extern "C" fn(A, B) -> R {
    type Out = R;
    fn call(self, (a, b): (A, B)) -> R {
        self(a, b)
    }
}

impl<A, B, C, R: Copy + Default> Callee<(A, B, C)> for extern "C" fn(A, B, C) -> R {
    type Out = R;
    fn call(self, (a, b, c): (A, B, C)) -> R {
        self(a, b, c)
    }
}

/// Whether two results count as one: every NaN is one.
pub trait Same {
    fn same(self, other: Self) -> bool;
}

macro_rules! exact {
    ($($t:ty),*) => { $(impl Same for $t { fn same(self, other: Self) -> bool { self == other } })* };
}
exact!(bool, u32, u64, i64);

impl Same for f32 {
    fn same(self, other: Self) -> bool {
        self.to_bits() == other.to_bits() || self.is_nan() && other.is_nan()
    }
}

impl Same for f64 {
    fn same(self, other: Self) -> bool {
        self.to_bits() == other.to_bits() || self.is_nan() && other.is_nan()
    }
}

/// One pass over the inputs. Both sides come as pointers of one type, so both run this very loop. Where the loop and its
/// callee lie in memory can change the time of a call by half, so the loop is there in some copies and the best counts.
#[inline(never)]
fn pass<const COPY: usize, I: Copy, F: Callee<I>>(f: F, inputs: &[I], out: &mut [F::Out]) {
    // Without this the compiler makes one function of the copies.
    black_box(COPY);
    for (input, result) in inputs.iter().zip(out) {
        *result = f.call(*input);
    }
}

/// The best time of a call over the copies, in nanoseconds.
fn timed<I: Copy, F: Callee<I>>(f: F, inputs: &[I], out: &mut [F::Out]) -> f64 {
    let copies = [
        pass::<0, I, F>,
        pass::<1, I, F>,
        pass::<2, I, F>,
        pass::<3, I, F>,
        pass::<4, I, F>,
        pass::<5, I, F>,
        pass::<6, I, F>,
        pass::<7, I, F>,
    ];
    let mut best = f64::INFINITY;
    for copy in copies {
        let start = Instant::now();
        copy(black_box(f), black_box(inputs), out);
        let time = start.elapsed();
        black_box(&mut *out);
        best = best.min(time.as_secs_f64() * 1e9 / inputs.len() as f64);
    }
    best
}

/// The best time of a call on either side, and how many results differ.
pub struct Times {
    pub rust: f64,
    pub rattle: f64,
    pub differ: usize,
}

pub fn compare<I: Copy, F: Callee<I>>(inputs: &[I], rust: F, rattle: F) -> Times
where
    F::Out: Same,
{
    let mut ours = vec![F::Out::default(); inputs.len()];
    let mut theirs = ours.clone();
    let mut best = Times { rust: f64::INFINITY, rattle: f64::INFINITY, differ: 0 };
    for _ in 0..RUNS {
        best.rust = best.rust.min(timed(rust, inputs, &mut theirs));
        best.rattle = best.rattle.min(timed(rattle, inputs, &mut ours));
    }
    best.differ = ours.iter().zip(&theirs).filter(|(a, b)| !a.same(**b)).count();
    best
}
