//! The port's block kernels under their C names. A slice is a pointer and a length there; slices come first.

macro_rules! kernels {
    ($($name:ident($($s:ident: $e:ty),*; $($x:ident: $t:ty),*) $(-> $r:ty)?;)*) => {
        mod c {
            unsafe extern "C" {
                $(pub fn $name($(_: *mut $e, _: usize,)* $(_: $t),*) $(-> $r)?;)*
            }
        }
        $(pub fn $name($($s: &mut [$e],)* $($x: $t),*) $(-> $r)? {
            unsafe { c::$name($($s.as_mut_ptr(), $s.len(),)* $($x),*) }
        })*
    };
}

kernels! {
    block_constant(out: f32; x: f32);
    block_slide(out: f32; curve: u8, from: f32, to: f32, secs: f32, srf: f32, t: u64);
    block_lfo(out: f32; shape: u8, rate: f32, depth: f32, center: f32, srf: f32, t: u64);
    block_env_mod(out: f32; a: f32, d: f32, s: f32, r: f32, punch: f32, from: f32, to: f32, srf: f32, rel: f32, t: u64);
    block_rand(out: f32, cells: f32, words: u64; inc: f32, from: f32, to: f32);
    block_check(sheet: u8, kinds: u8, first: usize, next: usize;) -> u8;
    block_arp(out: f32, sheet: u8, nexts: usize, cells: f32, regs: u64; count: usize, i: usize, t: u64);

    block_sine(out: f32, f: f32, pitch: f32, cells: f32; srf: f32);
    block_square(out: f32, f: f32, duty: f32, pitch: f32, cells: f32; srf: f32);
    block_saw(out: f32, f: f32, pitch: f32, cells: f32; srf: f32);
    block_triangle(out: f32, f: f32, pitch: f32, cells: f32; srf: f32);
    block_fm(out: f32, f: f32, index: f32, pitch: f32, cells: f32; ratio: f32, srf: f32);
    block_super(out: f32, f: f32, pitch: f32, cells: f32; wave: u8, n: usize, srf: f32);
    block_white(out: f32, words: u64;);
    block_pink(out: f32, cells: f32, words: u64;);
    block_brown(out: f32, cells: f32, words: u64;);
    block_dust(out: f32, cells: f32, words: u64; chance: f32, decay: f32);
    block_impact(out: f32; w: u64, norm: f32, t: u64);
    block_env(out: f32; a: f32, d: f32, s: f32, r: f32, punch: f32, srf: f32, rel: f32, t: u64);

    block_gain(out: f32, amount: f32;);
    block_filter(out: f32, cutoff: f32, cells: f32; kind: u8, db: f32, q: f32, sr: u32);
    block_drive(out: f32, amount: f32, cells: f32, buf: f32; shape: u8);
    block_drive_plain(out: f32, amount: f32; shape: u8);
    block_tremolo(out: f32, buf: f32; rate: f32, depth: f32, srf: f32, t: u64);
    block_compress(out: f32, cells: f32, buf: f32; threshold: f32, ratio: f32);
    block_delay(out: f32, line: f32, words: u64; feedback: f32);
    block_chorus(out: f32, line: f32, words: u64, buf: f32; base: f32, swing: f32, rate: f32, srf: f32, mix: f32, t: u64);
    block_modal(out: f32, cells: f32; mix: f32, n: usize);
    block_reverb(out: f32, lens: u64, cells: f32, regs: u64; feedback: f32, mix: f32);
}
