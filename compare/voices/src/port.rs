//! The player's calls under their C names, with the memory that a voice is lent.

#[repr(C)]
#[derive(Clone, Copy, Debug)]
pub struct Controls {
    pub position: u64,
    pub pitch: f32,
    pub target: f32,
    pub glide: f32,
    pub bend: f32,
}

#[repr(C)]
pub struct Answer {
    pub answer: u8,
    pub controls: Controls,
}

#[repr(C)]
pub struct Needed {
    pub refusal: u8,
    pub cells: u64,
    pub registers: u64,
    pub scratch: u64,
}

unsafe extern "C" {
    fn player_needs(sheet: *const u8, n: usize) -> Needed;
    fn player_pitch(c: Controls, scale: f32, coefficient: f32) -> Controls;
    fn player_bend(c: Controls, x: f32) -> Controls;
}

/// Declares calls that are lent a voice's memory, each with the arguments that stand between the sheet and the cells,
/// and makes each a function of a voice.
macro_rules! lent_calls {
    ($($call:ident($($more:ident: $kind:ty),*) -> $answer:ty;)*) => {
        unsafe extern "C" {
            $(fn $call(
                sheet: *const u8, n: usize, $($more: $kind,)*
                cells: *mut f32, m: usize, registers: *mut u64, r: usize, scratch: *mut f32, s: usize,
            ) -> $answer;)*
        }
        impl Voice {
            $(pub fn $call(&mut self, $($more: $kind),*) -> $answer {
                let (sheet, cells, registers, scratch) =
                    (&self.sheet, &mut self.cells, &mut self.registers, &mut self.scratch);
                unsafe {
                    $call(
                        sheet.as_ptr(), sheet.len(), $($more,)*
                        cells.as_mut_ptr(), cells.len(), registers.as_mut_ptr(), registers.len(),
                        scratch.as_mut_ptr(), scratch.len(),
                    )
                }
            })*
        }
    };
}

lent_calls! {
    player_build(c: Controls) -> Answer;
    player_fill(c: Controls, out: *mut f32, l: usize) -> Answer;
    player_cutoff(x: f32) -> u8;
}

/// What is lent beyond the needs, and the numbers that stand there: no call may change them.
const BEYOND: usize = 3;
const CELL: f32 = 12345.0;
const WORD: u64 = 0x0123_4567_89ab_cdef;

#[derive(Clone)]
pub struct Voice {
    pub sheet: Vec<u8>,
    pub controls: Controls,
    pub cells: Vec<f32>,
    pub registers: Vec<u64>,
    pub scratch: Vec<f32>,
}

pub fn needs(sheet: &[u8]) -> Needed {
    unsafe { player_needs(sheet.as_ptr(), sheet.len()) }
}

/// The cells, registers and scratch that a sheet needs.
pub fn needed(sheet: &[u8]) -> Result<(usize, usize, usize), String> {
    let needed = needs(sheet);
    match needed.refusal {
        0 => Ok((needed.cells as usize, needed.registers as usize, needed.scratch as usize)),
        refusal => Err(format!("needs answers {refusal}")),
    }
}

impl Voice {
    pub fn build(sheet: &[u8]) -> Result<Voice, String> {
        let (m, r, s) = needed(sheet)?;
        let controls = Controls { position: 77, pitch: 0.5, target: 3.0, glide: 0.25, bend: -1.0 };
        let cells = vec![CELL; m + BEYOND];
        let registers = vec![WORD; r + BEYOND];
        let scratch = vec![CELL; s + BEYOND];
        let mut v = Voice { sheet: sheet.to_vec(), controls, cells, registers, scratch };
        let a = v.player_build(controls);
        v.took(a, "build")?;
        Ok(v)
    }

    fn took(&mut self, a: Answer, call: &str) -> Result<(), String> {
        self.controls = a.controls;
        if a.answer != 0 {
            return Err(format!("{call} answers {}", a.answer));
        }
        Ok(())
    }

    pub fn fill(&mut self, out: &mut [f32]) -> Result<(), String> {
        let a = self.player_fill(self.controls, out.as_mut_ptr(), out.len());
        self.took(a, "fill")
    }

    pub fn pitch(&mut self, scale: f32, coefficient: f32) {
        self.controls = unsafe { player_pitch(self.controls, scale, coefficient) };
    }

    pub fn bend(&mut self, x: f32) {
        self.controls = unsafe { player_bend(self.controls, x) };
    }

    pub fn cutoff(&mut self, x: f32) -> Result<(), String> {
        match self.player_cutoff(x) {
            0 => Ok(()),
            answer => Err(format!("cutoff answers {answer}")),
        }
    }

    /// The needed cells and registers, if what is lent beyond the needs is as it was and the needed scratch is zeros.
    pub fn state(&self) -> Result<(&[f32], &[u64]), String> {
        let (cells, past) = self.cells.split_at(self.cells.len() - BEYOND);
        let (registers, after) = self.registers.split_at(self.registers.len() - BEYOND);
        let (scratch, rest) = self.scratch.split_at(self.scratch.len() - BEYOND);
        if past != [CELL; BEYOND] || after != [WORD; BEYOND] || rest != [CELL; BEYOND] {
            return Err("memory past the needs is written".into());
        }
        if scratch.iter().any(|x| x.to_bits() != 0) {
            return Err("the scratch is not zeroed".into());
        }
        Ok((cells, registers))
    }
}
