use super::{DriveShape, FilterKind};

/// The kinds in the order of their declaration.
pub(crate) fn kind(n: u8, gain: f32) -> FilterKind {
    use FilterKind::*;
    [Low, High, Band, Notch, Peak(gain), LowShelf(gain), HighShelf(gain)][n as usize]
}
pub fn biquad_coeffs(n: u8, gain: f32, fc: f32, q: f32, sr: u32) -> (f32, f32, f32, f32, f32) {
    super::biquad_coeffs(kind(n, gain), fc, q, sr)
}
pub fn drive_curve(x: f32, shape: DriveShape) -> f32 {
    super::drive_curve(x, shape)
}
pub fn drive_antideriv(x: f32, shape: DriveShape) -> f32 {
    super::drive_antideriv(x, shape)
}
