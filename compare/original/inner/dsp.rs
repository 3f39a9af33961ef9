use super::Rng;

/// What is drawn at a state, and the next state.
fn drawn<T>(state: u64, draw: impl Fn(&mut Rng) -> T) -> (T, u64) {
    let mut rng = Rng(state);
    (draw(&mut rng), rng.0)
}
pub fn state(rng: &Rng) -> u64 {
    rng.0
}
pub fn splitmix_mix(z: u64) -> u64 {
    super::splitmix_mix(z)
}
pub fn next_u64(state: u64) -> (u64, u64) {
    drawn(state, Rng::next_u64)
}
pub fn unit(state: u64) -> (f32, u64) {
    drawn(state, Rng::unit)
}
pub fn bi(state: u64) -> (f32, u64) {
    drawn(state, Rng::bi)
}
pub fn range(state: u64, lo: f32, hi: f32) -> (f32, u64) {
    drawn(state, |rng| rng.range(lo, hi))
}
pub fn node_path(parent: u64, child: u64) -> u64 {
    super::node_path(parent, child as usize)
}
pub fn node_seed(path: u64) -> u64 {
    super::node_seed(path)
}
pub fn adsr_env([t, a, d, s, r, punch, rel_start]: [f32; 7]) -> f32 {
    super::adsr_env(t, a, d, s, r, punch, rel_start)
}
pub fn one_pole(secs: f32, sr: f32) -> f32 {
    super::one_pole(secs, sr)
}
pub fn follower_coeffs(attack: f32, release: f32, sr: f32) -> (f32, f32) {
    super::follower_coeffs(attack, release, sr)
}
pub fn modal_coeffs(freq: f32, decay: f32, gain: f32, sr: u32) -> (f32, f32, f32) {
    super::modal_coeffs(freq, decay, gain, sr)
}
pub fn freeverb_feedback(room: f32) -> f32 {
    super::freeverb_feedback(room)
}
pub fn delay_line_len(secs: f32, sr: u32) -> usize {
    super::delay_line_len(secs, sr)
}
pub fn comb_len(k: usize, sr: u32) -> usize {
    super::freeverb_lengths(sr, 0).0[k]
}
pub fn allpass_len(k: usize, sr: u32) -> usize {
    super::freeverb_lengths(sr, 0).1[k]
}
