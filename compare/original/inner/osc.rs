use super::Shape;

pub fn poly_blep(t: f32, dt: f32) -> f32 {
    super::poly_blep(t, dt)
}
pub fn osc(shape: Shape, phase: f32) -> f32 {
    super::osc(shape, phase)
}
