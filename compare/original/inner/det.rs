pub fn sin_poly(x: f64) -> f64 {
    super::sin_poly(x)
}
pub fn cos_poly(x: f64) -> f64 {
    super::cos_poly(x)
}
pub fn reduce_2pi(x: f64) -> f64 {
    super::reduce_2pi(x)
}
pub fn ldexp2(k: i64) -> f64 {
    super::ldexp2(k)
}
pub fn expm1_small(x: f64) -> f64 {
    super::expm1_small(x)
}
