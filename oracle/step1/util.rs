//! Supplied: the integration of one phase, named by functions that no plan calls.

pub fn integrate(t: f64, p: f64, v: f64, a: f64, j: f64) -> (f64, f64, f64) {
    let position = p + t * (v + t * (a / 2.0 + t * j / 6.0));
    let velocity = v + t * (a + t * j / 2.0);
    (position, velocity, a + t * j)
}
