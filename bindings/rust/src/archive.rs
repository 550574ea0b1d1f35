// What libgirnhusk.a exports, as bindings/c/girnhusk.h declares it.

extern "C" {
    pub fn girnhusk_plan(mv: *const f64, mv_len: usize, plan: *mut f64, plan_len: usize) -> u64;
    pub fn girnhusk_is_blocked(plan: *const f64, plan_len: usize, t: f64) -> u64;
    pub fn girnhusk_arrival(
        durations: *const f64,
        durations_len: usize,
        ends: *const f64,
        ends_len: usize,
        time: &mut f64,
        axis: &mut u64,
    ) -> u64;
    pub fn girnhusk_sqrt(x: f64) -> f64;
    pub fn girnhusk_cbrt(x: f64) -> f64;
    pub fn girnhusk_third_angle_cosine(t: f64) -> f64;
    pub fn girnhusk_third_angle_sine(t: f64) -> f64;
    pub fn girnhusk_third_angle_pair(t: f64, cosine: &mut f64, sine: &mut f64);
}
