//! The machine's own square root, cube roots, arc cosine, cosine and sine, called without std.
//!
//! Rust's std methods `acos`, `cos`, `sin` and `cbrt` call the symbols of these names, and so do we. In a Rust program
//! `acos`, `cos` and `sin` are the C library's, but `cbrt` is compiler-builtins', which the linker meets first: the C
//! library's own cube root is reached by its other name, `cbrtf64`.
#![no_std]

mod symbols {
    extern "C" {
        pub fn acos(x: f64) -> f64;
        pub fn cos(x: f64) -> f64;
        pub fn sin(x: f64) -> f64;
        pub fn cbrt(x: f64) -> f64;
        pub fn cbrtf64(x: f64) -> f64;
        #[cfg(not(target_arch = "x86_64"))]
        pub fn sqrt(x: f64) -> f64;
    }
}

// SAFETY of every call below: a pure function of one double, with the C library's signature.

/// As Rust's `f64::acos`.
#[inline]
pub fn acos(x: f64) -> f64 {
    unsafe { symbols::acos(x) }
}

/// As Rust's `f64::cos`.
#[inline]
pub fn cos(x: f64) -> f64 {
    unsafe { symbols::cos(x) }
}

/// As Rust's `f64::sin`.
#[inline]
pub fn sin(x: f64) -> f64 {
    unsafe { symbols::sin(x) }
}

/// As Rust's `f64::cbrt`.
#[inline]
pub fn cbrt(x: f64) -> f64 {
    unsafe { symbols::cbrt(x) }
}

/// The C library's cube root.
#[inline]
pub fn cbrt_of_libc(x: f64) -> f64 {
    unsafe { symbols::cbrtf64(x) }
}

/// IEEE 754's square root, by the processor's instruction.
#[cfg(target_arch = "x86_64")]
#[inline]
pub fn sqrt(x: f64) -> f64 {
    use core::arch::x86_64::{_mm_cvtsd_f64, _mm_set_sd, _mm_sqrt_sd};
    // SAFETY: every x86_64 processor has these SSE2 instructions.
    unsafe { _mm_cvtsd_f64(_mm_sqrt_sd(_mm_set_sd(0.0), _mm_set_sd(x))) }
}

/// IEEE 754's square root, which every C library's `sqrt` is.
#[cfg(not(target_arch = "x86_64"))]
#[inline]
pub fn sqrt(x: f64) -> f64 {
    unsafe { symbols::sqrt(x) }
}

/// Cosine and sine of a third of the angle with cosine t, as the Rust of docs/src writes them.
#[inline]
pub fn cosine_and_sine_of_third(t: f64) -> (f64, f64) {
    let theta = acos(t) / 3.0;
    (cos(theta), sin(theta))
}
