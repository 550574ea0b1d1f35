//! The functions of the archive, safe to call, and the generator of arguments that the programs share.

pub mod arrivals;
pub mod plan_inputs;
pub mod plan_tally;
pub mod plans;

mod archive {
    extern "C" {
        pub fn girnhusk_sqrt(x: f64) -> f64;
        pub fn girnhusk_cbrt(x: f64) -> f64;
        pub fn girnhusk_third_angle_cosine(t: f64) -> f64;
        pub fn girnhusk_third_angle_sine(t: f64) -> f64;
        pub fn girnhusk_third_angle_pair(t: f64, cosine: &mut f64, sine: &mut f64);
        pub fn girnhusk_sqrt_by_digits(x: f64) -> f64;
        pub fn girnhusk_cbrt_by_digits(x: f64) -> f64;
        pub fn girnhusk_third_angle_cosine_by_digits(t: f64) -> f64;
        pub fn girnhusk_third_angle_sine_by_digits(t: f64) -> f64;
    }
}

macro_rules! safe {
    ($($name:ident = $foreign:ident;)*) => {
        $(
            /// The archive's function of this name: total on every double.
            #[inline]
            pub fn $name(x: f64) -> f64 {
                // SAFETY: the function takes and gives a number, and is proved to be defined for every one.
                unsafe { archive::$foreign(x) }
            }
        )*
    };
}

safe! {
    sqrt = girnhusk_sqrt;
    cbrt = girnhusk_cbrt;
    third_angle_cosine = girnhusk_third_angle_cosine;
    third_angle_sine = girnhusk_third_angle_sine;
    sqrt_by_digits = girnhusk_sqrt_by_digits;
    cbrt_by_digits = girnhusk_cbrt_by_digits;
    third_angle_cosine_by_digits = girnhusk_third_angle_cosine_by_digits;
    third_angle_sine_by_digits = girnhusk_third_angle_sine_by_digits;
}

/// The archive's cosine and sine of a third of the angle, together.
#[inline]
pub fn third_angle_pair(t: f64) -> (f64, f64) {
    let (mut cosine, mut sine) = (0.0, 0.0);
    // SAFETY: proved to be defined for every number; it writes the two numbers lent and nothing else.
    unsafe { archive::girnhusk_third_angle_pair(t, &mut cosine, &mut sine) };
    (cosine, sine)
}

/// SplitMix64: the sequence that a seed decides.
pub struct Numbers(pub u64);

impl Numbers {
    pub fn word(&mut self) -> u64 {
        self.0 = self.0.wrapping_add(0x9E37_79B9_7F4A_7C15);
        let mut z = self.0;
        z = (z ^ (z >> 30)).wrapping_mul(0xBF58_476D_1CE4_E5B9);
        z = (z ^ (z >> 27)).wrapping_mul(0x94D0_49BB_1331_11EB);
        z ^ (z >> 31)
    }

    /// A number from 0 to 1.
    pub fn unit(&mut self) -> f64 {
        (self.word() >> 11) as f64 / (1u64 << 53) as f64
    }

    /// Any bit pattern.
    pub fn any(&mut self) -> f64 {
        f64::from_bits(self.word())
    }

    /// A t from -1 to 1: even, or close to an end, or close to 0.
    pub fn cosine(&mut self) -> f64 {
        let kind = self.word() % 3;
        let sign = if self.word() % 2 == 0 { 1.0 } else { -1.0 };
        let small = self.unit() * f64::powi(0.5, (self.word() % 60) as i32);
        sign * match kind {
            0 => self.unit(),
            1 => 1.0 - small,
            _ => small,
        }
    }
}

/// Whether two doubles are equal: the same bits, or both a NaN.
pub fn same(x: f64, y: f64) -> bool {
    x.to_bits() == y.to_bits() || (x.is_nan() && y.is_nan())
}

/// The whole number in this place of the command line. A word that is none ends the program with the usage.
pub fn whole_number(words: &[String], place: usize, otherwise: u64, usage: &str) -> u64 {
    let Some(word) = words.get(place) else { return otherwise };
    word.parse().unwrap_or_else(|_| {
        eprintln!("{word}: not a whole number\nusage: {usage}");
        std::process::exit(2)
    })
}
