//! The two fields.

use core::fmt;

use tvarchula_sys as sys;

/// The field of a call: the integers modulo a prime. There are these two, and no call can name a
/// third.
///
/// Words do not tell their field: planner and cell agree on it, as on depth and rate.
///
/// ```
/// use tvarchula::Field;
/// assert_eq!(Field::Mersenne31.to_string(), "the integers modulo 2147483647");
/// assert_eq!(Field::BabyBear.to_string(), "the integers modulo 2013265921");
///
/// // No other case will come: a match needs no last arm.
/// let two_adicity = match Field::BabyBear {
///     Field::Mersenne31 => 1,
///     Field::BabyBear => 27,
/// };
/// assert_eq!(two_adicity, 27);
/// ```
#[derive(Clone, Copy, PartialEq, Eq, Hash, Debug)]
pub enum Field {
    /// The first: modulo 2^31 - 1.
    Mersenne31,
    /// The second: modulo 15 * 2^27 + 1. It has the roots of unity that
    /// [`fill_roots`](crate::fill_roots) writes.
    BabyBear,
}

impl Field {
    /// The modulus. Every word that is read is below it.
    ///
    /// ```
    /// use tvarchula::Field;
    /// assert_eq!(Field::Mersenne31.modulus(), (1 << 31) - 1);
    /// assert_eq!(Field::BabyBear.modulus(), 15 * (1 << 27) + 1);
    /// ```
    #[must_use]
    pub const fn modulus(self) -> u32 {
        match self {
            Field::Mersenne31 => sys::TV_MODULUS_1,
            Field::BabyBear => sys::TV_MODULUS_2,
        }
    }

    /// The largest clearance, in micrometres; the smallest is its negative.
    ///
    /// ```
    /// use tvarchula::Field;
    /// assert_eq!(Field::Mersenne31.max_clearance(), 1_073_741_823);
    /// assert_eq!(Field::BabyBear.max_clearance(), 1_006_632_960);
    /// ```
    #[must_use]
    pub const fn max_clearance(self) -> i32 {
        match self {
            Field::Mersenne31 => sys::TV_MAX_CLEARANCE_1,
            Field::BabyBear => sys::TV_MAX_CLEARANCE_2,
        }
    }

    /// One half: the word that is 1 when it is doubled. It is also the smallest that is read as an
    /// overlap.
    ///
    /// ```
    /// use tvarchula::Field;
    /// assert_eq!(Field::Mersenne31.half(), 1_073_741_824); // doubled 2147483648, that is p + 1
    /// assert_eq!(Field::BabyBear.half(), 1_006_632_961); // doubled 2013265922
    /// ```
    #[must_use]
    pub const fn half(self) -> u32 {
        self.modulus() / 2 + 1
    }

    /// The field as C names it.
    pub(crate) const fn lent(self) -> bool {
        match self {
            Field::Mersenne31 => sys::TV_FIELD_1,
            Field::BabyBear => sys::TV_FIELD_2,
        }
    }
}

impl fmt::Display for Field {
    fn fmt(&self, f: &mut fmt::Formatter<'_>) -> fmt::Result {
        write!(f, "the integers modulo {}", self.modulus())
    }
}
