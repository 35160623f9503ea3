//! Casts between types of numbers.

mod sealed {
    /// A number in one of the two forms by which all types are cast.
    #[derive(Copy, Clone)]
    pub enum Form {
        Whole(i128),
        Real(f64),
    }

    pub trait Formed: Sized {
        fn form(self) -> Form;
        fn of_form(form: Form) -> Option<Self>;
    }
}

use std::ops::{Add, Div, Mul, Sub};

use sealed::{Form, Formed};

/// A type of numbers that geometry can be cast to and from: the integers up to 64 bits, `f32` and `f64`.
pub trait Number: Copy + PartialOrd + Default + Formed {
    /// The number 2.
    const TWO: Self;

    /// The same number in this type, what is behind a decimal point dropped, or none where it has no place in it.
    fn of<N: Number>(number: N) -> Option<Self> {
        Self::of_form(number.form())
    }
}

/// A type of numbers with a decimal point: `f32` and `f64`.
pub trait Real: Number + Add<Output = Self> + Sub<Output = Self> + Mul<Output = Self> + Div<Output = Self> {
    /// The number 1.
    const ONE: Self;

    /// Rounded to the nearest whole number, and up from half way.
    #[must_use]
    fn round(self) -> Self {
        (self + Self::ONE / Self::TWO).floor()
    }

    /// Rounded down.
    #[must_use]
    fn floor(self) -> Self;

    /// Rounded up.
    #[must_use]
    fn ceil(self) -> Self;

    /// The square root.
    #[must_use]
    fn sqrt(self) -> Self;
}

/// What is left of a number without what is behind its decimal point, where an integer can hold it.
fn whole(real: f64) -> Option<i128> {
    const BEYOND: f64 = 1.7e38;
    // The range of `i128` ends above 1.7e38, and no type that is cast to has more than 64 bits.
    (real.abs() < BEYOND).then_some(real as i128)
}

macro_rules! integers {
    ($($name:ident),+) => {
        $(
            impl Formed for $name {
                fn form(self) -> Form {
                    Form::Whole(self as i128)
                }

                fn of_form(form: Form) -> Option<Self> {
                    match form {
                        Form::Whole(number) => Self::try_from(number).ok(),
                        Form::Real(number) => Self::try_from(whole(number)?).ok(),
                    }
                }
            }

            impl Number for $name {
                const TWO: Self = 2;
            }
        )+
    };
}

macro_rules! reals {
    ($($name:ident),+) => {
        $(
            impl Formed for $name {
                fn form(self) -> Form {
                    Form::Real(self.into())
                }

                fn of_form(form: Form) -> Option<Self> {
                    Some(match form {
                        Form::Whole(number) => number as Self,
                        Form::Real(number) => number as Self,
                    })
                }
            }

            impl Number for $name {
                const TWO: Self = 2.0;
            }

            impl Real for $name {
                const ONE: Self = 1.0;

                fn floor(self) -> Self {
                    self.floor()
                }

                fn ceil(self) -> Self {
                    self.ceil()
                }

                fn sqrt(self) -> Self {
                    self.sqrt()
                }
            }
        )+
    };
}

integers!(i8, i16, i32, i64, isize, u8, u16, u32, u64, usize);
reals!(f32, f64);

#[cfg(test)]
mod tests {
    use super::Number;

    #[test]
    fn numbers_without_a_place_are_none() {
        assert_eq!(u8::of(255_i32), Some(255));
        assert_eq!(u8::of(256_i32), None);
        assert_eq!(usize::of(-1_i32), None);
        assert_eq!(i32::of(-2.9_f32), Some(-2));
        assert_eq!(i32::of(2_147_483_648.0_f64), None);
        assert_eq!(i64::of(f64::NAN), None);
        assert_eq!(i64::of(f32::INFINITY), None);
        assert_eq!(f32::of(16_777_217_i32), Some(16_777_216.0));
        assert_eq!(f64::of(u64::MAX), Some(18_446_744_073_709_551_615.0));
    }
}
