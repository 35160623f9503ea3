//! Points, sizes and boxes of pixels, as callers of the crate `euclid` know them.
//!
//! These are plain structs without units. [`Point`](crate::Point), [`Size`](crate::Size) and
//! [`Rectangle`](crate::Rectangle) are those of `i32`.
//!
//! ```
//! use etagere::euclid::{rect, vec2};
//! use etagere::{point2, size2, Rectangle};
//!
//! let rectangle = Rectangle::from_origin_and_size(point2(10, 20), size2(30, 40));
//!
//! assert_eq!(rectangle.max, point2(40, 60));
//! assert_eq!(rectangle.translate(vec2(1, 2)).min, point2(11, 22));
//! assert_eq!(rectangle.to_rect(), rect(10, 20, 30, 40));
//! assert_eq!(rectangle.size().to_f32() / 4.0, size2(7.5, 10.0));
//! ```

use std::fmt;
use std::iter::Sum;
use std::ops::{Add, AddAssign, Div, DivAssign, Mul, MulAssign, Neg, Sub, SubAssign};

use crate::number::{Number, Real};

/// The geometry types under the names that `euclid` gives to those without units.
pub mod default {
    pub use super::{Box2D, Point2D, Rect, Size2D, Vector2D};
}

/// A place.
#[repr(C)]
#[derive(Copy, Clone, PartialEq, Eq, Hash, Default)]
pub struct Point2D<T> {
    /// How far right.
    pub x: T,
    /// How far down.
    pub y: T,
}

/// The way from one place to another.
#[repr(C)]
#[derive(Copy, Clone, PartialEq, Eq, Hash, Default)]
pub struct Vector2D<T> {
    /// How far to the right.
    pub x: T,
    /// How far down.
    pub y: T,
}

/// Two sides.
#[repr(C)]
#[derive(Copy, Clone, PartialEq, Eq, Hash, Default)]
pub struct Size2D<T> {
    /// How wide.
    pub width: T,
    /// How tall.
    pub height: T,
}

/// The point at these coordinates: `Point2D::new`.
pub const fn point2<T>(x: T, y: T) -> Point2D<T> {
    Point2D { x, y }
}

/// The vector of these coordinates: `Vector2D::new`.
pub const fn vec2<T>(x: T, y: T) -> Vector2D<T> {
    Vector2D { x, y }
}

/// The size of these sides: `Size2D::new`.
pub const fn size2<T>(width: T, height: T) -> Size2D<T> {
    Size2D { width, height }
}

/// The casts of a type whose `try_cast` is there.
macro_rules! casts {
    ($name:ident) => {
        /// The same in another type of numbers; what is behind a decimal point is dropped.
        ///
        /// # Panics
        ///
        /// Where a number has no place in the other type.
        #[must_use]
        #[track_caller]
        pub fn cast<N: Number>(self) -> $name<N> {
            self.try_cast().expect("a number has no place in the type that it is cast to")
        }

        casts! { $name to_f32 f32, to_f64 f64, to_usize usize, to_i32 i32, to_u32 u32, to_i64 i64 }
    };
    ($name:ident $($method:ident $number:ident),+) => {
        $(
            #[doc = concat!("The same in numbers of type `", stringify!($number), "`, by [`cast`](Self::cast).")]
            #[must_use]
            #[track_caller]
            pub fn $method(self) -> $name<$number> {
                self.cast()
            }
        )+
    };
}

/// The product with a number and the quotient, of a type whose parts have them.
macro_rules! scaled {
    ($name:ident($first:ident, $second:ident)) => {
        impl<T: Copy + Mul<Output = T>> Mul<T> for $name<T> {
            type Output = Self;

            fn mul(self, factor: T) -> Self {
                Self { $first: self.$first * factor, $second: self.$second * factor }
            }
        }

        impl<T: Copy + Div<Output = T>> Div<T> for $name<T> {
            type Output = Self;

            fn div(self, divisor: T) -> Self {
                Self { $first: self.$first / divisor, $second: self.$second / divisor }
            }
        }

        impl<T: Copy + Mul<Output = T>> MulAssign<T> for $name<T> {
            fn mul_assign(&mut self, factor: T) {
                *self = *self * factor;
            }
        }

        impl<T: Copy + Div<Output = T>> DivAssign<T> for $name<T> {
            fn div_assign(&mut self, divisor: T) {
                *self = *self / divisor;
            }
        }
    };
}

mod boxes;
mod rects;

pub use boxes::Box2D;
pub use rects::{rect, Rect};

/// What all types of two numbers have.
macro_rules! pair {
    ($name:ident, $first:ident, $second:ident) => {
        impl<T> $name<T> {
            #[doc = concat!("Makes one of `", stringify!($first), "` and `", stringify!($second), "`.")]
            #[must_use]
            pub const fn new($first: T, $second: T) -> Self {
                Self { $first, $second }
            }

            /// Both numbers, each changed in the same way.
            #[must_use]
            pub fn map<U>(self, mut change: impl FnMut(T) -> U) -> $name<U> {
                $name { $first: change(self.$first), $second: change(self.$second) }
            }

            /// Both numbers as an array.
            #[must_use]
            pub fn to_array(self) -> [T; 2] {
                [self.$first, self.$second]
            }

            /// Both numbers as a tuple.
            #[must_use]
            pub fn to_tuple(self) -> (T, T) {
                (self.$first, self.$second)
            }
        }

        impl<T: Copy> $name<T> {
            /// The one whose numbers are both `value`.
            #[must_use]
            pub const fn splat(value: T) -> Self {
                Self { $first: value, $second: value }
            }
        }

        impl<T: Default> $name<T> {
            /// The one whose numbers are both 0.
            #[must_use]
            pub fn zero() -> Self {
                Self::default()
            }
        }

        impl<T: PartialOrd> $name<T> {
            /// Of each number the lesser one.
            #[must_use]
            pub fn min(self, other: Self) -> Self {
                Self { $first: least(self.$first, other.$first), $second: least(self.$second, other.$second) }
            }

            /// Of each number the greater one.
            #[must_use]
            pub fn max(self, other: Self) -> Self {
                Self { $first: greatest(self.$first, other.$first), $second: greatest(self.$second, other.$second) }
            }

            /// Each number, but no less than that of `start` and no more than that of `end`.
            #[must_use]
            pub fn clamp(self, start: Self, end: Self) -> Self {
                self.max(start).min(end)
            }
        }

        impl<T: Number> $name<T> {
            /// The same in another type of numbers, or none where a number has no place in it.
            #[must_use]
            pub fn try_cast<N: Number>(self) -> Option<$name<N>> {
                Some($name { $first: N::of(self.$first)?, $second: N::of(self.$second)? })
            }

            casts!($name);
        }

        impl<T> From<(T, T)> for $name<T> {
            fn from(($first, $second): (T, T)) -> Self {
                Self { $first, $second }
            }
        }

        impl<T> From<[T; 2]> for $name<T> {
            fn from([$first, $second]: [T; 2]) -> Self {
                Self { $first, $second }
            }
        }

        impl<T> From<$name<T>> for (T, T) {
            fn from(pair: $name<T>) -> Self {
                pair.to_tuple()
            }
        }

        impl<T> From<$name<T>> for [T; 2] {
            fn from(pair: $name<T>) -> Self {
                pair.to_array()
            }
        }

        impl<T: Real> $name<T> {
            /// Both numbers rounded to the nearest whole one, and up from half way.
            #[must_use]
            pub fn round(self) -> Self {
                self.map(T::round)
            }

            /// Both numbers rounded down.
            #[must_use]
            pub fn floor(self) -> Self {
                self.map(T::floor)
            }

            /// Both numbers rounded up.
            #[must_use]
            pub fn ceil(self) -> Self {
                self.map(T::ceil)
            }

            /// What lies between this and the other: this at 0, the other at 1.
            #[must_use]
            pub fn lerp(self, other: Self, share: T) -> Self {
                Self {
                    $first: between(self.$first, other.$first, share),
                    $second: between(self.$second, other.$second, share),
                }
            }
        }

        scaled!($name($first, $second));

        impl<T: Neg<Output = T>> Neg for $name<T> {
            type Output = Self;

            fn neg(self) -> Self {
                self.map(|number| -number)
            }
        }
    };
}

pair!(Point2D, x, y);
pair!(Vector2D, x, y);
pair!(Size2D, width, height);

/// Sums and differences of two types of two numbers.
macro_rules! sums {
    ($($trait:ident $call:ident: $left:ident($a:ident, $b:ident) $right:ident($c:ident, $d:ident) = $sum:ident;)+) => {
        $(
            impl<T: $trait<Output = T>> $trait<$right<T>> for $left<T> {
                type Output = $sum<T>;

                fn $call(self, other: $right<T>) -> $sum<T> {
                    $sum::new(self.$a.$call(other.$c), self.$b.$call(other.$d))
                }
            }
        )+
    };
}

sums! {
    Add add: Point2D(x, y) Vector2D(x, y) = Point2D;
    Add add: Point2D(x, y) Size2D(width, height) = Point2D;
    Add add: Vector2D(x, y) Vector2D(x, y) = Vector2D;
    Add add: Size2D(width, height) Size2D(width, height) = Size2D;
    Sub sub: Point2D(x, y) Vector2D(x, y) = Point2D;
    Sub sub: Point2D(x, y) Size2D(width, height) = Point2D;
    Sub sub: Point2D(x, y) Point2D(x, y) = Vector2D;
    Sub sub: Vector2D(x, y) Vector2D(x, y) = Vector2D;
    Sub sub: Size2D(width, height) Size2D(width, height) = Size2D;
}

/// Sums and differences that are assigned.
macro_rules! assigned {
    ($($left:ident $right:ident),+) => {
        $(
            impl<T: Copy + Add<Output = T>> AddAssign<$right<T>> for $left<T> {
                fn add_assign(&mut self, other: $right<T>) {
                    *self = *self + other;
                }
            }

            impl<T: Copy + Sub<Output = T>> SubAssign<$right<T>> for $left<T> {
                fn sub_assign(&mut self, other: $right<T>) {
                    *self = *self - other;
                }
            }
        )+
    };
}

assigned!(Point2D Vector2D, Point2D Size2D, Vector2D Vector2D, Size2D Size2D);

/// The sums of all that an iterator has.
macro_rules! summed {
    ($($name:ident),+) => {
        $(
            impl<T: Default + Add<Output = T>> Sum for $name<T> {
                fn sum<I: Iterator<Item = Self>>(all: I) -> Self {
                    all.fold(Self::default(), Add::add)
                }
            }

            impl<'a, T: Copy + Default + Add<Output = T>> Sum<&'a Self> for $name<T> {
                fn sum<I: Iterator<Item = &'a Self>>(all: I) -> Self {
                    all.copied().sum()
                }
            }
        )+
    };
}

summed!(Vector2D, Size2D);

/// What lies between two numbers: the first at 0, the second at 1.
fn between<T: Real>(start: T, end: T, share: T) -> T {
    start * (T::ONE - share) + end * share
}

fn least<T: PartialOrd>(one: T, other: T) -> T {
    if one <= other {
        one
    } else {
        other
    }
}

fn greatest<T: PartialOrd>(one: T, other: T) -> T {
    if one >= other {
        one
    } else {
        other
    }
}

impl<T: Default> Point2D<T> {
    /// The point (0, 0).
    #[must_use]
    pub fn origin() -> Self {
        Self::default()
    }
}

impl<T> Point2D<T> {
    /// The way from (0, 0) to this point.
    #[must_use]
    pub fn to_vector(self) -> Vector2D<T> {
        vec2(self.x, self.y)
    }

    /// The point whose coordinates are swapped.
    #[must_use]
    pub fn yx(self) -> Self {
        point2(self.y, self.x)
    }
}

impl<T: Copy + Add<Output = T>> Point2D<T> {
    /// The point that is farther right and down by a size.
    #[must_use]
    pub fn add_size(self, other: &Size2D<T>) -> Self {
        self + *other
    }
}

impl<T: Real> Point2D<T> {
    /// How far it is to the other point.
    #[must_use]
    pub fn distance_to(self, other: Self) -> T {
        (self - other).length()
    }
}

impl<T> Vector2D<T> {
    /// Where this way leads from (0, 0).
    #[must_use]
    pub fn to_point(self) -> Point2D<T> {
        point2(self.x, self.y)
    }

    /// The sides of what this way crosses.
    #[must_use]
    pub fn to_size(self) -> Size2D<T> {
        size2(self.x, self.y)
    }

    /// The vector whose coordinates are swapped.
    #[must_use]
    pub fn yx(self) -> Self {
        vec2(self.y, self.x)
    }
}

impl<T: Mul<Output = T>> Vector2D<T> {
    /// The product of each coordinate with that of the other.
    #[must_use]
    pub fn component_mul(self, other: Self) -> Self {
        vec2(self.x * other.x, self.y * other.y)
    }
}

impl<T: Div<Output = T>> Vector2D<T> {
    /// Each coordinate divided by that of the other.
    #[must_use]
    pub fn component_div(self, other: Self) -> Self {
        vec2(self.x / other.x, self.y / other.y)
    }
}

impl<T: Copy + Mul<Output = T> + Add<Output = T>> Vector2D<T> {
    /// The dot product.
    #[must_use]
    pub fn dot(self, other: Self) -> T {
        self.x * other.x + self.y * other.y
    }

    /// The square of the length.
    #[must_use]
    pub fn square_length(self) -> T {
        self.dot(self)
    }
}

impl<T: Copy + Mul<Output = T> + Sub<Output = T>> Vector2D<T> {
    /// The area of what the two span, negative where the other lies to the left.
    #[must_use]
    pub fn cross(self, other: Self) -> T {
        self.x * other.y - self.y * other.x
    }
}

impl<T: Real> Vector2D<T> {
    /// How long it is.
    #[must_use]
    pub fn length(self) -> T {
        self.square_length().sqrt()
    }

    /// The vector of length 1 in the same direction; of a zero vector not a number.
    #[must_use]
    pub fn normalize(self) -> Self {
        self / self.length()
    }
}

impl<T> Size2D<T> {
    /// The way from the corner at the top left to that at the bottom right.
    #[must_use]
    pub fn to_vector(self) -> Vector2D<T> {
        vec2(self.width, self.height)
    }
}

/// Both numbers without their signs.
macro_rules! unsigned {
    ($($name:ident),+) => {
        $(
            impl<T: Number + Neg<Output = T>> $name<T> {
                /// Both numbers without their signs.
                #[must_use]
                pub fn abs(self) -> Self {
                    self.map(|number| if number < T::default() { -number } else { number })
                }
            }
        )+
    };
}

unsigned!(Vector2D, Size2D);

impl<T: Mul<Output = T>> Size2D<T> {
    /// Width times height.
    #[must_use]
    pub fn area(self) -> T {
        self.width * self.height
    }
}

impl<T: PartialOrd + Default> Size2D<T> {
    /// Whether a side isn't positive.
    #[must_use]
    pub fn is_empty(self) -> bool {
        !(self.width > T::default() && self.height > T::default())
    }
}

impl<T: PartialOrd> Size2D<T> {
    /// Whether the other size is neither wider nor taller.
    #[must_use]
    pub fn contains(self, other: Self) -> bool {
        self.width >= other.width && self.height >= other.height
    }
}

impl<T: fmt::Debug> fmt::Debug for Point2D<T> {
    fn fmt(&self, f: &mut fmt::Formatter<'_>) -> fmt::Result {
        f.debug_tuple("").field(&self.x).field(&self.y).finish()
    }
}

impl<T: fmt::Debug> fmt::Debug for Vector2D<T> {
    fn fmt(&self, f: &mut fmt::Formatter<'_>) -> fmt::Result {
        f.debug_tuple("").field(&self.x).field(&self.y).finish()
    }
}

impl<T: fmt::Debug> fmt::Debug for Size2D<T> {
    fn fmt(&self, f: &mut fmt::Formatter<'_>) -> fmt::Result {
        fmt::Debug::fmt(&self.width, f)?;
        f.write_str("x")?;
        fmt::Debug::fmt(&self.height, f)
    }
}
