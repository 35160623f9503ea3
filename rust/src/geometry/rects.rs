//! Rectangles of a corner and two sides.

use std::borrow::Borrow;
use std::fmt;
use std::ops::{Add, Div, DivAssign, Mul, MulAssign, Range, Sub};

use super::{point2, size2, Box2D, Point2D, Size2D, Vector2D};
use crate::number::{Number, Real};

/// A corner and two sides.
#[repr(C)]
#[derive(Copy, Clone, PartialEq, Eq, Hash, Default)]
pub struct Rect<T> {
    /// The corner at the top left.
    pub origin: Point2D<T>,
    /// Its sides.
    pub size: Size2D<T>,
}

/// The rectangle with this corner and these sides.
pub const fn rect<T>(x: T, y: T, width: T, height: T) -> Rect<T> {
    Rect { origin: point2(x, y), size: size2(width, height) }
}

impl<T> Rect<T> {
    /// The rectangle of this size from this corner on.
    #[must_use]
    pub const fn new(origin: Point2D<T>, size: Size2D<T>) -> Self {
        Self { origin, size }
    }
}

impl<T: Default> Rect<T> {
    /// The rectangle without area at (0, 0).
    #[must_use]
    pub fn zero() -> Self {
        Self::default()
    }

    /// The rectangle of this size at (0, 0).
    #[must_use]
    pub fn from_size(size: Size2D<T>) -> Self {
        Self { origin: Point2D::default(), size }
    }
}

impl<T: Default> From<Size2D<T>> for Rect<T> {
    fn from(size: Size2D<T>) -> Self {
        Self::from_size(size)
    }
}

scaled!(Rect(origin, size));

impl<T: Copy> Rect<T> {
    /// The corner at the top left.
    #[must_use]
    pub fn min(&self) -> Point2D<T> {
        self.origin
    }

    /// The left edge.
    #[must_use]
    pub fn min_x(&self) -> T {
        self.origin.x
    }

    /// The upper edge.
    #[must_use]
    pub fn min_y(&self) -> T {
        self.origin.y
    }

    /// How wide it is.
    #[must_use]
    pub fn width(&self) -> T {
        self.size.width
    }

    /// How tall it is.
    #[must_use]
    pub fn height(&self) -> T {
        self.size.height
    }
}

impl<T: Copy + Add<Output = T>> Rect<T> {
    /// The corner at the bottom right, the first place past it.
    #[must_use]
    pub fn max(&self) -> Point2D<T> {
        self.origin + self.size
    }

    /// The first place right of it.
    #[must_use]
    pub fn max_x(&self) -> T {
        self.max().x
    }

    /// The first place below it.
    #[must_use]
    pub fn max_y(&self) -> T {
        self.max().y
    }

    /// The places across which it lies.
    #[must_use]
    pub fn x_range(&self) -> Range<T> {
        self.min_x()..self.max_x()
    }

    /// The places along which it lies.
    #[must_use]
    pub fn y_range(&self) -> Range<T> {
        self.min_y()..self.max_y()
    }

    /// The same rectangle elsewhere.
    #[must_use]
    pub fn translate(&self, by: Vector2D<T>) -> Self {
        Self { origin: self.origin + by, size: self.size }
    }

    /// The same between two corners.
    #[must_use]
    pub fn to_box2d(&self) -> Box2D<T> {
        Box2D { min: self.min(), max: self.max() }
    }
}

impl<T: Copy + Mul<Output = T>> Rect<T> {
    /// Width times height.
    #[must_use]
    pub fn area(&self) -> T {
        self.size.area()
    }

    /// The rectangle with `x` times the numbers across, and `y` times those down.
    #[must_use]
    pub fn scale(&self, x: T, y: T) -> Self {
        rect(self.min_x() * x, self.min_y() * y, self.width() * x, self.height() * y)
    }
}

impl<T: Copy + PartialOrd + Default> Rect<T> {
    /// Whether a side isn't positive.
    #[must_use]
    pub fn is_empty(&self) -> bool {
        self.size.is_empty()
    }

    /// The rectangle, or none where a side isn't positive.
    #[must_use]
    pub fn to_non_empty(&self) -> Option<Self> {
        (!self.is_empty()).then_some(*self)
    }
}

impl<T: Copy + PartialOrd + Add<Output = T>> Rect<T> {
    /// Whether a point lies in it; those at its right and lower edge don't.
    #[must_use]
    pub fn contains(&self, point: Point2D<T>) -> bool {
        self.to_box2d().contains(point)
    }

    /// Whether the other rectangle is empty or lies in this one.
    #[must_use]
    pub fn contains_rect(&self, other: &Self) -> bool {
        self.to_box2d().contains_box(&other.to_box2d())
    }

    /// Whether the two share a place.
    #[must_use]
    pub fn intersects(&self, other: &Self) -> bool {
        self.to_box2d().intersects(&other.to_box2d())
    }
}

impl<T: Copy + PartialOrd + Add<Output = T> + Sub<Output = T>> Rect<T> {
    /// What the two share, or none.
    #[must_use]
    pub fn intersection(&self, other: &Self) -> Option<Self> {
        let shared = self.to_box2d().intersection(&other.to_box2d())?;
        Some(shared.to_rect())
    }

    /// The least rectangle in which both lie; of an empty one and another it is the other.
    #[must_use]
    pub fn union(&self, other: &Self) -> Self {
        self.to_box2d().union(&other.to_box2d()).to_rect()
    }

    /// The rectangle that is larger by `width` to the left and right, and by `height` above and below.
    #[must_use]
    pub fn inflate(&self, width: T, height: T) -> Self {
        self.to_box2d().inflate(width, height).to_rect()
    }
}

impl<T: Copy + PartialOrd + Default + Sub<Output = T>> Rect<T> {
    /// The least rectangle that has all points in it or on an edge; without points that at (0, 0).
    #[must_use]
    pub fn from_points<I>(points: I) -> Self
    where
        I: IntoIterator,
        I::Item: Borrow<Point2D<T>>,
    {
        Box2D::from_points(points).to_rect()
    }
}

impl<T: Number + Add<Output = T> + Div<Output = T>> Rect<T> {
    /// The place half way from the corner on, the halves of the sides rounded towards 0.
    #[must_use]
    pub fn center(&self) -> Point2D<T> {
        self.origin + self.size / T::TWO
    }
}

impl<T: Real> Rect<T> {
    /// The rectangle whose edges are rounded to the nearest whole numbers, and up from half way.
    #[must_use]
    pub fn round(&self) -> Self {
        self.to_box2d().round().to_rect()
    }

    /// The largest rectangle in this one whose edges are whole numbers.
    #[must_use]
    pub fn round_in(&self) -> Self {
        self.to_box2d().round_in().to_rect()
    }

    /// The least rectangle around this one whose edges are whole numbers.
    #[must_use]
    pub fn round_out(&self) -> Self {
        self.to_box2d().round_out().to_rect()
    }

    /// The rectangle between this and the other: this at 0, the other at 1.
    #[must_use]
    pub fn lerp(&self, other: Self, share: T) -> Self {
        Self { origin: self.origin.lerp(other.origin, share), size: self.size.lerp(other.size, share) }
    }
}

impl<T: Number> Rect<T> {
    /// The same in another type of numbers, or none where a number has no place in it.
    #[must_use]
    pub fn try_cast<N: Number>(self) -> Option<Rect<N>> {
        Some(Rect { origin: self.origin.try_cast()?, size: self.size.try_cast()? })
    }

    casts!(Rect);
}

impl<T: fmt::Debug> fmt::Debug for Rect<T> {
    fn fmt(&self, f: &mut fmt::Formatter<'_>) -> fmt::Result {
        f.write_str("Rect(")?;
        self.size.fmt(f)?;
        f.write_str(" at ")?;
        self.origin.fmt(f)?;
        f.write_str(")")
    }
}
