//! Boxes between two corners.

use std::borrow::Borrow;
use std::fmt;
use std::ops::{Add, Div, DivAssign, Mul, MulAssign, Range, Sub};

use super::{point2, size2, Point2D, Rect, Size2D, Vector2D};
use crate::number::{Number, Real};

/// What lies from one corner on, up to the other one, which is no part of it.
#[repr(C)]
#[derive(Copy, Clone, PartialEq, Eq, Hash, Default)]
pub struct Box2D<T> {
    /// The corner at the top left.
    pub min: Point2D<T>,
    /// The corner at the bottom right, the first place past the box.
    pub max: Point2D<T>,
}

impl<T> Box2D<T> {
    /// The box between two corners.
    #[must_use]
    pub const fn new(min: Point2D<T>, max: Point2D<T>) -> Self {
        Self { min, max }
    }
}

impl<T: Default> Box2D<T> {
    /// The box without area at (0, 0).
    #[must_use]
    pub fn zero() -> Self {
        Self::default()
    }

    /// The box of this size at (0, 0).
    #[must_use]
    pub fn from_size(size: Size2D<T>) -> Self {
        Self { min: Point2D::default(), max: point2(size.width, size.height) }
    }
}

scaled!(Box2D(min, max));

impl<T: Copy + Mul<Output = T>> Box2D<T> {
    /// The box whose corners have `x` times the coordinates across, and `y` times those down.
    #[must_use]
    pub fn scale(&self, x: T, y: T) -> Self {
        let scaled = |corner: Point2D<T>| point2(corner.x * x, corner.y * y);
        Self { min: scaled(self.min), max: scaled(self.max) }
    }
}

impl<T: Copy + Add<Output = T>> Box2D<T> {
    /// The box of this size from this corner on.
    #[must_use]
    pub fn from_origin_and_size(origin: Point2D<T>, size: Size2D<T>) -> Self {
        Self { min: origin, max: origin + size }
    }

    /// Gives the box this size, from its corner at the top left on.
    pub fn set_size(&mut self, size: Size2D<T>) {
        self.max = self.min + size;
    }

    /// The same box elsewhere.
    #[must_use]
    pub fn translate(&self, by: Vector2D<T>) -> Self {
        Self { min: self.min + by, max: self.max + by }
    }
}

impl<T: Copy + Sub<Output = T>> Box2D<T> {
    /// How wide and how tall it is.
    #[must_use]
    pub fn size(&self) -> Size2D<T> {
        size2(self.width(), self.height())
    }

    /// How wide it is.
    #[must_use]
    pub fn width(&self) -> T {
        self.max.x - self.min.x
    }

    /// How tall it is.
    #[must_use]
    pub fn height(&self) -> T {
        self.max.y - self.min.y
    }

    /// The same as a corner and two sides.
    #[must_use]
    pub fn to_rect(&self) -> Rect<T> {
        Rect { origin: self.min, size: self.size() }
    }
}

impl<T: Copy + Sub<Output = T> + Mul<Output = T>> Box2D<T> {
    /// Width times height.
    #[must_use]
    pub fn area(&self) -> T {
        self.size().area()
    }
}

impl<T: Copy + Add<Output = T> + Sub<Output = T>> Box2D<T> {
    /// The box that is larger by `width` to the left and right, and by `height` above and below.
    #[must_use]
    pub fn inflate(&self, width: T, height: T) -> Self {
        let by = size2(width, height);
        Self { min: self.min - by, max: self.max + by }
    }
}

impl<T: Copy> Box2D<T> {
    /// The places across which it lies.
    #[must_use]
    pub fn x_range(&self) -> Range<T> {
        self.min.x..self.max.x
    }

    /// The places along which it lies.
    #[must_use]
    pub fn y_range(&self) -> Range<T> {
        self.min.y..self.max.y
    }
}

impl<T: Copy + PartialOrd> Box2D<T> {
    /// Whether a side isn't positive.
    #[must_use]
    pub fn is_empty(&self) -> bool {
        !(self.max.x > self.min.x && self.max.y > self.min.y)
    }

    /// The box, or none where a side isn't positive.
    #[must_use]
    pub fn to_non_empty(&self) -> Option<Self> {
        (!self.is_empty()).then_some(*self)
    }

    /// Whether a side is negative.
    #[must_use]
    pub fn is_negative(&self) -> bool {
        self.max.x < self.min.x || self.max.y < self.min.y
    }

    /// Whether a point lies in it; those at its right and lower edge don't.
    #[must_use]
    pub fn contains(&self, point: Point2D<T>) -> bool {
        self.x_range().contains(&point.x) && self.y_range().contains(&point.y)
    }

    /// Whether a point lies in it or on one of its edges.
    #[must_use]
    pub fn contains_inclusive(&self, point: Point2D<T>) -> bool {
        (self.min.x..=self.max.x).contains(&point.x) && (self.min.y..=self.max.y).contains(&point.y)
    }

    /// Whether the other box is empty or lies in this one.
    #[must_use]
    pub fn contains_box(&self, other: &Self) -> bool {
        other.is_empty() || (self.contains_inclusive(other.min) && self.contains_inclusive(other.max))
    }

    /// Whether the two share a place.
    #[must_use]
    pub fn intersects(&self, other: &Self) -> bool {
        self.min.x < other.max.x && self.max.x > other.min.x && self.min.y < other.max.y && self.max.y > other.min.y
    }

    /// What the two share, or none.
    #[must_use]
    pub fn intersection(&self, other: &Self) -> Option<Self> {
        self.intersection_unchecked(other).to_non_empty()
    }

    /// What the two share; where that is nothing, a box that is empty.
    #[must_use]
    pub fn intersection_unchecked(&self, other: &Self) -> Self {
        Self { min: self.min.max(other.min), max: self.max.min(other.max) }
    }

    /// The least box in which both lie; of an empty one and another it is the other.
    #[must_use]
    pub fn union(&self, other: &Self) -> Self {
        if other.is_empty() {
            *self
        } else if self.is_empty() {
            *other
        } else {
            Self { min: self.min.min(other.min), max: self.max.max(other.max) }
        }
    }
}

impl<T: Copy + PartialOrd + Default> Box2D<T> {
    /// The least box that has all points in it or on an edge; without points that at (0, 0).
    #[must_use]
    pub fn from_points<I>(points: I) -> Self
    where
        I: IntoIterator,
        I::Item: Borrow<Point2D<T>>,
    {
        let mut points = points.into_iter().map(|point| *point.borrow());
        let Some(first) = points.next() else { return Self::default() };
        points.fold(Self::new(first, first), |all, point| Self::new(all.min.min(point), all.max.max(point)))
    }
}

impl<T: Number + Add<Output = T> + Div<Output = T>> Box2D<T> {
    /// The place half way between the corners, rounded towards 0.
    #[must_use]
    pub fn center(&self) -> Point2D<T> {
        (self.min + self.max.to_vector()) / T::TWO
    }
}

impl<T: Real> Box2D<T> {
    /// The box whose corners are rounded to the nearest whole numbers, and up from half way.
    #[must_use]
    pub fn round(&self) -> Self {
        Self { min: self.min.round(), max: self.max.round() }
    }

    /// The largest box in this one whose corners are whole numbers.
    #[must_use]
    pub fn round_in(&self) -> Self {
        Self { min: self.min.ceil(), max: self.max.floor() }
    }

    /// The least box around this one whose corners are whole numbers.
    #[must_use]
    pub fn round_out(&self) -> Self {
        Self { min: self.min.floor(), max: self.max.ceil() }
    }

    /// The box between this and the other: this at 0, the other at 1.
    #[must_use]
    pub fn lerp(&self, other: Self, share: T) -> Self {
        Self { min: self.min.lerp(other.min, share), max: self.max.lerp(other.max, share) }
    }
}

impl<T: Number> Box2D<T> {
    /// The same in another type of numbers, or none where a number has no place in it.
    #[must_use]
    pub fn try_cast<N: Number>(self) -> Option<Box2D<N>> {
        Some(Box2D { min: self.min.try_cast()?, max: self.max.try_cast()? })
    }

    casts!(Box2D);
}

impl<T: Default> From<Size2D<T>> for Box2D<T> {
    fn from(size: Size2D<T>) -> Self {
        Self::from_size(size)
    }
}

impl<T: fmt::Debug> fmt::Debug for Box2D<T> {
    fn fmt(&self, f: &mut fmt::Formatter<'_>) -> fmt::Result {
        f.debug_tuple("Box2D").field(&self.min).field(&self.max).finish()
    }
}
