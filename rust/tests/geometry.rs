//! What points, sizes and boxes answer.

use etagere::euclid::{default, rect, vec2, Box2D, Rect, Size2D, Vector2D};
use etagere::{point2, size2, Point, Rectangle, Size};

const CORNER: Point = point2(1, 2);
const SIZE: Size = Size::new(3, 4);
const BOX: Rectangle = Rectangle::new(CORNER, Point::new(4, 6));

#[test]
fn numbers_in_and_out() {
    assert_eq!((CORNER.x, CORNER.y, SIZE.width, SIZE.height), (1, 2, 3, 4));
    assert_eq!((Point::from((1, 2)), Size::from([3, 4])), (CORNER, SIZE));
    assert_eq!((CORNER.to_tuple(), SIZE.to_array()), ((1, 2), [3, 4]));
    assert_eq!((<(i32, i32)>::from(CORNER), <[i32; 2]>::from(SIZE)), ((1, 2), [3, 4]));
    assert_eq!((Point::zero(), Size::splat(5)), (Point::default(), size2(5, 5)));
    assert_eq!(SIZE.map(|side| side * 2), size2(6, 8));
    assert_eq!((SIZE.min(size2(9, 1)), SIZE.max(size2(9, 1))), (size2(3, 1), size2(9, 4)));
    assert_eq!(SIZE.clamp(size2(4, 0), size2(9, 3)), size2(4, 3));
}

#[test]
fn sums() {
    assert_eq!((CORNER + SIZE, CORNER - SIZE), (point2(4, 6), point2(-2, -2)));
    assert_eq!((CORNER + vec2(1, 1), CORNER - vec2(1, 1)), (point2(2, 3), point2(0, 1)));
    assert_eq!((point2(4, 6) - CORNER, -CORNER), (vec2(3, 4), point2(-1, -2)));
    assert_eq!((SIZE + SIZE, SIZE - SIZE, SIZE * 2, SIZE / 2), (size2(6, 8), Size::zero(), size2(6, 8), size2(1, 2)));
    let (mut corner, mut size) = (CORNER, SIZE);
    corner += SIZE;
    corner -= vec2(1, 1);
    size *= 3;
    size -= SIZE;
    size /= 2;
    assert_eq!((corner, size), (point2(3, 5), SIZE));
    assert_eq!((CORNER.to_vector(), SIZE.to_vector()), (vec2(1, 2), vec2(3, 4)));
    assert_eq!((vec2(1, 2).to_point(), vec2(3, 4).to_size(), Point::origin()), (CORNER, SIZE, point2(0, 0)));
    assert_eq!(([SIZE, SIZE].iter().sum::<Size>(), CORNER.add_size(&SIZE)), (size2(6, 8), BOX.max));
    assert_eq!([vec2(1, 2), vec2(3, 4)].into_iter().sum::<Vector2D<i32>>(), vec2(4, 6));
}

#[test]
fn vectors() {
    let (one, other) = (vec2(3, 4), vec2(2, -1));
    assert_eq!((one.dot(other), one.cross(other), one.square_length()), (2, -11, 25));
    assert_eq!((one.component_mul(other), one.component_div(other)), (vec2(6, -4), vec2(1, -4)));
    assert_eq!((one.yx(), CORNER.yx(), other.abs(), size2(-3, 4).abs()), (vec2(4, 3), point2(2, 1), vec2(2, 1), SIZE));
    assert_eq!((one.to_f32().length(), one.to_f64().normalize()), (5.0, vec2(0.6, 0.8)));
    assert_eq!(point2(1.0, 1.0).distance_to(point2(4.0, 5.0)), 5.0);
}

#[test]
fn sizes() {
    assert_eq!(SIZE.area(), 12);
    assert!(!SIZE.is_empty() && size2(0, 4).is_empty() && size2(3, -4).is_empty());
    assert!(SIZE.contains(SIZE) && SIZE.contains(size2(1, 1)) && !SIZE.contains(size2(4, 1)));
}

#[test]
fn boxes() {
    assert_eq!((BOX.size(), BOX.width(), BOX.height(), BOX.area()), (SIZE, 3, 4, 12));
    assert_eq!((Rectangle::from_origin_and_size(CORNER, SIZE), Rectangle::from(SIZE).max), (BOX, point2(3, 4)));
    assert_eq!((BOX.x_range(), BOX.y_range(), BOX.center()), (1..4, 2..6, point2(2, 4)));
    assert!(BOX.contains(CORNER) && BOX.contains(point2(3, 5)) && !BOX.contains(BOX.max));
    assert!(BOX.contains_inclusive(BOX.max) && !BOX.contains_inclusive(point2(5, 2)));
    assert_eq!(BOX.translate(vec2(1, -2)), Rectangle::new(point2(2, 0), point2(5, 4)));
    assert_eq!(BOX.inflate(1, 2), Rectangle::new(point2(0, 0), point2(5, 8)));
    assert_eq!(Rectangle::from_points([point2(4, 2), point2(1, 6)]), BOX);
    assert!(Rectangle::zero().is_empty() && !BOX.is_empty() && !BOX.is_negative());
    assert!(Rectangle::new(BOX.max, BOX.min).is_negative());
    assert_eq!((BOX.to_non_empty(), Rectangle::zero().to_non_empty()), (Some(BOX), None));
    assert_eq!((BOX * 2, BOX * 2 / 2), (BOX.scale(2, 2), BOX));
    assert_eq!(BOX.scale(1, 3), Rectangle::new(point2(1, 6), point2(4, 18)));
    let mut other = Rectangle::from_points([CORNER].iter());
    other.set_size(SIZE);
    assert_eq!(other, BOX);
}

#[test]
fn two_boxes() {
    let below = BOX.translate(vec2(0, 4));
    let beside = BOX.translate(vec2(2, 2));
    assert!(!BOX.intersects(&below) && BOX.intersects(&beside));
    assert_eq!(BOX.intersection(&below), None);
    assert_eq!(BOX.intersection(&beside), Some(Rectangle::new(point2(3, 4), point2(4, 6))));
    assert_eq!(BOX.union(&beside), Rectangle::new(point2(1, 2), point2(6, 8)));
    assert_eq!((BOX.union(&Rectangle::zero()), Rectangle::zero().union(&BOX)), (BOX, BOX));
    assert!(BOX.contains_box(&BOX) && BOX.contains_box(&Rectangle::zero()) && !BOX.contains_box(&beside));
}

#[test]
fn rects() {
    let same: Rect<i32> = BOX.to_rect();
    assert_eq!(same, rect(1, 2, 3, 4));
    assert_eq!((same.to_box2d(), same.min(), same.max(), same.area()), (BOX, CORNER, BOX.max, 12));
    assert_eq!((same.width(), same.height(), same.is_empty(), same.contains(BOX.max)), (3, 4, false, false));
    assert_eq!((same.min_x(), same.min_y(), same.max_x(), same.max_y()), (1, 2, 4, 6));
    assert_eq!((same.x_range(), same.y_range(), same.center()), (1..4, 2..6, point2(2, 4)));
    assert_eq!((same.translate(vec2(1, -2)), same.inflate(1, 2)), (rect(2, 0, 3, 4), rect(0, 0, 5, 8)));
    assert_eq!((same * 2, same.scale(1, 3), same * 2 / 2), (rect(2, 4, 6, 8), rect(1, 6, 3, 12), same));
    assert_eq!((Rect::from_size(SIZE), Rect::from(SIZE)), (rect(0, 0, 3, 4), rect(0, 0, 3, 4)));
    assert_eq!((Rect::from_points([CORNER, BOX.max]), same.to_non_empty()), (same, Some(same)));
    assert_eq!((Rect::<i32>::zero().to_non_empty(), Rect::zero().union(&same)), (None, same));
}

#[test]
fn two_rects() {
    let (one, below, beside) = (rect(1, 2, 3, 4), rect(1, 6, 3, 4), rect(3, 4, 3, 4));
    assert!(!one.intersects(&below) && one.intersects(&beside));
    assert_eq!((one.intersection(&below), one.intersection(&beside)), (None, Some(rect(3, 4, 1, 2))));
    assert_eq!(one.union(&beside), rect(1, 2, 5, 6));
    assert!(one.contains_rect(&one) && one.contains_rect(&Rect::zero()) && !one.contains_rect(&beside));
}

#[test]
fn between_whole_numbers() {
    let corner = point2(-1.5, 2.5);
    assert_eq!(
        (corner.round(), corner.floor(), corner.ceil()),
        (point2(-1.0, 3.0), point2(-2.0, 2.0), point2(-1.0, 3.0))
    );
    assert_eq!(size2(1.0, 2.0).lerp(size2(3.0, 6.0), 0.25), size2(1.5, 3.0));
    let part = Box2D::new(point2(0.25, 0.75), point2(2.25, 2.75));
    assert_eq!(part.round(), Box2D::new(point2(0.0, 1.0), point2(2.0, 3.0)));
    assert_eq!(part.round_in(), Box2D::new(point2(1.0, 1.0), point2(2.0, 2.0)));
    assert_eq!(part.round_out(), Box2D::new(point2(0.0, 0.0), point2(3.0, 3.0)));
    assert_eq!(part.lerp(part.translate(vec2(2.0, 4.0)), 0.5), part.translate(vec2(1.0, 2.0)));
    let same = part.to_rect();
    assert_eq!((same.round(), same.round_in()), (rect(0.0, 1.0, 2.0, 2.0), rect(1.0, 1.0, 1.0, 1.0)));
    assert_eq!((same.round_out(), same.lerp(same, 0.5)), (rect(0.0, 0.0, 3.0, 3.0), same));
}

#[test]
fn casts() {
    let real: Size2D<f32> = SIZE.to_f32();
    assert_eq!((real / 2.0, (real / 2.0).to_i32()), (size2(1.5, 2.0), size2(1, 2)));
    let places: default::Box2D<usize> = BOX.to_usize();
    assert_eq!(places.x_range().chain(places.y_range()).sum::<usize>(), 20);
    let vector: Vector2D<u32> = vec2(1_i64, 2).to_u32();
    assert_eq!((vector, BOX.to_f64().to_i64(), BOX.to_rect().cast::<u8>()), (vec2(1, 2), BOX.cast(), rect(1, 2, 3, 4)));
    assert_eq!((size2(-1, 0).try_cast::<u32>(), BOX.try_cast::<i8>().is_some()), (None, true));
    let _: Box2D<f64> = BOX.to_f64();
}

#[test]
#[should_panic(expected = "no place")]
fn a_cast_without_a_place() {
    let _ = point2(-1, 0).to_usize();
}

#[test]
fn texts() {
    assert_eq!(format!("{CORNER:?} {SIZE:?} {BOX:?}"), "(1, 2) 3x4 Box2D((1, 2), (4, 6))");
    assert_eq!(format!("{:?} {:?}", vec2(1, 2), BOX.to_rect()), "(1, 2) Rect(3x4 at (1, 2))");
    assert_eq!(
        format!("{:.1?} {:.1?}", SIZE.to_f32(), rect(0.0, 0.0, 1.0, 2.0)),
        "3.0x4.0 Rect(1.0x2.0 at (0.0, 0.0))"
    );
}
