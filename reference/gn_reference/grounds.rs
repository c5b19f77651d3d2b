//! Grounds: how far it is from one position to another, in decimetres.

use crate::packet::{Position, Refusal};

pub const MOST_SCALE: u16 = 1113;
const NORTH_SCALE: u16 = 1113;
const PARTS_OF_A_DECIMETRE: u64 = 10_000;
const DECIMETRES_OF_A_METRE: u64 = 10;

#[derive(Clone, Copy, Debug, PartialEq, Eq)]
pub enum Shape {
    Flat,
    Street,
}

/// A flat or a street ground of an east scale, which is at most 1,113.
#[derive(Clone, Copy, Debug, PartialEq, Eq)]
pub struct Ground {
    shape: Shape,
    east_scale: u16,
}

impl Ground {
    pub fn new(shape: Shape, east_scale: u16) -> Result<Ground, Refusal> {
        if east_scale > MOST_SCALE {
            return Err(Refusal {
                number: 14,
                place: 0,
            });
        }
        Ok(Ground { shape, east_scale })
    }

    /// The flat and the street ground of an east scale.
    pub fn both(east_scale: u16) -> Result<[Ground; 2], Refusal> {
        Ok([
            Ground::new(Shape::Flat, east_scale)?,
            Ground::new(Shape::Street, east_scale)?,
        ])
    }

    pub fn name(&self) -> &'static str {
        match self.shape {
            Shape::Flat => "flat",
            Shape::Street => "street",
        }
    }

    pub fn distance(&self, from: Position, to: Position) -> u64 {
        let north = scaled(from.latitude, to.latitude, NORTH_SCALE);
        let east = scaled(from.longitude, to.longitude, self.east_scale);
        match self.shape {
            Shape::Flat => root_above(north * north + east * east),
            Shape::Street => north + east,
        }
    }

    /// Whether a position is inside a circle; the radius is in metres.
    pub fn is_inside(&self, position: Position, centre: Position, radius: u16) -> bool {
        self.distance(position, centre) <= DECIMETRES_OF_A_METRE * u64::from(radius)
    }
}

/// The difference of two coordinates in decimetres, with the fraction dropped.
fn scaled(from: i32, to: i32, scale: u16) -> u64 {
    let difference = u64::from(from.abs_diff(to));
    difference * u64::from(scale) / PARTS_OF_A_DECIMETRE
}

/// The least whole number whose square is at least `square`.
fn root_above(square: u64) -> u64 {
    let root = square.isqrt();
    if root * root == square {
        root
    } else {
        root + 1
    }
}

#[cfg(test)]
mod tests {
    use super::{root_above, Ground};
    use crate::packet::Position;

    const ORIGIN: Position = at(0, 0);

    const fn at(latitude: i32, longitude: i32) -> Position {
        Position {
            latitude,
            longitude,
        }
    }

    fn distances(scale: u16, from: Position, to: Position) -> [u64; 2] {
        Ground::both(scale)
            .unwrap()
            .map(|ground| ground.distance(from, to))
    }

    #[test]
    fn roots_are_the_least_that_reach() {
        for (square, root) in [(0, 0), (1, 1), (2, 2), (4, 2), (5, 3), (9, 3), (10, 4)] {
            assert_eq!(root_above(square), root, "{square}");
        }
        for root in [3_000_000_000, 4_294_967_295] {
            assert_eq!(root_above(root * root - 1), root);
            assert_eq!(root_above(root * root), root);
            assert_eq!(root_above(root * root + 1), root + 1);
        }
    }

    #[test]
    fn worked_distances() {
        assert_eq!(distances(1113, at(9, 9), ORIGIN), [2, 2]);
        assert_eq!(distances(1113, at(8, -8), ORIGIN), [0, 0]);
        assert_eq!(distances(1113, at(100_000, 0), ORIGIN), [11_130, 11_130]);
        assert_eq!(distances(0, at(0, i32::MAX), ORIGIN), [0, 0]);
        assert_eq!(
            distances(1113, at(0, 1_790_000_000), at(0, -1_790_000_000)),
            [398_454_000; 2]
        );
    }

    #[test]
    fn the_farthest_pair() {
        assert_eq!(
            distances(1113, at(i32::MIN, i32::MAX), at(i32::MAX, i32::MIN)),
            [676_036_310, 956_059_718]
        );
    }

    #[test]
    fn a_circle_has_its_edge() {
        for ground in Ground::both(1113).unwrap() {
            assert!(ground.is_inside(at(100_000, 0), ORIGIN, 1113));
            assert!(!ground.is_inside(at(100_000, 0), ORIGIN, 1112));
            assert!(ground.is_inside(ORIGIN, ORIGIN, 0));
            assert!(!ground.is_inside(at(-9, 0), ORIGIN, 0));
        }
    }

    #[test]
    fn scales_above_the_equators_are_refused() {
        assert!(Ground::both(1113).is_ok());
        let refusal = Ground::both(1114).unwrap_err();
        assert_eq!((refusal.number, refusal.place), (14, 0));
    }
}
