//! Masks, directions and distances.
use crate::raw::{
    self,
    answers::{heading, value},
};
use crate::{Point, Refusal};

/// The forced mask of a neighbour mask: the directions in which something beside the cell is blocked.
///
/// ```
/// assert_eq!(barnsling::forced_mask(255), 0);
/// assert_eq!(barnsling::forced_mask(254), 108);
/// ```
pub fn forced_mask(neighbours: u8) -> u8 {
    raw::forced_mask(neighbours)
}

/// The directions that a search follows from a cell with this neighbour mask, having come in a direction (read modulo 8).
///
/// ```
/// assert_eq!(barnsling::pruned_mask(true, 1, 255), 7);
/// assert_eq!(barnsling::pruned_mask(false, 2, 255), 21);
/// ```
pub fn pruned_mask(diagonal: bool, direction: u8, neighbours: u8) -> u8 {
    raw::pruned_mask(diagonal, direction, neighbours)
}

/// How one point lies from another. Directions are 0 to 7, clockwise from north.
///
/// ```
/// use barnsling::{direction, Heading, Point};
/// match direction(Point::new(0, 0), Point::new(3, -3))? {
///     Heading::Straight { direction, length } => assert_eq!((direction, length), (1, 3)),
///     Heading::Bent { .. } => unreachable!(),
/// }
/// # Ok::<(), barnsling::Refusal>(())
/// ```
#[derive(Clone, Copy, Debug, PartialEq, Eq, Hash)]
pub enum Heading {
    /// In line: one difference is 0, or both are equal in size, whatever a grid's diagonal setting is.
    Straight {
        /// The direction of every step.
        direction: u8,
        /// How many steps of it lead there.
        length: u32,
    },
    /// Not in line: no number of equal steps leads there.
    Bent {
        /// The direction by the signs of the differences, which is that of the first step.
        direction: u8,
        /// The larger difference.
        larger: u32,
    },
}

impl Heading {
    /// The direction by the signs of the differences, 0 to 7.
    ///
    /// ```
    /// use barnsling::{direction, Point};
    /// assert_eq!(direction(Point::new(4, 4), Point::new(9, 5))?.direction(), 3);
    /// # Ok::<(), barnsling::Refusal>(())
    /// ```
    pub const fn direction(self) -> u8 {
        match self {
            Heading::Straight { direction, .. } | Heading::Bent { direction, .. } => direction,
        }
    }

    /// How many steps lead there, straight or bent: one less than the points of [`waypoints_to_path`](crate::waypoints_to_path).
    ///
    /// ```
    /// use barnsling::{direction, Point};
    /// assert_eq!(direction(Point::new(4, 4), Point::new(9, 5))?.steps(), 5);
    /// # Ok::<(), barnsling::Refusal>(())
    /// ```
    pub const fn steps(self) -> u32 {
        match self {
            Heading::Straight { length, .. } => length,
            Heading::Bent { larger, .. } => larger,
        }
    }

    /// Whether the two points are not in line.
    ///
    /// ```
    /// use barnsling::{direction, Point};
    /// assert!(direction(Point::new(4, 4), Point::new(9, 5))?.is_bent());
    /// assert!(!direction(Point::new(4, 4), Point::new(9, 9))?.is_bent());
    /// # Ok::<(), barnsling::Refusal>(())
    /// ```
    pub const fn is_bent(self) -> bool {
        matches!(self, Heading::Bent { .. })
    }
}

/// How one point lies from another: straight with direction and length, or bent with the direction by the signs of the differences
/// and the larger difference. Refuses POINT, SAME.
///
/// ```
/// use barnsling::{direction, Heading, Point, Refusal};
/// let a = Point::new(4, 4);
/// assert_eq!(direction(a, Point::new(4, 0)), Ok(Heading::Straight { direction: 0, length: 4 }));
/// assert_eq!(direction(a, Point::new(9, 5)), Ok(Heading::Bent { direction: 3, larger: 5 }));
/// assert_eq!(direction(a, a), Err(Refusal::Same(a)));
/// ```
pub fn direction(a: Point, b: Point) -> Result<Heading, Refusal> {
    heading(raw::direction(a, b), a, b)
}

/// The distance between two points on an empty floor: 70 a straight step, 99 a diagonal one. Refuses POINT.
///
/// ```
/// use barnsling::{distance, Point};
/// let (a, b) = (Point::new(0, 0), Point::new(5, 2));
/// assert_eq!(distance(true, a, b), Ok(408));
/// assert_eq!(distance(false, a, b), Ok(490));
/// ```
pub fn distance(diagonal: bool, a: Point, b: Point) -> Result<u32, Refusal> {
    value(raw::distance(diagonal, a, b), a, b)
}

/// The distance times a factor, rounded once to an f32 and cut towards zero. Refuses SETTING, POINT.
///
/// ```
/// use barnsling::{scaled_distance, Point, Refusal};
/// let (a, b) = (Point::new(0, 0), Point::new(1, 1));
/// assert_eq!(scaled_distance(true, 0.5, a, b), Ok(49));
/// assert_eq!(scaled_distance(true, f32::NAN, a, b), Err(Refusal::Setting));
/// ```
pub fn scaled_distance(diagonal: bool, factor: f32, a: Point, b: Point) -> Result<u32, Refusal> {
    value(raw::scaled_distance(diagonal, factor, a, b), a, b)
}
