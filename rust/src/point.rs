//! Points.
use core::fmt;

/// A place of the plane. Coordinates that the calls take are from -1,024 to 1,023; row 0 is the northern one.
///
/// ```
/// use barnsling::Point;
/// let p = Point::new(3, -1);
/// assert_eq!(p, Point { x: 3, y: -1 });
/// assert_eq!(p, (3, -1).into());
/// assert_eq!(p.to_string(), "(3,-1)");
/// ```
#[repr(C)]
#[derive(Clone, Copy, Debug, Default, PartialEq, Eq, Hash)]
pub struct Point {
    /// The column.
    pub x: i32,
    /// The row.
    pub y: i32,
}

impl Point {
    /// The point of a column and a row.
    ///
    /// ```
    /// assert_eq!(barnsling::Point::new(1, 2).y, 2);
    /// ```
    pub const fn new(x: i32, y: i32) -> Point {
        Point { x, y }
    }
}

impl From<(i32, i32)> for Point {
    fn from((x, y): (i32, i32)) -> Point {
        Point { x, y }
    }
}

impl fmt::Display for Point {
    fn fmt(&self, f: &mut fmt::Formatter<'_>) -> fmt::Result {
        write!(f, "({},{})", self.x, self.y)
    }
}
