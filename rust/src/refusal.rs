//! Why a call is refused.
use crate::Point;
use core::fmt;

/// Why a call is refused. A refused call has changed nothing but working room.
///
/// ```
/// use barnsling::{Grid, Point, Refusal};
/// let mut floor = Grid::new(4, 3)?;
/// let refusal = floor.set(Point::new(4, 0), true).unwrap_err();
/// assert_eq!(refusal, Refusal::BadPoint(Point::new(4, 0)));
/// assert_eq!(refusal.number(), 14);
/// assert_eq!(refusal.to_string(), "POINT (14): (4,0) is outside the grid or out of range");
/// # Ok::<(), Refusal>(())
/// ```
#[derive(Clone, Copy, Debug, PartialEq, Eq, Hash)]
#[non_exhaustive]
pub enum Refusal {
    /// A new grid with a bad width or height.
    Size,
    /// Tables that are no grid: bad sides, a table too short, or a parent or rank that cannot be.
    State,
    /// A factor or limit out of range, or working room too short.
    Setting,
    /// The tables say that there is no way.
    NoRoute,
    /// No goal, more than 64, or an odd count of numbers.
    Goals,
    /// All that the search reaches was searched, and no goal was met.
    Exhausted,
    /// The search would nest deeper than the depth limit.
    Depth,
    /// The search needs more entries than the fringe limit.
    Fringe,
    /// The search needs more pops than the limit.
    Pops,
    /// The answer is longer than the room for it.
    Room,
    /// A direction between equal points: this one.
    Same(Point),
    /// A map text that breaks its form: the first bad or missing line, from 1, or 0 if the text is too long.
    Map(usize),
    /// A waypoint list that is empty or has an odd count of numbers.
    List,
    /// A point out of coordinate range or, where a cell is meant, outside the grid.
    BadPoint(Point),
    /// A number that this crate has no name for, at most 255. The archive that the crate is written for gives none.
    Unknown(u8),
}

impl Refusal {
    /// The refusal of a number; a point where it carries one.
    pub(crate) fn of(number: u64, point: Point) -> Refusal {
        match number {
            1 => Refusal::Size,
            2 => Refusal::State,
            3 => Refusal::Setting,
            4 => Refusal::NoRoute,
            5 => Refusal::Goals,
            6 => Refusal::Exhausted,
            7 => Refusal::Depth,
            8 => Refusal::Fringe,
            9 => Refusal::Pops,
            10 => Refusal::Room,
            11 => Refusal::Same(point),
            13 => Refusal::List,
            14 => Refusal::BadPoint(point),
            // MAP comes as text alone
            _ => Refusal::Unknown(u8::try_from(number).unwrap_or(u8::MAX)),
        }
    }

    /// The refusal's number, 1 to 14, as the rules, the C header and `route` have it.
    ///
    /// ```
    /// use barnsling::Refusal;
    /// assert_eq!(Refusal::Size.number(), 1);
    /// assert_eq!(Refusal::Exhausted.number(), 6);
    /// ```
    pub const fn number(self) -> u8 {
        match self {
            Refusal::Size => 1,
            Refusal::State => 2,
            Refusal::Setting => 3,
            Refusal::NoRoute => 4,
            Refusal::Goals => 5,
            Refusal::Exhausted => 6,
            Refusal::Depth => 7,
            Refusal::Fringe => 8,
            Refusal::Pops => 9,
            Refusal::Room => 10,
            Refusal::Same(_) => 11,
            Refusal::Map(_) => 12,
            Refusal::List => 13,
            Refusal::BadPoint(_) => 14,
            Refusal::Unknown(number) => number,
        }
    }

    /// The refusal's name, as the rules and the C header have it.
    ///
    /// ```
    /// assert_eq!(barnsling::Refusal::NoRoute.name(), "NO_ROUTE");
    /// ```
    pub const fn name(self) -> &'static str {
        match self {
            Refusal::Size => "SIZE",
            Refusal::State => "STATE",
            Refusal::Setting => "SETTING",
            Refusal::NoRoute => "NO_ROUTE",
            Refusal::Goals => "GOALS",
            Refusal::Exhausted => "EXHAUSTED",
            Refusal::Depth => "DEPTH",
            Refusal::Fringe => "FRINGE",
            Refusal::Pops => "POPS",
            Refusal::Room => "ROOM",
            Refusal::Same(_) => "SAME",
            Refusal::Map(_) => "MAP",
            Refusal::List => "LIST",
            Refusal::BadPoint(_) => "POINT",
            Refusal::Unknown(_) => "UNKNOWN",
        }
    }
}

impl fmt::Display for Refusal {
    fn fmt(&self, f: &mut fmt::Formatter<'_>) -> fmt::Result {
        write!(f, "{} ({}): ", self.name(), self.number())?;
        match self {
            Refusal::Size => write!(f, "a width or height that is not from 1 to 64"),
            Refusal::State => write!(f, "tables that are no grid"),
            Refusal::Setting => write!(
                f,
                "a factor or limit out of range, or too little working room"
            ),
            Refusal::NoRoute => write!(f, "the tables say that there is no way"),
            Refusal::Goals => write!(f, "goals that are not 1 to 64 points"),
            Refusal::Exhausted => write!(
                f,
                "all that the search reaches was searched, and no goal was met"
            ),
            Refusal::Depth => write!(f, "the depth limit was met"),
            Refusal::Fringe => write!(f, "the fringe limit was met"),
            Refusal::Pops => write!(f, "the limit of pops was met"),
            Refusal::Room => write!(f, "the answer is longer than the room for it"),
            Refusal::Same(p) => write!(f, "no direction leads from {p} to itself"),
            Refusal::Map(0) => write!(f, "the map text is too long"),
            Refusal::Map(line) => write!(f, "line {line} of the map text is bad or missing"),
            Refusal::List => write!(
                f,
                "a waypoint list that is empty or has an odd count of numbers"
            ),
            Refusal::BadPoint(p) => write!(f, "{p} is outside the grid or out of range"),
            Refusal::Unknown(_) => write!(f, "a refusal that this crate has no name for"),
        }
    }
}

impl core::error::Error for Refusal {}
