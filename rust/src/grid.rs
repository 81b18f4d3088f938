//! A floor: edits, rebuilds and questions.
use crate::raw::{self, answers::same_version};
use crate::{lent, Point, Refusal, Settings, Tables};

/// A floor of free and blocked cells, with the tables that answer who can reach whom.
///
/// A grid that these calls made is never refused with STATE (proved); one from [`Tables`] may be, by every call.
///
/// ```
/// use barnsling::{Grid, Point, Refusal};
/// let (a, b) = (Point::new(0, 0), Point::new(2, 0));
/// let mut floor = Grid::new(3, 1)?;
/// floor.rebuild()?;
/// assert!(floor.reachable(a, b)?);
/// floor.set(Point::new(1, 0), true)?;
/// floor.update()?;
/// assert!(!floor.reachable(a, b)?);
/// # Ok::<(), Refusal>(())
/// ```
#[derive(Clone, Debug, PartialEq)]
pub struct Grid {
    pub(crate) tables: Tables,
    pub(crate) settings: Settings,
}

impl Grid {
    /// A new grid: all cells free, each its own component, not dirty, with [`Settings::default`]. Refuses SIZE.
    ///
    /// Nothing is joined yet: [`rebuild`](Grid::rebuild) before you ask.
    ///
    /// Panics where the archive is of another version than the crate: see [`lent::version`].
    ///
    /// ```
    /// use barnsling::{Grid, Refusal};
    /// assert!(Grid::new(64, 64).is_ok());
    /// assert_eq!(Grid::new(64, 0), Err(Refusal::Size));
    /// ```
    #[track_caller]
    pub fn new(width: usize, height: usize) -> Result<Grid, Refusal> {
        let mut tables = Tables::room(width, height);
        lent::new(tables.cells_mut())?;
        Ok(Grid::from_tables(tables))
    }

    /// A grid of tables as they are, with [`Settings::default`]. Any value is taken; a call refuses STATE where it is no grid.
    ///
    /// Panics where the archive is of another version than the crate: see [`lent::version`].
    ///
    /// ```
    /// use barnsling::{Grid, Point, Refusal, Tables};
    /// let floor = Grid::from_tables(Tables::default());
    /// assert_eq!(floor.component(Point::new(0, 0)), Err(Refusal::State));
    /// ```
    #[track_caller]
    pub fn from_tables(tables: Tables) -> Grid {
        same_version(raw::version());
        Grid {
            tables,
            settings: Settings::default(),
        }
    }

    /// The tables.
    ///
    /// ```
    /// let floor = barnsling::Grid::new(2, 1).unwrap();
    /// assert_eq!(floor.tables().parent, [0, 1]);
    /// ```
    pub fn tables(&self) -> &Tables {
        &self.tables
    }

    /// The tables, taken out.
    ///
    /// ```
    /// use barnsling::Grid;
    /// let floor = Grid::new(2, 1).unwrap();
    /// assert_eq!(Grid::from_tables(floor.clone().into_tables()), floor);
    /// ```
    pub fn into_tables(self) -> Tables {
        self.tables
    }

    /// The settings.
    ///
    /// ```
    /// assert!(barnsling::Grid::new(2, 1).unwrap().settings().diagonal);
    /// ```
    pub fn settings(&self) -> Settings {
        self.settings
    }

    /// The settings, to be changed. After a change of `diagonal`, [`rebuild`](Grid::rebuild): the tables, and the rule that a no
    /// is true, hold for the setting that they were built with.
    ///
    /// ```
    /// use barnsling::{Grid, Point};
    /// let mut floor = Grid::new(2, 2).unwrap();
    /// floor.set(Point::new(0, 0), true)?;
    /// floor.set(Point::new(1, 1), true)?;
    /// floor.rebuild()?;
    /// assert!(floor.reachable(Point::new(1, 0), Point::new(0, 1))?);
    /// floor.settings_mut().diagonal = false;
    /// floor.rebuild()?;
    /// assert!(!floor.reachable(Point::new(1, 0), Point::new(0, 1))?);
    /// # Ok::<(), barnsling::Refusal>(())
    /// ```
    pub fn settings_mut(&mut self) -> &mut Settings {
        &mut self.settings
    }

    /// Cells in a row.
    ///
    /// ```
    /// assert_eq!(barnsling::Grid::new(3, 2).unwrap().width(), 3);
    /// ```
    pub fn width(&self) -> usize {
        self.tables.width
    }

    /// Rows.
    ///
    /// ```
    /// assert_eq!(barnsling::Grid::new(3, 2).unwrap().height(), 2);
    /// ```
    pub fn height(&self) -> usize {
        self.tables.height
    }

    /// Whether a free cell has become blocked since the components were built, so that a yes may be hopeful.
    ///
    /// A grid that is not dirty may still say a false yes, after an edit that blocked a blocked cell: see [`set`](Grid::set).
    /// Where every edit since the rebuild went through [`gate`](Grid::gate), it does not.
    ///
    /// ```
    /// use barnsling::{Grid, Point};
    /// let mut floor = Grid::new(2, 1).unwrap();
    /// assert!(!floor.is_dirty());
    /// floor.set(Point::new(1, 0), true).unwrap();
    /// assert!(floor.is_dirty());
    /// floor.update().unwrap();
    /// assert!(!floor.is_dirty());
    /// ```
    pub fn is_dirty(&self) -> bool {
        self.tables.dirty
    }

    /// Whether a cell is blocked. Refuses STATE, then POINT.
    ///
    /// ```
    /// use barnsling::{Grid, Point, Refusal};
    /// let mut floor = Grid::new(2, 1)?;
    /// floor.set(Point::new(1, 0), true)?;
    /// assert_eq!(floor.is_blocked(Point::new(0, 0)), Ok(false));
    /// assert_eq!(floor.is_blocked(Point::new(1, 0)), Ok(true));
    /// let outside = Point::new(2, 0);
    /// assert_eq!(floor.is_blocked(outside), Err(Refusal::BadPoint(outside)));
    /// # Ok::<(), Refusal>(())
    /// ```
    pub fn is_blocked(&self, at: Point) -> Result<bool, Refusal> {
        lent::blocked_at(self.tables.cells(), at)
    }

    /// Blocks or frees a cell, whatever it was. Refuses STATE, then POINT.
    ///
    /// A free cell that becomes blocked marks the grid [dirty](Grid::is_dirty). Every other edit joins the cell with its
    /// free neighbours and leaves the mark as it was.
    ///
    /// **So an order to block that is given twice makes false yeses.** Blocking a blocked cell joins what lies on either
    /// side of it. On a grid that was not dirty the mark does not tell, and [`update`](Grid::update) does nothing about it;
    /// only [`rebuild`](Grid::rebuild) does. This is the rule of the library that Barnsling follows. A controller that may
    /// repeat its orders uses [`gate`](Grid::gate), which asks first.
    ///
    /// For a controller that copies what is stored to: an entry of a table is stored only where its value changes, and then
    /// whole. A new grid and a rebuild fill theirs.
    ///
    /// ```
    /// use barnsling::{Grid, Point, Refusal};
    /// let (west, middle, east) = (Point::new(0, 0), Point::new(1, 0), Point::new(2, 0));
    /// let mut floor = Grid::new(3, 1)?;
    /// floor.set(middle, true)?;
    /// floor.rebuild()?;
    /// assert_eq!(floor.reachable(west, east), Ok(false));
    /// floor.set(middle, true)?;
    /// assert_eq!(floor.reachable(west, east), Ok(true));
    /// assert!(!floor.is_dirty());
    /// floor.update()?;
    /// assert_eq!(floor.reachable(west, east), Ok(true));
    /// floor.rebuild()?;
    /// assert_eq!(floor.reachable(west, east), Ok(false));
    ///
    /// let outside = Point::new(3, 0);
    /// assert_eq!(floor.set(outside, true), Err(Refusal::BadPoint(outside)));
    /// # Ok::<(), Refusal>(())
    /// ```
    pub fn set(&mut self, at: Point, blocked: bool) -> Result<(), Refusal> {
        let (diagonal, dirty) = (self.settings.diagonal, self.tables.dirty);
        self.tables.dirty = lent::set(self.tables.cells_mut(), diagonal, dirty, at, blocked)?;
        Ok(())
    }

    /// A gate shuts or opens: blocks or frees a cell unless it is so already. Whether the cell was changed. Refuses STATE, then POINT.
    ///
    /// This is [`is_blocked`](Grid::is_blocked) and then, where the cell has to change, [`set`](Grid::set): orders may be
    /// repeated. Where every edit since the rebuild goes through it, and `diagonal` stays as it was, every answer between
    /// free cells after an [`update`](Grid::update) is true, yes and no.
    ///
    /// ```
    /// use barnsling::{Grid, Point};
    /// let (west, middle, east) = (Point::new(0, 0), Point::new(1, 0), Point::new(2, 0));
    /// let mut floor = Grid::new(3, 1)?;
    /// floor.rebuild()?;
    /// assert_eq!(floor.gate(middle, true), Ok(true));
    /// floor.update()?;
    /// assert_eq!(floor.gate(middle, true), Ok(false));
    /// assert_eq!(floor.reachable(west, east), Ok(false));
    /// assert_eq!(floor.gate(middle, false), Ok(true));
    /// assert_eq!(floor.reachable(west, east), Ok(true));
    /// # Ok::<(), barnsling::Refusal>(())
    /// ```
    pub fn gate(&mut self, at: Point, blocked: bool) -> Result<bool, Refusal> {
        if self.is_blocked(at)? == blocked {
            return Ok(false);
        }
        self.set(at, blocked)?;
        Ok(true)
    }

    /// Builds the components anew from the blocked cells; the grid is no longer dirty. Refuses STATE.
    ///
    /// Afterwards yes and no between free cells are both true, whatever edits came before.
    ///
    /// ```
    /// use barnsling::{Grid, Point};
    /// let mut floor = Grid::new(2, 1)?;
    /// assert!(!floor.reachable(Point::new(0, 0), Point::new(1, 0))?);
    /// floor.rebuild()?;
    /// assert!(floor.reachable(Point::new(0, 0), Point::new(1, 0))?);
    /// # Ok::<(), barnsling::Refusal>(())
    /// ```
    #[doc(alias = "generate_components")]
    pub fn rebuild(&mut self) -> Result<(), Refusal> {
        let diagonal = self.settings.diagonal;
        self.tables.dirty = lent::rebuild(self.tables.links_mut(), diagonal)?;
        Ok(())
    }

    /// [`rebuild`](Grid::rebuild) where the grid is dirty, else nothing. Refuses STATE.
    ///
    /// It makes hopeful answers exact after gates have shut. It does not heal what blocking a blocked cell has joined, where
    /// the grid is not dirty: see [`set`](Grid::set).
    ///
    /// ```
    /// use barnsling::{Grid, Point};
    /// let mut floor = Grid::new(3, 1)?;
    /// floor.rebuild()?;
    /// floor.gate(Point::new(1, 0), true)?;
    /// assert!(floor.reachable(Point::new(0, 0), Point::new(2, 0))?);
    /// floor.update()?;
    /// assert!(!floor.reachable(Point::new(0, 0), Point::new(2, 0))?);
    /// # Ok::<(), barnsling::Refusal>(())
    /// ```
    pub fn update(&mut self) -> Result<(), Refusal> {
        let (diagonal, dirty) = (self.settings.diagonal, self.tables.dirty);
        self.tables.dirty = lent::update(self.tables.links_mut(), diagonal, dirty)?;
        Ok(())
    }

    /// The component of a cell. Refuses STATE, then POINT.
    ///
    /// ```
    /// use barnsling::{Grid, Point};
    /// let floor = Grid::new(2, 2)?;
    /// assert_eq!(floor.component(Point::new(1, 1)), Ok(3));
    /// # Ok::<(), barnsling::Refusal>(())
    /// ```
    #[doc(alias = "get_component")]
    pub fn component(&self, at: Point) -> Result<usize, Refusal> {
        lent::component(self.tables.links(), at)
    }

    /// Can a cart get from the start to the goal? No, where one is outside. Refuses STATE, then POINT for a coordinate out of range.
    ///
    /// Once the components have been built, a no between two different free cells is always true, as long as the diagonal
    /// setting is the one that they were built with. A yes may be hopeful while the grid [is dirty](Grid::is_dirty), and false
    /// after a blocked cell was blocked again ([`set`](Grid::set)); a search finds out.
    ///
    /// ```
    /// use barnsling::{Grid, Point, Refusal};
    /// let mut floor = Grid::new(2, 1)?;
    /// floor.rebuild()?;
    /// let (a, far) = (Point::new(0, 0), Point::new(5000, 0));
    /// assert_eq!(floor.reachable(a, Point::new(1, 0)), Ok(true));
    /// assert_eq!(floor.reachable(a, Point::new(2, 0)), Ok(false));
    /// assert_eq!(floor.reachable(a, far), Err(Refusal::BadPoint(far)));
    /// # Ok::<(), Refusal>(())
    /// ```
    pub fn reachable(&self, start: Point, goal: Point) -> Result<bool, Refusal> {
        lent::reachable(self.tables.links(), start, goal)
    }

    /// The opposite of [`reachable`](Grid::reachable): yes, where one is outside. Refuses the same.
    ///
    /// ```
    /// use barnsling::{Grid, Point};
    /// let floor = Grid::new(2, 1)?;
    /// assert_eq!(floor.unreachable(Point::new(0, 0), Point::new(2, 0)), Ok(true));
    /// # Ok::<(), barnsling::Refusal>(())
    /// ```
    pub fn unreachable(&self, start: Point, goal: Point) -> Result<bool, Refusal> {
        lent::unreachable(self.tables.links(), start, goal)
    }

    /// Can a cart get from the start to some neighbour of the goal? Yes, where one is outside. Refuses the same.
    ///
    /// ```
    /// use barnsling::{Grid, Point};
    /// let mut floor = Grid::new(3, 1)?;
    /// floor.set(Point::new(2, 0), true)?;
    /// floor.rebuild()?;
    /// assert_eq!(floor.reachable(Point::new(0, 0), Point::new(2, 0)), Ok(false));
    /// assert_eq!(floor.neighbours_reachable(Point::new(0, 0), Point::new(2, 0)), Ok(true));
    /// # Ok::<(), barnsling::Refusal>(())
    /// ```
    pub fn neighbours_reachable(&self, start: Point, goal: Point) -> Result<bool, Refusal> {
        lent::neighbours_reachable(self.tables.links(), self.settings.diagonal, start, goal)
    }

    /// To none of them? Yes, too, where one is outside. Refuses the same.
    ///
    /// ```
    /// use barnsling::{Grid, Point};
    /// let floor = Grid::new(3, 1)?;
    /// assert_eq!(floor.neighbours_unreachable(Point::new(0, 0), Point::new(2, 0)), Ok(true));
    /// # Ok::<(), barnsling::Refusal>(())
    /// ```
    pub fn neighbours_unreachable(&self, start: Point, goal: Point) -> Result<bool, Refusal> {
        lent::neighbours_unreachable(self.tables.links(), self.settings.diagonal, start, goal)
    }
}
