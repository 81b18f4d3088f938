//! A grid's tables as plain memory.
use crate::lent::{Cells, CellsMut, Links, LinksMut};
use crate::MOST_SIDE;
use alloc::vec;
use alloc::vec::Vec;

/// A grid's tables, for hosts that store or send them. The cell (x, y) is the entry `y * width + x` of each.
///
/// Any value may become a [`Grid`](crate::Grid): each call tests it, and refuses STATE where it is no grid.
///
/// ```
/// use barnsling::{Grid, Point, Refusal, Tables};
/// let mut floor = Grid::new(3, 1)?;
/// floor.set(Point::new(1, 0), true)?;
/// floor.rebuild()?;
/// let mut tables: Tables = floor.into_tables();
/// assert_eq!(tables.blocked, [0, 1, 0]);
///
/// // a parent that is no cell
/// tables.parent[0] = 9;
/// assert_eq!(Grid::from_tables(tables).rebuild(), Err(Refusal::State));
/// # Ok::<(), Refusal>(())
/// ```
#[derive(Clone, Debug, Default, PartialEq, Eq)]
pub struct Tables {
    /// Cells in a row, 1 to 64.
    pub width: usize,
    /// Rows, 1 to 64.
    pub height: usize,
    /// Whether a gate has shut since the components were built: see [`Grid::is_dirty`](crate::Grid::is_dirty).
    pub dirty: bool,
    /// 0 for a free cell, else blocked.
    pub blocked: Vec<u8>,
    /// Neighbour masks: bit d is set where the cell that way is inside and free.
    pub neighbours: Vec<u8>,
    /// Forced masks.
    pub forced: Vec<u8>,
    /// The components' parents.
    pub parent: Vec<u16>,
    /// The components' ranks, at most 200.
    pub rank: Vec<u8>,
}

impl Tables {
    /// Room for a grid, which is not one yet: see [`lent::new`](crate::lent::new). Sides out of range get none.
    ///
    /// ```
    /// use barnsling::Tables;
    /// assert_eq!(Tables::room(3, 2).blocked.len(), 6);
    /// assert_eq!(Tables::room(65, 2).blocked.len(), 0);
    /// ```
    pub fn room(width: usize, height: usize) -> Tables {
        let fits = width <= MOST_SIDE && height <= MOST_SIDE;
        let cells = if fits { width * height } else { 0 };
        Tables {
            width,
            height,
            dirty: false,
            blocked: vec![0; cells],
            neighbours: vec![0; cells],
            forced: vec![0; cells],
            parent: vec![0; cells],
            rank: vec![0; cells],
        }
    }

    /// All five tables, lent to be read.
    ///
    /// ```
    /// use barnsling::Tables;
    /// assert_eq!(Tables::room(3, 2).cells().width, 3);
    /// ```
    pub fn cells(&self) -> Cells<'_> {
        Cells {
            width: self.width,
            height: self.height,
            blocked: &self.blocked,
            neighbours: &self.neighbours,
            forced: &self.forced,
            parent: &self.parent,
            rank: &self.rank,
        }
    }

    /// All five tables, lent to be changed.
    ///
    /// ```
    /// use barnsling::{lent, Tables};
    /// let mut t = Tables::room(3, 2);
    /// assert_eq!(lent::new(t.cells_mut()), Ok(()));
    /// ```
    pub fn cells_mut(&mut self) -> CellsMut<'_> {
        CellsMut {
            width: self.width,
            height: self.height,
            blocked: &mut self.blocked,
            neighbours: &mut self.neighbours,
            forced: &mut self.forced,
            parent: &mut self.parent,
            rank: &mut self.rank,
        }
    }

    /// The components, lent to be read.
    ///
    /// ```
    /// use barnsling::Tables;
    /// assert_eq!(Tables::room(3, 2).links().parent.len(), 6);
    /// ```
    pub fn links(&self) -> Links<'_> {
        Links {
            width: self.width,
            height: self.height,
            parent: &self.parent,
            rank: &self.rank,
        }
    }

    /// The components, lent to be changed, with the blocked cells to be read.
    ///
    /// ```
    /// use barnsling::{lent, Tables};
    /// let mut t = Tables::room(2, 1);
    /// lent::new(t.cells_mut())?;
    /// assert_eq!(t.parent, [0, 1]);
    /// assert_eq!(lent::rebuild(t.links_mut(), true), Ok(false));
    /// assert_eq!(t.parent[0], t.parent[1]);
    /// # Ok::<(), barnsling::Refusal>(())
    /// ```
    pub fn links_mut(&mut self) -> LinksMut<'_> {
        LinksMut {
            width: self.width,
            height: self.height,
            blocked: &self.blocked,
            parent: &mut self.parent,
            rank: &mut self.rank,
        }
    }
}
