//! What the host lends.

/// The five tables of a grid, lent to be read. The cell (x, y) is the entry `y * width + x` of each.
///
/// ```
/// use barnsling::{lent::Cells, Tables};
/// let t = Tables::room(2, 2);
/// let Cells { width, blocked, .. } = t.cells();
/// assert_eq!((width, blocked.len()), (2, 4));
/// ```
#[derive(Clone, Copy, Debug)]
pub struct Cells<'a> {
    /// Cells in a row.
    pub width: usize,
    /// Rows.
    pub height: usize,
    /// 0 for a free cell, else blocked.
    pub blocked: &'a [u8],
    /// Neighbour masks.
    pub neighbours: &'a [u8],
    /// Forced masks.
    pub forced: &'a [u8],
    /// The components' parents.
    pub parent: &'a [u16],
    /// The components' ranks.
    pub rank: &'a [u8],
}

/// The five tables of a grid, lent to be changed.
///
/// ```
/// use barnsling::{lent, lent::CellsMut, Tables};
/// let mut t = Tables::room(2, 2);
/// let cells: CellsMut = t.cells_mut();
/// assert_eq!(lent::new(cells), Ok(()));
/// ```
#[derive(Debug)]
pub struct CellsMut<'a> {
    /// Cells in a row.
    pub width: usize,
    /// Rows.
    pub height: usize,
    /// 0 for a free cell, else blocked.
    pub blocked: &'a mut [u8],
    /// Neighbour masks.
    pub neighbours: &'a mut [u8],
    /// Forced masks.
    pub forced: &'a mut [u8],
    /// The components' parents.
    pub parent: &'a mut [u16],
    /// The components' ranks.
    pub rank: &'a mut [u8],
}

/// The components of a grid, lent to be read.
///
/// ```
/// use barnsling::{lent::Links, Tables};
/// let t = Tables::room(2, 2);
/// let Links { parent, rank, .. } = t.links();
/// assert_eq!((parent.len(), rank.len()), (4, 4));
/// ```
#[derive(Clone, Copy, Debug)]
pub struct Links<'a> {
    /// Cells in a row.
    pub width: usize,
    /// Rows.
    pub height: usize,
    /// Each cell's parent.
    pub parent: &'a [u16],
    /// Each cell's rank.
    pub rank: &'a [u8],
}

/// The components of a grid, lent to be changed, with the blocked cells to be read.
///
/// ```
/// use barnsling::{lent, lent::LinksMut, Tables};
/// let mut t = Tables::room(2, 2);
/// lent::new(t.cells_mut())?;
/// let links: LinksMut = t.links_mut();
/// assert_eq!(lent::rebuild(links, true), Ok(false));
/// # Ok::<(), barnsling::Refusal>(())
/// ```
#[derive(Debug)]
pub struct LinksMut<'a> {
    /// Cells in a row.
    pub width: usize,
    /// Rows.
    pub height: usize,
    /// 0 for a free cell, else blocked.
    pub blocked: &'a [u8],
    /// Each cell's parent.
    pub parent: &'a mut [u16],
    /// Each cell's rank.
    pub rank: &'a mut [u8],
}

/// Working room and output of a search. No answer depends on what the working room held before, and what it holds
/// afterwards is not promised.
///
/// ```
/// use barnsling::{lent, Point, Refusal, Settings, Tables};
/// let mut t = Tables::room(2, 1);
/// lent::new(t.cells_mut())?;
/// // one place more than cells, and as many fringe entries as the limit
/// let mut settings = Settings::default();
/// settings.limits.fringe = 8;
/// let mut out = [-1; 6];
/// let room = lent::Room {
///     number: &mut [0; 3],
///     place: &mut [0; 3],
///     parent: &mut [0; 3],
///     cost: &mut [0; 3],
///     keys: &mut [0; 8],
///     idx: &mut [0; 8],
///     out: &mut out,
/// };
/// let origin = Point::new(0, 0);
/// let found = lent::single_goal(t.cells(), room, &settings, origin, origin, false)?;
/// assert_eq!(found.waypoints, 1);
/// assert_eq!(out, [0, 0, -1, -1, -1, -1]);
/// # Ok::<(), Refusal>(())
/// ```
#[derive(Debug)]
pub struct Room<'a> {
    /// For the cells and one more.
    pub number: &'a mut [u32],
    /// For the cells and one more.
    pub place: &'a mut [u32],
    /// For the cells and one more.
    pub parent: &'a mut [u32],
    /// For the cells and one more.
    pub cost: &'a mut [u64],
    /// For the fringe limit.
    pub keys: &'a mut [u64],
    /// For the fringe limit.
    pub idx: &'a mut [u32],
    /// The waypoints, x and y in turn; what lies beyond them is kept.
    pub out: &'a mut [i32],
}
