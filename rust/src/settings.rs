//! Settings of a grid.

/// What a grid's calls go by. Edits, rebuilds and questions read `diagonal` alone; searches read all of it.
///
/// ```
/// use barnsling::{Grid, Settings};
/// let mut floor = Grid::new(2, 2)?;
/// assert_eq!(floor.settings(), Settings::default());
/// // one of them changed, or all set anew
/// floor.settings_mut().improved = false;
/// *floor.settings_mut() = Settings::default().with_diagonal(false).with_factor(1.5);
/// assert!(floor.settings().improved);
/// # Ok::<(), barnsling::Refusal>(())
/// ```
#[derive(Clone, Copy, Debug, PartialEq)]
#[non_exhaustive]
pub struct Settings {
    /// The weight of the search's estimate, 0 to 16; 1 as a rule. More is hastier, 0 looks around evenly.
    pub factor: f32,
    /// Carts move eight ways, else four.
    pub diagonal: bool,
    /// Improved pruning: fewer pops.
    pub improved: bool,
    /// Where a search gives up.
    pub limits: Limits,
}

/// A new grid's: diagonals, improved pruning, factor 1, the largest limits.
impl Default for Settings {
    fn default() -> Settings {
        Settings {
            factor: 1.0,
            diagonal: true,
            improved: true,
            limits: Limits::default(),
        }
    }
}

/// The same settings with one of them changed.
///
/// ```
/// use barnsling::{Limits, Settings};
/// let s = Settings::default()
///     .with_factor(2.0)
///     .with_diagonal(false)
///     .with_improved(false)
///     .with_limits(Limits::default().with_pops(99));
/// assert_eq!((s.factor, s.diagonal, s.improved, s.limits.pops), (2.0, false, false, 99));
/// ```
impl Settings {
    /// With this weight of the estimate.
    pub const fn with_factor(mut self, factor: f32) -> Settings {
        self.factor = factor;
        self
    }

    /// With eight ways, else four.
    pub const fn with_diagonal(mut self, diagonal: bool) -> Settings {
        self.diagonal = diagonal;
        self
    }

    /// With improved pruning or without.
    pub const fn with_improved(mut self, improved: bool) -> Settings {
        self.improved = improved;
        self
    }

    /// With these limits.
    pub const fn with_limits(mut self, limits: Limits) -> Settings {
        self.limits = limits;
        self
    }
}

/// Where a search gives up: DEPTH, POPS, FRINGE.
///
/// ```
/// use barnsling::{Grid, Limits, Point, Refusal, Rooms};
/// let mut floor = Grid::new(9, 1)?;
/// floor.rebuild()?;
/// floor.settings_mut().limits = Limits::default().with_pops(3);
/// let no = floor.single_goal(&mut Rooms::new(), Point::new(0, 0), Point::new(8, 0)).unwrap_err();
/// assert_eq!((no.refusal, no.pops), (Refusal::Pops, 3));
/// # Ok::<(), Refusal>(())
/// ```
#[derive(Clone, Copy, Debug, PartialEq, Eq)]
#[non_exhaustive]
pub struct Limits {
    /// How deep re-expansions may nest, 0 to 64.
    pub depth: usize,
    /// How many entries may be popped, 1 to 65,535.
    pub pops: usize,
    /// How many entries the fringe may hold, 1 to 8,192.
    pub fringe: usize,
}

/// The largest.
impl Default for Limits {
    fn default() -> Limits {
        Limits {
            depth: 64,
            pops: 65_535,
            fringe: 8_192,
        }
    }
}

/// The same limits with one of them changed.
///
/// ```
/// use barnsling::Limits;
/// let l = Limits::default().with_depth(3).with_pops(500).with_fringe(64);
/// assert_eq!((l.depth, l.pops, l.fringe), (3, 500, 64));
/// ```
impl Limits {
    /// With this depth.
    pub const fn with_depth(mut self, depth: usize) -> Limits {
        self.depth = depth;
        self
    }

    /// With so many pops.
    pub const fn with_pops(mut self, pops: usize) -> Limits {
        self.pops = pops;
        self
    }

    /// With so many entries of the fringe.
    pub const fn with_fringe(mut self, fringe: usize) -> Limits {
        self.fringe = fringe;
        self
    }
}
