//! The form of every list: blocks, each a length (u32) and as many bytes, of which the first is the list's kind. Numbers are little-endian.
use crate::rng::Rng;
use grid_util::point::Point;
use std::io::Write;

#[derive(Default)]
pub struct Block(Vec<u8>);

impl Block {
    /// A block whose first byte is its kind.
    pub fn of(kind: u8) -> Block {
        Block(vec![kind])
    }
    pub fn u8(&mut self, v: u8) -> &mut Block {
        self.0.push(v);
        self
    }
    pub fn u16(&mut self, v: u16) -> &mut Block {
        self.bytes(&v.to_le_bytes())
    }
    pub fn u32(&mut self, v: u32) -> &mut Block {
        self.bytes(&v.to_le_bytes())
    }
    pub fn i32(&mut self, v: i32) -> &mut Block {
        self.bytes(&v.to_le_bytes())
    }
    pub fn bytes(&mut self, v: &[u8]) -> &mut Block {
        self.0.extend_from_slice(v);
        self
    }
    /// A point as two i16.
    pub fn point(&mut self, p: Point) -> &mut Block {
        self.bytes(&(p.x as i16).to_le_bytes());
        self.bytes(&(p.y as i16).to_le_bytes())
    }
    /// A point as two i32.
    pub fn far_point(&mut self, p: Point) -> &mut Block {
        self.i32(p.x).i32(p.y)
    }
    /// A count (u16) and the points.
    pub fn points(&mut self, v: &[Point]) -> &mut Block {
        self.u16(v.len() as u16);
        for p in v {
            self.point(*p);
        }
        self
    }
    /// A count (u16) of numbers and the numbers, i16 each.
    pub fn numbers(&mut self, v: &[i32]) -> &mut Block {
        self.u16(v.len() as u16);
        for n in v {
            self.u16(*n as i16 as u16);
        }
        self
    }
    /// A bit for each cell, row by row, least bit first.
    pub fn bits(&mut self, v: &[bool]) -> &mut Block {
        for cells in v.chunks(8) {
            self.u8((0..cells.len()).map(|i| (cells[i] as u8) << i).sum());
        }
        self
    }
    pub fn len(&self) -> usize {
        self.0.len()
    }
    pub fn is_empty(&self) -> bool {
        self.0.is_empty()
    }
}

/// The arguments SEED [ROUNDS] of the program of this name.
pub fn asked(name: &str) -> (Rng, u64) {
    let a: Vec<u64> = std::env::args()
        .skip(1)
        .map(|s| s.parse().expect("a number"))
        .collect();
    assert!(matches!(a.len(), 1 | 2), "{} SEED [ROUNDS]", name);
    (Rng(a[0]), *a.get(1).unwrap_or(&1))
}

/// The kinds of a list, one for each program that prints one.
pub const GROUND: u8 = 1;
pub const TABLES: u8 = 2;
pub const SEARCHES: u8 = 3;
pub const PATHS: u8 = 4;
pub const CHECKS: u8 = 5;
pub const TEXTS: u8 = 6;

/// The most bytes that a block may have after the list's kind.
pub const MOST: usize = 65_536;

/// A list of one kind on standard output.
pub struct List {
    kind: u8,
    out: std::io::BufWriter<std::io::Stdout>,
}

impl List {
    pub fn out(kind: u8) -> List {
        let out = std::io::BufWriter::new(std::io::stdout());
        List { kind, out }
    }
    pub fn put(&mut self, b: &Block) {
        assert!(b.len() <= MOST, "a block of {} bytes", b.len());
        self.out
            .write_all(&(b.len() as u32 + 1).to_le_bytes())
            .unwrap();
        self.out.write_all(&[self.kind]).unwrap();
        self.out.write_all(&b.0).unwrap();
    }
    pub fn end(mut self) {
        self.out.flush().unwrap();
    }
}
