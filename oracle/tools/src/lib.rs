//! What the programs share: the Rust as judge, maps and tables to ask it about, and the lists that they print.
pub mod ground;
pub mod judge;
pub mod list;
pub mod make;
pub mod maps;
pub mod rng;

pub use grid_pathfinding_instr::stats;
pub use rng::Rng;
