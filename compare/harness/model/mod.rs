//! Plain models, written from document 01 and the standard and not from either code. They stand in
//! where the Rust has no counterpart, and are themselves held against the Rust where it has one.

pub mod directory;
pub mod fib;
pub mod fic;
pub mod paths;
pub mod protection;
pub mod quality;
pub mod receiver;
pub mod trellis;
