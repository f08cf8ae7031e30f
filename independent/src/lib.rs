//! The rules of trial plans written again, apart from the library, and the library's exports beside them.
pub mod draw;
pub mod fast;
pub mod library;
pub mod rules;
