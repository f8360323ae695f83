//! The static library of the proved dispatcher: what it exports, its C header, what builds and
//! runs programs that call it, and its bindings.

pub mod exports;
pub mod header;
pub mod kit;
pub mod proved;
