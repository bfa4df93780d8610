//! Compares the product, a static library, with an independent second interpreter of the same rules.

pub mod case;
pub mod compare;
pub mod counts;
pub mod draft;
pub mod drawing;
pub mod hunt;
pub mod lines;
pub mod product;
pub mod random;
pub mod record;
pub mod second;
pub mod shrink;
