//! The library beside an independent second program, compared byte for byte.
pub mod bursts;
pub mod calls;
pub mod captures;
pub mod frames;
pub mod groups;
pub mod index;
pub mod library;
pub mod lines;
pub mod lists;
pub mod random;
pub mod records;
pub mod reference;
