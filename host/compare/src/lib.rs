//! The linked library after safe functions, for the programs of this package.

#![warn(missing_docs)]

pub mod library;
