//! Answers export lists with what the Rust sources make of them, for
//! comparison with the port.
//!
//! Data goes one way: a [`list`] is decoded, the Rust is [asked](ask), and its
//! members are laid out as a [member set](set). The [`generator`] and the
//! [hand-picked](picked) cases make lists, [`facts`] say which rules a case
//! reaches, and [`fixed`] is the file of cases with their answers. [`names`] is
//! a table of the same kind for the name helpers alone.

pub mod ask;
pub mod case;
pub mod facts;
pub mod fixed;
pub mod generator;
pub mod imports;
pub mod list;
pub mod names;
pub mod picked;
pub mod rng;
pub mod serve;
pub mod set;
pub mod stats;

pub use ask::{Answer, Member, Members, Options, answer};
pub use case::Case;
pub use list::{ExportList, Packing, Record, encode_list};
