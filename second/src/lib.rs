//! An independent second implementation of the bench stand-in, written from 01-scope.md, 02-change-requests.md and READING.md.
#![forbid(unsafe_code)]

pub mod bytes;
pub mod c;
pub mod calls;
pub mod coverage;
pub mod generate;
pub mod image;
pub mod journal;
pub mod occ;
pub mod part;
pub mod plan;
pub mod protocol;
pub mod record;
pub mod save;
pub mod sbe;
pub mod session;
pub mod show;
pub mod trace;
