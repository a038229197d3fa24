//! A second implementation of Tuvhralk's ring layer and of its messages, in plain Rust.
//!
//! It was written from `docs/ELEMENTS.md`, `docs/PROFILES.md`, `docs/MESSAGES.md` and `docs/FAULTS.md` alone, without a look
//! at the proved code, so that a difference between the two means a mistake in one of them or in the documents.
//!
//! [`ring`], [`shake`], [`derive`](mod@derive), [`profile`] and [`message`] hold the implementation. [`plain`] puts it behind the
//! functions that the proved library exports, and [`proved`] calls those of the library itself. [`table`] writes vectors.

pub mod derive;
pub mod fault;
pub mod message;
pub mod outcome;
pub mod plain;
pub mod profile;
#[cfg(feature = "proved")]
pub mod proved;
pub mod random;
pub mod ring;
pub mod shake;
pub mod table;
