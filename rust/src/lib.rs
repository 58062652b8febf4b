//! Rebuilds H.264 intra pictures (8-bit, 4:2:0, progressive), one macroblock at a time and in any order.
//!
//! The work is done by a library whose every function is proved: a call ends, answers 0 or a refusal, and a refused call changes
//! nothing; and when all macroblocks of a picture have been accepted, in whatever order, the planes hold byte for byte what decoding in
//! raster order by ITU-T H.264 gives. This crate is its safe face: it passes slices on, and turns refusals into [`Refusal`].
//!
//! A [`Picture`] owns planes and maps, a [`Lent`] borrows them. The routines on single blocks are in [`block`], and [`turned`] gives writers of
//! tests a second case for each one whose mode has a partner.
//!
//! ```
//! use jiwarbend::{ChromaMode, Luma16x16Mode, Picture, Record, Refusal};
//!
//! let mut picture = Picture::new(2, 1)?;
//! // A 16x16 block of DC prediction, with 64 added to the sixteen samples of the first 4x4 block of luma.
//! let mut record = Record::of_16x16(Luma16x16Mode::Dc, ChromaMode::Dc);
//! record.numbers[0] = 64 * 64;
//!
//! // The left neighbour comes first, since both lie in one slice and DC reads it.
//! assert_eq!(picture.rebuild(1, 0, &record), Err(Refusal::NotReady));
//! picture.rebuild(0, 0, &record)?;
//! picture.rebuild(1, 0, &record)?;
//! assert!(picture.is_finished());
//! assert_eq!(picture.luma().row(0)[..6], [192, 192, 192, 192, 128, 128]);
//! # Ok::<(), Refusal>(())
//! ```
//!
//! # A lost slice
//!
//! The samples, marks and answers of a slice hang on nothing that comes for another one: where a slice is garbled, refused or abandoned, the others are
//! rebuilt as if it had never come, and none of them waits for it. [`Picture::is_slice_finished`] tells which slices are whole. The progress is the
//! picture's: it counts the macroblocks of all slices.
//!
//! # Idle cores
//!
//! [`Picture::turn`] says what can be taken next: of each row the leftmost macroblock that is not done, if all its available neighbours are. The macroblocks
//! of a turn, offered with acceptable records and in any order, meet no refusal and leave the same samples and the same next turn, and while one is
//! not done a turn is never empty. So several cores can make the records of a turn side by side, none stands still while there is work, and one that
//! abandons its macroblock leaves nothing to be taken back: the macroblock is listed until it is done. `examples/night.rs` has idle workers over forty
//! pictures, which misbehave on purpose.
//!
//! ```
//! use jiwarbend::{ChromaMode, Luma16x16Mode, Picture, Record, Refusal};
//!
//! let mut picture = Picture::new(3, 2)?;
//! let record = Record::of_16x16(Luma16x16Mode::Dc, ChromaMode::Dc);
//! let mut turns = Vec::new();
//! while !picture.is_finished() {
//!     let turn = picture.turn();
//!     for &(x, y) in turn.iter().rev() {
//!         picture.rebuild(x, y, &record)?;
//!     }
//!     turns.push(turn);
//! }
//! // The second row starts when the macroblock above and to the right of its first one is done.
//! assert_eq!(turns, [vec![(0, 0)], vec![(1, 0)], vec![(2, 0), (0, 1)], vec![(1, 1)], vec![(2, 1)]]);
//! assert_eq!(turns.len() as u32, picture.turns());
//! # Ok::<(), Refusal>(())
//! ```
//!
//! How many turns that will be [`Picture::turns`] says beforehand, and [`turns`] before there is a picture, from its size and its slices: never more than
//! `w + 2 * (h - 1)`. `examples/wave.rs` draws how many macroblocks each turn has, which is how many cores can work at once.
//!
//! # An order from elsewhere
//!
//! Where a partner's scheduler decides in which order the macroblocks come, [`Picture::check_order`] says before the start whether its list can be relied on,
//! and [`check_order`] before there is a picture. A list that passes names every macroblock once and each after all its available neighbours: replayed from a
//! start, with acceptable records, it meets no refusal and finishes the picture. Of one that does not pass it is told which entry is the first out of place.
//! `examples/partner.rs` checks and replays such lists.
//!
//! # Threads
//!
//! One call at a time for a picture; different pictures side by side. The library keeps no state of its own, takes no lock and makes no
//! thread: what a call reads and writes is what it is lent. The types hold to the rule, since a call that changes a picture takes it by `&mut`, and
//! [`Picture`] and [`Lent`] can be sent to another thread. `examples/workers.rs` has several workers over many pictures.
//!
//! # Panics
//!
//! No call panics over its arguments, but for [`Plane::row`]. A call that gets an answer which this version does not know panics: the archive is
//! of another version than the crate.
//!
//! # What is left out
//!
//! Deblocking: where a stream has the loop filter on, its pictures differ from these until it is applied. I_PCM macroblocks, entropy decoding
//! and dequantisation, constrained intra prediction, field coding, prediction between pictures, other sample depths and chroma formats.
//!
//! # What is assumed
//!
//! That the definitions that the library is proved against say what the standard says; the checker and the compiler's back end; this crate, whose
//! `unsafe` blocks pass slices as pointers with their lengths.
#![warn(missing_docs)]

pub mod block;
mod computed;
mod modes;
mod picture;
mod pool;
mod refusal;
mod shared;
#[allow(missing_docs)]
pub mod sys;
pub mod turned;

pub use computed::{Computed, NotCommitted};
pub use modes::{ChromaMode, Kind, Luma16x16Mode, LumaMode};
pub use picture::{check_order, turns, Lent, LentPlane, Picture, Plane, Progress, Record, Verdict};
pub use pool::{finish, Refused};
pub use refusal::Refusal;
pub use shared::Shared;
