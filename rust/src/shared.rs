//! A picture that several threads are in.
use crate::{Computed, NotCommitted, Picture, Record, Refusal};
use std::sync::{PoisonError, RwLock, RwLockReadGuard, RwLockWriteGuard};

/// A picture that several threads are in: they compute side by side and commit one at a time.
///
/// ```
/// use jiwarbend::{ChromaMode, Luma16x16Mode, NotCommitted, Picture, Record, Shared};
///
/// let record = Record::of_16x16(Luma16x16Mode::Dc, ChromaMode::Dc);
/// let shared = Shared::new(Picture::new(2, 1).unwrap());
/// std::thread::scope(|scope| {
///     for _ in 0..2 {
///         scope.spawn(|| {
///             while let Some(&(x, y)) = shared.turn().first() {
///                 // Two threads may compute the same macroblock. The second to commit it is told so, and nothing is lost.
///                 if let Ok(computed) = shared.compute(x, y, &record) {
///                     assert_ne!(shared.commit(&computed), Err(NotCommitted::Foreign));
///                 }
///             }
///         });
///     }
/// });
/// assert!(shared.into_inner().is_finished());
/// ```
///
/// A call takes the lock for itself. [`Shared::read`] and [`Shared::write`] hold it for several calls. A thread that panics between two calls leaves a
/// sound picture, and so the lock goes on.
#[derive(Debug)]
pub struct Shared(RwLock<Picture>);

impl Shared {
    /// A picture for several threads.
    pub fn new(picture: Picture) -> Shared {
        Shared(RwLock::new(picture))
    }

    /// The picture for calls that read it, beside other readers.
    pub fn read(&self) -> RwLockReadGuard<'_, Picture> {
        self.0.read().unwrap_or_else(PoisonError::into_inner)
    }

    /// The picture for calls that change it, alone.
    pub fn write(&self) -> RwLockWriteGuard<'_, Picture> {
        self.0.write().unwrap_or_else(PoisonError::into_inner)
    }

    /// [`Picture::compute`], beside other readers.
    ///
    /// # Errors
    ///
    /// As [`Picture::compute`].
    pub fn compute(&self, x: u32, y: u32, record: &Record) -> Result<Computed, Refusal> {
        self.read().compute(x, y, record)
    }

    /// [`Picture::commit`], alone.
    ///
    /// # Errors
    ///
    /// As [`Picture::commit`].
    pub fn commit(&self, computed: &Computed) -> Result<(), NotCommitted> {
        self.write().commit(computed)
    }

    /// [`Picture::rebuild`], alone.
    ///
    /// # Errors
    ///
    /// As [`Picture::rebuild`].
    pub fn rebuild(&self, x: u32, y: u32, record: &Record) -> Result<(), Refusal> {
        self.write().rebuild(x, y, record)
    }

    /// [`Picture::turn`], beside other readers.
    pub fn turn(&self) -> Vec<(u32, u32)> {
        self.read().turn()
    }

    /// [`Picture::start`], alone.
    pub fn start(&self) {
        self.write().start();
    }

    /// The picture, when no other thread is in it any more.
    pub fn into_inner(self) -> Picture {
        self.0.into_inner().unwrap_or_else(PoisonError::into_inner)
    }
}

impl From<Picture> for Shared {
    fn from(picture: Picture) -> Shared {
        Shared::new(picture)
    }
}
