//! Workers that finish pictures together.
//!
//! A picture's rows are what workers take: a row goes on with its leftmost macroblock that is not done, when the row above has come past its neighbours there.
//! Each time the library has its say whether a macroblock may be computed or committed: what workers know of rows only saves them calls in vain.
use crate::{Computed, Picture, Record, Refusal};
use std::borrow::Borrow;
use std::fmt;
use std::sync::atomic::{AtomicBool, AtomicU32, AtomicUsize, Ordering};
use std::sync::{Mutex, PoisonError, RwLock, RwLockReadGuard, RwLockWriteGuard, TryLockError};
use std::time::Duration;

/// A macroblock whose record was refused.
#[derive(Clone, Copy, Debug, PartialEq, Eq)]
pub struct Refused {
    /// Which of the pictures it is in.
    pub picture: usize,
    /// Its column.
    pub x: u32,
    /// Its row.
    pub y: u32,
    /// Why.
    pub refusal: Refusal,
}

impl fmt::Display for Refused {
    fn fmt(&self, f: &mut fmt::Formatter<'_>) -> fmt::Result {
        write!(f, "macroblock ({}, {}) of picture {}: {}", self.x, self.y, self.picture, self.refusal)
    }
}

impl std::error::Error for Refused {}

/// Finishes pictures with several workers: of many pictures each worker has one for itself, and of the last ones, or of one large one, workers compute
/// macroblocks side by side. `record` hands out the record of a macroblock, by the place of its picture in the list, its column and its row; several workers
/// ask it at the same time, and no lock is held meanwhile.
///
/// ```
/// use jiwarbend::{finish, ChromaMode, Luma16x16Mode, Picture, Record};
///
/// let mut pictures = [Picture::new(20, 12).unwrap(), Picture::new(4, 3).unwrap()];
/// let record = Record::of_16x16(Luma16x16Mode::Dc, ChromaMode::Dc);
/// finish(&mut pictures, 2, |_picture, _x, _y| &record)?;
/// assert!(pictures.iter().all(Picture::is_finished));
/// # Ok::<(), jiwarbend::Refused>(())
/// ```
///
/// What is done already stays as it is. The calling thread is the first worker, and the others are threads that end with the call: it takes some ten
/// microseconds until they run, so that small pictures are better handed in together.
///
/// # Errors
///
/// [`Refused`] where a record is refused, of the first such picture in the list. That picture is left as far as it has come, and the others are finished.
///
/// # Panics
///
/// If `record` panics. The other workers go on until all is finished or each has met a panic, and what is done is sound.
pub fn finish<R: Borrow<Record>>(
    pictures: &mut [Picture],
    workers: usize,
    record: impl Fn(usize, u32, u32) -> R + Sync,
) -> Result<(), Refused> {
    let jobs: Vec<Job> = pictures.iter_mut().enumerate().map(|(number, picture)| Job::new(number, picture)).collect();
    let started = AtomicUsize::new(0);
    let work = || {
        while let Some(job) = jobs.get(started.fetch_add(1, Ordering::Relaxed)) {
            job.work(&record);
        }
        // All are begun: help where there is work for one more.
        while let Some(job) = jobs.iter().filter(|job| job.has_room()).min_by_key(|job| job.workers.load(Ordering::Relaxed)) {
            job.work(&record);
        }
    };
    let useful = jobs.iter().map(|job| job.room).sum();
    std::thread::scope(|scope| {
        for _ in 1..workers.min(useful) {
            scope.spawn(work);
        }
        work();
    });
    jobs.iter().find_map(Job::refused).map_or(Ok(()), Err)
}

impl Picture {
    /// Finishes the picture with several workers, which compute macroblocks side by side: [`finish`] for one picture.
    ///
    /// # Errors
    ///
    /// [`Refused`] where a record is refused. The picture is left as far as it has come.
    ///
    /// # Panics
    ///
    /// If `record` panics.
    pub fn finish<R: Borrow<Record>>(&mut self, workers: usize, record: impl Fn(u32, u32) -> R + Sync) -> Result<(), Refused> {
        finish(std::slice::from_mut(self), workers, |_, x, y| record(x, y))
    }
}

/// How many rows that lie together a worker prefers: the samples that a row reads of the one above are then its own, as a rule.
const BAND: usize = 4;

/// How many macroblocks a worker rebuilds before it looks whether it is still alone.
const RUN: u32 = 8;

/// How often a worker looks before it sleeps.
const LOOKS: usize = 2000;

/// On cache lines of its own, so that those who write beside it do not slow it down.
#[repr(align(128))]
struct Apart<T>(T);

/// What workers know of a row.
struct Row {
    /// The column of its leftmost macroblock that is not done. Only who has taken the row changes it.
    next: AtomicU32,
    taken: AtomicBool,
}

/// A row that a worker has taken. It is given back also where the worker panics.
struct Taken<'a> {
    row: &'a Row,
    x: u32,
    y: u32,
}

impl Drop for Taken<'_> {
    fn drop(&mut self) {
        self.row.taken.store(false, Ordering::Release);
    }
}

struct Job<'a> {
    number: usize,
    w: u32,
    picture: Apart<RwLock<&'a mut Picture>>,
    rows: Vec<Apart<Row>>,
    /// How many workers have come, and how many find work on average.
    workers: AtomicUsize,
    room: usize,
    /// How often the picture was changed.
    moves: Apart<AtomicUsize>,
    /// It is finished, or a record was refused.
    over: AtomicBool,
    refused: Mutex<Option<Refused>>,
}

impl<'a> Job<'a> {
    fn new(number: usize, picture: &'a mut Picture) -> Job<'a> {
        let (w, over) = (picture.w(), picture.is_finished());
        let room = w * picture.h() / (w + 2 * (picture.h() - 1));
        let row = |&next: &u32| Apart(Row { next: next.into(), taken: false.into() });
        let rows = picture.count_rows().iter().map(row).collect();
        Job {
            number,
            w,
            picture: Apart(RwLock::new(picture)),
            rows,
            workers: 0.into(),
            room: room.max(1) as usize,
            moves: Apart(0.into()),
            over: over.into(),
            refused: Mutex::new(None),
        }
    }

    fn is_over(&self) -> bool {
        self.over.load(Ordering::Relaxed)
    }

    fn has_room(&self) -> bool {
        !self.is_over() && self.workers.load(Ordering::Relaxed) < self.room
    }

    fn refused(&self) -> Option<Refused> {
        *self.refused.lock().unwrap_or_else(PoisonError::into_inner)
    }

    fn refuse(&self, x: u32, y: u32, refusal: Refusal) {
        let refused = Refused { picture: self.number, x, y, refusal };
        self.refused.lock().unwrap_or_else(PoisonError::into_inner).get_or_insert(refused);
        self.over.store(true, Ordering::Relaxed);
    }

    /// Takes a row, unless another worker has it, it is done, or its next macroblock may have to wait for the row above.
    fn take(&self, y: usize) -> Option<Taken<'_>> {
        let row = &self.rows[y].0;
        let next = || {
            let x = row.next.load(Ordering::Relaxed);
            let above = if y == 0 { self.w } else { self.rows[y - 1].0.next.load(Ordering::Relaxed) };
            (x < self.w && above >= self.w.min(x + 2)).then_some(x)
        };
        if next().is_none() || row.taken.load(Ordering::Relaxed) || row.taken.swap(true, Ordering::Acquire) {
            return None;
        }
        let mut taken = Taken { row, x: 0, y: y as u32 };
        taken.x = next()?;
        Some(taken)
    }

    fn read(&self) -> RwLockReadGuard<'_, &'a mut Picture> {
        let lock = &self.picture.0;
        looked(|| lock.try_read()).unwrap_or_else(|| lock.read().unwrap_or_else(PoisonError::into_inner))
    }

    fn write(&self) -> RwLockWriteGuard<'_, &'a mut Picture> {
        let lock = &self.picture.0;
        looked(|| lock.try_write()).unwrap_or_else(|| lock.write().unwrap_or_else(PoisonError::into_inner))
    }

    /// The macroblock of a taken row is done: the row goes on behind it, past what was done before.
    fn go_on(&self, picture: &Picture, taken: &Taken, x: u32) {
        let next = (x + 1..self.w).find(|&x| !picture.is_done(x, taken.y)).unwrap_or(self.w);
        taken.row.next.store(next, Ordering::Relaxed);
    }

    fn see_end(&self, picture: &Picture) {
        if picture.is_finished() {
            self.over.store(true, Ordering::Relaxed);
        }
    }

    /// Works until the picture is over.
    fn work<R: Borrow<Record>>(&self, record: &impl Fn(usize, u32, u32) -> R) {
        let seat = self.workers.fetch_add(1, Ordering::Relaxed);
        let (mut rows, mut records, mut computed, mut first) = (Vec::new(), Vec::new(), Vec::new(), 0);
        while !self.is_over() {
            let moves = self.moves.0.load(Ordering::Acquire);
            let workers = self.workers.load(Ordering::Relaxed);
            while first < self.rows.len() && self.rows[first].0.next.load(Ordering::Relaxed) == self.w {
                first += 1;
            }
            let open = first..self.rows.len();
            if workers == 1 {
                if let Some(taken) = open.clone().find_map(|y| self.take(y)) {
                    self.rebuild(taken, &mut records, record);
                }
                continue;
            }
            rows.extend(open.clone().filter(|y| y / BAND % workers == seat).filter_map(|y| self.take(y)));
            if rows.is_empty() {
                rows.extend(open.clone().find_map(|y| self.take(y)));
            }
            if rows.is_empty() {
                self.wait(moves);
                continue;
            }
            records.extend(rows.iter().map(|row| record(self.number, row.x, row.y)));
            let ready = self.compute(&rows, &records, &mut computed);
            self.commit(&rows, &computed[..ready]);
            records.clear();
            rows.clear();
            self.moves.0.fetch_add(1, Ordering::Release);
        }
    }

    /// Computes the macroblocks of these rows, up to one whose record is refused, and gives their number.
    fn compute<R: Borrow<Record>>(&self, rows: &[Taken], records: &[R], computed: &mut Vec<Computed>) -> usize {
        computed.resize_with(computed.len().max(rows.len()), Computed::blank);
        let picture = self.read();
        for (k, (row, record)) in rows.iter().zip(records).enumerate() {
            if let Err(refusal) = picture.compute_into(&mut computed[k], row.x, row.y, record.borrow()) {
                self.refuse(row.x, row.y, refusal);
                return k;
            }
        }
        rows.len()
    }

    fn commit(&self, rows: &[Taken], computed: &[Computed]) {
        let mut picture = self.write();
        for (row, one) in rows.iter().zip(computed) {
            picture.commit(one).expect("nobody else has the row");
            self.go_on(&picture, row, row.x);
        }
        self.see_end(&picture);
    }

    /// Rebuilds some macroblocks of a row by whole calls, which is the shortest way for a worker that is alone.
    fn rebuild<R: Borrow<Record>>(&self, taken: Taken, records: &mut Vec<R>, record: &impl Fn(usize, u32, u32) -> R) {
        let (from, to) = (taken.x, self.w.min(taken.x + RUN));
        records.extend((from..to).map(|x| record(self.number, x, taken.y)));
        let mut picture = self.write();
        for (x, record) in (from..to).zip(records.drain(..)) {
            match picture.rebuild(x, taken.y, record.borrow()) {
                Ok(()) | Err(Refusal::Done) => self.go_on(&picture, &taken, x),
                // The row above has not come past it yet.
                Err(Refusal::NotReady) => break,
                Err(refusal) => return self.refuse(x, taken.y, refusal),
            }
        }
        self.see_end(&picture);
    }

    /// Waits until the picture is changed, but not for long: a worker may have given a row back without a change.
    fn wait(&self, moves: usize) {
        for _ in 0..LOOKS {
            if self.moves.0.load(Ordering::Relaxed) != moves || self.is_over() {
                return;
            }
            std::hint::spin_loop();
        }
        std::thread::sleep(Duration::from_micros(50));
    }
}

/// Tries to lock for a while without sleeping, since the others hold a lock for some microseconds only.
fn looked<G>(attempt: impl Fn() -> Result<G, TryLockError<G>>) -> Option<G> {
    for _ in 0..LOOKS {
        match attempt() {
            Ok(guard) => return Some(guard),
            Err(TryLockError::Poisoned(poisoned)) => return Some(poisoned.into_inner()),
            Err(TryLockError::WouldBlock) => std::hint::spin_loop(),
        }
    }
    None
}
