//! Whole pictures, macroblock by macroblock.
use crate::computed::Start;
use crate::{sys, ChromaMode, Computed, Kind, Luma16x16Mode, LumaMode, NotCommitted, Refusal};

/// What a macroblock is rebuilt from. Its fields are the numbers that the calls take, and any numbers may stand in them: what is wrong
/// is refused. [`Record::of_4x4`], [`Record::of_8x8`] and [`Record::of_16x16`] make one from modes by name. docs/RECORDS.md draws it.
#[derive(Clone, Debug, PartialEq, Eq)]
pub struct Record {
    /// 0 for 4x4, 1 for 8x8 and 2 for 16x16 luma prediction: the number of a [`Kind`].
    pub kind: u8,
    /// The luma modes: all sixteen in scan order for kind 0, the first four for kind 1, the first for kind 2. Unused ones are 0.
    pub modes: [u8; 16],
    /// The chroma mode: the number of a [`ChromaMode`].
    pub chroma_mode: u8,
    /// 256 coefficients for luma, 64 for Cb, 64 for Cr, dequantised and in -32768..=32767. Luma: sixteen blocks of 16 in scan order for kinds
    /// 0 and 2, four blocks of 64 in raster order for kind 1. Chroma: four blocks of 16 in raster order for each plane. Inside a block
    /// coefficients are in raster order. No block's transform leaves the range of 8.5.12.2 or 8.5.13.2, which no conforming stream breaks.
    pub numbers: [i32; 384],
}

impl Default for Record {
    fn default() -> Self {
        Record { kind: 0, modes: [0; 16], chroma_mode: 0, numbers: [0; 384] }
    }
}

impl Record {
    fn of(kind: Kind, used: impl IntoIterator<Item = u8>, chroma: ChromaMode) -> Record {
        let mut record = Record { kind: kind.number(), chroma_mode: chroma.number(), ..Record::default() };
        record.modes.iter_mut().zip(used).for_each(|(mode, used)| *mode = used);
        record
    }

    /// A macroblock of 4x4 prediction with no residual: a mode for each of its sixteen blocks in scan order.
    pub fn of_4x4(modes: [LumaMode; 16], chroma: ChromaMode) -> Record {
        Record::of(Kind::Luma4x4, modes.map(LumaMode::number), chroma)
    }

    /// A macroblock of 8x8 prediction with no residual: a mode for each of its four blocks in raster order.
    pub fn of_8x8(modes: [LumaMode; 4], chroma: ChromaMode) -> Record {
        Record::of(Kind::Luma8x8, modes.map(LumaMode::number), chroma)
    }

    /// A macroblock of 16x16 prediction with no residual.
    pub fn of_16x16(mode: Luma16x16Mode, chroma: ChromaMode) -> Record {
        Record::of(Kind::Luma16x16, [mode.number()], chroma)
    }
}

/// How far a picture has come: the number of accepted macroblocks and the address, y * w + x, of the last one.
#[derive(Clone, Copy, Debug, Default, PartialEq, Eq)]
pub struct Progress(sys::Progress);

impl Progress {
    /// No macroblock accepted.
    pub const fn new() -> Progress {
        Progress::at(0, 0)
    }

    /// A picture that has come so far, for memory that was kept elsewhere.
    pub const fn at(count: u32, last: u32) -> Progress {
        Progress(sys::Progress { count, last })
    }

    /// The number of accepted macroblocks.
    pub const fn count(self) -> u32 {
        self.0.count
    }

    /// The address of the last one; 0 where there is none yet.
    pub const fn last(self) -> u32 {
        self.0.last
    }
}

/// A plane that is owned.
#[derive(Clone, Debug, PartialEq, Eq)]
pub struct Plane {
    width: usize,
    height: usize,
    stride: usize,
    samples: Vec<u8>,
}

impl Plane {
    fn new(width: usize, height: usize, stride: usize) -> Plane {
        let length = if height == 0 { 0 } else { (height - 1) * stride + width };
        Plane { width, height, stride, samples: vec![0; length] }
    }

    /// The number of samples in a row.
    pub fn width(&self) -> usize {
        self.width
    }

    /// The number of rows.
    pub fn height(&self) -> usize {
        self.height
    }

    /// The distance of two rows.
    pub fn stride(&self) -> usize {
        self.stride
    }

    /// Every byte of the plane, padding between the rows included.
    pub fn samples(&self) -> &[u8] {
        &self.samples
    }

    /// The samples of row `y`.
    ///
    /// # Panics
    ///
    /// If `y` is not below the height.
    pub fn row(&self, y: usize) -> &[u8] {
        assert!(y < self.height, "row {y} of a plane of {} rows", self.height);
        &self.samples[y * self.stride..][..self.width]
    }

    /// The rows from the top down, without padding.
    pub fn rows(&self) -> impl Iterator<Item = &[u8]> + '_ {
        (0..self.height).map(|y| self.row(y))
    }

    fn lend(&mut self) -> LentPlane<'_> {
        LentPlane::new(&mut self.samples, self.stride)
    }
}

/// A plane that is lent: its bytes and the distance of two rows.
#[derive(Debug)]
pub struct LentPlane<'a> {
    samples: &'a mut [u8],
    stride: usize,
}

impl<'a> LentPlane<'a> {
    /// A plane of at least (height - 1) * stride + width bytes, with a stride of at least the width and at most 4096.
    pub fn new(samples: &'a mut [u8], stride: usize) -> LentPlane<'a> {
        LentPlane { samples, stride }
    }
}

/// A picture that is only read.
struct Seen<'a> {
    w: u32,
    h: u32,
    planes: [(&'a [u8], usize); 3],
    done: &'a [u8],
    slices: &'a [u16],
    progress: &'a Progress,
    start: &'a Start,
}

impl Seen<'_> {
    fn compute_from(&self, x: u32, y: u32, kind: u8, modes: &[u8], chroma_mode: u8, numbers: &[i32]) -> Result<Computed, Refusal> {
        let mut computed = Computed::blank();
        self.compute_into(&mut computed, x, y, (kind, modes, chroma_mode, numbers))?;
        Ok(computed)
    }

    /// The same into what held another result. Where it is refused, that one stays.
    fn compute_into(&self, computed: &mut Computed, x: u32, y: u32, record: (u8, &[u8], u8, &[i32])) -> Result<(), Refusal> {
        let (kind, modes, chroma_mode, numbers) = record;
        let [(luma, luma_stride), (cb, cb_stride), (cr, cr_stride)] = self.planes;
        // SAFETY: pointers and lengths are slices', and what is written is borrowed apart from all else.
        Refusal::check(unsafe {
            sys::jiwarbend_compute(
                self.w,
                self.h,
                x,
                y,
                luma.as_ptr(),
                luma.len(),
                luma_stride,
                cb.as_ptr(),
                cb.len(),
                cb_stride,
                cr.as_ptr(),
                cr.len(),
                cr_stride,
                self.done.as_ptr(),
                self.done.len(),
                self.slices.as_ptr(),
                self.slices.len(),
                &self.progress.0,
                kind,
                modes.as_ptr(),
                modes.len(),
                chroma_mode,
                numbers.as_ptr(),
                numbers.len(),
                computed.samples.as_mut_ptr(),
                computed.samples.len(),
            )
        })?;
        (computed.start, computed.x, computed.y) = (self.start.same(), x, y);
        Ok(())
    }

    fn count_rows(&self, rows: &mut [u32]) -> Result<(), Refusal> {
        // SAFETY: pointers and lengths are slices', and what is written is borrowed apart from all else.
        Refusal::check(unsafe {
            sys::jiwarbend_count_rows(self.w, self.h, self.done.as_ptr(), self.done.len(), rows.as_mut_ptr(), rows.len())
        })
    }

    fn turn(&self, rows: &[u32], list: &mut [u32]) -> Result<usize, Refusal> {
        let mut how_many = 0;
        // SAFETY: pointers and lengths are slices', and what is written is borrowed apart from all else.
        Refusal::check(unsafe {
            sys::jiwarbend_turn(
                self.w,
                self.h,
                self.done.as_ptr(),
                self.done.len(),
                self.slices.as_ptr(),
                self.slices.len(),
                rows.as_ptr(),
                rows.len(),
                list.as_mut_ptr(),
                list.len(),
                &mut how_many,
            )
        })?;
        Ok(how_many as usize)
    }
}

/// A picture over memory that others own. Any sizes may be put together: what does not fit is refused by the calls.
///
/// It holds the only references to what is written, so that no other thread has a hand in the picture while it lives. What it has computed is committed to it
/// alone: another `Lent` over the same memory is another picture.
#[derive(Debug)]
pub struct Lent<'a> {
    w: u32,
    h: u32,
    luma: LentPlane<'a>,
    cb: LentPlane<'a>,
    cr: LentPlane<'a>,
    done: &'a mut [u8],
    slices: &'a [u16],
    progress: &'a mut Progress,
    start: Start,
}

impl<'a> Lent<'a> {
    /// A picture of `w` by `h` macroblocks, 1..=120 by 1..=68.
    ///
    /// * `luma`, `cb`, `cr`: 16w by 16h, 8w by 8h and 8w by 8h samples.
    /// * `done`: a byte for each macroblock, 1 where it is done.
    /// * `slices`: the slice number of each macroblock.
    /// * `progress`: how far the picture has come.
    ///
    /// Call [`Lent::start`] unless the maps and the progress are those of a picture that has been started.
    pub fn new(
        (w, h): (u32, u32),
        [luma, cb, cr]: [LentPlane<'a>; 3],
        done: &'a mut [u8],
        slices: &'a [u16],
        progress: &'a mut Progress,
    ) -> Lent<'a> {
        Lent { w, h, luma, cb, cr, done, slices, progress, start: Start::new() }
    }

    fn seen(&self) -> Seen<'_> {
        let planes = [&self.luma, &self.cb, &self.cr].map(|plane| (&*plane.samples, plane.stride));
        Seen { w: self.w, h: self.h, planes, done: self.done, slices: self.slices, progress: self.progress, start: &self.start }
    }

    /// Starts the picture: no macroblock is done, and what was computed before is foreign.
    ///
    /// # Errors
    ///
    /// [`Refusal::Size`], or [`Refusal::Room`] for the length of the done map.
    pub fn start(&mut self) -> Result<(), Refusal> {
        // SAFETY: pointer and length are a slice's, and the two that are written are borrowed apart.
        Refusal::check(unsafe { sys::jiwarbend_start(self.w, self.h, self.done.as_mut_ptr(), self.done.len(), &mut self.progress.0) })?;
        self.start = Start::new();
        Ok(())
    }

    /// Rebuilds the macroblock in column `x` and row `y`.
    ///
    /// # Errors
    ///
    /// The first [`Refusal`] that applies; nothing was changed. [`Refusal::NotReady`] is the one that a sound caller meets: the macroblock is
    /// offered again when the neighbours that its record reads are done.
    pub fn rebuild(&mut self, x: u32, y: u32, record: &Record) -> Result<(), Refusal> {
        self.rebuild_from(x, y, record.kind, &record.modes, record.chroma_mode, &record.numbers)
    }

    /// The same from a record in parts, whose lists may have any length.
    ///
    /// # Errors
    ///
    /// As [`Lent::rebuild`]; [`Refusal::Room`] for other lengths than 16 modes and 384 numbers.
    pub fn rebuild_from(&mut self, x: u32, y: u32, kind: u8, modes: &[u8], chroma_mode: u8, numbers: &[i32]) -> Result<(), Refusal> {
        // SAFETY: pointers and lengths are slices', and what is written is borrowed apart from all else.
        Refusal::check(unsafe {
            sys::jiwarbend_rebuild(
                self.w,
                self.h,
                x,
                y,
                self.luma.samples.as_mut_ptr(),
                self.luma.samples.len(),
                self.luma.stride,
                self.cb.samples.as_mut_ptr(),
                self.cb.samples.len(),
                self.cb.stride,
                self.cr.samples.as_mut_ptr(),
                self.cr.samples.len(),
                self.cr.stride,
                self.done.as_mut_ptr(),
                self.done.len(),
                self.slices.as_ptr(),
                self.slices.len(),
                &mut self.progress.0,
                kind,
                modes.as_ptr(),
                modes.len(),
                chroma_mode,
                numbers.as_ptr(),
                numbers.len(),
            )
        })
    }

    /// Computes the macroblock in column `x` and row `y` and leaves the picture as it is, so that several threads can compute side by side.
    ///
    /// # Errors
    ///
    /// What [`Lent::rebuild`] would be refused with.
    pub fn compute(&self, x: u32, y: u32, record: &Record) -> Result<Computed, Refusal> {
        self.compute_from(x, y, record.kind, &record.modes, record.chroma_mode, &record.numbers)
    }

    /// The same from a record in parts, whose lists may have any length.
    ///
    /// # Errors
    ///
    /// As [`Lent::compute`]; [`Refusal::Room`] for other lengths than 16 modes and 384 numbers.
    pub fn compute_from(&self, x: u32, y: u32, kind: u8, modes: &[u8], chroma_mode: u8, numbers: &[i32]) -> Result<Computed, Refusal> {
        self.seen().compute_from(x, y, kind, modes, chroma_mode, numbers)
    }

    /// Puts a macroblock into the picture that this value has computed since it was made or started. Both calls together do what [`Lent::rebuild`] does.
    ///
    /// # Errors
    ///
    /// [`NotCommitted`]; nothing was changed.
    pub fn commit(&mut self, computed: &Computed) -> Result<(), NotCommitted> {
        if computed.start != self.start {
            return Err(NotCommitted::Foreign);
        }
        // SAFETY: pointers and lengths are slices', and what is written is borrowed apart from all else.
        let answer = Refusal::check(unsafe {
            sys::jiwarbend_commit(
                self.w,
                self.h,
                computed.x,
                computed.y,
                self.luma.samples.as_mut_ptr(),
                self.luma.samples.len(),
                self.luma.stride,
                self.cb.samples.as_mut_ptr(),
                self.cb.samples.len(),
                self.cb.stride,
                self.cr.samples.as_mut_ptr(),
                self.cr.samples.len(),
                self.cr.stride,
                self.done.as_mut_ptr(),
                self.done.len(),
                self.slices.as_ptr(),
                self.slices.len(),
                &mut self.progress.0,
                computed.samples.as_ptr(),
                computed.samples.len(),
            )
        });
        match answer {
            Ok(()) => Ok(()),
            Err(Refusal::Done) => Err(NotCommitted::Done),
            Err(other) => unreachable!("{other}: it was computed in this memory"),
        }
    }

    /// How many macroblocks are done, and which was the last.
    pub fn progress(&self) -> Progress {
        *self.progress
    }

    /// Brings row counts into agreement with the done map: each of the `h` numbers becomes how many macroblocks of its row are done from the left without
    /// a gap. They may hold anything before, and no other call changes them.
    ///
    /// # Errors
    ///
    /// [`Refusal::Size`], [`Refusal::Room`] for the length of the done map, or [`Refusal::Rows`] unless there are `h` counts; nothing was changed.
    pub fn count_rows(&self, rows: &mut [u32]) -> Result<(), Refusal> {
        self.seen().count_rows(rows)
    }

    /// Lists a turn by these row counts: of each row, from the top down, the leftmost undone macroblock if all its available neighbours are done. The
    /// addresses, y * w + x, stand in the list from the front on, and their number is given back; the places beyond keep what they held.
    ///
    /// # Errors
    ///
    /// [`Refusal::Size`], [`Refusal::Room`] for the length of a map, or [`Refusal::Rows`] unless there are `h` counts that agree with the done map and `h`
    /// places in the list; nothing was changed.
    pub fn turn(&self, rows: &[u32], list: &mut [u32]) -> Result<usize, Refusal> {
        self.seen().turn(rows, list)
    }
}

/// How many turns a picture of `w` by `h` macroblocks with these slice numbers takes: from nothing done until all is done, where each time all that
/// [`Picture::turn`] lists is accepted. Size and slices tell it, and so it can be asked before there is a picture.
///
/// It is at most `w + 2 * (h - 1)`, and in one slice exactly that, or `h` where `w` is 1. A macroblock is done in turn 1 + the latest among the turns of the
/// macroblock to its left, of whatever slice that is, and of its available neighbours above, above and to the right, and above and to the left; a row is
/// done with its last macroblock.
///
/// ```
/// use jiwarbend::{turns, Refusal};
///
/// assert_eq!(turns(3, 2, &[0; 6])?, 5);
/// // A slice for each row: no row waits for another one.
/// assert_eq!(turns(3, 2, &[0, 0, 0, 1, 1, 1])?, 3);
/// # Ok::<(), Refusal>(())
/// ```
///
/// # Errors
///
/// [`Refusal::Size`], or [`Refusal::Room`] unless there are `w * h` slice numbers.
pub fn turns(w: u32, h: u32, slices: &[u16]) -> Result<u32, Refusal> {
    let mut turns = 0;
    // SAFETY: pointer and length are a slice's, and what is written is apart from it.
    Refusal::check(unsafe { sys::jiwarbend_turns(w, h, slices.as_ptr(), slices.len(), &mut turns) })?;
    Ok(turns)
}

/// What a check says of an order.
#[derive(Clone, Copy, Debug, PartialEq, Eq)]
#[must_use = "an order that does not pass is told by its verdict and not by a refusal"]
pub enum Verdict {
    /// The list names every macroblock once and each after all its available neighbours.
    Yes,
    /// An entry is out of place: its macroblock is named before it already, or one of its available neighbours is not.
    No {
        /// Where the first such entry stands in the list, from 0.
        place: usize,
        /// The address that stands there.
        address: u32,
    },
}

impl Verdict {
    /// Whether the list passes.
    pub const fn is_yes(self) -> bool {
        matches!(self, Verdict::Yes)
    }
}

/// Checks an order in which a picture of `w` by `h` macroblocks with these slice numbers is to be rebuilt: a list of addresses, y * w + x. It passes if it
/// names every macroblock once and each after all its available neighbours: to the left, above, above and to the right, above and to the left. Else the first
/// entry that is out of place is told. Size, slices and list tell it, and so it can be asked before there is a picture.
///
/// * [`Verdict::Yes`]: replayed from a start through [`Picture::rebuild`], each macroblock with an acceptable record, the list meets no refusal and finishes
///   the picture.
/// * [`Verdict::No`]: a replay may still meet no refusal, since the check sees no modes and a macroblock waits only for the neighbours that its record reads.
///   Where each record reads from every available neighbour the replay meets one, and where the list names a macroblock twice it always does.
///
/// The verdict is about a whole picture from its start.
///
/// A scheduler that takes one diagonal after the other:
///
/// ```
/// use jiwarbend::{check_order, Refusal, Verdict};
///
/// let (w, h, slices) = (3, 2, [0; 6]);
/// // The macroblocks with x + y = d, from the top right end of the diagonal down to the left.
/// let diagonal = |d: u32| (0..h).filter(move |&y| y <= d && d - y < w).map(move |y| y * w + d - y);
/// let order: Vec<u32> = (0..w + h - 1).flat_map(diagonal).collect();
/// assert_eq!(order, [0, 1, 3, 2, 4, 5]);
/// assert!(check_order(w, h, &slices, &order)?.is_yes());
///
/// // From the bottom left up, macroblock (0, 1) comes before (1, 0), which is above and to the right of it.
/// let order: Vec<u32> = (0..w + h - 1).flat_map(|d| diagonal(d).rev()).collect();
/// assert_eq!(order, [0, 3, 1, 4, 2, 5]);
/// assert_eq!(check_order(w, h, &slices, &order)?, Verdict::No { place: 1, address: 3 });
/// # Ok::<(), Refusal>(())
/// ```
///
/// # Errors
///
/// [`Refusal::Size`], [`Refusal::Room`] unless there are `w * h` slice numbers, or [`Refusal::Order`] unless the list has `w * h` addresses that are all below
/// `w * h`.
pub fn check_order(w: u32, h: u32, slices: &[u16], order: &[u32]) -> Result<Verdict, Refusal> {
    let (mut verdict, mut place) = (0, 0);
    // SAFETY: pointers and lengths are slices', and what is written is apart from them.
    Refusal::check(unsafe { sys::jiwarbend_check_order(w, h, slices.as_ptr(), slices.len(), order.as_ptr(), order.len(), &mut verdict) })?;
    if verdict == 1 {
        return Ok(Verdict::Yes);
    }
    // SAFETY: as above.
    Refusal::check(unsafe { sys::jiwarbend_out_of_place(w, h, slices.as_ptr(), slices.len(), order.as_ptr(), order.len(), &mut place) })?;
    let place = place as usize;
    Ok(Verdict::No { place, address: order[place] })
}

/// A picture that owns its planes and maps. It is started when it is made, and only its calls change it.
///
/// A call that changes the picture takes it by `&mut`, so that no other thread is in the picture meanwhile. Calls that only read it, [`Picture::compute`] and
/// [`Picture::turn`] among them, go side by side: [`Shared`](crate::Shared) has the lock for both, and [`finish`](crate::finish) the workers. Different
/// pictures may be rebuilt side by side as well: a `Picture` can be sent to another thread, and nothing is shared between two of them.
///
/// A clone is another picture, which has come as far: what was computed for the one is foreign to the other.
#[derive(Clone, Debug)]
pub struct Picture {
    w: u32,
    h: u32,
    luma: Plane,
    cb: Plane,
    cr: Plane,
    done: Vec<u8>,
    slices: Vec<u16>,
    progress: Progress,
    rows: Vec<u32>,
    start: Start,
}

impl Picture {
    /// A picture of `w` by `h` macroblocks in one slice, with no padding.
    ///
    /// # Errors
    ///
    /// [`Refusal::Size`] unless `w` is 1..=120 and `h` is 1..=68.
    pub fn new(w: u32, h: u32) -> Result<Picture, Refusal> {
        Picture::sized(w, h)?;
        Picture::with_slices(w, h, vec![0; w as usize * h as usize])
    }

    /// The same with the slice number of each macroblock, in raster order.
    ///
    /// # Errors
    ///
    /// [`Refusal::Size`], or [`Refusal::Room`] unless there are `w * h` slice numbers.
    pub fn with_slices(w: u32, h: u32, slices: Vec<u16>) -> Result<Picture, Refusal> {
        Picture::sized(w, h)?;
        Picture::with_strides(w, h, slices, 16 * w as usize, 8 * w as usize)
    }

    /// The same with the distance of two rows of luma and of chroma.
    ///
    /// # Errors
    ///
    /// As [`Picture::with_slices`]; [`Refusal::Room`] also unless each stride is at least the plane's width and at most 4096.
    pub fn with_strides(w: u32, h: u32, slices: Vec<u16>, luma: usize, chroma: usize) -> Result<Picture, Refusal> {
        Picture::sized(w, h)?;
        let (columns, rows) = (w as usize, h as usize);
        let fits = |stride: usize, width: usize| (width..=4096).contains(&stride);
        if !fits(luma, 16 * columns) || !fits(chroma, 8 * columns) || slices.len() != columns * rows {
            return Err(Refusal::Room);
        }
        let mut picture = Picture {
            w,
            h,
            luma: Plane::new(16 * columns, 16 * rows, luma),
            cb: Plane::new(8 * columns, 8 * rows, chroma),
            cr: Plane::new(8 * columns, 8 * rows, chroma),
            done: vec![0; columns * rows],
            slices,
            progress: Progress::new(),
            rows: vec![0; rows],
            start: Start::new(),
        };
        picture.start();
        Ok(picture)
    }

    // Asked before memory is taken for a picture of this size.
    fn sized(w: u32, h: u32) -> Result<(), Refusal> {
        let fits = (1..=120).contains(&w) && (1..=68).contains(&h);
        fits.then_some(()).ok_or(Refusal::Size)
    }

    fn lend(&mut self) -> Lent<'_> {
        Lent {
            w: self.w,
            h: self.h,
            luma: self.luma.lend(),
            cb: self.cb.lend(),
            cr: self.cr.lend(),
            done: &mut self.done,
            slices: &self.slices,
            progress: &mut self.progress,
            start: self.start.same(),
        }
    }

    fn seen(&self) -> Seen<'_> {
        let planes = [&self.luma, &self.cb, &self.cr].map(|plane| (&*plane.samples, plane.stride));
        Seen { w: self.w, h: self.h, planes, done: &self.done, slices: &self.slices, progress: &self.progress, start: &self.start }
    }

    /// Starts the picture anew: no macroblock is done, and what was computed before is foreign. The planes keep their samples until they are rebuilt.
    pub fn start(&mut self) {
        let mut lent = self.lend();
        lent.start().expect("a picture has the memory of its size");
        self.start = lent.start;
    }

    /// Rebuilds the macroblock in column `x` and row `y`.
    ///
    /// # Errors
    ///
    /// The first [`Refusal`] that applies, [`Refusal::Place`] to [`Refusal::Range`]; nothing was changed. [`Refusal::NotReady`] is the one that
    /// a sound caller meets: the macroblock is offered again when the neighbours that its record reads are done.
    pub fn rebuild(&mut self, x: u32, y: u32, record: &Record) -> Result<(), Refusal> {
        self.lend().rebuild(x, y, record)
    }

    /// The same from a record in parts, whose lists may have any length.
    ///
    /// # Errors
    ///
    /// As [`Picture::rebuild`]; [`Refusal::Room`] for other lengths than 16 modes and 384 numbers.
    pub fn rebuild_from(&mut self, x: u32, y: u32, kind: u8, modes: &[u8], chroma_mode: u8, numbers: &[i32]) -> Result<(), Refusal> {
        self.lend().rebuild_from(x, y, kind, modes, chroma_mode, numbers)
    }

    /// Computes the macroblock in column `x` and row `y` and leaves the picture as it is, so that several threads can compute side by side.
    /// [`Picture::commit`] puts the result in.
    ///
    /// # Errors
    ///
    /// What [`Picture::rebuild`] would be refused with.
    pub fn compute(&self, x: u32, y: u32, record: &Record) -> Result<Computed, Refusal> {
        self.compute_from(x, y, record.kind, &record.modes, record.chroma_mode, &record.numbers)
    }

    /// The same from a record in parts, whose lists may have any length.
    ///
    /// # Errors
    ///
    /// As [`Picture::compute`]; [`Refusal::Room`] for other lengths than 16 modes and 384 numbers.
    pub fn compute_from(&self, x: u32, y: u32, kind: u8, modes: &[u8], chroma_mode: u8, numbers: &[i32]) -> Result<Computed, Refusal> {
        self.seen().compute_from(x, y, kind, modes, chroma_mode, numbers)
    }

    /// The same into what held another result. Where it is refused, that one stays.
    pub(crate) fn compute_into(&self, computed: &mut Computed, x: u32, y: u32, record: &Record) -> Result<(), Refusal> {
        self.seen().compute_into(computed, x, y, (record.kind, &record.modes, record.chroma_mode, &record.numbers))
    }

    /// Puts a macroblock that was computed for this picture into it. Both calls together do what [`Picture::rebuild`] does, whatever was committed or rebuilt
    /// between them: as long as the macroblock is not done, a result since the start is never refused.
    ///
    /// # Errors
    ///
    /// [`NotCommitted::Done`] where the macroblock is done by now, and [`NotCommitted::Foreign`] where it was computed for another picture or before the start;
    /// nothing was changed.
    pub fn commit(&mut self, computed: &Computed) -> Result<(), NotCommitted> {
        self.lend().commit(computed)
    }

    /// The width in macroblocks.
    pub fn w(&self) -> u32 {
        self.w
    }

    /// The height in macroblocks.
    pub fn h(&self) -> u32 {
        self.h
    }

    /// The luma plane.
    pub fn luma(&self) -> &Plane {
        &self.luma
    }

    /// The Cb plane.
    pub fn cb(&self) -> &Plane {
        &self.cb
    }

    /// The Cr plane.
    pub fn cr(&self) -> &Plane {
        &self.cr
    }

    /// How many macroblocks are done, and which was the last.
    pub fn progress(&self) -> Progress {
        self.progress
    }

    /// Whether the macroblock in column `x` and row `y` is done; none is outside the picture.
    pub fn is_done(&self, x: u32, y: u32) -> bool {
        x < self.w && y < self.h && self.done[(y * self.w + x) as usize] == 1
    }

    /// The first macroblock, by address, that is not done, as column and row: it never has to wait.
    pub fn first_undone(&self) -> Option<(u32, u32)> {
        let address = self.done.iter().position(|&d| d != 1)? as u32;
        Some((address % self.w, address / self.w))
    }

    /// How many macroblocks of each row, from the top down, are done from the left without a gap: the width where a whole row is done. The picture keeps
    /// these counts, and each time they are brought into agreement with what is done.
    pub fn count_rows(&mut self) -> &[u32] {
        let mut rows = std::mem::take(&mut self.rows);
        self.seen().count_rows(&mut rows).expect("a picture has the memory of its size");
        self.rows = rows;
        &self.rows
    }

    /// The macroblocks that idle cores may take next, a turn: of each row, from the top down, the leftmost one that is not done if all its available
    /// neighbours are, as column and row: none of them has to wait, in whatever order they are offered, and none reads what another one writes. It is
    /// empty exactly when the picture is finished. A macroblock is listed until it is done: nothing is claimed, and nothing has to be taken back.
    ///
    /// The call sees no record, and so a turn waits for all four neighbours; [`Picture::rebuild`] may accept a macroblock earlier. All slices share it:
    /// behind a macroblock that is not done none of its row is listed, also where it is of another slice. Where a slice is lost for good,
    /// [`Picture::first_undone_in`] says where another one goes on.
    pub fn turn(&self) -> Vec<(u32, u32)> {
        let (mut rows, mut list) = (vec![0; self.rows.len()], vec![0; self.rows.len()]);
        let turn = self.turn_into(&mut rows, &mut list);
        turn.iter().map(|address| (address % self.w, address / self.w)).collect()
    }

    /// The same as addresses in the list. Counts and list have `h` places.
    pub(crate) fn turn_into<'a>(&self, rows: &mut [u32], list: &'a mut [u32]) -> &'a [u32] {
        let seen = self.seen();
        seen.count_rows(rows).expect("a picture has the memory of its size");
        let how_many = seen.turn(rows, list).expect("the counts have just been made");
        &list[..how_many]
    }

    /// How many turns the whole picture takes, from nothing done until all is done, where all that [`Picture::turn`] lists is accepted each time. What is
    /// done by now has no say in it: [`turns`] answers the same from the picture's size and slices.
    pub fn turns(&self) -> u32 {
        turns(self.w, self.h, &self.slices).expect("a picture has the memory of its size")
    }

    /// Checks an order in which the whole picture is to be rebuilt, from nothing done until all is done: a list of addresses, y * w + x. What is done by now
    /// has no say in it: [`check_order`] answers the same from the picture's size and slices, and tells what the verdict means.
    ///
    /// # Errors
    ///
    /// [`Refusal::Order`] unless the list has an address for each macroblock, and none outside the picture.
    pub fn check_order(&self, order: &[u32]) -> Result<Verdict, Refusal> {
        check_order(self.w, self.h, &self.slices, order)
    }

    /// Whether every macroblock is done.
    pub fn is_finished(&self) -> bool {
        self.progress.count() == self.w * self.h
    }

    /// The first macroblock of a slice, by address, that is not done, as column and row: whatever becomes of other slices, it never has to wait.
    pub fn first_undone_in(&self, slice: u16) -> Option<(u32, u32)> {
        let address = self.done.iter().zip(&self.slices).position(|(&d, &s)| d != 1 && s == slice)? as u32;
        Some((address % self.w, address / self.w))
    }

    /// Whether every macroblock of a slice is done. Then its samples are final and right if its own records came, also where other slices are lost. A
    /// slice that the picture has not is finished.
    pub fn is_slice_finished(&self, slice: u16) -> bool {
        self.first_undone_in(slice).is_none()
    }
}
