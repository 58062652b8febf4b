//! A refused call writes into nothing that it was lent: all of its memory is lent in pages that cannot be written, and every refusal of every
//! export that is lent memory to write is tried. Each list ends where a page begins that cannot be read either. A call is made in a process of its
//! own, so that one that touches such a page is told from the others.
#![cfg(target_os = "linux")]
use jiwarbend::sys::*;
use std::ffi::c_void;

extern "C" {
    fn mmap(at: *mut c_void, len: usize, protection: i32, flags: i32, file: i32, offset: i64) -> *mut c_void;
    fn mprotect(at: *mut c_void, len: usize, protection: i32) -> i32;
    fn munmap(at: *mut c_void, len: usize) -> i32;
    fn sysconf(name: i32) -> i64;
    fn fork() -> i32;
    fn waitpid(process: i32, status: *mut i32, options: i32) -> i32;
    fn _exit(status: i32) -> !;
}

const NONE: i32 = 0;
const READ: i32 = 1;
const READ_WRITE: i32 = 3;
const PRIVATE_ANONYMOUS: i32 = 0x22;
const PAGE_SIZE: i32 = 30;
const SIGSEGV: i32 = 11;

/// Elements in pages that can only be read, up to a page that cannot be touched.
struct ReadOnly<T> {
    pages: *mut c_void,
    bytes: usize,
    first: *mut T,
    len: usize,
}

impl<T: Copy> ReadOnly<T> {
    fn new(elements: &[T]) -> ReadOnly<T> {
        let size = std::mem::size_of_val(elements);
        unsafe {
            let page = sysconf(PAGE_SIZE) as usize;
            let readable = (size + page - 1) / page * page;
            let bytes = readable + page;
            let pages = mmap(std::ptr::null_mut(), bytes, READ_WRITE, PRIVATE_ANONYMOUS, -1, 0);
            assert!(!pages.is_null() && pages as isize != -1, "no memory");
            let first = pages.cast::<u8>().add(readable - size).cast::<T>();
            first.copy_from_nonoverlapping(elements.as_ptr(), elements.len());
            if readable > 0 {
                assert_eq!(mprotect(pages, readable, READ), 0);
            }
            assert_eq!(mprotect(pages.cast::<u8>().add(readable).cast(), page, NONE), 0);
            ReadOnly { pages, bytes, first, len: elements.len() }
        }
    }

    /// Its pointer and its length by methods: a closure that took the fields would leave the pages behind, and they would be gone before the call.
    fn at(&self) -> *mut T {
        self.first
    }

    fn len(&self) -> usize {
        self.len
    }
}

impl<T> Drop for ReadOnly<T> {
    fn drop(&mut self) {
        unsafe { munmap(self.pages, self.bytes) };
    }
}

/// The answer of a call in a process of its own, or the signal that ended it.
fn tried(call: impl FnOnce() -> u32) -> Result<u32, i32> {
    unsafe {
        let process = fork();
        assert!(process >= 0, "no process");
        if process == 0 {
            _exit(call() as i32);
        }
        let mut status = 0;
        assert_eq!(waitpid(process, &mut status, 0), process);
        match status & 0x7f {
            0 => Ok((status >> 8 & 0xff) as u32),
            signal => Err(signal),
        }
    }
}

/// The call is refused with this number and touches no page that it must not touch.
fn refused(name: &str, wanted: u32, call: impl FnOnce() -> u32) {
    assert_ne!(wanted, 0);
    assert_eq!(tried(call), Ok(wanted), "{name}: an answer, or the signal of a write into memory that was lent");
}

/// The call is accepted, and so it writes: the pages hold.
fn accepted(name: &str, call: impl FnOnce() -> u32) {
    assert_eq!(tried(call), Err(SIGSEGV), "{name}: a call that writes must be seen");
}

#[test]
fn start() {
    let call = |w: u32, h: u32, len: usize| {
        let (done, progress) = (ReadOnly::new(&vec![7u8; len]), ReadOnly::new(&[5u32, 6]));
        move || unsafe { jiwarbend_start(w, h, done.at(), done.len(), progress.at().cast()) }
    };
    for (w, h) in [(0, 1), (1, 0), (121, 1), (1, 69), (u32::MAX, u32::MAX)] {
        refused("start", 1, call(w, h, 2));
    }
    for len in [0, 5, 7] {
        refused("start", 2, call(2, 3, len));
    }
    accepted("start", call(2, 3, 6));
}

/// A call of `rebuild`, of `compute` or of `commit` for the second macroblock of 2 by 1, which is good until it is bent.
struct Rebuild {
    w: u32,
    h: u32,
    x: u32,
    y: u32,
    planes: [usize; 3],
    strides: [usize; 3],
    done: Vec<u8>,
    slices: Vec<u16>,
    count: u32,
    kind: u8,
    modes: Vec<u8>,
    chroma_mode: u8,
    numbers: Vec<i32>,
}

impl Rebuild {
    fn new(kind: u8) -> Rebuild {
        let used = [16, 4, 1][kind as usize];
        Rebuild {
            w: 2,
            h: 1,
            x: 1,
            y: 0,
            planes: [32 * 16, 16 * 8, 16 * 8],
            strides: [32, 16, 16],
            done: vec![1, 0],
            slices: vec![9, 9],
            count: 1,
            kind,
            modes: (0..16).map(|k| if k < used { 2 } else { 0 }).collect(),
            chroma_mode: 0,
            numbers: vec![64; 384],
        }
    }

    /// The call over memory that can only be read.
    fn call(self) -> impl FnOnce() -> u32 {
        let planes = self.planes.map(|len| ReadOnly::new(&vec![100u8; len]));
        let (done, slices) = (ReadOnly::new(&self.done), ReadOnly::new(&self.slices));
        let (modes, numbers) = (ReadOnly::new(&self.modes), ReadOnly::new(&self.numbers));
        let progress = ReadOnly::new(&[self.count, 0]);
        move || unsafe {
            jiwarbend_rebuild(
                self.w,
                self.h,
                self.x,
                self.y,
                planes[0].at(),
                planes[0].len(),
                self.strides[0],
                planes[1].at(),
                planes[1].len(),
                self.strides[1],
                planes[2].at(),
                planes[2].len(),
                self.strides[2],
                done.at(),
                done.len(),
                slices.at(),
                slices.len(),
                progress.at().cast(),
                self.kind,
                modes.at(),
                modes.len(),
                self.chroma_mode,
                numbers.at(),
                numbers.len(),
            )
        }
    }

    /// A call of `compute` over memory that can only be read, the block too or all but the block.
    fn compute(self, block: usize, block_is_read_only: bool) -> impl FnOnce() -> u32 {
        let planes = self.planes.map(|len| ReadOnly::new(&vec![100u8; len]));
        let (done, slices) = (ReadOnly::new(&self.done), ReadOnly::new(&self.slices));
        let (modes, numbers) = (ReadOnly::new(&self.modes), ReadOnly::new(&self.numbers));
        let progress = ReadOnly::new(&[self.count, 0]);
        let (mut writable, read_only) = (vec![7u8; block], ReadOnly::new(&vec![7u8; block]));
        move || unsafe {
            jiwarbend_compute(
                self.w,
                self.h,
                self.x,
                self.y,
                planes[0].at(),
                planes[0].len(),
                self.strides[0],
                planes[1].at(),
                planes[1].len(),
                self.strides[1],
                planes[2].at(),
                planes[2].len(),
                self.strides[2],
                done.at(),
                done.len(),
                slices.at(),
                slices.len(),
                progress.at().cast(),
                self.kind,
                modes.at(),
                modes.len(),
                self.chroma_mode,
                numbers.at(),
                numbers.len(),
                if block_is_read_only { read_only.at() } else { writable.as_mut_ptr() },
                block,
            )
        }
    }

    /// A call of `commit` over memory that can only be read.
    fn commit(self, block: usize) -> impl FnOnce() -> u32 {
        let planes = self.planes.map(|len| ReadOnly::new(&vec![100u8; len]));
        let (done, slices) = (ReadOnly::new(&self.done), ReadOnly::new(&self.slices));
        let (progress, block) = (ReadOnly::new(&[self.count, 0]), ReadOnly::new(&vec![7u8; block]));
        move || unsafe {
            jiwarbend_commit(
                self.w,
                self.h,
                self.x,
                self.y,
                planes[0].at(),
                planes[0].len(),
                self.strides[0],
                planes[1].at(),
                planes[1].len(),
                self.strides[1],
                planes[2].at(),
                planes[2].len(),
                self.strides[2],
                done.at(),
                done.len(),
                slices.at(),
                slices.len(),
                progress.at().cast(),
                block.at(),
                block.len(),
            )
        }
    }
}

type Bend = fn(&mut Rebuild);

/// The ways in which a call is bent, by the refusal that it meets then.
const BENDS: [(u32, &[Bend]); 8] = [
    (1, &[|r| r.w = 0, |r| r.w = 121, |r| r.h = 0, |r| r.h = 69, |r| (r.w, r.h) = (u32::MAX, u32::MAX)]),
    (
        2,
        &[
            |r| r.strides[0] = 31,
            |r| r.strides[1] = 15,
            |r| r.strides[2] = 4097,
            |r| r.planes[0] -= 1,
            |r| r.planes[1] -= 1,
            |r| r.planes[2] = 0,
            |r| r.done.push(0),
            |r| r.done.clear(),
            |r| r.slices.truncate(1),
            |r| r.slices.push(9),
            |r| r.count = 3,
            |r| r.count = u32::MAX,
            |r| r.modes.truncate(15),
            |r| r.modes.push(0),
            |r| r.modes.clear(),
            |r| r.numbers.truncate(383),
            |r| r.numbers.push(0),
            |r| r.numbers.clear(),
        ],
    ),
    (3, &[|r| r.x = 2, |r| r.x = u32::MAX, |r| r.y = 1, |r| r.y = u32::MAX]),
    (4, &[|r| r.done[1] = 1, |r| r.x = 0]),
    (5, &[|r| r.done[0] = 0, |r| r.done[0] = 2]),
    (6, &[|r| r.kind = 3, |r| r.kind = 255, |r| r.modes[0] = 9, |r| r.chroma_mode = 4]),
    (7, &[|r| r.modes[0] = 0, |r| r.chroma_mode = 2, |r| r.chroma_mode = 3]),
    (
        8,
        &[
            |r| r.numbers[0] = 32768,
            |r| r.numbers[383] = -32769,
            |r| r.numbers[200] = i32::MIN,
            // Blocks that leave the range on the way: the first and the last of luma, one of Cb and the last one of Cr.
            |r| r.numbers[0] = 32767,
            |r| r.numbers[192..256].fill(32767),
            |r| r.numbers[256 + 16] = 32736,
            |r| r.numbers[368..].fill(-32768),
        ],
    ),
];

/// A neighbour that the record reads is undone: a kind or mode that is unknown or not permitted comes before it, and a number out of range after it.
const WHILE_WAITING: [(u32, &[Bend]); 3] = [
    (6, &[|r| r.kind = 3, |r| r.modes[0] = 9, |r| r.chroma_mode = 4]),
    (7, &[|r| r.modes[0] = 0, |r| r.chroma_mode = 2, |r| r.chroma_mode = 3]),
    (5, &[|r| r.numbers[0] = 32768, |r| r.numbers[368..].fill(-32768)]),
];

#[test]
fn rebuild() {
    for kind in 0..3 {
        for (number, bends) in BENDS {
            for (k, bend) in bends.iter().enumerate() {
                let mut call = Rebuild::new(kind);
                bend(&mut call);
                refused(&format!("rebuild of kind {kind}, bent in way {k}"), number, call.call());
            }
        }
        accepted("rebuild", Rebuild::new(kind).call());
    }
    for kind in 0..3 {
        for (number, bends) in WHILE_WAITING {
            for (k, bend) in bends.iter().enumerate() {
                let mut call = Rebuild::new(kind);
                call.done[0] = 0;
                bend(&mut call);
                refused(&format!("rebuild of kind {kind} that waits, bent in way {k}"), number, call.call());
            }
        }
    }
    // The last of 2 by 2, both modes vertical: the neighbour above is waited for, and the others are not.
    let vertical = |done: [u8; 4]| Rebuild {
        h: 2,
        y: 1,
        planes: [32 * 32, 16 * 16, 16 * 16],
        done: done.to_vec(),
        slices: vec![9; 4],
        modes: vec![0; 16],
        chroma_mode: 2,
        ..Rebuild::new(2)
    };
    refused("rebuild of a vertical macroblock", 5, vertical([1, 0, 1, 0]).call());
    accepted("rebuild of a vertical macroblock", vertical([0, 1, 0, 0]).call());
    // An unused mode that is not 0.
    for kind in 1..3 {
        let mut call = Rebuild::new(kind);
        call.modes[15] = 1;
        refused("rebuild with an unused mode", 6, call.call());
    }
}

#[test]
fn compute() {
    for kind in 0..3 {
        for (waits, (number, bends)) in BENDS.map(|b| (false, b)).into_iter().chain(WHILE_WAITING.map(|b| (true, b))) {
            for (k, bend) in bends.iter().enumerate() {
                let mut call = Rebuild::new(kind);
                call.done[0] = !waits as u8;
                bend(&mut call);
                refused(&format!("compute of kind {kind}, bent in way {k}"), number, call.compute(384, true));
            }
        }
        for len in wrong_lengths(384) {
            refused("compute", 2, Rebuild::new(kind).compute(len, true));
        }
        // What it writes is the block, and nothing else that it is lent.
        accepted("compute", Rebuild::new(kind).compute(384, true));
        assert_eq!(tried(Rebuild::new(kind).compute(384, false)), Ok(0), "compute: an answer, or the signal of a write elsewhere");
    }
}

#[test]
fn commit() {
    // What is bent in the record is nothing to a commit, nor is an undone neighbour.
    for (number, bends) in BENDS {
        for (k, bend) in bends.iter().enumerate() {
            let mut call = Rebuild::new(0);
            bend(&mut call);
            let of_record = number > 4 || call.modes.len() != 16 || call.numbers.len() != 384;
            match of_record {
                true => accepted(&format!("commit, bent in way {k} of {number}"), call.commit(384)),
                false => refused(&format!("commit, bent in way {k}"), number, call.commit(384)),
            }
        }
    }
    for len in wrong_lengths(384) {
        refused("commit", 2, Rebuild::new(0).commit(len));
    }
    accepted("commit", Rebuild::new(0).commit(384));
}

/// A call of `count_rows`, of `turn` or of `turns` for 2 by 3 macroblocks in two slices, which is good until it is bent. The turn has macroblocks 1 and 2;
/// that of the last row waits for its corner.
struct Turn {
    w: u32,
    h: u32,
    done: Vec<u8>,
    slices: Vec<u16>,
    rows: Vec<u32>,
    list: Vec<u32>,
}

impl Turn {
    fn new() -> Turn {
        Turn { w: 2, h: 3, done: vec![1, 0, 255, 1, 1, 2], slices: vec![9, 9, 7, 7, 7, 7], rows: vec![1, 0, 1], list: vec![8; 3] }
    }

    /// The calls over memory that can only be read.
    fn count_rows(self) -> impl FnOnce() -> u32 {
        let (done, rows) = (ReadOnly::new(&self.done), ReadOnly::new(&self.rows));
        move || unsafe { jiwarbend_count_rows(self.w, self.h, done.at(), done.len(), rows.at(), rows.len()) }
    }

    fn turn(self) -> impl FnOnce() -> u32 {
        let (done, slices, rows) = (ReadOnly::new(&self.done), ReadOnly::new(&self.slices), ReadOnly::new(&self.rows));
        let (list, how_many) = (ReadOnly::new(&self.list), ReadOnly::new(&[77u32]));
        move || unsafe {
            jiwarbend_turn(
                self.w,
                self.h,
                done.at(),
                done.len(),
                slices.at(),
                slices.len(),
                rows.at(),
                rows.len(),
                list.at(),
                list.len(),
                how_many.at(),
            )
        }
    }

    fn turns(self) -> impl FnOnce() -> u32 {
        let (slices, turns) = (ReadOnly::new(&self.slices), ReadOnly::new(&[77u32]));
        move || unsafe { jiwarbend_turns(self.w, self.h, slices.at(), slices.len(), turns.at()) }
    }
}

type BendTurn = fn(&mut Turn);

const BENT_SIZES: &[BendTurn] = &[|t| t.w = 0, |t| t.w = 121, |t| t.h = 0, |t| t.h = 69, |t| (t.w, t.h) = (u32::MAX, u32::MAX)];
const BENT_DONE: &[BendTurn] = &[|t| t.done.truncate(5), |t| t.done.push(0), |t| t.done.clear()];
const BENT_SLICES: &[BendTurn] = &[|t| t.slices.truncate(5), |t| t.slices.push(9), |t| t.slices.clear()];
const BENT_ROWS: &[BendTurn] = &[|t| t.rows.truncate(2), |t| t.rows.push(0), |t| t.rows.clear()];
const BENT_LIST: &[BendTurn] = &[|t| t.list.truncate(2), |t| t.list.push(8), |t| t.list.clear()];
const BENT_COUNTS: &[BendTurn] = &[
    |t| t.rows[0] = 0,
    |t| t.rows[0] = 2,
    |t| t.rows[1] = 1,
    |t| t.rows[1] = u32::MAX,
    // The last row: those before it are counted right.
    |t| t.rows[2] = 0,
    |t| t.rows[2] = 2,
    |t| t.rows[2] = 3,
];

#[test]
fn turns() {
    for (number, bends) in [(1, BENT_SIZES), (2, BENT_DONE), (9, BENT_ROWS)] {
        for (k, bend) in bends.iter().enumerate() {
            let mut call = Turn::new();
            bend(&mut call);
            refused(&format!("count_rows, bent in way {k}"), number, call.count_rows());
        }
    }
    for (number, bends) in [(1, BENT_SIZES), (2, BENT_DONE), (2, BENT_SLICES), (9, BENT_ROWS), (9, BENT_LIST), (9, BENT_COUNTS)] {
        for (k, bend) in bends.iter().enumerate() {
            let mut call = Turn::new();
            bend(&mut call);
            refused(&format!("turn, bent in way {k}"), number, call.turn());
        }
    }
    for (number, bends) in [(1, BENT_SIZES), (2, BENT_SLICES)] {
        for (k, bend) in bends.iter().enumerate() {
            let mut call = Turn::new();
            bend(&mut call);
            refused(&format!("turns, bent in way {k}"), number, call.turns());
        }
    }
    accepted("count_rows", Turn::new().count_rows());
    accepted("turn", Turn::new().turn());
    accepted("turns", Turn::new().turns());
    // Where the number of turns is refused, not even the slice numbers are read: not one of them can be.
    for (number, w, h, len) in [(1, 0, 3, 0), (1, 121, 3, 363), (1, 2, 69, 138), (2, 2, 3, 5), (2, 2, 3, 7), (2, 2, 3, 0)] {
        let (nowhere, turns) = (ReadOnly::new(&[0u16; 0]), ReadOnly::new(&[77u32]));
        refused("turns, without slice numbers", number, move || unsafe { jiwarbend_turns(w, h, nowhere.at(), len, turns.at()) });
    }
}

#[test]
fn turns_only_read_the_maps() {
    // What is written is lent on the stack, and all else in pages that cannot be written.
    let (done, slices) = (ReadOnly::new(&Turn::new().done), ReadOnly::new(&Turn::new().slices));
    let counted = || {
        let mut rows = [8u32; 3];
        let answer = unsafe { jiwarbend_count_rows(2, 3, done.at(), done.len(), rows.as_mut_ptr(), 3) };
        answer + (rows != [1, 0, 1]) as u32
    };
    assert_eq!(tried(counted), Ok(0), "count_rows: an answer, or the signal of a write into a map");
    let rows = ReadOnly::new(&Turn::new().rows);
    let listed = || {
        let (mut list, mut how_many) = ([8u32; 3], 77);
        let (d, s, r, to) = (done.at(), slices.at(), rows.at(), list.as_mut_ptr());
        let answer = unsafe { jiwarbend_turn(2, 3, d, done.len(), s, slices.len(), r, rows.len(), to, 3, &mut how_many) };
        answer + (list != [1, 2, 8] || how_many != 2) as u32
    };
    assert_eq!(tried(listed), Ok(0), "turn: an answer, or the signal of a write into a map or a count");
    let counted = || {
        let mut turns = 77;
        let answer = unsafe { jiwarbend_turns(2, 3, slices.at(), slices.len(), &mut turns) };
        answer + (turns != 4) as u32
    };
    assert_eq!(tried(counted), Ok(0), "turns: an answer, or the signal of a write into the slice map");
}

/// A call of `check_order` or of `out_of_place` for 2 by 3 macroblocks in two slices, which is good until it is bent. The list does not pass: macroblock 3
/// comes before its neighbour to the left.
struct Ordered {
    w: u32,
    h: u32,
    slices: Vec<u16>,
    order: Vec<u32>,
}

type CheckOrder = unsafe extern "C" fn(u32, u32, *const u16, usize, *const u32, usize, *mut u32) -> u32;
type BendOrder = fn(&mut Ordered);

const CHECKS_OF_ORDER: [(&str, CheckOrder); 2] = [("check_order", jiwarbend_check_order), ("out_of_place", jiwarbend_out_of_place)];

impl Ordered {
    fn new() -> Ordered {
        Ordered { w: 2, h: 3, slices: vec![9, 9, 7, 7, 7, 7], order: vec![0, 3, 2, 4, 5, 1] }
    }

    /// The call over memory that can only be read.
    fn call(self, export: CheckOrder) -> impl FnOnce() -> u32 {
        let (slices, order, said) = (ReadOnly::new(&self.slices), ReadOnly::new(&self.order), ReadOnly::new(&[77u32]));
        move || unsafe { export(self.w, self.h, slices.at(), slices.len(), order.at(), order.len(), said.at()) }
    }
}

#[test]
fn orders() {
    let bends: [(u32, &[BendOrder]); 3] = [
        (1, &[|o| o.w = 0, |o| o.w = 121, |o| o.h = 0, |o| o.h = 69, |o| (o.w, o.h) = (u32::MAX, u32::MAX)]),
        (2, &[|o| o.slices.truncate(5), |o| o.slices.push(7), |o| o.slices.clear()]),
        (
            13,
            &[
                |o| o.order.truncate(5),
                |o| o.order.push(1),
                |o| o.order.clear(),
                // The first entry, the last, and one behind the entry that is out of place.
                |o| o.order[0] = 6,
                |o| o.order[5] = 6,
                |o| o.order[4] = u32::MAX,
            ],
        ),
    ];
    for (name, export) in CHECKS_OF_ORDER {
        for (number, bends) in bends {
            for (k, bend) in bends.iter().enumerate() {
                let mut call = Ordered::new();
                bend(&mut call);
                refused(&format!("{name}, bent in way {k}"), number, call.call(export));
            }
        }
        accepted(name, Ordered::new().call(export));
        accepted(name, Ordered { order: vec![0, 2, 3, 4, 5, 1], ..Ordered::new() }.call(export));
        // Where a size or a length is wrong, neither a slice number nor an address is read: not one of them can be.
        let lengths = [
            (1, 0, 3, 0, 0),
            (1, 121, 3, 363, 363),
            (1, 2, 69, 138, 138),
            (2, 2, 3, 5, 6),
            (2, 2, 3, 7, 6),
            (13, 2, 3, 6, 5),
            (13, 2, 3, 6, 7),
        ];
        for (number, w, h, slices, order) in lengths {
            let (no_slices, no_order, said) = (ReadOnly::new(&[0u16; 0]), ReadOnly::new(&[0u32; 0]), ReadOnly::new(&[77u32]));
            let call = move || unsafe { export(w, h, no_slices.at(), slices, no_order.at(), order, said.at()) };
            refused(&format!("{name}, without lists"), number, call);
        }
    }
}

#[test]
fn orders_are_only_read() {
    // What is written is lent on the stack, and all else in pages that cannot be written.
    let slices = ReadOnly::new(&Ordered::new().slices);
    for (list, wanted) in [([0, 3, 2, 4, 5, 1], [0, 1]), ([0, 2, 3, 4, 5, 1], [1, 6])] {
        let order = ReadOnly::new(&list);
        for ((name, export), wanted) in CHECKS_OF_ORDER.into_iter().zip(wanted) {
            let call = || {
                let mut said = 77;
                let answer = unsafe { export(2, 3, slices.at(), slices.len(), order.at(), order.len(), &mut said) };
                answer + (said != wanted) as u32
            };
            assert_eq!(tried(call), Ok(0), "{name}: an answer, or the signal of a write into the slice map or the list");
        }
    }
}

/// A list's length: one short, one long and empty.
fn wrong_lengths(right: usize) -> [usize; 3] {
    [right - 1, right + 1, 0]
}

/// Every way to have one of three lists in a wrong length.
fn one_wrong(right: [usize; 3]) -> Vec<[usize; 3]> {
    (0..3)
        .flat_map(|k| {
            wrong_lengths(right[k]).map(|len| {
                let mut lengths = right;
                lengths[k] = len;
                lengths
            })
        })
        .collect()
}

#[test]
fn predictors() {
    type Predictor = unsafe extern "C" fn(u8, bool, bool, bool, *const u8, usize, *const u8, usize, u8, *mut u8, usize) -> u32;
    let exports: [(&str, Predictor, [usize; 3], u8); 4] = [
        ("intra4x4_pred", jiwarbend_intra4x4_pred, [8, 4, 16], 8),
        ("intra8x8_pred", jiwarbend_intra8x8_pred, [16, 8, 64], 8),
        ("luma16x16_pred", jiwarbend_luma16x16_pred, [16, 16, 256], 3),
        ("chroma8x8_pred", jiwarbend_chroma8x8_pred, [8, 8, 64], 3),
    ];
    for (name, export, right, last) in exports {
        let call = |mode: u8, there: bool, lengths: [usize; 3]| {
            let [top, left, out] = lengths.map(|len| ReadOnly::new(&vec![50u8; len]));
            move || unsafe { export(mode, there, there, there, top.at(), top.len(), left.at(), left.len(), 50, out.at(), out.len()) }
        };
        for lengths in one_wrong(right) {
            refused(name, 2, call(2, true, lengths));
        }
        for mode in [last + 1, 255] {
            refused(name, 6, call(mode, true, right));
        }
        // Mode 1 and the last one need a side in all four.
        for mode in [1, last] {
            refused(name, 7, call(mode, false, right));
        }
        for mode in 0..=last {
            accepted(name, call(mode, true, right));
        }
    }
}

#[test]
fn means() {
    type Mean = unsafe extern "C" fn(bool, bool, *const u8, usize, *const u8, usize, *mut u8, usize) -> u32;
    let exports: [(&str, Mean, [usize; 3]); 2] =
        [("luma16x16_dc", jiwarbend_luma16x16_dc, [16, 16, 1]), ("chroma8x8_dc", jiwarbend_chroma8x8_dc, [8, 8, 64])];
    for (name, export, right) in exports {
        let call = |lengths: [usize; 3]| {
            let [top, left, out] = lengths.map(|len| ReadOnly::new(&vec![50u8; len]));
            move || unsafe { export(true, true, top.at(), top.len(), left.at(), left.len(), out.at(), out.len()) }
        };
        for lengths in one_wrong(right) {
            refused(name, 2, call(lengths));
        }
        accepted(name, call(right));
    }
}

#[test]
fn predictions_from_a_plane() {
    type FromPlane = unsafe extern "C" fn(u8, *mut u8, usize, *const u8, usize, usize, usize) -> u32;
    let exports: [(&str, FromPlane, usize, [u8; 3]); 2] = [
        ("i16x16_luma_pred", jiwarbend_i16x16_luma_pred, 16, [2, 4, 255]),
        ("chroma8x8_plane_pred", jiwarbend_chroma8x8_plane_pred, 8, [2, 0, 4]),
    ];
    for (name, export, side, [known, unknown, far]) in exports {
        // The last sample to the left is the last one of the plane.
        let (base, stride) = (33, 32);
        let right = base + (side - 1) * stride;
        let call = |mode: u8, lent: usize, len: usize, base: usize, stride: usize| {
            let (pred, rec) = (ReadOnly::new(&vec![50u8; lent]), ReadOnly::new(&vec![50u8; len]));
            move || unsafe { export(mode, pred.at(), pred.len(), rec.at(), rec.len(), base, stride) }
        };
        let block = side * side;
        for lent in [0, block - 1] {
            refused(name, 2, call(known, lent, right, base, stride));
        }
        refused(name, 2, call(known, block, right - 1, base, stride));
        refused(name, 2, call(known, block, 0, base, stride));
        for (base, stride) in [(32, 32), (33, 0), (5000, 4097), (usize::MAX, 32), (usize::MAX, usize::MAX)] {
            refused(name, 2, call(known, block, right, base, stride));
        }
        for mode in [unknown, far] {
            refused(name, 6, call(mode, block, right, base, stride));
        }
        accepted(name, call(known, block, right, base, stride));
    }
}

#[test]
fn inverses() {
    type Inverse = unsafe extern "C" fn(*const i32, usize, *mut i32, usize) -> u32;
    let exports: [(&str, Inverse, usize); 2] = [("inverse_4x4", jiwarbend_inverse_4x4, 16), ("inverse_8x8", jiwarbend_inverse_8x8, 64)];
    for (name, export, n) in exports {
        let call = |numbers: &[i32], out: usize| {
            let (deq, out) = (ReadOnly::new(numbers), ReadOnly::new(&vec![7i32; out]));
            move || unsafe { export(deq.at(), deq.len(), out.at(), out.len()) }
        };
        for wrong in wrong_lengths(n) {
            refused(name, 2, call(&vec![1; wrong], n));
            refused(name, 2, call(&vec![1; n], wrong));
        }
        // A number out of range at each place, the last too: all before it are in range.
        for (place, v) in (0..n).flat_map(|place| [(place, 32768), (place, -32769)]) {
            let mut numbers = vec![1; n];
            numbers[place] = v;
            refused(name, 8, call(&numbers, n));
        }
        // Blocks that leave the range on the way: at the very end, everywhere, and in the rows alone.
        let mut alone = vec![0; n];
        alone[0] = 32736;
        let mut rows = vec![0; n];
        let (row, other) = if n == 16 { (4, 12) } else { (16, 48) };
        (rows[row], rows[row + 1], rows[other]) = (20_000, 18_000, -12_000);
        for numbers in [&alone, &rows, &vec![32767; n], &vec![-32768; n]] {
            refused(name, 8, call(numbers, n));
        }
        alone[0] = 32735;
        accepted(name, call(&alone, n));
        accepted(name, call(&vec![1; n], n));
    }
}

#[test]
fn sums() {
    type Sums = unsafe extern "C" fn(*const i32, usize, *const i32, usize, *mut u8, usize) -> u32;
    // Whether the first list has coefficients, whose block may leave the range on the way, or residuals.
    let exports: [(&str, Sums, usize, bool); 3] = [
        ("reconstruct_4x4", jiwarbend_reconstruct_4x4, 16, true),
        ("add_residual_4x4", jiwarbend_add_residual_4x4, 16, false),
        ("add_residual_8x8", jiwarbend_add_residual_8x8, 64, false),
    ];
    for (name, export, n, coefficients) in exports {
        let call = |first: i32, second: i32, [a, b, c]: [usize; 3]| {
            let (a, b, out) = (ReadOnly::new(&vec![first; a]), ReadOnly::new(&vec![second; b]), ReadOnly::new(&vec![7u8; c]));
            move || unsafe { export(a.at(), a.len(), b.at(), b.len(), out.at(), out.len()) }
        };
        for lengths in one_wrong([n; 3]) {
            refused(name, 2, call(1, 1, lengths));
        }
        for (first, second) in [(32768, 1), (-32769, 1), (1, 32768), (1, -32769)] {
            refused(name, 8, call(first, second, [n; 3]));
        }
        for first in [32767, -32768] {
            if coefficients {
                refused(name, 8, call(first, 1, [n; 3]));
            } else {
                accepted(name, call(first, 1, [n; 3]));
            }
        }
        accepted(name, call(1, 1, [n; 3]));
    }
}

#[test]
fn blocks_into_a_plane() {
    type Into = unsafe extern "C" fn(*const i32, usize, *const u8, usize, usize, usize, *mut u8, usize, usize, usize) -> u32;
    let exports: [(&str, Into, bool); 2] =
        [("reconstruct_4x4_into", jiwarbend_reconstruct_4x4_into, true), ("add_residual_4x4_into", jiwarbend_add_residual_4x4_into, false)];
    // Lengths, offsets and strides of the prediction and of what is written. Each square ends with its buffer.
    let right = [(19, 3, 4), (43, 9, 10)];
    let wrong = [
        [(18, 3, 4), right[1]],
        [(0, 3, 4), right[1]],
        [(19, 4, 4), right[1]],
        [(19, usize::MAX, 4), right[1]],
        [(19, 3, 4097), right[1]],
        [right[0], (42, 9, 10)],
        [right[0], (0, 9, 10)],
        [right[0], (43, 10, 10)],
        [right[0], (43, usize::MAX, 10)],
        [right[0], (43, 9, 3)],
        [right[0], (43, 9, 4097)],
    ];
    for (name, export, coefficients) in exports {
        let call = |v: i32, len: usize, [p, r]: [(usize, usize, usize); 2]| {
            let (numbers, pred, rec) = (ReadOnly::new(&vec![v; len]), ReadOnly::new(&vec![50u8; p.0]), ReadOnly::new(&vec![50u8; r.0]));
            move || unsafe { export(numbers.at(), numbers.len(), pred.at(), pred.len(), p.1, p.2, rec.at(), rec.len(), r.1, r.2) }
        };
        for squares in wrong {
            refused(name, 2, call(1, 16, squares));
        }
        for len in wrong_lengths(16) {
            refused(name, 2, call(1, len, right));
        }
        for v in [32768, -32769] {
            refused(name, 8, call(v, 16, right));
        }
        for v in [32767, -32768] {
            if coefficients {
                refused(name, 8, call(v, 16, right));
            } else {
                accepted(name, call(v, 16, right));
            }
        }
        accepted(name, call(1, 16, right));
    }
    let call = |v: i32, [p, r]: [(usize, usize, usize); 2]| {
        let (pred, rec) = (ReadOnly::new(&vec![50u8; p.0]), ReadOnly::new(&vec![50u8; r.0]));
        move || unsafe { jiwarbend_reconstruct_4x4_dc_into(v, pred.at(), pred.len(), p.1, p.2, rec.at(), rec.len(), r.1, r.2) }
    };
    let name = "reconstruct_4x4_dc_into";
    for squares in wrong {
        refused(name, 2, call(1, squares));
    }
    for v in [32768, -32769] {
        refused(name, 8, call(v, right));
    }
    accepted(name, call(1, right));
}

#[test]
fn counts_of_coefficients() {
    let call = |n: usize, out: usize| {
        let (n, out) = (ReadOnly::new(&vec![3u8; n]), ReadOnly::new(&vec![7u8; out]));
        move || unsafe { jiwarbend_nnz_raster_from_z(n.at(), n.len(), out.at(), out.len()) }
    };
    for wrong in wrong_lengths(24) {
        refused("nnz_raster_from_z", 2, call(wrong, 24));
        refused("nnz_raster_from_z", 2, call(24, wrong));
    }
    accepted("nnz_raster_from_z", call(24, 24));
}
