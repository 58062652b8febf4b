//! Turn lists for idle cores: the row counts and the turns are those of the rule, which is written here once more, row by row. What a turn lists meets no
//! refusal in any order, no turn is empty before the picture is finished, and a picture that is rebuilt turn by turn is that of raster order. It takes as many
//! turns as are counted beforehand.
mod maps;
#[allow(dead_code)]
mod memory;
mod store;

use jiwarbend::sys::{jiwarbend_count_rows, jiwarbend_turn, jiwarbend_turns};
use jiwarbend::{turns, ChromaMode, Lent, LentPlane, Luma16x16Mode, LumaMode, Picture, Progress, Record, Refusal};
use maps::{same_planes, shuffled, slice_map};
use memory::Numbers;

/// What the three calls are lent, whatever its lengths are. A test compares all of it, to see what was written and what was not.
#[derive(Clone, Debug, PartialEq, Eq)]
struct Maps {
    w: u32,
    h: u32,
    done: Vec<u8>,
    slices: Vec<u16>,
    rows: Vec<u32>,
    list: Vec<u32>,
    how_many: u32,
}

/// What stands where nothing has been written.
const BEFORE: u32 = 0xdead_beef;

impl Maps {
    fn of((w, h): (u32, u32), slices: Vec<u16>, done: Vec<u8>) -> Maps {
        let unwritten = vec![BEFORE; h as usize];
        Maps { w, h, done, slices, rows: unwritten.clone(), list: unwritten, how_many: BEFORE }
    }

    /// The same with the counts that the rule gives.
    fn counted(mut self) -> Maps {
        self.rows = self.counts_due();
        self
    }

    fn count_rows(&mut self) -> u32 {
        let (done, rows) = (&self.done, &mut self.rows);
        unsafe { jiwarbend_count_rows(self.w, self.h, done.as_ptr(), done.len(), rows.as_mut_ptr(), rows.len()) }
    }

    fn turn(&mut self) -> u32 {
        let Maps { w, h, done, slices, rows, list, how_many } = self;
        let (many, to) = (list.len(), list.as_mut_ptr());
        unsafe {
            jiwarbend_turn(*w, *h, done.as_ptr(), done.len(), slices.as_ptr(), slices.len(), rows.as_ptr(), rows.len(), to, many, how_many)
        }
    }

    /// The number of turns is written where that of a turn's macroblocks is.
    fn turns(&mut self) -> u32 {
        unsafe { jiwarbend_turns(self.w, self.h, self.slices.as_ptr(), self.slices.len(), &mut self.how_many) }
    }

    /// The column of the first undone macroblock of each row, or the width.
    fn counts_due(&self) -> Vec<u32> {
        let first_undone = |row: &[u8]| row.iter().position(|&mark| mark != 1).unwrap_or(row.len()) as u32;
        self.done.chunks(self.w as usize).map(first_undone).collect()
    }

    /// The available neighbours of a macroblock: those beside it that lie in the picture and in its slice.
    fn neighbours(&self, address: u32) -> Vec<u32> {
        let (x, y) = ((address % self.w) as i64, (address / self.w) as i64);
        let inside = |&(x, y): &(i64, i64)| (0..self.w as i64).contains(&x) && y >= 0;
        let beside = [(x - 1, y), (x, y - 1), (x + 1, y - 1), (x - 1, y - 1)].into_iter().filter(inside);
        let addresses = beside.map(|(x, y)| y as u32 * self.w + x as u32);
        addresses.filter(|&near| self.slices[near as usize] == self.slices[address as usize]).collect()
    }

    /// The addresses of the turn.
    fn turn_due(&self) -> Vec<u32> {
        let open = (0..self.h).zip(self.counts_due()).filter(|&(_, x)| x < self.w).map(|(y, x)| y * self.w + x);
        open.filter(|&address| self.neighbours(address).iter().all(|&near| self.done[near as usize] == 1)).collect()
    }

    fn is_finished(&self) -> bool {
        self.done.iter().all(|&mark| mark == 1)
    }

    /// The number of turns from nothing done until all is done, by taking them.
    fn turns_due(&self) -> u32 {
        let mut maps = Maps::of((self.w, self.h), self.slices.clone(), vec![0; self.slices.len()]);
        for taken in 0.. {
            if maps.is_finished() {
                return taken;
            }
            maps.turn_due().into_iter().for_each(|address| maps.done[address as usize] = 1);
        }
        unreachable!()
    }

    /// Counts the turns, which are as many as are due and no more than there may be. Nothing else is written, and the crate's function says the same.
    fn see_turns(&mut self) -> u32 {
        let due = self.turns_due();
        let wanted = Maps { how_many: due, ..self.clone() };
        assert_eq!(self.turns(), 0);
        assert_eq!(*self, wanted);
        assert_eq!(turns(self.w, self.h, &self.slices), Ok(due));
        assert!((self.w..=self.w + 2 * (self.h - 1)).contains(&due), "{due} turns of {} by {}", self.w, self.h);
        due
    }
}

const SIZES: [(u32, u32); 12] = [(1, 1), (1, 2), (1, 68), (2, 1), (120, 1), (2, 2), (2, 68), (3, 2), (5, 4), (8, 13), (40, 22), (120, 68)];

/// A map in which so many of a row are done from the left, and of the rest one in `strays`, if any. What is undone has any byte but 1.
fn done_map((w, h): (u32, u32), numbers: &mut Numbers) -> Vec<u8> {
    let strays = [0, 2, 3, 20][numbers.below(4) as usize];
    let (way, steps) = (numbers.below(4), 1 + numbers.below(4));
    let mut from_left = vec![0; h as usize];
    for y in 0..h as usize {
        from_left[y] = match way {
            0 => numbers.below(w + 1),
            1 => w - numbers.below(2),
            // Stairs, as turns leave them, some of them too steep.
            2 if y > 0 => from_left[y - 1].saturating_sub(numbers.below(steps + 1)),
            _ => w,
        };
    }
    let mut mark = |a: u32| match a % w < from_left[(a / w) as usize] {
        true => 1,
        false if strays > 0 && numbers.below(strays) == 0 => 1,
        false => [0, 0, 2, 255][numbers.below(4) as usize],
    };
    let mut done: Vec<u8> = (0..w * h).map(&mut mark).collect();
    // A hole behind which a row may be done.
    if numbers.below(2) == 0 {
        done[numbers.below(w * h) as usize] = [0, 2, 255][numbers.below(3) as usize];
    }
    done
}

/// Maps at random: `each` of every size, and many small ones of any size.
fn many_maps(seed: u64, each: usize) -> impl Iterator<Item = Maps> {
    let mut numbers = Numbers(seed);
    let given = SIZES.into_iter().cycle().take(each * SIZES.len()).map(Some);
    given.chain(std::iter::repeat(None).take(200 * each)).map(move |size| {
        let size = size.unwrap_or_else(|| (1 + numbers.below(9), 1 + numbers.below(7)));
        let slices = slice_map(size, &mut numbers);
        Maps::of(size, slices, done_map(size, &mut numbers))
    })
}

#[test]
fn counts_are_those_of_the_rule() {
    for mut maps in many_maps(1, 60) {
        let wanted = maps.clone().counted();
        assert_eq!(maps.count_rows(), 0);
        assert_eq!(maps, wanted);
    }
}

#[test]
fn turns_are_those_of_the_rule_and_the_rest_of_the_list_is_kept() {
    let (mut empty, mut longest, mut most) = (0, 0, 0);
    for maps in many_maps(2, 60) {
        let mut maps = maps.counted();
        let mut wanted = maps.clone();
        let turn = maps.turn_due();
        wanted.list[..turn.len()].copy_from_slice(&turn);
        wanted.how_many = turn.len() as u32;
        assert_eq!(maps.turn(), 0);
        assert_eq!(maps, wanted);
        assert_eq!(maps.how_many == 0, maps.is_finished(), "a turn is empty when the picture is finished, and only then");
        empty += turn.is_empty() as u32;
        longest = longest.max(turn.len());
        most += (maps.w > 1 && turn.len() > 1) as u32;
    }
    assert!(empty > 50 && longest == 68 && most > 3000, "{empty} finished pictures, turns of up to {longest}, and {most} of several");
}

#[test]
fn two_of_a_turn_are_in_different_rows_and_no_neighbours() {
    for maps in many_maps(3, 20) {
        let mut maps = maps.counted();
        assert_eq!(maps.turn(), 0);
        let turn = &maps.list[..maps.how_many as usize];
        // From the top down, and so no two in one row.
        assert!(turn.windows(2).all(|two| two[0] / maps.w < two[1] / maps.w));
        for &address in turn {
            assert_ne!(maps.done[address as usize], 1);
            assert!(maps.neighbours(address).iter().all(|near| !turn.contains(near)));
        }
    }
}

/// A picture of 3 by 2 in two slices, of which some is done, and to which nothing is wrong until it is bent.
fn good() -> Maps {
    Maps::of((3, 2), vec![5, 5, 5, 6, 6, 6], vec![1, 0, 1, 1, 1, 2]).counted()
}

type Bend = fn(&mut Maps);

/// The size alone is wrong: the maps and lists are of this size.
fn resized(maps: &mut Maps, w: u32, h: u32) {
    let many = (w as usize) * (h as usize);
    *maps =
        Maps { w, h, done: vec![0; many], slices: vec![0; many], rows: vec![0; h as usize], list: vec![BEFORE; h as usize], how_many: 7 };
}

const OF_SIZE: [Bend; 8] = [
    |m| resized(m, 0, 2),
    |m| resized(m, 121, 2),
    |m| resized(m, 3, 0),
    |m| resized(m, 3, 69),
    |m| resized(m, 121, 69),
    |m| m.w = u32::MAX,
    |m| m.h = u32::MAX,
    // Their product is 0 in 32 bits.
    |m| (m.w, m.h, m.done, m.slices) = (1 << 16, 1 << 16, vec![], vec![]),
];
const OF_DONE: [Bend; 3] = [|m| m.done.truncate(5), |m| m.done.push(0), |m| m.done.clear()];
const OF_SLICES: [Bend; 3] = [|m| m.slices.truncate(5), |m| m.slices.push(6), |m| m.slices.clear()];
const OF_ROWS: [Bend; 3] = [|m| m.rows.truncate(1), |m| m.rows.push(0), |m| m.rows.clear()];
const OF_LIST: [Bend; 3] = [|m| m.list.truncate(1), |m| m.list.push(9), |m| m.list.clear()];
/// The first row has 1 from the left, with a hole behind it, and the second 2.
const OF_COUNTS: [Bend; 7] = [
    |m| m.rows[0] = 0,
    |m| m.rows[0] = 2,
    |m| m.rows[0] = 3,
    |m| m.rows[1] = 1,
    |m| m.rows[1] = 3,
    |m| m.rows[1] = 4,
    |m| m.rows = vec![u32::MAX, u32::MAX],
];

/// The answer of a call over maps that some of these have bent, and whether it has left them as they were.
fn bent(call: fn(&mut Maps) -> u32, bends: &[Bend]) -> (u32, bool) {
    let mut maps = good();
    bends.iter().for_each(|bend| bend(&mut maps));
    let before = maps.clone();
    (call(&mut maps), maps == before)
}

#[test]
fn every_refusal_has_its_number_and_writes_nothing() {
    for (number, bends) in [(1, &OF_SIZE[..]), (2, &OF_DONE), (9, &OF_ROWS)] {
        for (k, &bend) in bends.iter().enumerate() {
            assert_eq!(bent(Maps::count_rows, &[bend]), (number, true), "count_rows, bent in way {k}");
        }
    }
    for (number, bends) in [(1, &OF_SIZE[..]), (2, &OF_DONE), (2, &OF_SLICES), (9, &OF_ROWS), (9, &OF_LIST), (9, &OF_COUNTS)] {
        for (k, &bend) in bends.iter().enumerate() {
            assert_eq!(bent(Maps::turn, &[bend]), (number, true), "turn, bent in way {k}");
        }
    }
    for (number, bends) in [(1, &OF_SIZE[..]), (2, &OF_SLICES)] {
        for (k, &bend) in bends.iter().enumerate() {
            assert_eq!(bent(Maps::turns, &[bend]), (number, true), "turns, bent in way {k}");
        }
    }
    // What a call does not take it does not look at.
    for &bend in OF_SLICES.iter().chain(&OF_LIST).chain(&OF_COUNTS) {
        assert_eq!(bent(Maps::count_rows, &[bend]).0, 0);
    }
    for &bend in OF_DONE.iter().chain(&OF_ROWS).chain(&OF_LIST).chain(&OF_COUNTS) {
        assert_eq!(bent(Maps::turns, &[bend]), (0, false));
    }
    assert_eq!(bent(Maps::turn, &[]), (0, false));
    // The largest size and the smallest.
    for (w, h) in [(120, 68), (1, 1), (120, 1), (1, 68)] {
        let mut maps = good();
        resized(&mut maps, w, h);
        assert_eq!((maps.count_rows(), maps.turn(), maps.how_many), (0, 0, 1));
        assert_eq!((maps.turns(), maps.how_many), (0, if w > 1 { w + 2 * (h - 1) } else { h }));
        // A slice number too few and one too many.
        for len in [w * h - 1, w * h + 1] {
            let mut other = Maps { slices: vec![0; len as usize], how_many: BEFORE, ..maps.clone() };
            assert_eq!((other.turns(), other.how_many), (2, BEFORE));
        }
    }
}

#[test]
fn the_smallest_number_is_given() {
    // The sizes that leave the maps as they were come before what else is wrong with them.
    let sizes: [Bend; 4] = [|m| m.w = 121, |m| m.w = 0, |m| m.h = 69, |m| m.h = 0];
    let (rooms, rows): (Vec<Bend>, Vec<Bend>) = ([OF_DONE, OF_SLICES].concat(), [OF_ROWS, OF_LIST].concat());
    for &of_rows in rows.iter().chain(&OF_COUNTS) {
        for &of_room in &rooms {
            assert_eq!(bent(Maps::turn, &[of_rows, of_room]), (2, true));
            for of_size in sizes {
                assert_eq!(bent(Maps::turn, &[of_rows, of_size]), (1, true));
                assert_eq!(bent(Maps::turn, &[of_rows, of_room, of_size]), (1, true));
            }
        }
    }
    for (of_rows, of_room) in OF_ROWS.into_iter().flat_map(|of_rows| OF_DONE.map(|of_room| (of_rows, of_room))) {
        assert_eq!(bent(Maps::count_rows, &[of_rows, of_room]), (2, true));
        for of_size in sizes {
            assert_eq!(bent(Maps::count_rows, &[of_rows, of_room, of_size]), (1, true));
        }
    }
    for (of_room, of_size) in OF_SLICES.into_iter().flat_map(|of_room| sizes.map(|of_size| (of_room, of_size))) {
        assert_eq!(bent(Maps::turns, &[of_room, of_size]), (1, true));
    }
}

#[test]
fn a_count_that_disagrees_is_refused_in_each_row_until_it_is_counted_anew() {
    let mut numbers = Numbers(4);
    for maps in many_maps(5, 6) {
        let maps = maps.counted();
        for y in 0..maps.h as usize {
            let right = maps.rows[y];
            // One behind is far ahead where nothing is done, and one ahead is outside the row where all is.
            for wrong in [right.wrapping_sub(1), right + 1, numbers.below(maps.w + 3), right ^ 1 << numbers.below(32)] {
                let mut off = maps.clone();
                off.rows[y] = wrong;
                let before = off.clone();
                assert_eq!(off.turn(), if wrong == right { 0 } else { 9 }, "{wrong} where {right} are done, in row {y}");
                assert!(wrong == right || off == before);
                assert_eq!((off.count_rows(), off.turn()), (0, 0));
                assert_eq!(off.rows, maps.rows);
            }
        }
    }
}

#[test]
fn lent_memory_gives_the_same() {
    let lent = |maps: &Maps, call: &dyn Fn(&Lent)| {
        let (mut done, mut progress) = (maps.done.clone(), Progress::new());
        // Neither call has anything to do with the planes.
        let planes = [(); 3].map(|()| LentPlane::new(&mut [], 0));
        call(&Lent::new((maps.w, maps.h), planes, &mut done, &maps.slices, &mut progress));
        assert_eq!((&done, progress), (&maps.done, Progress::new()));
    };
    for maps in many_maps(6, 3) {
        let mut raw = maps.clone();
        assert_eq!((raw.count_rows(), raw.turn()), (0, 0));
        lent(&maps, &|lent| {
            let (mut rows, mut list) = (maps.rows.clone(), maps.list.clone());
            assert_eq!(lent.count_rows(&mut rows), Ok(()));
            assert_eq!(lent.turn(&rows, &mut list), Ok(raw.how_many as usize));
            assert_eq!((rows, list), (raw.rows.clone(), raw.list.clone()));
        });
    }
    let maps = good();
    lent(&maps, &|lent| {
        assert_eq!(lent.count_rows(&mut [BEFORE; 3]), Err(Refusal::Rows));
        assert_eq!(lent.turn(&maps.rows, &mut [BEFORE; 1]), Err(Refusal::Rows));
        assert_eq!(lent.turn(&[1, 1], &mut [BEFORE; 2]), Err(Refusal::Rows));
    });
    lent(&Maps { slices: vec![], ..good() }, &|lent| assert_eq!(lent.turn(&maps.rows, &mut [BEFORE; 2]), Err(Refusal::Room)));
    lent(&Maps { w: 0, ..good() }, &|lent| assert_eq!(lent.count_rows(&mut [BEFORE; 2]), Err(Refusal::Size)));
}

/// A picture to be rebuilt: its maps without anything done, and a record for each macroblock that is acceptable where it stands.
struct Job {
    maps: Maps,
    records: Vec<Record>,
}

impl Job {
    fn blank(&self) -> Picture {
        Picture::with_slices(self.maps.w, self.maps.h, self.maps.slices.clone()).unwrap()
    }

    fn offer(&self, picture: &mut Picture, address: u32) -> Result<(), Refusal> {
        picture.rebuild(address % self.maps.w, address / self.maps.w, &self.records[address as usize])
    }

    fn in_raster_order(&self) -> Picture {
        let mut picture = self.blank();
        (0..self.maps.w * self.maps.h).for_each(|a| self.offer(&mut picture, a).unwrap());
        picture
    }

    /// The turn of a picture as addresses, which is the one that the rule gives for what is done in it.
    fn turn(&self, picture: &mut Picture) -> Vec<u32> {
        let (w, many) = (self.maps.w, self.maps.w * self.maps.h);
        let marks = (0..many).map(|a| picture.is_done(a % w, a / w) as u8).collect();
        let maps = Maps { done: marks, ..self.maps.clone() };
        let turn: Vec<u32> = picture.turn().into_iter().map(|(x, y)| y * w + x).collect();
        assert_eq!(turn, maps.turn_due());
        assert_eq!(picture.count_rows(), maps.counts_due());
        assert_eq!(turn.is_empty(), picture.is_finished());
        turn
    }
}

/// A record that reads all that is available, so that a macroblock that is offered too early is refused; or one that reads less.
fn record(maps: &Maps, address: u32, numbers: &mut Numbers) -> Record {
    let (w, near) = (maps.w, maps.neighbours(address));
    let above = address >= w && near.contains(&(address - w));
    let all = above && near.contains(&(address.wrapping_sub(1))) && near.contains(&(address.wrapping_sub(w + 1)));
    let mut record = match numbers.below(3) {
        0 if all => Record::of_16x16(Luma16x16Mode::Plane, ChromaMode::Plane),
        1 if all => Record::of_8x8([LumaMode::VerticalLeft; 4], ChromaMode::Plane),
        // Block 5 reads what is above and to the right.
        0 | 1 if above => Record::of_4x4([LumaMode::DiagonalDownLeft; 16], ChromaMode::Dc),
        0 => Record::of_8x8([LumaMode::Dc; 4], ChromaMode::Dc),
        1 => Record::of_4x4([LumaMode::Dc; 16], ChromaMode::Dc),
        _ => Record::of_16x16(Luma16x16Mode::Dc, ChromaMode::Dc),
    };
    for _ in 0..12 {
        record.numbers[numbers.below(384) as usize] = numbers.below(4001) as i32 - 2000;
    }
    record
}

fn job(size: (u32, u32), numbers: &mut Numbers) -> Job {
    let slices = slice_map(size, numbers);
    let maps = Maps::of(size, slices, vec![0; (size.0 * size.1) as usize]);
    let records = (0..size.0 * size.1).map(|a| record(&maps, a, numbers)).collect();
    Job { maps, records }
}

/// Pictures that an encoder coded, some of them in several slices.
fn coded() -> [Job; 3] {
    let files: [&[u8]; 3] =
        [include_bytes!("data/bars_q30_baseline.rmb1"), include_bytes!("data/noise_q24.rmb1"), include_bytes!("data/windmill_q36.rmb1")];
    files.map(|file| {
        let store::Pictured { w, h, slices, records } = store::read(file);
        let record = |(kind, modes, chroma_mode, numbers)| Record { kind, modes, chroma_mode, numbers };
        Job { maps: Maps::of((w, h), slices, vec![0; (w * h) as usize]), records: records.into_iter().map(record).collect() }
    })
}

/// Small pictures, some of one column or one row.
const SMALL: [(u32, u32); 8] = [(1, 1), (1, 9), (12, 1), (2, 2), (3, 7), (5, 4), (8, 6), (13, 9)];

#[test]
fn a_turn_leaves_the_same_in_any_order() {
    let mut numbers = Numbers(7);
    let mut jobs: Vec<Job> = coded().into();
    jobs.extend(SMALL.into_iter().cycle().take(12 * SMALL.len()).map(|size| job(size, &mut numbers)));
    let mut of_several = 0;
    for job in jobs {
        let mut picture = job.blank();
        let many = job.maps.w * job.maps.h;
        while !picture.is_finished() {
            let turn = job.turn(&mut picture);
            let [mut one, mut other] = [(); 2].map(|()| {
                let mut after = picture.clone();
                for address in shuffled(turn.clone(), &mut numbers) {
                    assert_eq!(job.offer(&mut after, address), Ok(()), "macroblock {address} of a turn of {}", turn.len());
                }
                after
            });
            assert_eq!(job.turn(&mut one), job.turn(&mut other));
            assert!(same_planes(&one, &other));
            let marks = |of: &Picture| -> Vec<bool> { (0..many).map(|a| of.is_done(a % job.maps.w, a / job.maps.w)).collect() };
            assert_eq!(marks(&one), marks(&other));
            let count = picture.progress().count() + turn.len() as u32;
            assert_eq!((one.progress().count(), other.progress().count()), (count, count));
            of_several += (turn.len() > 1) as u32;
            // The picture goes on with a part of the turn and with calls that come as they please. What is left out of the turn stands in the next one.
            let (part, left_out): (Vec<u32>, Vec<u32>) = turn.into_iter().partition(|_| numbers.below(2) == 0);
            part.iter().for_each(|&address| job.offer(&mut picture, address).unwrap());
            let next = job.turn(&mut picture);
            assert!(left_out.iter().all(|address| next.contains(address)));
            for address in (0..4).map(|_| numbers.below(many)) {
                let answer = job.offer(&mut picture, address);
                assert!(matches!(answer, Ok(()) | Err(Refusal::NotReady | Refusal::Done)), "{answer:?}");
            }
        }
    }
    assert!(of_several > 500, "{of_several} turns had several macroblocks");
}

#[test]
fn an_abandoned_macroblock_is_listed_until_it_is_done() {
    let mut numbers = Numbers(8);
    for size in SMALL.into_iter().cycle().take(10 * SMALL.len()) {
        let job = job(size, &mut numbers);
        let mut picture = job.blank();
        let abandoned = numbers.below(size.0 * size.1);
        // All others of a turn are taken, until it is alone: it holds up what waits for it, and nothing else.
        loop {
            let turn = job.turn(&mut picture);
            let others: Vec<u32> = turn.iter().copied().filter(|&a| a != abandoned).collect();
            if others.is_empty() {
                assert_eq!(turn, [abandoned]);
                break;
            }
            for &address in &others {
                assert_eq!(job.offer(&mut picture, address), Ok(()));
            }
            assert!(!turn.contains(&abandoned) || job.turn(&mut picture).contains(&abandoned));
        }
        while !picture.is_finished() {
            job.turn(&mut picture).into_iter().for_each(|address| job.offer(&mut picture, address).unwrap());
        }
        assert!(same_planes(&picture, &job.in_raster_order()));
    }
}

/// Takes whole turns, each in an order at random, until the picture is finished, and gives their number.
fn turn_by_turn(job: &Job, numbers: &mut Numbers) -> usize {
    let (mut picture, mut turns) = (job.blank(), 0);
    while !picture.is_finished() {
        let turn = job.turn(&mut picture);
        assert!(!turn.is_empty());
        for address in shuffled(turn, numbers) {
            assert_eq!(job.offer(&mut picture, address), Ok(()));
        }
        turns += 1;
    }
    assert_eq!(job.turn(&mut picture), []);
    assert!(same_planes(&picture, &job.in_raster_order()));
    // What is done has no say in how many turns there are.
    assert_eq!((job.blank().turns(), picture.turns()), (turns as u32, turns as u32));
    turns
}

#[test]
fn turn_by_turn_every_picture_is_finished_as_in_raster_order() {
    let mut numbers = Numbers(9);
    for job in coded() {
        turn_by_turn(&job, &mut numbers);
    }
    for size in SIZES.into_iter().chain(SMALL.into_iter().cycle().take(20 * SMALL.len())) {
        let job = job(size, &mut numbers);
        turn_by_turn(&job, &mut numbers);
    }
}

#[test]
fn a_row_starts_two_turns_after_the_one_above_it() {
    let mut numbers = Numbers(10);
    for (w, h) in [(2, 2), (3, 2), (2, 9), (9, 3), (16, 11)] {
        let many = (w * h) as usize;
        let of = |slices: Vec<u16>, numbers: &mut Numbers| {
            let maps = Maps::of((w, h), slices, vec![0; many]);
            let records = (0..w * h).map(|a| record(&maps, a, numbers)).collect();
            turn_by_turn(&Job { maps, records }, numbers) as u32
        };
        assert_eq!(of(vec![3; many], &mut numbers), w + 2 * (h - 1));
        // Rows that are slices wait for none, and neither do macroblocks that are.
        assert_eq!(of((0..w * h).map(|a| (a / w) as u16).collect(), &mut numbers), w);
        assert_eq!(of((0..w * h).map(|a| a as u16).collect(), &mut numbers), w);
    }
}

#[test]
fn three_by_two_take_five_turns() {
    let mut maps = Maps::of((3, 2), vec![0; 6], vec![0; 6]);
    let mut turns = Vec::new();
    while !maps.is_finished() {
        assert_eq!((maps.count_rows(), maps.turn()), (0, 0));
        turns.push(maps.list[..maps.how_many as usize].to_vec());
        turns[turns.len() - 1].iter().for_each(|&address| maps.done[address as usize] = 1);
    }
    assert_eq!(turns, [vec![0], vec![1], vec![2, 3], vec![4], vec![5]]);
    assert_eq!((maps.count_rows(), maps.turn(), maps.how_many), (0, 0, 0));
    assert_eq!(maps.rows, [3, 3]);
}

#[test]
fn a_start_brings_the_first_turn_back() {
    let mut numbers = Numbers(11);
    for size in SMALL {
        let job = job(size, &mut numbers);
        let mut picture = job.in_raster_order();
        assert_eq!((job.turn(&mut picture), picture.count_rows()), (vec![], &vec![size.0; size.1 as usize][..]));
        picture.start();
        assert_eq!(job.turn(&mut picture), job.turn(&mut job.blank()));
        assert_eq!(picture.count_rows(), vec![0; size.1 as usize]);
    }
}

#[test]
fn as_many_turns_are_counted_as_the_rule_takes() {
    let mut numbers = Numbers(12);
    for mut maps in many_maps(13, 20) {
        maps.see_turns();
    }
    for _ in 0..200 {
        let size = (1 + numbers.below(120), 1 + numbers.below(68));
        Maps::of(size, slice_map(size, &mut numbers), vec![]).see_turns();
    }
}

#[test]
fn every_small_slice_map_is_counted_right() {
    // All maps of up to three slices, wherever their macroblocks lie.
    for (w, h) in [(1, 4), (2, 2), (2, 3), (2, 4), (3, 2), (3, 3), (4, 2), (8, 1)] {
        let many = w * h;
        for map in 0..3u32.pow(many) {
            let slices = (0..many).map(|a| (map / 3u32.pow(a) % 3) as u16).collect();
            Maps::of((w, h), slices, vec![]).see_turns();
        }
    }
}

#[test]
fn one_slice_takes_two_turns_more_for_each_row() {
    let slices = vec![7; 120 * 68];
    for (w, h) in (1..=120).flat_map(|w| (1..=68).map(move |h| (w, h))) {
        // Of one column none has a neighbour above and to the right.
        let due = if w > 1 { w + 2 * (h - 1) } else { h };
        assert_eq!(turns(w, h, &slices[..(w * h) as usize]), Ok(due), "{w} by {h}");
    }
}

#[test]
fn slices_that_are_rows_or_columns_take_fewer_turns() {
    let mut numbers = Numbers(14);
    for size in SIZES {
        let (w, h) = size;
        let of = |slice: &dyn Fn(u32, u32) -> u32| {
            let slices = (0..w * h).map(|a| slice(a % w, a / w) as u16).collect();
            Maps::of(size, slices, vec![]).see_turns()
        };
        let whole = of(&|_, _| 0);
        assert_eq!(of(&|_, y| y), w);
        assert_eq!(of(&|x, y| y * w + x), w);
        // Of a column each waits for the one above it alone.
        assert_eq!(of(&|x, _| x), w + h - 1);
        // A checkerboard's macroblocks have the two corners in their slice, and so it takes as many turns as one slice; of one column, none waits.
        assert_eq!(of(&|x, y| (x + y) % 2), if w > 1 { whole } else { 1 });
        // The last row is another slice, which is done before the others.
        let rest = h.saturating_sub(2);
        assert_eq!(of(&|_, y| (y + 1 == h) as u32), if w > 1 { w + 2 * rest } else { 1 + rest });
        // Where slices have several rows, the one with the most takes longest.
        let rows = 1 + numbers.below(h);
        assert_eq!(of(&|_, y| y / rows), if w > 1 { w + 2 * (rows - 1) } else { rows });
    }
}

#[test]
fn a_call_for_the_number_of_turns_is_refused_for_size_and_slices() {
    assert_eq!(turns(3, 2, &[0; 6]), Ok(5));
    for (w, h) in [(0, 2), (121, 2), (3, 0), (3, 69), (u32::MAX, u32::MAX), (1 << 16, 1 << 16)] {
        assert_eq!(turns(w, h, &[0; 6]), Err(Refusal::Size), "{w} by {h}");
        assert_eq!(turns(w, h, &[]), Err(Refusal::Size), "{w} by {h}");
    }
    for slices in [&[0; 5][..], &[0; 7], &[]] {
        assert_eq!(turns(3, 2, slices), Err(Refusal::Room), "{} slice numbers", slices.len());
    }
}
