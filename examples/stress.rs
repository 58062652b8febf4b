//! Several workers over shared pictures that do all that several workers may do: compute and forget, commit late, twice, after a restart or to the wrong
//! picture, offer garbage, call whole, start anew.
//!
//! `cargo run --release --example stress [SECONDS [WORKERS]]` foresees the answer of every commit, compares the counts with the marks, and every finished
//! picture with its raster order. It ends with an error if one differs, or if an unfinished picture has an empty turn. `make stress` runs it for a minute.
use jiwarbend::block::{permitted_16x16, permitted_4x4, permitted_8x8, permitted_chroma, Marks};
use jiwarbend::{Computed, NotCommitted, Picture, Record, Refusal, Shared};
use std::sync::atomic::{AtomicU64, Ordering};
use std::sync::Mutex;
use std::time::{Duration, Instant};

const SIZES: [(u32, u32); 6] = [(11, 9), (2, 2), (1, 12), (16, 2), (22, 18), (40, 3)];
const PICTURES: usize = 12;

/// Numbers at random, the same for the same seed.
struct Random(u64);

impl Random {
    fn below(&mut self, n: u32) -> u32 {
        self.0 = self.0.wrapping_mul(6364136223846793005);
        self.0 = self.0.wrapping_add(1442695040888963407);
        (self.0 >> 33) as u32 % n
    }

    fn mode(&mut self, permitted: u16) -> u8 {
        let nth = self.below(permitted.count_ones());
        let mut modes = (0..9).filter(|mode| permitted >> mode & 1 == 1);
        modes.nth(nth as usize).expect("as many modes as bits")
    }
}

/// A place where one picture comes after the other, all of its size and its slices.
struct Wall {
    w: u32,
    h: u32,
    slices: Vec<u16>,
    picture: Shared,
    /// How often it was started: the number of the picture that is under way. It is changed under the lock alone, and then the picture is started.
    number: AtomicU64,
}

impl Wall {
    fn new(k: usize) -> Wall {
        let (w, h) = SIZES[k % SIZES.len()];
        let slice = |a: u32| match k / 2 % 3 {
            0 => 0,
            1 => a / (w * h / 3 + 1),
            _ => a * 7 / 3 % 2,
        };
        let slices: Vec<u16> = (0..w * h).map(|a| slice(a) as u16).collect();
        let blank = Picture::with_slices(w, h, slices.clone()).expect("a size that is taken");
        Wall {
            w,
            h,
            slices,
            picture: Shared::new(blank),
            number: AtomicU64::new(0),
        }
    }

    fn number(&self) -> u64 {
        self.number.load(Ordering::Relaxed)
    }

    /// The record of a macroblock of one of its pictures: any kind, and modes that are permitted where they stand.
    fn record(&self, number: u64, x: u32, y: u32) -> Record {
        let mut random = Random(number << 32 | u64::from(y << 16 | x));
        random.below(1);
        let slice = |x: u32, y: u32| self.slices[(y * self.w + x) as usize];
        let beside = |left, up| x >= left && y >= up && slice(x - left, y - up) == slice(x, y);
        let (above, left, corner) = (beside(0, 1), beside(1, 0), beside(1, 1));
        // The sides of the block in a column and a row of the macroblock.
        let sides = |column: u32, row: u32| Marks {
            above: row > 0 || above,
            left: column > 0 || left,
            corner: [[corner, above], [left, true]][(row > 0) as usize][(column > 0) as usize],
        };
        let mut record = Record {
            kind: random.below(3) as u8,
            ..Record::default()
        };
        for k in 0..[16, 4, 1][record.kind as usize] {
            let (column, row) = (k & 1 | k >> 1 & 2, k >> 1 & 1 | k >> 2 & 2);
            record.modes[k as usize] = random.mode(match record.kind {
                0 => permitted_4x4(sides(column, row)),
                1 => permitted_8x8(sides(column, row)),
                _ => permitted_16x16(sides(0, 0)),
            });
        }
        record.chroma_mode = random.mode(permitted_chroma(sides(0, 0)));
        for _ in 0..random.below(40) {
            record.numbers[random.below(384) as usize] = random.below(1601) as i32 - 800;
        }
        record
    }

    /// Whether a finished picture has the bytes that raster order gives.
    fn is_right(&self, number: u64, picture: &Picture) -> bool {
        let mut raster = Picture::with_slices(self.w, self.h, self.slices.clone()).unwrap();
        for (x, y) in (0..self.h).flat_map(|y| (0..self.w).map(move |x| (x, y))) {
            let record = self.record(number, x, y);
            raster.rebuild(x, y, &record).expect("a good record");
        }
        raster.luma() == picture.luma()
            && raster.cb() == picture.cb()
            && raster.cr() == picture.cr()
    }
}

/// Whether the count of a picture is that of its marks.
fn counts(picture: &Picture) -> bool {
    let done = |a: &u32| picture.is_done(a % picture.w(), a / picture.w());
    let many = (0..picture.w() * picture.h()).filter(done).count();
    many as u32 == picture.progress().count()
}

/// What a worker has to tell at the end.
#[derive(Default)]
pub struct Told {
    pub computed: u64,
    pub committed: u64,
    /// Committed after other calls for the picture.
    pub late: u64,
    pub whole: u64,
    pub abandoned: u64,
    /// Commits that were refused: the macroblock was done, or the result was foreign.
    pub done: u64,
    pub foreign: u64,
    pub garbage: u64,
    pub restarted: u64,
    pub finished: u64,
    /// Pictures that differ from their raster order, and counts that differ from the marks.
    pub differing: u64,
    pub miscounted: u64,
    /// Answers that were foreseen otherwise, and empty turns of unfinished pictures.
    pub unforeseen: u64,
    pub empty_turns: u64,
}

impl Told {
    pub fn is_good(&self) -> bool {
        self.differing + self.miscounted + self.unforeseen + self.empty_turns == 0
    }
}

struct Worker<'a> {
    walls: &'a [Wall],
    random: Random,
    /// Results that are kept for later: the wall, the number of the picture, and the result.
    kept: Vec<(usize, u64, Computed)>,
    told: Told,
}

impl Worker<'_> {
    fn pick(&mut self, n: usize) -> usize {
        self.random.below(n as u32) as usize
    }

    /// Looks at a picture after a call that changed it. A finished one is compared, and the next one is started.
    fn changed(&mut self, wall: &Wall, mut picture: impl std::ops::DerefMut<Target = Picture>) {
        self.told.miscounted += !counts(&picture) as u64;
        if picture.is_finished() {
            let (finished, number) = (picture.clone(), wall.number());
            wall.number.fetch_add(1, Ordering::Relaxed);
            picture.start();
            drop(picture);
            self.told.finished += 1;
            self.told.differing += !wall.is_right(number, &finished) as u64;
        }
    }

    /// Commits a result, whose answer is foreseen.
    fn commit(&mut self, at: usize, number: u64, one: &Computed) {
        let wall = &self.walls[at];
        let mut picture = wall.picture.write();
        let due = if wall.number() != number {
            Err(NotCommitted::Foreign)
        } else if picture.is_done(one.x(), one.y()) {
            Err(NotCommitted::Done)
        } else {
            Ok(())
        };
        let answer = picture.commit(one);
        self.told.unforeseen += (answer != due) as u64;
        match answer {
            Ok(()) => self.told.committed += 1,
            Err(NotCommitted::Done) => self.told.done += 1,
            Err(NotCommitted::Foreign) => self.told.foreign += 1,
        }
        self.changed(wall, picture);
    }

    /// Offers what breaks a rule, to both calls that take a record. Nothing comes of it.
    fn offer_garbage(&mut self, wall: &Wall, x: u32, y: u32, mut record: Record) {
        let (mut modes, mut numbers) = (16, 384);
        match self.random.below(6) {
            0 => record.kind = 3,
            1 => record.chroma_mode = 4,
            2 => record.modes[15] = 9,
            3 => record.numbers[383] = 32768,
            4 => modes = 15,
            _ => numbers = 0,
        }
        let (kind, chroma_mode) = (record.kind, record.chroma_mode);
        let (modes, numbers) = (&record.modes[..modes], &record.numbers[..numbers]);
        let from =
            |picture: &Picture| picture.compute_from(x, y, kind, modes, chroma_mode, numbers);
        let read = from(&wall.picture.read());
        let mut picture = wall.picture.write();
        let (before, due) = (picture.progress(), from(&picture).map(drop));
        let answer = picture.rebuild_from(x, y, kind, modes, chroma_mode, numbers);
        let refused = read.is_err() && answer.is_err() && answer == due;
        self.told.unforeseen += (!refused || picture.progress() != before) as u64;
        self.told.garbage += 1;
    }

    /// Draws a macroblock and makes its record. What becomes of it then is left to chance.
    fn work(&mut self) {
        let at = self.pick(PICTURES);
        let wall = &self.walls[at];
        let (number, turn) = {
            let picture = wall.picture.read();
            (wall.number(), picture.turn())
        };
        self.told.empty_turns += turn.is_empty() as u64;
        // Now and then one that as a rule is far from ready.
        let (x, y) = match self.random.below(20) {
            0 => (self.random.below(wall.w), self.random.below(wall.h)),
            _ if turn.is_empty() => return,
            _ => turn[self.pick(turn.len())],
        };
        let record = wall.record(number, x, y);
        let chance = self.random.below(2000);
        match chance {
            0 => {
                let mut picture = wall.picture.write();
                wall.number.fetch_add(1, Ordering::Relaxed);
                picture.start();
                self.told.restarted += 1;
                return;
            }
            1..=99 => return self.offer_garbage(wall, x, y, record),
            100..=399 => {
                let mut picture = wall.picture.write();
                if wall.number() == number {
                    let done = picture.is_done(x, y);
                    let answer = picture.rebuild(x, y, &record);
                    let listed = turn.contains(&(x, y));
                    self.told.unforeseen += match answer {
                        Ok(()) => done,
                        Err(Refusal::Done) => !done,
                        Err(refusal) => refusal != Refusal::NotReady || listed,
                    } as u64;
                    self.told.whole += answer.is_ok() as u64;
                    self.changed(wall, picture);
                }
                return;
            }
            // A result from before, which others have overtaken by now.
            400..=699 if !self.kept.is_empty() => {
                let k = self.pick(self.kept.len());
                let (at, number, one) = self.kept.swap_remove(k);
                self.told.late += 1;
                return self.commit(at, number, &one);
            }
            _ => {}
        }
        let answer = {
            let picture = wall.picture.read();
            if wall.number() != number {
                return;
            }
            let (done, listed) = (picture.is_done(x, y), turn.contains(&(x, y)));
            let answer = picture.compute(x, y, &record);
            self.told.unforeseen += match answer {
                Ok(_) => done,
                Err(Refusal::Done) => !done,
                Err(refusal) => refusal != Refusal::NotReady || listed,
            } as u64;
            answer
        };
        let one = match answer {
            Ok(one) => one,
            Err(_) => return,
        };
        self.told.computed += 1;
        match chance {
            700..=899 => self.told.abandoned += 1,
            900..=1099 => self.kept.push((at, number, one)),
            1100..=1199 => (0..2).for_each(|_| self.commit(at, number, &one)),
            // To another picture.
            1200..=1219 => self.commit((at + 1) % PICTURES, u64::MAX, &one),
            _ => self.commit(at, number, &one),
        }
    }
}

/// Runs for a time, and gives what each worker has to tell.
pub fn run(time: Duration, workers: u64) -> Vec<Told> {
    let walls: Vec<Wall> = (0..PICTURES).map(Wall::new).collect();
    let (end, all) = (Instant::now() + time, Mutex::new(Vec::new()));
    std::thread::scope(|scope| {
        for seed in 0..workers {
            let (walls, all) = (&walls, &all);
            scope.spawn(move || {
                let mut worker = Worker {
                    walls,
                    random: Random(seed),
                    kept: Vec::new(),
                    told: Told::default(),
                };
                while Instant::now() < end {
                    worker.work();
                }
                all.lock().unwrap().push(worker.told);
            });
        }
    });
    all.into_inner().unwrap()
}

fn main() -> Result<(), &'static str> {
    let words = std::env::args().skip(1);
    let mut numbers = words.map(|word| word.parse().expect("a number"));
    let (seconds, workers) = (numbers.next().unwrap_or(60), numbers.next().unwrap_or(4));
    let told = run(Duration::from_secs(seconds), workers);
    println!("worker   computed  committed       late      whole  abandoned  done before    foreign    garbage");
    for (k, one) in told.iter().enumerate() {
        println!(
            "{:6} {:10} {:10} {:10} {:10} {:10}   {:10} {:10} {:10}",
            k + 1,
            one.computed,
            one.committed,
            one.late,
            one.whole,
            one.abandoned,
            one.done,
            one.foreign,
            one.garbage
        );
    }
    let all = |of: fn(&Told) -> u64| told.iter().map(of).sum::<u64>();
    println!(
        "{PICTURES} pictures at a time in {seconds} seconds: {} restarted, {} finished and compared with raster order, {} differing",
        all(|t| t.restarted),
        all(|t| t.finished),
        all(|t| t.differing)
    );
    println!(
        "{} counts that differ from the marks, {} answers that were not foreseen, {} empty turns before the end",
        all(|t| t.miscounted),
        all(|t| t.unforeseen),
        all(|t| t.empty_turns)
    );
    let good = told.iter().all(Told::is_good);
    good.then_some(())
        .ok_or("a picture, a count or an answer differs, or a turn was empty")
}
