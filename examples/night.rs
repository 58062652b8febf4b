//! A night shift: idle workers draw macroblocks from the turn lists of forty lobbies, and misbehave on purpose.
//!
//! Once a row counter was taken back twice for one abandoned macroblock. The row was never called ready again, a core sat empty for four hours, and the
//! quick repair, rows that started without asking, smeared forty lobbies. Here no worker claims what it takes, and so nothing has to be taken back: a
//! macroblock is listed until it is done. Workers compute side by side in one picture, as readers of its lock, and commit alone. Records are made outside
//! the lock, so that two workers may compute the same macroblock, and the second is refused.
//!
//! `cargo run --release --example night [SECONDS [WORKERS]]` ends with an error if a picture differs from its raster order, if a worker stood still
//! while a picture had a turn, if an unfinished picture had none, or if what a turn lists was refused. `make examples` runs it for some seconds.
use jiwarbend::{
    ChromaMode, Computed, Luma16x16Mode, LumaMode, NotCommitted, Picture, Record, Refusal,
};
use std::sync::{Mutex, RwLock, RwLockWriteGuard};
use std::time::{Duration, Instant};

const LOBBIES: usize = 40;
const SIZES: [(u32, u32); 5] = [(11, 9), (22, 18), (1, 12), (16, 2), (40, 22)];

/// Numbers at random, the same for the same seed.
struct Random(u64);

impl Random {
    fn below(&mut self, n: u32) -> u32 {
        self.0 = self.0.wrapping_mul(6364136223846793005);
        self.0 = self.0.wrapping_add(1442695040888963407);
        (self.0 >> 33) as u32 % n
    }
}

/// A lobby shows one picture after the other, all of its size and its slices.
struct Lobby {
    w: u32,
    h: u32,
    slices: Vec<u16>,
    /// The number of the picture that is under way, and the picture. It is never a finished one, and so there is always a turn.
    under_way: RwLock<(u64, Picture)>,
}

impl Lobby {
    fn new(k: usize) -> Lobby {
        let (w, h) = SIZES[k % SIZES.len()];
        // One slice, slices of rows, of runs, and two that lie scattered.
        let slice = |a: u32| match k / SIZES.len() % 4 {
            0 => 0,
            1 => a / w,
            2 => a / (w * h / 3 + 1),
            _ => a * 7 / 3 % 2,
        };
        let slices: Vec<u16> = (0..w * h).map(|a| slice(a) as u16).collect();
        let blank = Picture::with_slices(w, h, slices.clone()).expect("a lobby's size");
        let under_way = RwLock::new((0, blank));
        Lobby {
            w,
            h,
            slices,
            under_way,
        }
    }

    /// Whether the macroblocks above, to the left and in the corner are there and in the slice.
    fn sides(&self, x: u32, y: u32) -> [bool; 3] {
        let slice = |x: u32, y: u32| self.slices[(y * self.w + x) as usize];
        let beside = |left, up| x >= left && y >= up && slice(x - left, y - up) == slice(x, y);
        [beside(0, 1), beside(1, 0), beside(1, 1)]
    }

    /// The record of a macroblock of one of its pictures. A real service has it from its parser.
    fn record(&self, number: u64, x: u32, y: u32) -> Record {
        let mut random = Random(number << 32 | u64::from(y << 16 | x));
        let [above, left, corner] = self.sides(x, y);
        let mut record = match random.below(4) {
            0 if above && left && corner => {
                Record::of_16x16(Luma16x16Mode::Plane, ChromaMode::Plane)
            }
            // One of the sixteen blocks reads what is above and to the right.
            1 if above => Record::of_4x4([LumaMode::DiagonalDownLeft; 16], ChromaMode::Vertical),
            2 if left => Record::of_8x8([LumaMode::HorizontalUp; 4], ChromaMode::Horizontal),
            _ => Record::of_16x16(Luma16x16Mode::Dc, ChromaMode::Dc),
        };
        for block in 0..24 {
            record.numbers[16 * block] = random.below(2049) as i32 - 1024;
        }
        record
    }

    /// Whether a finished picture has the bytes that raster order gives.
    fn is_right(&self, number: u64, picture: &Picture) -> bool {
        let mut raster = Picture::with_slices(self.w, self.h, self.slices.clone()).unwrap();
        for (x, y) in (0..self.h).flat_map(|y| (0..self.w).map(move |x| (x, y))) {
            let record = self.record(number, x, y);
            raster.rebuild(x, y, &record).expect("a good record");
        }
        let planes = |p: &Picture| [p.luma().clone(), p.cb().clone(), p.cr().clone()];
        planes(&raster) == planes(picture)
    }
}

/// What a worker has to tell in the morning.
#[derive(Default)]
pub struct Told {
    pub done: u64,
    pub abandoned: u64,
    pub restarted: u64,
    /// What was computed before a restart and came after it.
    pub foreign: u64,
    pub finished: u64,
    pub compared: u64,
    pub differing: u64,
    /// How often an unfinished picture had an empty turn.
    pub empty_turns: u64,
    /// How long it looked through all lobbies and found no work, though each has a picture under way.
    pub stood_still: Duration,
    /// How often each refusal was met, by number.
    pub refused: [u64; 10],
}

impl Told {
    pub fn is_good(&self) -> bool {
        self.differing == 0 && self.empty_turns == 0 && self.stood_still.is_zero()
    }
}

/// A macroblock that a worker has drawn: its lobby, the number of the picture, and its place.
type Drawn<'a> = (&'a Lobby, u64, u32, u32);

struct Worker<'a> {
    lobbies: &'a [Lobby],
    random: Random,
    told: Told,
}

impl<'a> Worker<'a> {
    /// Looks through the lobbies from any one on, past those that another worker is changing, and picks a macroblock of the first turn.
    fn draw(&mut self) -> Option<Drawn<'a>> {
        let first = self.random.below(LOBBIES as u32) as usize;
        for k in 0..LOBBIES {
            let lobby = &self.lobbies[(first + k) % LOBBIES];
            if let Ok(under_way) = lobby.under_way.try_read() {
                let turn = under_way.1.turn();
                if !turn.is_empty() {
                    let (x, y) = turn[self.random.below(turn.len() as u32) as usize];
                    return Some((lobby, under_way.0, x, y));
                }
                self.told.empty_turns += 1;
            }
        }
        None
    }

    /// The picture that was drawn from, to be changed, unless the next one is under way.
    fn write(&self, drawn: Drawn<'a>) -> Option<RwLockWriteGuard<'a, (u64, Picture)>> {
        let under_way = drawn.0.under_way.write().unwrap();
        (under_way.0 == drawn.1).then_some(under_way)
    }

    /// Starts the next picture of a lobby where the one under way is finished, and compares that one.
    fn go_on(&mut self, lobby: &Lobby, mut under_way: RwLockWriteGuard<(u64, Picture)>) {
        if under_way.1.is_finished() {
            let (number, finished) = (under_way.0, under_way.1.clone());
            under_way.0 += 1;
            under_way.1.start();
            drop(under_way);
            self.told.finished += 1;
            self.told.differing += !lobby.is_right(number, &finished) as u64;
            self.told.compared += 1;
        }
    }

    fn refused(&mut self, refusal: Refusal) {
        self.told.refused[refusal.number() as usize] += 1;
    }

    /// Makes a whole call for the picture that was drawn from, alone.
    fn call(&mut self, drawn: Drawn<'a>, call: impl FnOnce(&mut Picture) -> Result<(), Refusal>) {
        if let Some(mut under_way) = self.write(drawn) {
            match call(&mut under_way.1) {
                Ok(()) => self.told.done += 1,
                Err(refusal) => self.refused(refusal),
            }
            self.go_on(drawn.0, under_way);
        }
    }

    /// Computes a macroblock for the picture that was drawn from, beside other workers. As long as it is listed it is not refused.
    fn compute(&mut self, (lobby, number, x, y): Drawn<'a>, record: &Record) -> Option<Computed> {
        let under_way = lobby.under_way.read().unwrap();
        if under_way.0 != number {
            return None;
        }
        let listed = under_way.1.turn().contains(&(x, y));
        let answer = under_way.1.compute(x, y, record);
        assert!(answer.is_ok() || !listed, "{answer:?} of a turn");
        answer.map_err(|refusal| self.refused(refusal)).ok()
    }

    /// Commits what was computed, alone. As long as it is listed it is refused only if the picture was started anew since then.
    fn commit(&mut self, drawn: Drawn<'a>, computed: &Computed) {
        if let Some(mut under_way) = self.write(drawn) {
            let listed = under_way.1.turn().contains(&(drawn.2, drawn.3));
            match under_way.1.commit(computed) {
                Ok(()) => self.told.done += 1,
                Err(NotCommitted::Foreign) => self.told.foreign += 1,
                Err(NotCommitted::Done) => {
                    assert!(!listed, "a macroblock of a turn is not done");
                    self.refused(Refusal::Done);
                }
            }
            self.go_on(drawn.0, under_way);
        }
    }

    /// Offers what breaks a rule, and so changes nothing.
    fn offer_garbage(&mut self, drawn: Drawn<'a>, mut record: Record) {
        let (lobby, _, mut x, mut y) = drawn;
        let (mut modes, mut numbers) = (16, 384);
        match self.random.below(8) {
            0 => record.modes[0] = 9,
            1 => record.kind = 3,
            2 => record.numbers[383] = 32768,
            3 => modes = 15,
            4 => numbers = 0,
            5 => x = lobby.w,
            6 => y = u32::MAX,
            // Unknown, or not permitted where a side is missing.
            _ => record.chroma_mode = if lobby.sides(x, y) == [true; 3] { 4 } else { 3 },
        }
        let (kind, chroma_mode) = (record.kind, record.chroma_mode);
        let (modes, numbers) = (&record.modes[..modes], &record.numbers[..numbers]);
        self.call(drawn, |picture| {
            let answer = picture.rebuild_from(x, y, kind, modes, chroma_mode, numbers);
            assert!(answer.is_err(), "garbage is refused");
            answer
        });
    }

    /// Draws a macroblock and makes its record. What becomes of it then is left to chance.
    fn work(&mut self) {
        let looking = Instant::now();
        let drawn = match self.draw() {
            Some(drawn) => drawn,
            None => return self.told.stood_still += looking.elapsed(),
        };
        let (lobby, number, x, y) = drawn;
        let record = lobby.record(number, x, y);
        match self.random.below(5000) {
            0 => {
                lobby.under_way.write().unwrap().1.start();
                self.told.restarted += 1;
            }
            1..=499 => self.told.abandoned += 1,
            500..=749 => self.offer_garbage(drawn, record),
            750..=999 => {
                // The last macroblock of the picture, which as a rule is far from ready.
                let (x, y) = (lobby.w - 1, lobby.h - 1);
                let record = lobby.record(number, x, y);
                self.call(drawn, |picture| picture.rebuild(x, y, &record));
            }
            chance => {
                // As a rule it is committed once, and now and then twice.
                if let Some(computed) = self.compute(drawn, &record) {
                    (0..1 + (chance < 1250) as u32).for_each(|_| self.commit(drawn, &computed));
                }
            }
        }
    }
}

/// Runs the lobbies for a time, and gives what each worker has to tell.
pub fn run(time: Duration, workers: u64) -> Vec<Told> {
    // A worker is in one lobby at most, so that others are free.
    assert!(workers < LOBBIES as u64, "fewer workers than lobbies");
    let lobbies: Vec<Lobby> = (0..LOBBIES).map(Lobby::new).collect();
    let (end, all) = (Instant::now() + time, Mutex::new(Vec::new()));
    std::thread::scope(|scope| {
        for seed in 0..workers {
            let (lobbies, all, random, told) = (&lobbies, &all, Random(seed), Told::default());
            scope.spawn(move || {
                let mut worker = Worker {
                    lobbies,
                    random,
                    told,
                };
                while Instant::now() < end {
                    worker.work();
                }
                all.lock().unwrap().push(worker.told);
            });
        }
    });
    all.into_inner().unwrap()
}

fn main() -> Result<(), &'static str> {
    let words = std::env::args().skip(1);
    let mut numbers = words.map(|word| word.parse().expect("a number"));
    let (seconds, workers) = (numbers.next().unwrap_or(60), numbers.next().unwrap_or(4));
    let told = run(Duration::from_secs(seconds), workers);
    println!("worker  macroblocks  abandoned  pictures  without work  refused with 1, 2, .., 9");
    for (k, one) in told.iter().enumerate() {
        // How long it had no work while there was a turn.
        let without = format!("{:?}", one.stood_still);
        let refused: Vec<String> = one.refused[1..].iter().map(u64::to_string).collect();
        println!(
            "{:6}  {:11}  {:9}  {:8}  {without:>12}  {}",
            k + 1,
            one.done,
            one.abandoned,
            one.finished,
            refused.join(" ")
        );
    }
    let all = |of: fn(&Told) -> u64| told.iter().map(of).sum::<u64>();
    println!(
        "{LOBBIES} lobbies in {seconds} seconds: {} macroblocks, {} abandoned, {} pictures restarted, {} results from before, {} empty turns before the end",
        all(|t| t.done), all(|t| t.abandoned), all(|t| t.restarted), all(|t| t.foreign), all(|t| t.empty_turns)
    );
    println!(
        "{} pictures finished, {} compared with raster order, {} differing",
        all(|t| t.finished),
        all(|t| t.compared),
        all(|t| t.differing)
    );
    let good = told.iter().all(Told::is_good);
    good.then_some(())
        .ok_or("a picture differs, a worker stood still, or a turn was empty")
}
