//! Several workers rebuild many pictures side by side.
//!
//! The rule is: one call at a time for a picture, different pictures side by side. Here a picture belongs to the one worker that rebuilds it,
//! and nothing is shared but the counter of the jobs. `make examples` runs it.
use jiwarbend::{ChromaMode, Luma16x16Mode, Picture, Record, Refusal};
use std::collections::VecDeque;
use std::sync::atomic::{AtomicUsize, Ordering};
use std::sync::Mutex;

const W: u32 = 20;
const H: u32 = 12;
const PICTURES: usize = 24;
const WORKERS: usize = 4;

/// A macroblock as a parser hands it over: its column, its row and its record.
type Arrival = (u32, u32, Record);

/// The macroblocks of a picture in raster order. A real service has them from its parser.
fn macroblocks(picture: usize) -> Vec<Arrival> {
    let one = |address: u32| {
        let (x, y) = (address % W, address / W);
        // Plane prediction needs all three sides, DC nothing.
        let inside = x > 0 && y > 0 && (x + y) % 3 == 0;
        let mode = if inside {
            Luma16x16Mode::Plane
        } else {
            Luma16x16Mode::Dc
        };
        let mut record = Record::of_16x16(
            mode,
            if y > 0 {
                ChromaMode::Vertical
            } else {
                ChromaMode::Dc
            },
        );
        for block in 0..24 {
            // The first coefficient of a block moves its sixteen samples by a sixty-fourth of it.
            record.numbers[16 * block] =
                ((address as usize * 7 + picture * 13 + block * 5) % 33) as i32 * 64 - 1024;
        }
        (x, y, record)
    };
    (0..W * H).map(one).collect()
}

/// Rebuilds a picture from its macroblocks in the order in which they come. One that is not ready waits at the end of the queue.
fn rebuild(arrivals: Vec<Arrival>) -> Result<Picture, Refusal> {
    let mut picture = Picture::new(W, H)?;
    let mut queue = VecDeque::from(arrivals);
    let mut refused = 0;
    while let Some((x, y, record)) = queue.pop_front() {
        match picture.rebuild(x, y, &record) {
            Ok(()) => refused = 0,
            // The first undone macroblock never has to wait. If all that wait are refused in turn, it is not among them: one has been lost.
            Err(Refusal::NotReady) if refused < queue.len() => {
                refused += 1;
                queue.push_back((x, y, record));
            }
            // Not one of these has changed the picture.
            Err(refusal) => return Err(refusal),
        }
    }
    Ok(picture)
}

fn main() -> Result<(), Refusal> {
    let next = AtomicUsize::new(0);
    let finished = Mutex::new(Vec::new());
    std::thread::scope(|scope| {
        for _ in 0..WORKERS {
            scope.spawn(|| loop {
                let job = next.fetch_add(1, Ordering::Relaxed);
                if job >= PICTURES {
                    break;
                }
                // The last macroblocks come first.
                let mut arrivals = macroblocks(job);
                arrivals.reverse();
                finished.lock().unwrap().push((job, rebuild(arrivals)));
            });
        }
    });
    let finished = finished.into_inner().unwrap();
    assert_eq!(finished.len(), PICTURES);
    for (job, picture) in finished {
        let (picture, raster) = (picture?, rebuild(macroblocks(job))?);
        assert!(picture.is_finished());
        assert!(
            picture.luma() == raster.luma()
                && picture.cb() == raster.cb()
                && picture.cr() == raster.cr()
        );
    }
    println!("{PICTURES} pictures of {W} by {H} macroblocks by {WORKERS} workers, each equal to its raster order");

    // A macroblock that never comes is noticed: no queue turns for ever.
    let mut lost = macroblocks(0);
    lost.remove(5);
    assert_eq!(rebuild(lost).unwrap_err(), Refusal::NotReady);
    println!("a lost macroblock leaves the others not ready, and the worker free");
    Ok(())
}
