//! Several cores on one picture: a large one by workers of the library, the same by threads of one's own, and many small ones. `make examples` runs it.
use jiwarbend::{finish, ChromaMode, Luma16x16Mode, LumaMode, Picture, Record, Shared};
use std::error::Error;
use std::time::Instant;

const W: u32 = 120;
const H: u32 = 68;

/// The record of a macroblock. A real service has it from its parser. Several workers ask for records at the same time.
fn record(x: u32, y: u32) -> Record {
    let mut record = match (x + 2 * y) % 5 {
        0 if x > 0 && y > 0 => Record::of_16x16(Luma16x16Mode::Plane, ChromaMode::Plane),
        1 if y > 0 => Record::of_4x4([LumaMode::DiagonalDownLeft; 16], ChromaMode::Vertical),
        2 if x > 0 => Record::of_8x8([LumaMode::HorizontalUp; 4], ChromaMode::Horizontal),
        _ => Record::of_16x16(Luma16x16Mode::Dc, ChromaMode::Dc),
    };
    for block in 0..24 {
        record.numbers[16 * block] = ((x * 7 + y * 13 + block as u32 * 5) % 33) as i32 * 64 - 1024;
    }
    record
}

/// Threads of one's own: each draws a macroblock, computes it beside the others and commits it alone. Nothing is claimed, so two threads may compute the
/// same macroblock; the second to commit it is told that it is done, and looks for another one.
fn by_hand(shared: &Shared, threads: usize) {
    std::thread::scope(|scope| {
        for thread in 0..threads {
            scope.spawn(move || loop {
                let turn = shared.turn();
                let (x, y) = match turn.get(thread % turn.len().max(1)) {
                    Some(&place) => place,
                    None => break,
                };
                if let Ok(computed) = shared.compute(x, y, &record(x, y)) {
                    let _ = shared.commit(&computed);
                }
            });
        }
    });
}

fn same(a: &Picture, b: &Picture) -> bool {
    a.luma() == b.luma() && a.cb() == b.cb() && a.cr() == b.cr()
}

fn main() -> Result<(), Box<dyn Error>> {
    let cores = std::thread::available_parallelism().map_or(1, |n| n.get());
    let mut raster = Picture::new(W, H)?;
    for (x, y) in (0..H).flat_map(|y| (0..W).map(move |x| (x, y))) {
        raster.rebuild(x, y, &record(x, y))?;
    }

    for workers in [1, cores] {
        let (mut picture, from) = (Picture::new(W, H)?, Instant::now());
        picture.finish(workers, record)?;
        println!(
            "{W} by {H} macroblocks by {workers} workers in {:.1?}",
            from.elapsed()
        );
        assert!(same(&picture, &raster));
    }

    let shared = Shared::new(Picture::new(W, H)?);
    by_hand(&shared, cores.max(2));
    assert!(same(&shared.into_inner(), &raster));

    let mut pictures = vec![Picture::new(20, 12)?; 50];
    finish(&mut pictures, cores, |_picture, x, y| record(x, y))?;
    assert!(pictures.iter().all(|picture| same(picture, &pictures[0])));
    println!(
        "each of them, and {} small ones, is that of raster order",
        pictures.len()
    );
    Ok(())
}
