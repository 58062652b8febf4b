//! Rebuilds a sample picture from its records, offered in a shuffled order with bad calls between, and writes it as a PNG.
mod encoder;
mod png;
mod scene;

use encoder::Coded;
use jiwarbend::{Picture, Record, Refusal};

/// Numbers at random, the same in every run.
struct Random(u64);

impl Random {
    fn below(&mut self, n: usize) -> usize {
        self.0 = self.0.wrapping_mul(6364136223846793005).wrapping_add(1442695040888963407);
        (self.0 >> 33) as usize % n
    }
}

/// How often each answer was given: 0 for accepted, then the refusals by number.
struct Account(Vec<usize>);

impl Account {
    fn new() -> Account {
        // The last refusal has the largest number, and below it some are unused.
        let largest = Refusal::ALL.last().map_or(0, |r| r.number() as usize);
        Account(vec![0; largest + 1])
    }

    fn add(&mut self, answer: Result<(), Refusal>) {
        self.0[answer.err().map_or(0, |r| r.number() as usize)] += 1;
    }
}

fn planes(picture: &Picture) -> (Vec<u8>, Vec<u8>, Vec<u8>) {
    let all = |p: &jiwarbend::Plane| p.rows().flatten().copied().collect();
    (all(picture.luma()), all(picture.cb()), all(picture.cr()))
}

fn above_is_absent(coded: &Coded, x: u32, y: u32) -> bool {
    let a = (y * coded.w + x) as usize;
    y == 0 || coded.slices[a - coded.w as usize] != coded.slices[a]
}

/// A call that must be refused for one certain reason, and change nothing.
fn bad_call(picture: &mut Picture, coded: &Coded, random: &mut Random, account: &mut Account) {
    let Some((x, y)) = picture.first_undone() else { return };
    let good = &coded.records[(y * coded.w + x) as usize];
    let before = (planes(picture), picture.progress());
    let (wanted, answer) = match random.below(7) {
        0 => (Refusal::Size, Picture::new([0, 121, u32::MAX][random.below(3)], coded.h).map(|_| ())),
        1 => (Refusal::Room, picture.rebuild_from(x, y, good.kind, &good.modes, good.chroma_mode, &good.numbers[..383])),
        2 => (Refusal::Place, picture.rebuild(coded.w, y, good)),
        3 => (Refusal::Unknown, picture.rebuild(x, y, &Record { kind: 3, ..good.clone() })),
        4 => {
            let mut wide = good.clone();
            wide.numbers[random.below(384)] = 32768;
            (Refusal::Range, picture.rebuild(x, y, &wide))
        }
        5 if above_is_absent(coded, x, y) => (Refusal::NotPermitted, picture.rebuild(x, y, &Record { chroma_mode: 2, ..good.clone() })),
        _ => (Refusal::Room, picture.rebuild_from(x, y, good.kind, &good.modes[..15], good.chroma_mode, &good.numbers)),
    };
    assert_eq!(answer, Err(wanted), "a bad call has its own refusal");
    assert!((planes(picture), picture.progress()) == before, "a refused call changes nothing");
    account.add(answer);
}

fn modes_used(coded: &Coded, kind: Option<u8>) -> usize {
    let mut seen = [false; 9];
    for r in &coded.records {
        match kind {
            None => seen[r.chroma_mode as usize] = true,
            Some(kind) if kind == r.kind => r.modes[..[16, 4, 1][kind as usize]].iter().for_each(|&m| seen[m as usize] = true),
            _ => {}
        }
    }
    seen.iter().filter(|&&s| s).count()
}

fn main() {
    let path = std::env::args().nth(1).unwrap_or_else(|| "jiwarbend.png".into());
    let scene = scene::Scene::draw();
    let coded = encoder::encode(&scene, 193);
    let (w, h) = (coded.w, coded.h);
    let total = (w * h) as usize;
    let slices = *coded.slices.last().unwrap() + 1;
    println!("a picture of {} by {} samples, {w} by {h} macroblocks in {slices} slices", scene.width, scene.height);
    let of_kind = |kind| coded.records.iter().filter(|r| r.kind == kind).count();
    println!(
        "records: {} of 4x4 ({} of 9 modes), {} of 8x8 ({} of 9), {} of 16x16 ({} of 4), chroma {} of 4",
        of_kind(0),
        modes_used(&coded, Some(0)),
        of_kind(1),
        modes_used(&coded, Some(1)),
        of_kind(2),
        modes_used(&coded, Some(2)),
        modes_used(&coded, None)
    );

    let mut random = Random(2026);
    let mut account = Account::new();
    let mut picture = Picture::with_slices(w, h, coded.slices.clone()).expect("a size that fits");
    let mut told = 0;
    while !picture.is_finished() {
        let a = random.below(total) as u32;
        let (x, y) = (a % w, a / w);
        account.add(picture.rebuild(x, y, &coded.records[a as usize]));
        if random.below(25) == 0 {
            bad_call(&mut picture, &coded, &mut random, &mut account);
        }
        // Now and then the first undone macroblock, which never has to wait.
        if random.below(8) == 0 {
            if let Some((x, y)) = picture.first_undone() {
                let answer = picture.rebuild(x, y, &coded.records[(y * w + x) as usize]);
                assert_eq!(answer, Ok(()), "the first undone macroblock is never refused as not ready");
                account.add(answer);
            }
        }
        let count = picture.progress().count() as usize;
        if count * 10 / total > told {
            told = count * 10 / total;
            let offers: usize = account.0.iter().sum();
            println!("{:>4} % {}{} {count} macroblocks after {offers} offers", told * 10, "#".repeat(told * 3), ".".repeat(30 - told * 3));
        }
    }

    let offers: usize = account.0.iter().sum();
    println!("offered {offers}, accepted {}, refused {}:", account.0[0], offers - account.0[0]);
    for r in Refusal::ALL.iter().filter(|r| account.0[r.number() as usize] > 0) {
        println!("  {} {:<52} {:>6}", r.number(), r.to_string(), account.0[r.number() as usize]);
    }

    let mut raster = Picture::with_slices(w, h, coded.slices.clone()).expect("a size that fits");
    for (a, record) in coded.records.iter().enumerate() {
        raster.rebuild(a as u32 % w, a as u32 / w, record).expect("raster order meets no refusal");
    }
    let got = planes(&picture);
    assert!(got == planes(&raster), "the order does not matter");
    println!("equal to raster order, byte for byte");
    assert!(got == (coded.luma, coded.cb, coded.cr), "the encoder rebuilt the same");
    let error: f64 = got.0.iter().zip(&scene.luma).map(|(&a, &b)| (a as f64 - b as f64).powi(2)).sum();
    let psnr = 10.0 * (255.0f64.powi(2) * scene.luma.len() as f64 / error).log10();
    println!("equal to what the encoder rebuilt; {psnr:.1} dB from the drawing");

    let rgb = scene::to_rgb(scene.width, &got.0, &got.1, &got.2);
    std::fs::write(&path, png::encode(scene.width, scene.height, &rgb)).expect("a place to write");
    println!("wrote {path}");
}
