//! The macroblock and the 8x8 block that docs/RECORDS.md works from their levels: the page's lists are read from it, the numbers are made from
//! the levels by the clauses that the page names, and the library makes the samples. The page's tables are compared with the clauses too.
use jiwarbend::block::inverse_8x8;
use jiwarbend::{ChromaMode, Luma16x16Mode, LumaMode, Picture, Record};
use std::collections::BTreeMap;

const PAGE: &str = include_str!("../../docs/RECORDS.md");
const MACROBLOCK: &str = "A macroblock worked from its levels";
const BLOCK_8X8: &str = "An 8x8 block worked from its levels";

/// Where the sixteen 4x4 luma blocks stand (6.4.3): column and row.
const SCAN: [(usize, usize); 16] =
    [(0, 0), (1, 0), (0, 1), (1, 1), (2, 0), (3, 0), (2, 1), (3, 1), (0, 2), (1, 2), (0, 3), (1, 3), (2, 2), (3, 2), (2, 3), (3, 3)];

type Lists = BTreeMap<String, Vec<i32>>;

/// The lines of the worked lists in a section of the page: a name, a colon, and numbers.
fn lists(heading: &str) -> Lists {
    let (_, from) = PAGE.split_once(&format!("\n## {heading}\n")).expect("the section");
    let section = from.split("\n## ").next().unwrap();
    let mut found = BTreeMap::new();
    for block in section.split("```worked\n").skip(1) {
        let (lines, _) = block.split_once("```").expect("the end of a list");
        for line in lines.lines() {
            let (name, numbers) = line.split_once(':').expect("a name before a colon");
            let numbers = numbers.split_whitespace().map(|n| n.parse().expect("a number")).collect();
            assert!(found.insert(name.to_string(), numbers).is_none(), "{name} stands twice");
        }
    }
    found
}

/// The numbers of the page's lines that have these words and then numbers only.
fn table(words: &str) -> Vec<i32> {
    let numbers = |rest: &str| rest.split_whitespace().map(|n| n.parse().ok()).collect::<Option<Vec<i32>>>();
    PAGE.lines().filter_map(|line| numbers(line.trim_start().strip_prefix(words)?)).flatten().collect()
}

/// The place of each level of a block with this side: along the diagonals, odd ones downwards and even ones upwards (8.5.6, 8.5.7).
fn zig_zag(side: usize) -> Vec<usize> {
    let mut places = Vec::new();
    for diagonal in 0..2 * side - 1 {
        let rows = diagonal.saturating_sub(side - 1)..=diagonal.min(side - 1);
        let downwards = rows.map(|row| side * row + (diagonal - row));
        if diagonal % 2 == 1 {
            places.extend(downwards);
        } else {
            places.extend(downwards.rev());
        }
    }
    places
}

/// LevelScale4x4 without scaling matrices (8.5.9).
fn level_scale_4x4(qp: u32, place: usize) -> i32 {
    let v = [[10, 16, 13], [11, 18, 14], [13, 20, 16], [14, 23, 18], [16, 25, 20], [18, 29, 23]][qp as usize % 6];
    16 * match (place / 4 % 2, place % 4 % 2) {
        (0, 0) => v[0],
        (1, 1) => v[1],
        _ => v[2],
    }
}

/// LevelScale8x8 without scaling matrices (8.5.9).
fn level_scale_8x8(qp: u32, place: usize) -> i32 {
    let v = [
        [20, 18, 32, 19, 25, 24],
        [22, 19, 35, 21, 28, 26],
        [26, 23, 42, 24, 33, 31],
        [28, 25, 45, 26, 35, 33],
        [32, 28, 51, 30, 40, 38],
        [36, 32, 58, 34, 46, 43],
    ][qp as usize % 6];
    16 * match (place / 8 % 4, place % 8 % 4) {
        (0, 0) => v[0],
        (1 | 3, 1 | 3) => v[1],
        (2, 2) => v[2],
        (0, 1 | 3) | (1 | 3, 0) => v[3],
        (0, 2) | (2, 0) => v[4],
        _ => v[5],
    }
}

/// The fifteen AC coefficients at their places (8.5.12.1).
fn ac(levels: Option<&Vec<i32>>, qp: u32) -> [i32; 16] {
    assert!((24..52).contains(&qp));
    let mut block = [0; 16];
    let places = zig_zag(4);
    for (k, level) in levels.into_iter().flatten().enumerate() {
        let place = places[k + 1];
        block[place] = (level * level_scale_4x4(qp, place)) << (qp / 6 - 4);
    }
    block
}

/// A coefficient of an 8x8 block (8.5.13.1).
fn coefficient_8x8(level: i32, qp: u32, place: usize) -> i32 {
    let scaled = level * level_scale_8x8(qp, place);
    if qp < 36 {
        (scaled + (1 << (5 - qp / 6))) >> (6 - qp / 6)
    } else {
        scaled << (qp / 6 - 6)
    }
}

fn product<const N: usize>(a: [[i32; N]; N], b: [[i32; N]; N]) -> [[i32; N]; N] {
    std::array::from_fn(|i| std::array::from_fn(|j| (0..N).map(|k| a[i][k] * b[k][j]).sum()))
}

/// The DC coefficients of the luma blocks by row and column (8.5.10).
fn luma_dc(levels: &[i32], qp: u32) -> [[i32; 4]; 4] {
    assert!(qp < 36);
    let h = [[1, 1, 1, 1], [1, 1, -1, -1], [1, -1, -1, 1], [1, -1, 1, -1]];
    let mut c = [[0; 4]; 4];
    for (level, place) in levels.iter().zip(zig_zag(4)) {
        c[place / 4][place % 4] = *level;
    }
    let scaled = |f: i32| (f * level_scale_4x4(qp, 0) + (1 << (5 - qp / 6))) >> (6 - qp / 6);
    product(product(h, c), h).map(|row| row.map(scaled))
}

/// The DC coefficients of the four blocks of a chroma plane (8.5.11).
fn chroma_dc(levels: &[i32], qp: u32) -> [i32; 4] {
    let h = [[1, 1], [1, -1]];
    let f = product(product(h, [[levels[0], levels[1]], [levels[2], levels[3]]]), h);
    [f[0][0], f[0][1], f[1][0], f[1][1]].map(|f| ((f * level_scale_4x4(qp, 0)) << (qp / 6)) >> 5)
}

fn record(lists: &Lists) -> Record {
    let qp = lists["qp"][0] as u32;
    let mut record = Record::of_16x16(Luma16x16Mode::Dc, ChromaMode::Dc);
    let dc = luma_dc(&lists["luma dc levels"], qp);
    for (k, (x, y)) in SCAN.into_iter().enumerate() {
        let block = &mut record.numbers[16 * k..][..16];
        block.copy_from_slice(&ac(lists.get(&format!("luma ac levels of block {k}")), qp));
        block[0] = dc[y][x];
    }
    let chroma_qp = jiwarbend::block::chroma_qp(jiwarbend::block::LumaQp(qp as u8)).0.into();
    for (name, at) in [("cb", 256), ("cr", 320)] {
        let dc = chroma_dc(&lists[&format!("{name} dc levels")], chroma_qp);
        for (k, dc) in dc.into_iter().enumerate() {
            let block = &mut record.numbers[at + 16 * k..][..16];
            block.copy_from_slice(&ac(lists.get(&format!("{name} ac levels of block {k}")), chroma_qp));
            block[0] = dc;
        }
    }
    record
}

/// The places of the levels that are not 0 in the 8x8 block.
fn places_8x8(lists: &Lists) -> Vec<usize> {
    let zig_zag = zig_zag(8);
    lists["number"].iter().map(|&n| zig_zag[n as usize]).collect()
}

/// The 64 numbers of the 8x8 block.
fn numbers_8x8(lists: &Lists) -> [i32; 64] {
    let mut numbers = [0; 64];
    for (place, &level) in places_8x8(lists).into_iter().zip(&lists["level"]) {
        numbers[place] = coefficient_8x8(level, lists["qp"][0] as u32, place);
    }
    numbers
}

#[test]
fn the_page_has_the_tables_of_the_clauses() {
    let numbered = |n: usize| 0..n as i32;
    assert_eq!(table("level "), numbered(16).chain(numbered(64)).collect::<Vec<_>>());
    let places = zig_zag(4).into_iter().chain(zig_zag(8));
    assert_eq!(table("place "), places.map(|place| place as i32).collect::<Vec<_>>());
    assert_eq!(table("QP mod 6 "), numbered(6).chain(numbered(6)).collect::<Vec<_>>());
    let by_qp = |scale: fn(u32, usize) -> i32, places: &[usize]| -> Vec<i32> {
        (0..6).flat_map(|qp| places.iter().map(move |&place| scale(qp, place) / 16)).collect()
    };
    assert_eq!(table("v "), by_qp(level_scale_4x4, &[0, 5, 1]));
    // A place for each line of the 8x8 table.
    for (line, place) in [
        ("both multiples of 4 ", 0),
        ("both odd ", 9),
        ("both 2 mod 4 ", 18),
        ("a multiple of 4 and an odd number ", 1),
        ("a multiple of 4 and 2 mod 4 ", 2),
        ("an odd number and 2 mod 4 ", 10),
    ] {
        assert_eq!(table(line), by_qp(level_scale_8x8, &[place]), "{line}");
    }
}

#[test]
fn the_page_has_the_numbers_of_its_levels() {
    let lists = lists(MACROBLOCK);
    let numbers = record(&lists).numbers;
    let mut compared = 0;
    for (name, wanted) in &lists {
        let got: Vec<i32> = match name.as_str() {
            "first number of each luma block" => numbers[..256].iter().step_by(16).copied().collect(),
            "first number of each cb block" => numbers[256..320].iter().step_by(16).copied().collect(),
            "first number of each cr block" => numbers[320..].iter().step_by(16).copied().collect(),
            name => match name.strip_prefix("numbers ").and_then(|range| range.split_once(" to ")) {
                Some((from, to)) => numbers[from.parse().unwrap()..=to.parse().unwrap()].to_vec(),
                None => continue,
            },
        };
        assert_eq!(&got, wanted, "{name}");
        compared += 1;
    }
    assert_eq!(compared, 6);
}

#[test]
fn the_page_has_the_samples_that_the_library_makes() {
    let lists = lists(MACROBLOCK);
    let mut picture = Picture::new(1, 1).unwrap();
    picture.rebuild(0, 0, &record(&lists)).unwrap();
    for (name, plane) in [("luma", picture.luma()), ("cb", picture.cb()), ("cr", picture.cr())] {
        for (y, row) in plane.rows().enumerate() {
            let wanted = &lists[&format!("{name} row {y}")];
            assert_eq!(&row.iter().map(|&v| v as i32).collect::<Vec<_>>(), wanted, "row {y} of {name}");
        }
    }
}

#[test]
fn the_page_has_the_coefficients_of_its_8x8_block() {
    let lists = lists(BLOCK_8X8);
    let (qp, places, numbers) = (lists["qp"][0] as u32, places_8x8(&lists), numbers_8x8(&lists));
    let of_places = |f: &dyn Fn(usize) -> i32| -> Vec<i32> { places.iter().map(|&place| f(place)).collect() };
    assert_eq!(of_places(&|place| place as i32), lists["place"]);
    assert_eq!(of_places(&|place| level_scale_8x8(qp, place) / 16), lists["v"]);
    assert_eq!(of_places(&|place| numbers[place]), lists["coefficient"]);
    // The QP, numbers and levels; their places, v and coefficients; and the rows of residuals.
    assert_eq!(lists.len(), 3 + 3 + 8);
}

#[test]
fn the_page_has_the_residuals_of_its_8x8_block() {
    let lists = lists(BLOCK_8X8);
    let numbers = numbers_8x8(&lists);
    let mut record = Record::of_8x8([LumaMode::Dc; 4], ChromaMode::Dc);
    record.numbers[..64].copy_from_slice(&numbers);
    let mut picture = Picture::new(1, 1).unwrap();
    picture.rebuild(0, 0, &record).unwrap();
    for (y, (residuals, samples)) in inverse_8x8(&numbers).unwrap().chunks(8).zip(picture.luma().rows()).enumerate() {
        let wanted = &lists[&format!("residual row {y}")];
        assert_eq!(residuals, wanted, "row {y} of the residuals");
        assert_eq!(samples[..8].iter().map(|&v| v as i32 - 128).collect::<Vec<_>>(), *wanted, "row {y} of the samples");
    }
}

#[test]
fn a_flat_record_is_acceptable_everywhere() {
    let record = Record::of_16x16(Luma16x16Mode::Dc, ChromaMode::Dc);
    for slices in [vec![0; 9], (0..9).collect(), vec![0, 0, 1, 1, 1, 0, 0, 2, 2]] {
        let mut picture = Picture::with_slices(3, 3, slices).unwrap();
        while let Some((x, y)) = picture.first_undone() {
            picture.rebuild(x, y, &record).unwrap();
        }
        assert!(picture.is_finished());
    }
}
