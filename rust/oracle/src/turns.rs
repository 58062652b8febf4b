//! The row counts, the turn list and the number of turns of docs/RULES.md, written once more: the Rust that was ported has none of them. They come in forms
//! for the benchmark: `CHECKS` says whether refusals are looked for, and `SHORT` looks at eight marks of a row together, or for the number of turns at no more
//! of a row than tells it. What the number of turns should be is found by taking them.
use crate::driver::{near, sized};

/// How many macroblocks of a row are done from the left without a gap.
fn from_left<const SHORT: bool>(row: &[u8]) -> u32 {
    let mut done = 0;
    if SHORT {
        for eight in row.chunks_exact(8) {
            let other = u64::from_le_bytes(eight.try_into().unwrap()) ^ u64::from_le_bytes([1; 8]);
            if other != 0 {
                return done as u32 + other.trailing_zeros() / 8;
            }
            done += 8;
        }
    }
    (done + row[done..].iter().take_while(|&&mark| mark == 1).count()) as u32
}

pub fn count_rows<const CHECKS: bool, const SHORT: bool>(w: u32, h: u32, done: &[u8], rows: &mut [u32]) -> u32 {
    if CHECKS {
        if !sized(w, h) {
            return 1;
        }
        if done.len() != (w * h) as usize {
            return 2;
        }
        if rows.len() != h as usize {
            return 9;
        }
    }
    for (count, row) in rows.iter_mut().zip(done.chunks_exact(w as usize)) {
        *count = from_left::<SHORT>(row);
    }
    0
}

/// The turn of a picture: its addresses at the front of the list, and how many they are.
pub fn turn<const CHECKS: bool, const SHORT: bool>(
    w: u32,
    h: u32,
    done: &[u8],
    slices: &[u16],
    rows: &[u32],
    list: &mut [u32],
    how_many: &mut u32,
) -> u32 {
    let width = w as usize;
    if CHECKS {
        if !sized(w, h) {
            return 1;
        }
        if done.len() != (w * h) as usize || slices.len() != (w * h) as usize {
            return 2;
        }
        if rows.len() != h as usize || list.len() != h as usize {
            return 9;
        }
        if rows.iter().zip(done.chunks_exact(width)).any(|(&count, row)| count != from_left::<SHORT>(row)) {
            return 9;
        }
    }
    let mut many = 0;
    for (y, &count) in rows.iter().enumerate() {
        let x = count as usize;
        if x == width {
            continue;
        }
        // What is to the left is done, available or not.
        let (at, n) = (y * width + x, near(width, slices, x, y));
        let undone = |there: bool, back: usize| there && done[at - back] != 1;
        if !(undone(n.b, width) || undone(n.c, width - 1) || undone(n.d, width + 1)) {
            list[many] = at as u32;
            many += 1;
        }
    }
    *how_many = many as u32;
    0
}

/// The number of turns that a picture takes, by taking them: from nothing done until all is done.
pub fn turns_taken(w: u32, h: u32, slices: &[u16], turns: &mut u32) -> u32 {
    if !sized(w, h) {
        return 1;
    }
    let n = (w * h) as usize;
    if slices.len() != n {
        return 2;
    }
    let (mut done, mut rows, mut list, mut how_many) = (vec![0; n], vec![0; h as usize], vec![0; h as usize], 0);
    let mut taken = 0;
    while done.contains(&0) {
        count_rows::<false, true>(w, h, &done, &mut rows);
        turn::<false, true>(w, h, &done, slices, &rows, &mut list, &mut how_many);
        assert!(how_many > 0, "a turn before all is done");
        list[..how_many as usize].iter().for_each(|&address| done[address as usize] = 1);
        taken += 1;
    }
    *turns = taken;
    0
}

/// How late a macroblock is by its neighbours above: as late as D, a turn later than B, two later than C, if these are available. Late is what it comes after
/// the turn that it would have if it waited for its left neighbour alone; so it is at least as late as that one.
fn late_by_above(up: &[u16], row: &[u16], late: &[u8], x: usize) -> u8 {
    let by = |there: bool, near: usize, more: u8| if there && up[near] == row[x] { late[near] + more } else { 0 };
    by(x > 0, x.wrapping_sub(1), 0).max(by(true, x, 1)).max(by(x + 1 < row.len(), x + 1, 2))
}

/// The same of columns that have all three neighbours: `up` and `late` have one column more on each side. Written so that many columns are done together.
#[inline(always)]
fn all_late_by_above(up: &[u16], row: &[u16], late: &[u8], by: &mut [u8]) {
    let many = row.len();
    let (of_d, of_b, of_c) = (&up[..many], &up[1..][..many], &up[2..][..many]);
    let (d, b, c) = (&late[..many], &late[1..][..many], &late[2..][..many]);
    let same = |up: u16, slice: u16, late: u8| if up == slice { late } else { 0 };
    for (x, by) in by[..many].iter_mut().enumerate() {
        let slice = row[x];
        *by = same(of_d[x], slice, d[x]).max(same(of_b[x], slice, b[x] + 1)).max(same(of_c[x], slice, c[x] + 2));
    }
}

/// How late the last macroblock of a row is at most, with one row of numbers.
fn latest(width: usize, slices: &[u16]) -> u8 {
    let (mut late, mut by, mut latest) = ([0; 120], [0; 120], 0);
    for two in slices.windows(2 * width).step_by(width) {
        let (up, row) = two.split_at(width);
        if width > 2 {
            all_late_by_above(up, &row[1..width - 1], &late, &mut by[1..]);
        }
        (by[0], by[width - 1]) = (late_by_above(up, row, &late, 0), late_by_above(up, row, &late, width - 1));
        let mut last = 0;
        for (late, &by) in late[..width].iter_mut().zip(&by) {
            last = by.max(last);
            *late = last;
        }
        latest = last.max(latest);
    }
    latest
}

/// The same, looking at no more of a row than tells it. None of a row is more than two turns later than the last one above: where that is reached, the rest
/// of the row is known; and at once where all of the row above are equally late and the first one waits for C.
fn latest_short(width: usize, slices: &[u16]) -> u8 {
    const MANY: usize = 16;
    let [one, other] = &mut [[0; 120]; 2];
    let (mut above, mut now) = (one, other);
    let (mut first, mut last, mut latest) = (0, 0, 0);
    for two in slices.windows(2 * width).step_by(width) {
        let (up, row) = two.split_at(width);
        let most = last + 2;
        if first == last {
            if width > 1 && up[1] == row[0] {
                (first, last, latest) = (most, most, latest.max(most));
                continue;
            }
            above[..width].fill(last);
        }
        first = late_by_above(up, row, above, 0);
        (last, now[0]) = (first, first);
        let mut x = 1;
        while last < most && x + MANY < width {
            let mut by = [0; MANY];
            // None of these columns is later by its neighbours above than by C of the last.
            if above[x + MANY] + 2 > last {
                all_late_by_above(&up[x - 1..][..MANY + 2], &row[x..][..MANY], &above[x - 1..][..MANY + 2], &mut by);
            }
            if by.iter().copied().fold(0, u8::max) > last {
                for k in 0..MANY {
                    last = by[k].max(last);
                    now[x + k] = last;
                }
            } else {
                now[x..][..MANY].fill(last);
            }
            x += MANY;
        }
        while last < most && x < width {
            last = late_by_above(up, row, above, x).max(last);
            now[x] = last;
            x += 1;
        }
        now[x..width].fill(last);
        latest = last.max(latest);
        std::mem::swap(&mut above, &mut now);
    }
    latest
}

/// The number of turns by what each macroblock waits for. A row is done with its last macroblock, and that one in the first row with turn `w`.
pub fn turns<const CHECKS: bool, const SHORT: bool>(w: u32, h: u32, slices: &[u16], turns: &mut u32) -> u32 {
    if CHECKS {
        if !sized(w, h) {
            return 1;
        }
        if slices.len() != (w * h) as usize {
            return 2;
        }
    }
    let latest = if SHORT { latest_short(w as usize, slices) } else { latest(w as usize, slices) };
    *turns = w + u32::from(latest);
    0
}
