//! The check of an order of docs/RULES.md, written once more: the Rust that was ported has none. The plain form walks along the list with a map of what it has
//! named, and tells every kind of fault that it meets. The check alone comes in forms for the benchmark: `CHECKS` says whether refusals are looked for, and
//! `SHORT` compares the places of neighbours in the list, eight columns together, where the other form walks.
use crate::driver::sized;

/// The neighbours A, B, C and D of a macroblock, by columns to the right and rows down.
const NEIGHBOURS: [(i32, i32); 4] = [(-1, 0), (0, -1), (1, -1), (-1, -1)];

/// The kinds of faults that an entry can have: A, B, C or D is available and not named before it, or its own macroblock is.
pub type Faults = [bool; 5];

/// The faults of an entry, where the entries before it have named what is marked.
fn faults(w: u32, slices: &[u16], named: &[bool], address: u32) -> Faults {
    let (x, y) = ((address % w) as i32, (address / w) as i32);
    let missing = |(right, down): (i32, i32)| {
        let (x, y) = (x + right, y + down);
        let near = (y * w as i32 + x) as usize;
        (0..w as i32).contains(&x) && y >= 0 && slices[near] == slices[address as usize] && !named[near]
    };
    let [a, b, c, d] = NEIGHBOURS.map(missing);
    [a, b, c, d, named[address as usize]]
}

/// The place of the first entry that is out of place, or the length of the list, and the faults of all entries.
pub fn walk(w: u32, slices: &[u16], order: &[u32]) -> (usize, Faults) {
    let mut named = vec![false; slices.len()];
    let (mut first, mut all) = (order.len(), [false; 5]);
    for (place, &address) in order.iter().enumerate() {
        let of_entry = faults(w, slices, &named, address);
        if of_entry.contains(&true) {
            first = first.min(place);
        }
        all.iter_mut().zip(of_entry).for_each(|(any, one)| *any |= one);
        named[address as usize] = true;
    }
    (first, all)
}

/// The place of the first entry that is out of place, with the refusals.
pub fn out_of_place(w: u32, h: u32, slices: &[u16], order: &[u32], place: &mut u32) -> u32 {
    if !sized(w, h) {
        return 1;
    }
    let many = (w * h) as usize;
    if slices.len() != many {
        return 2;
    }
    if order.len() != many || order.iter().any(|&address| address >= w * h) {
        return 13;
    }
    *place = walk(w, slices, order).0 as u32;
    0
}

/// The check by a walk that ends at the first fault.
fn walked<const ROOM: usize>(w: u32, slices: &[u16], order: &[u32]) -> bool {
    let (width, mut named) = (w as usize, [false; ROOM]);
    let named = &mut named[..slices.len()];
    for &address in order {
        let (x, y, at) = (address % w, address / w, address as usize);
        let slice = slices[at];
        let missing = |there: bool, back: usize| there && slices[at - back] == slice && !named[at - back];
        let above = || missing(true, width) || missing(x + 1 < w, width - 1) || missing(x > 0, width + 1);
        if named[at] || missing(x > 0, 1) || (y > 0 && above()) {
            return false;
        }
        named[at] = true;
    }
    true
}

/// How many columns are looked at together, and how many with those beside them.
const MANY: usize = 8;
const WITH_ENDS: usize = MANY + 2;

#[inline(always)]
fn many<T>(row: &[T]) -> &[T; MANY] {
    row[..MANY].try_into().unwrap()
}

/// Looks at the inner columns of parts of two rows, by places and slices. Where a macroblock comes before a neighbour A, B, C or D in its slice, a number of
/// `known` becomes negative, and stays so.
#[inline(always)]
fn look_at_inner(known: &mut [i16; MANY], above: &[i16], slices_above: &[u16], row: &[i16], slices: &[u16]) {
    let (own, own_slices) = (many(&row[1..]), many(&slices[1..]));
    let beside = [(row, slices), (&above[1..], &slices_above[1..]), (&above[2..], &slices_above[2..]), (above, slices_above)];
    let mut all = *known;
    for (near, near_slices) in beside {
        let (near, near_slices) = (many(near), many(near_slices));
        for k in 0..MANY {
            // One in another slice counts as if it came first of all.
            let other = if near_slices[k] == own_slices[k] { 0 } else { -1 };
            all[k] |= own[k] - (near[k] | other);
        }
    }
    *known = all;
}

/// Whether no macroblock comes before a neighbour, column by column.
fn narrow_in_order(width: usize, slices: &[u16], places: &[i16]) -> bool {
    let after = |at: usize, near: usize| slices[near] != slices[at] || places[near] < places[at];
    (0..places.len()).all(|at| {
        let (x, above) = (at % width, at >= width);
        (x == 0 || after(at, at - 1))
            && (!above || after(at, at - width))
            && (!above || x + 1 == width || after(at, at + 1 - width))
            && (!above || x == 0 || after(at, at - width - 1))
    })
}

/// The same of rows that have `MANY` inner columns at least, many columns together.
fn wide_in_order(width: usize, slices: &[u16], places: &[i16]) -> bool {
    let before = |at: usize, near: usize| (slices[near] == slices[at]) & (places[near] > places[at]);
    let (mut bad, mut known) = ((1..width).any(|x| before(x, x - 1)), [0; MANY]);
    for (two, two_slices) in places.windows(2 * width).zip(slices.windows(2 * width)).step_by(width) {
        let (above, row) = two.split_at(width);
        let (slices_above, slices) = two_slices.split_at(width);
        let mut x = 0;
        loop {
            let (above, slices_above) = (&above[x..][..WITH_ENDS], &slices_above[x..][..WITH_ENDS]);
            look_at_inner(&mut known, above, slices_above, &row[x..][..WITH_ENDS], &slices[x..][..WITH_ENDS]);
            if x + WITH_ENDS == width {
                break;
            }
            // The last columns are looked at again where they are fewer.
            x = (x + MANY).min(width - WITH_ENDS);
        }
        let before = |x: usize, near: usize| (slices_above[near] == slices[x]) & (above[near] > row[x]);
        let last = width - 1;
        let by_left = (slices[last - 1] == slices[last]) & (row[last - 1] > row[last]);
        bad |= before(0, 0) | before(0, 1) | before(last, last) | before(last, last - 1) | by_left;
    }
    !bad && known.iter().all(|&one| one >= 0)
}

/// The check by the places of the macroblocks in the list; nothing where an address lies outside the picture.
fn by_places<const ROOM: usize>(width: usize, slices: &[u16], order: &[u32]) -> Option<bool> {
    let mut places = [-1; ROOM];
    let places = &mut places[..slices.len()];
    for (place, &address) in (0..).zip(order) {
        *places.get_mut(address as usize)? = place;
    }
    // Where one is named twice another is not named at all.
    if places.iter().fold(0, |all, place| all | place) < 0 {
        return Some(false);
    }
    Some(if width < WITH_ENDS { narrow_in_order(width, slices, places) } else { wide_in_order(width, slices, places) })
}

/// The check in one of its forms, with no more room than the picture needs.
fn passes<const ROOM: usize, const CHECKS: bool, const SHORT: bool>(w: u32, slices: &[u16], order: &[u32]) -> Option<bool> {
    if SHORT {
        return by_places::<ROOM>(w as usize, slices, order);
    }
    if CHECKS && order.iter().fold(0, |most, &address| address.max(most)) as usize >= slices.len() {
        return None;
    }
    Some(walked::<ROOM>(w, slices, order))
}

/// Whether an order passes: 1 or 0.
pub fn check_order<const CHECKS: bool, const SHORT: bool>(w: u32, h: u32, slices: &[u16], order: &[u32], verdict: &mut u32) -> u32 {
    if CHECKS && !sized(w, h) {
        return 1;
    }
    let many = (w * h) as usize;
    if CHECKS {
        if slices.len() != many {
            return 2;
        }
        if order.len() != many {
            return 13;
        }
    }
    let said = match many {
        0..=128 => passes::<128, CHECKS, SHORT>(w, slices, order),
        129..=1024 => passes::<1024, CHECKS, SHORT>(w, slices, order),
        _ => passes::<8160, CHECKS, SHORT>(w, slices, order),
    };
    match said {
        Some(yes) => {
            *verdict = yes.into();
            0
        }
        None => 13,
    }
}
