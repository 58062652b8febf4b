//! The check of an order: the verdict and the first entry out of place are those of the rule, which is written here once more, entry by entry. An order that
//! passes is replayed without a refusal and gives the picture of raster order. One that does not pass is refused at the entry that is told where the records
//! read from every available neighbour, and may be accepted where they read less.
mod maps;
#[allow(dead_code)]
mod memory;
mod store;

use jiwarbend::sys::{jiwarbend_check_order, jiwarbend_out_of_place};
use jiwarbend::{check_order, ChromaMode, Luma16x16Mode, LumaMode, Picture, Record, Refusal, Verdict};
use maps::{same_planes, shuffled, slice_map};
use memory::Numbers;

/// What the two calls are lent, whatever its lengths are. A test compares all of it, to see what was written and what was not.
#[derive(Clone, Debug, PartialEq, Eq)]
struct Sent {
    w: u32,
    h: u32,
    slices: Vec<u16>,
    order: Vec<u32>,
    /// The verdict or the place.
    said: u32,
}

/// What stands where nothing has been written.
const BEFORE: u32 = 0xdead_beef;

impl Sent {
    fn of((w, h): (u32, u32), slices: Vec<u16>, order: Vec<u32>) -> Sent {
        Sent { w, h, slices, order, said: BEFORE }
    }

    fn in_one_slice((w, h): (u32, u32), order: Vec<u32>) -> Sent {
        Sent::of((w, h), vec![7; (w * h) as usize], order)
    }

    fn check_order(&mut self) -> u32 {
        let (slices, order) = (&self.slices, &self.order);
        unsafe { jiwarbend_check_order(self.w, self.h, slices.as_ptr(), slices.len(), order.as_ptr(), order.len(), &mut self.said) }
    }

    fn out_of_place(&mut self) -> u32 {
        let (slices, order) = (&self.slices, &self.order);
        unsafe { jiwarbend_out_of_place(self.w, self.h, slices.as_ptr(), slices.len(), order.as_ptr(), order.len(), &mut self.said) }
    }

    /// The neighbours A, B, C and D of a macroblock, as far as they lie in the picture and in its slice.
    fn neighbours(&self, address: u32) -> [Option<u32>; 4] {
        let (x, y) = ((address % self.w) as i64, (address / self.w) as i64);
        [(x - 1, y), (x, y - 1), (x + 1, y - 1), (x - 1, y - 1)].map(|(x, y)| {
            let near = (y * self.w as i64 + x) as u32;
            let inside = (0..self.w as i64).contains(&x) && y >= 0;
            (inside && self.slices[near as usize] == self.slices[address as usize]).then_some(near)
        })
    }

    /// The place of the first entry whose macroblock is named before it, or has an available neighbour that is not.
    fn place_due(&self) -> usize {
        let mut named = vec![false; self.slices.len()];
        let mut in_place = |address: u32| {
            let ready = self.neighbours(address).into_iter().flatten().all(|near| named[near as usize]);
            let named_before = std::mem::replace(&mut named[address as usize], true);
            ready && !named_before
        };
        self.order.iter().take_while(|&&address| in_place(address)).count()
    }

    /// The verdict of both calls, which say what is due and write nothing else. The crate's function says the same.
    fn verdict(&self) -> Verdict {
        let place = self.place_due();
        let due = self.order.get(place).map_or(Verdict::Yes, |&address| Verdict::No { place, address });
        let mut now = self.clone();
        assert_eq!((now.check_order(), now.said), (0, due.is_yes().into()), "the verdict of {self:?}");
        assert_eq!((now.out_of_place(), now.said), (0, place as u32), "the place of {self:?}");
        now.said = self.said;
        assert_eq!(now, *self);
        assert_eq!(check_order(self.w, self.h, &self.slices, &self.order), Ok(due));
        due
    }

    fn is_yes(&self) -> bool {
        self.verdict().is_yes()
    }

    /// A record for each macroblock. Where slices are whole rows it reads from every available neighbour.
    fn record(&self, address: u32) -> Record {
        let [a, b, _, d] = self.neighbours(address).map(|near| near.is_some());
        let chroma = if a && b && d { ChromaMode::Plane } else { ChromaMode::Dc };
        // Block 5 reads what is above and to the right.
        let mut record = Record::of_4x4([if b { LumaMode::DiagonalDownLeft } else { LumaMode::Dc }; 16], chroma);
        for block in 0..24 {
            record.numbers[16 * block] = (address as usize * 37 + block * 11) as i32 % 65 * 32 - 1024;
        }
        record
    }

    /// Replays the list from a start. Where an entry is refused, its place and the refusal are given.
    fn replay(&self, record: impl Fn(u32) -> Record) -> Result<Picture, (usize, Refusal)> {
        let mut picture = Picture::with_slices(self.w, self.h, self.slices.clone()).unwrap();
        for (place, &address) in self.order.iter().enumerate() {
            picture.rebuild(address % self.w, address / self.w, &record(address)).map_err(|refusal| (place, refusal))?;
        }
        Ok(picture)
    }

    /// The same picture in raster order.
    fn in_raster_order(&self) -> Sent {
        Sent { order: (0..self.w * self.h).collect(), ..self.clone() }
    }

    /// Sees that an order that passes finishes the picture of raster order.
    fn see_replay(&self, record: impl Fn(u32) -> Record) {
        assert!(self.is_yes());
        let (picture, wanted) = (self.replay(&record).unwrap(), self.in_raster_order().replay(&record).unwrap());
        assert!(picture.is_finished() && same_planes(&picture, &wanted));
    }
}

/// The macroblocks of a diagonal, x + y = d, from its top right end down to the left.
fn diagonal((w, h): (u32, u32), d: u32) -> impl DoubleEndedIterator<Item = u32> {
    (0..h).filter(move |&y| y <= d && d - y < w).map(move |y| y * w + d - y)
}

fn by_diagonals(size: (u32, u32)) -> Vec<u32> {
    (0..size.0 + size.1 - 1).flat_map(|d| diagonal(size, d)).collect()
}

fn by_diagonals_from_below(size: (u32, u32)) -> Vec<u32> {
    (0..size.0 + size.1 - 1).flat_map(|d| diagonal(size, d).rev()).collect()
}

/// One turn after the other, the macroblocks of each in any order.
fn by_turns((w, h): (u32, u32), slices: &[u16], numbers: &mut Numbers) -> Vec<u32> {
    let mut picture = Picture::with_slices(w, h, slices.to_vec()).unwrap();
    let record = Record::of_16x16(Luma16x16Mode::Dc, ChromaMode::Dc);
    let mut order = Vec::new();
    while !picture.is_finished() {
        let turn = picture.turn();
        turn.iter().for_each(|&(x, y)| picture.rebuild(x, y, &record).unwrap());
        order.extend(shuffled(turn.into_iter().map(|(x, y)| y * w + x).collect(), numbers));
    }
    order
}

/// An order that passes, one macroblock after the other: any of those whose neighbours are all named.
fn permitted(size: (u32, u32), slices: &[u16], numbers: &mut Numbers) -> Vec<u32> {
    let mut sent = Sent::of(size, slices.to_vec(), Vec::new());
    let mut left: Vec<u32> = (0..size.0 * size.1).collect();
    while !left.is_empty() {
        let is_ready = |&k: &usize| sent.neighbours(left[k]).into_iter().flatten().all(|near| !left.contains(&near));
        let ready: Vec<usize> = (0..left.len()).filter(is_ready).collect();
        sent.order.push(left.remove(ready[numbers.below(ready.len() as u32) as usize]));
    }
    sent.order
}

const SIZES: [(u32, u32); 12] = [(1, 1), (1, 2), (1, 68), (2, 1), (120, 1), (2, 2), (2, 68), (3, 2), (5, 4), (8, 13), (40, 22), (120, 68)];

/// Slice maps of every kind for each of the sizes.
fn many_maps(seed: u64, each: usize) -> impl Iterator<Item = ((u32, u32), Vec<u16>)> {
    let mut numbers = Numbers(seed);
    SIZES.into_iter().cycle().take(each * SIZES.len()).map(move |size| (size, slice_map(size, &mut numbers)))
}

/// A small size, and slices of any kind.
fn small(numbers: &mut Numbers) -> ((u32, u32), Vec<u16>) {
    let size = (1 + numbers.below(7), 1 + numbers.below(6));
    (size, slice_map(size, numbers))
}

#[test]
fn raster_order_and_diagonals_from_the_top_right_pass() {
    for (size, slices) in many_maps(1, 15) {
        assert!(Sent::of(size, slices.clone(), (0..size.0 * size.1).collect()).is_yes());
        assert!(Sent::of(size, slices, by_diagonals(size)).is_yes());
    }
}

#[test]
fn diagonals_from_the_bottom_left_do_not_pass() {
    for size in SIZES {
        let (w, h) = size;
        let sent = Sent::in_one_slice(size, by_diagonals_from_below(size));
        // Macroblock (0, 1) comes before (1, 0).
        let due = if w > 1 && h > 1 { Verdict::No { place: 1, address: w } } else { Verdict::Yes };
        assert_eq!(sent.verdict(), due, "{w} by {h}");
        // A slice for each row: none waits for a row above.
        assert!(Sent { slices: (0..w * h).map(|a| (a / w) as u16).collect(), ..sent }.is_yes());
    }
}

#[test]
fn joined_turns_pass_in_any_order_of_each() {
    let mut numbers = Numbers(2);
    for (size, slices) in many_maps(3, 6) {
        let order = by_turns(size, &slices, &mut numbers);
        assert!(Sent::of(size, slices, order).is_yes());
    }
}

#[test]
fn every_list_for_a_few_macroblocks_is_judged_right() {
    // All lists, with all slice maps of as many slices as there are macroblocks.
    for size in [(1, 1), (1, 2), (2, 1), (1, 3), (3, 1), (2, 2)] {
        let many: u32 = size.0 * size.1;
        let all = |k: u32| (0..many).map(move |place| k / many.pow(place) % many);
        let (mut passed, mut passed_in_one) = (0, 0);
        for (map, list) in (0..many.pow(many)).flat_map(|map| (0..many.pow(many)).map(move |list| (map, list))) {
            let sent = Sent::of(size, all(map).map(|slice| slice as u16).collect(), all(list).collect());
            let yes = sent.is_yes() as u32;
            passed += yes;
            passed_in_one += yes * (map == 0) as u32;
        }
        // In one slice of up to four macroblocks there is one order that passes, and in slices of their own all orders do.
        assert_eq!(passed_in_one, 1);
        assert!(passed >= (1..=many).product(), "{passed} of {size:?}");
    }
}

/// All orders of the numbers below `many`.
fn all_orders(many: u32) -> Vec<Vec<u32>> {
    (0..many).fold(vec![vec![]], |orders, next| {
        let with_next = |order: Vec<u32>| {
            (0..=order.len()).map(move |place| {
                let mut longer = order.clone();
                longer.insert(place, next);
                longer
            })
        };
        orders.into_iter().flat_map(with_next).collect()
    })
}

#[test]
fn every_order_of_six_macroblocks_is_judged_right() {
    let orders = all_orders(6);
    let passed = |size: (u32, u32), slices: Vec<u16>| {
        let pass = |order: &&Vec<u32>| Sent::of(size, slices.clone(), order.to_vec()).is_yes();
        orders.iter().filter(pass).count()
    };
    // All maps of two slices.
    for size in [(3, 2), (2, 3), (6, 1), (1, 6)] {
        for map in 0..64u16 {
            assert!(passed(size, (0..6).map(|a| map >> a & 1).collect()) > 0);
        }
    }
    // In one slice the last of the first row and the first of the second may change places.
    assert_eq!(passed((3, 2), vec![0; 6]), 2);
    // With a slice for each row the two rows are mixed in any way, and with one for each macroblock all of them are.
    assert_eq!(passed((3, 2), vec![0, 0, 0, 1, 1, 1]), 20);
    assert_eq!(passed((3, 2), vec![0, 1, 2, 3, 4, 5]), 720);
}

#[test]
fn each_of_the_four_neighbours_matters() {
    // The middle of the second row, and its neighbours A, B, C and D.
    let (own, beside) = (4, [3, 1, 2, 0]);
    for near in beside {
        let others: Vec<u32> = (0..6).filter(|&a| a != own && a != near).collect();
        let (before, after) = ([vec![own, near], others.clone()].concat(), [vec![near, own], others].concat());
        // The two are alone in their slice.
        let slices: Vec<u16> = (0..6).map(|a| if a == own || a == near { 9 } else { a as u16 }).collect();
        assert_eq!(Sent::of((3, 2), slices.clone(), before.clone()).verdict(), Verdict::No { place: 0, address: own });
        assert!(Sent::of((3, 2), slices, after.clone()).is_yes());
        // The others are in one slice and this one is not: it may come last.
        let slices = (0..6).map(|a| (a == near) as u16 * 256).collect();
        let order = (0..6).filter(|&a| a != near).chain([near]).collect();
        assert!(Sent::of((3, 2), slices, order).is_yes());
    }
}

#[test]
fn a_macroblock_twice_does_not_pass() {
    let mut numbers = Numbers(4);
    for size in [(1, 2), (2, 1), (2, 2), (4, 3), (12, 9), (120, 68)] {
        let many = size.0 * size.1;
        for _ in 0..60 {
            let (from, over) = (numbers.below(many), numbers.below(many));
            // Where none waits, the second of the two is the one that is told.
            let alone: Vec<u16> = (0..many).map(|a| a as u16).collect();
            let mut order: Vec<u32> = shuffled((0..many).collect(), &mut numbers);
            order[over as usize] = order[from as usize];
            let (place, address) = (over.max(from) as usize, order[from as usize]);
            let due = if from == over { Verdict::Yes } else { Verdict::No { place, address } };
            assert_eq!(Sent::of(size, alone, order).verdict(), due);
            // In raster order the last of them is left out, and nothing waits for it.
            let mut order: Vec<u32> = (0..many).collect();
            order[many as usize - 1] = numbers.below(many - 1);
            let due = Verdict::No { place: many as usize - 1, address: order[many as usize - 1] };
            assert_eq!(Sent::in_one_slice(size, order).verdict(), due);
        }
    }
}

/// Spoils an order: exchanges two entries, moves one, doubles one over another, or puts any addresses.
fn spoil(order: &mut [u32], numbers: &mut Numbers) {
    let many = order.len() as u32;
    let [one, other] = [(); 2].map(|()| numbers.below(many) as usize);
    match numbers.below(5) {
        0 => order.swap(one, other),
        1 => order.swap(one, (one + 1) % order.len()),
        2 => order[one] = order[other],
        3 => order[one.min(other)..=one.max(other)].rotate_left(1),
        _ => order[one..].iter_mut().for_each(|address| *address = numbers.below(many)),
    }
}

#[test]
fn the_first_entry_out_of_place_is_told() {
    let mut numbers = Numbers(5);
    let mut passed = 0;
    for round in 0..20_000 {
        let (size, slices) = small(&mut numbers);
        let mut order = permitted(size, &slices, &mut numbers);
        (0..round % 4).for_each(|_| spoil(&mut order, &mut numbers));
        passed += Sent::of(size, slices, order).is_yes() as u32;
    }
    assert!((5_000..15_000).contains(&passed), "{passed} of 20000 passed");
    let mut passed = 0;
    for (size, slices) in many_maps(6, 10) {
        for faults in 0..3 {
            let mut order = by_turns(size, &slices, &mut numbers);
            (0..faults).for_each(|_| spoil(&mut order, &mut numbers));
            passed += Sent::of(size, slices.clone(), order).is_yes() as u32;
        }
    }
    assert!((120..320).contains(&passed), "{passed} of 360 passed");
}

#[test]
fn every_place_of_a_large_picture_counts() {
    // 1024 macroblocks, one more, and as many as there can be.
    for (w, h) in [(32, 32), (25, 41), (120, 68)] {
        let raster: Vec<u32> = (0..w * h).collect();
        let mut sent = Sent::in_one_slice((w, h), raster.clone());
        for place in 0..raster.len() - 1 {
            sent.order.swap(place, place + 1);
            // The second of two in a row waits for the first; the first of a row does not wait for the last one above it.
            let due = if (place as u32 + 1) % w > 0 { Verdict::No { place, address: place as u32 + 1 } } else { Verdict::Yes };
            assert_eq!(check_order(w, h, &sent.slices, &sent.order), Ok(due), "place {place}");
            sent.order.swap(place, place + 1);
        }
        // Backwards the very first entry is out of place, unless none waits.
        sent.order.reverse();
        assert_eq!(sent.verdict(), Verdict::No { place: 0, address: w * h - 1 });
        sent.slices = (0..w * h).map(|a| a as u16).collect();
        assert!(sent.is_yes());
        // The last entry is a macroblock that is named before it, the first one or the last but one.
        for address in [0, w * h - 2] {
            sent.order = raster.clone();
            sent.order[raster.len() - 1] = address;
            assert_eq!(sent.verdict(), Verdict::No { place: raster.len() - 1, address });
        }
    }
}

/// A list for 3 by 2 macroblocks in two slices, which passes and is good until it is bent.
fn good() -> Sent {
    Sent::of((3, 2), vec![5, 5, 5, 6, 6, 6], vec![3, 0, 4, 1, 5, 2])
}

type Bend = fn(&mut Sent);

/// The size alone is wrong: map and list are of this size.
fn resized(sent: &mut Sent, w: u32, h: u32) {
    *sent = Sent::of((w, h), vec![0; w as usize * h as usize], (0..w * h).collect());
}

const OF_SIZE: [Bend; 8] = [
    |s| resized(s, 0, 2),
    |s| resized(s, 121, 2),
    |s| resized(s, 3, 0),
    |s| resized(s, 3, 69),
    |s| resized(s, 121, 69),
    |s| s.w = u32::MAX,
    |s| s.h = u32::MAX,
    // Their product is 0 in 32 bits.
    |s| (s.w, s.h, s.slices, s.order) = (1 << 16, 1 << 16, vec![], vec![]),
];
const OF_SLICES: [Bend; 3] = [|s| s.slices.truncate(5), |s| s.slices.push(6), |s| s.slices.clear()];
const OF_ORDER: [Bend; 11] = [
    |s| s.order.truncate(5),
    |s| s.order.push(2),
    |s| s.order.push(6),
    |s| s.order.clear(),
    |s| s.order[0] = 6,
    |s| s.order[3] = 7,
    |s| s.order[5] = 6,
    // These are 0 in 8 or 16 bits, or below 0 as signed numbers.
    |s| s.order[1] = 1 << 8,
    |s| s.order[1] = 1 << 16,
    |s| s.order[5] = 1 << 31,
    |s| s.order[0] = u32::MAX,
];
/// These break no rule of the call: the list does not pass.
const OUT_OF_PLACE: [Bend; 3] = [|s| s.order.swap(0, 2), |s| s.order[5] = 3, |s| s.order.fill(0)];

/// The answers of both calls over what some of these have bent, and whether they have left it as it was.
fn bent(bends: &[Bend]) -> [(u32, bool); 2] {
    [Sent::check_order, Sent::out_of_place].map(|call| {
        let mut sent = good();
        bends.iter().for_each(|bend| bend(&mut sent));
        let before = sent.clone();
        (call(&mut sent), sent == before)
    })
}

#[test]
fn every_refusal_has_its_number_and_writes_nothing() {
    for (number, bends) in [(1, &OF_SIZE[..]), (2, &OF_SLICES), (13, &OF_ORDER)] {
        for (k, &bend) in bends.iter().enumerate() {
            assert_eq!(bent(&[bend]), [(number, true); 2], "bent in way {k}");
            // A list that does not pass is refused all the same.
            for out_of_place in OUT_OF_PLACE {
                assert_eq!(bent(&[out_of_place, bend]), [(number, true); 2], "out of place and bent in way {k}");
            }
        }
    }
    assert_eq!(bent(&[]), [(0, false); 2]);
    assert_eq!(good().verdict(), Verdict::Yes);
    for out_of_place in OUT_OF_PLACE {
        assert_eq!(bent(&[out_of_place]), [(0, false); 2]);
    }
}

#[test]
fn the_smallest_number_is_given() {
    // The sizes that leave map and list as they were come before what else is wrong with them.
    let sizes: [Bend; 4] = [|s| s.w = 121, |s| s.w = 0, |s| s.h = 69, |s| s.h = 0];
    for of_order in OF_ORDER {
        for of_slices in OF_SLICES {
            assert_eq!(bent(&[of_order, of_slices]), [(2, true); 2]);
            for of_size in sizes {
                assert_eq!(bent(&[of_order, of_slices, of_size]), [(1, true); 2]);
                assert_eq!(bent(&[of_slices, of_size]), [(1, true); 2]);
                assert_eq!(bent(&[of_order, of_size]), [(1, true); 2]);
            }
        }
    }
}

#[test]
fn an_address_outside_the_picture_is_refused_at_every_place() {
    for size in [(1, 1), (1, 68), (120, 1), (9, 7), (120, 68)] {
        let many = size.0 * size.1;
        let mut sent = Sent::in_one_slice(size, (0..many).collect());
        assert!(sent.is_yes());
        for place in 0..many as usize {
            for outside in [many, many + 1, u32::MAX, many | 1 << 16] {
                let inside = std::mem::replace(&mut sent.order[place], outside);
                assert_eq!(
                    (sent.check_order(), sent.out_of_place(), sent.said),
                    (13, 13, BEFORE),
                    "{outside} at place {place} of {size:?}"
                );
                sent.order[place] = inside;
            }
        }
        // An entry too few and one too many, and no list at all.
        for order in [(0..many - 1).collect(), (0..many).chain([0]).collect(), vec![]] {
            let mut other = Sent { order, ..sent.clone() };
            assert_eq!((other.check_order(), other.out_of_place(), other.said), (13, 13, BEFORE));
        }
    }
}

#[test]
fn the_crate_gives_the_refusals_and_a_picture_the_same_verdicts() {
    let raster: Vec<u32> = (0..6).collect();
    for (w, h) in [(0, 2), (121, 2), (3, 0), (3, 69), (u32::MAX, u32::MAX), (1 << 16, 1 << 16)] {
        assert_eq!(check_order(w, h, &[0; 6], &raster), Err(Refusal::Size), "{w} by {h}");
        assert_eq!(check_order(w, h, &[], &[]), Err(Refusal::Size), "{w} by {h}");
    }
    for slices in [&[0; 5][..], &[0; 7], &[]] {
        assert_eq!(check_order(3, 2, slices, &raster), Err(Refusal::Room), "{} slice numbers", slices.len());
        assert_eq!(check_order(3, 2, slices, &[6]), Err(Refusal::Room), "{} slice numbers", slices.len());
    }
    for order in [&raster[1..], &[0; 7], &[], &[0, 1, 2, 3, 4, 6], &[u32::MAX; 6]] {
        assert_eq!(check_order(3, 2, &[0; 6], order), Err(Refusal::Order), "{order:?}");
        assert_eq!(Picture::new(3, 2).unwrap().check_order(order), Err(Refusal::Order), "{order:?}");
    }
    assert!(Verdict::Yes.is_yes() && !Verdict::No { place: 0, address: 0 }.is_yes());
    let mut numbers = Numbers(7);
    for _ in 0..500 {
        let (size, slices) = small(&mut numbers);
        let mut order = permitted(size, &slices, &mut numbers);
        (0..numbers.below(2)).for_each(|_| spoil(&mut order, &mut numbers));
        let sent = Sent::of(size, slices, order);
        let mut picture = Picture::with_slices(sent.w, sent.h, sent.slices.clone()).unwrap();
        assert_eq!(picture.check_order(&sent.order), Ok(sent.verdict()));
        // What is done has no say in it.
        picture.rebuild(0, 0, &sent.record(0)).unwrap();
        assert_eq!(picture.check_order(&sent.order), Ok(sent.verdict()));
    }
}

#[test]
fn an_order_that_passes_is_replayed_without_a_refusal() {
    let mut numbers = Numbers(8);
    for _ in 0..300 {
        let (size, slices) = small(&mut numbers);
        let order = permitted(size, &slices, &mut numbers);
        let sent = Sent::of(size, slices, order);
        sent.see_replay(|address| sent.record(address));
    }
    for (size, slices) in many_maps(9, 1) {
        for order in [by_diagonals(size), by_turns(size, &slices, &mut numbers)] {
            let sent = Sent::of(size, slices.clone(), order);
            sent.see_replay(|address| sent.record(address));
        }
    }
    // Pictures that an encoder coded, some of them in several slices.
    let files: [&[u8]; 2] = [include_bytes!("data/bars_q30_baseline.rmb1"), include_bytes!("data/windmill_q36.rmb1")];
    for file in files {
        let store::Pictured { w, h, slices, records } = store::read(file);
        for order in [by_diagonals((w, h)), permitted((w, h), &slices, &mut numbers)] {
            let sent = Sent::of((w, h), slices.clone(), order);
            sent.see_replay(|address| {
                let (kind, modes, chroma_mode, numbers) = records[address as usize];
                Record { kind, modes, chroma_mode, numbers }
            });
        }
    }
}

#[test]
fn an_order_that_does_not_pass_is_refused_where_the_records_read_all() {
    let mut numbers = Numbers(10);
    let mut met = [0; 2];
    for _ in 0..2000 {
        let size = (1 + numbers.below(7), 1 + numbers.below(6));
        // Slices of whole rows: a record can read from every available neighbour.
        let rows = 1 + numbers.below(size.1);
        let slices: Vec<u16> = (0..size.0 * size.1).map(|a| (a / size.0 / rows) as u16).collect();
        let mut order = permitted(size, &slices, &mut numbers);
        spoil(&mut order, &mut numbers);
        let sent = Sent::of(size, slices, order);
        let refused = sent.replay(|address| sent.record(address)).err();
        match sent.verdict() {
            Verdict::Yes => assert_eq!(refused, None),
            Verdict::No { place, address } => {
                let twice = sent.order[..place].contains(&address);
                assert_eq!(refused, Some((place, if twice { Refusal::Done } else { Refusal::NotReady })));
                met[twice as usize] += 1;
            }
        }
    }
    assert!(met.iter().all(|&many| many > 200), "refused as not ready and as done: {met:?}");
}

#[test]
fn an_order_that_does_not_pass_may_be_replayed_where_the_records_read_less() {
    // 16x16 and chroma DC read from the left and from above, and not from above and to the right.
    let record = |_| Record::of_16x16(Luma16x16Mode::Dc, ChromaMode::Dc);
    for size in SIZES.into_iter().filter(|&(w, h)| w > 1 && h > 1) {
        let sent = Sent::in_one_slice(size, by_diagonals_from_below(size));
        assert!(!sent.is_yes());
        let (picture, wanted) = (sent.replay(record).unwrap(), sent.in_raster_order().replay(record).unwrap());
        assert!(picture.is_finished() && same_planes(&picture, &wanted));
        assert_eq!(sent.replay(|address| sent.record(address)).err(), Some((1, Refusal::NotReady)));
    }
    // A macroblock that is named twice is always refused, whatever the records read.
    let mut numbers = Numbers(11);
    for _ in 0..500 {
        let (size, slices) = small(&mut numbers);
        let mut order = permitted(size, &slices, &mut numbers);
        let [one, other] = [(); 2].map(|()| numbers.below(size.0 * size.1) as usize);
        order[one] = order[other];
        let sent = Sent::of(size, slices, order);
        assert_eq!(sent.replay(record).is_err(), one != other);
    }
}
