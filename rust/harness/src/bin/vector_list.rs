//! `vector_list FOLDER` writes the fixed list of blocks that others transformed to standard output: the blocks of inverse_4x4.txt and of
//! inverse_8x8.txt in the folder, each file a part. A part is the number of its cases in two bytes, and the cases as the program of crates/vectors
//! reads them: the answer, the coefficients, the residuals. The last part is wrong on purpose, so that the program shows that it sees a difference.
//!
//! A line of a file is a flag, and then the coefficients and the residuals of a block. The flag is 1 where every value on the way is in range. Where it
//! is 0 the answer is 8 and the list has zeros; the file has the residuals of exact arithmetic there too.
use harness::list::{put, List};
use oracle::inverse_8x8::inverse_8x8;
use oracle::{halfway, transform};
use std::path::Path;

/// A block: whether it is in range, its coefficients, and the residuals that exact arithmetic gives.
#[derive(Clone, Copy)]
struct Block<const N: usize> {
    fits: bool,
    deq: [i32; N],
    residual: [i32; N],
}

impl<const N: usize> Block<N> {
    fn read(line: &str) -> Block<N> {
        let numbers: Vec<i32> = line.split_whitespace().map(|n| n.parse().expect("a number")).collect();
        assert_eq!(numbers.len(), 1 + 2 * N, "a flag, the coefficients and the residuals");
        assert!([0, 1].contains(&numbers[0]), "{} is no flag", numbers[0]);
        let (deq, residual) = numbers[1..].split_at(N);
        Block { fits: numbers[0] == 1, deq: deq.try_into().unwrap(), residual: residual.try_into().unwrap() }
    }
}

/// The blocks of a file, both in range and not. The range and the inverse beside which the port is compared must say the same of each.
fn blocks<const N: usize>(file: &Path, inverse: impl Fn(&[i32; N]) -> [i32; N]) -> Vec<Block<N>> {
    let text = std::fs::read_to_string(file).unwrap_or_else(|error| panic!("{}: {error}", file.display()));
    let blocks: Vec<Block<N>> = text.lines().map(Block::read).collect();
    assert!(blocks.len() <= u16::MAX.into(), "{} blocks", blocks.len());
    for block in &blocks {
        assert_eq!(halfway::in_range(&block.deq), block.fits, "the range of {:?}", block.deq);
        assert_eq!(inverse(&block.deq), block.residual, "the residuals of {:?}", block.deq);
    }
    let fit = blocks.iter().filter(|block| block.fits).count();
    assert!(fit >= 50 && blocks.len() - fit >= 50, "{fit} of {} blocks are in range", blocks.len());
    blocks
}

fn part<const N: usize>(list: &mut List, blocks: &[Block<N>]) {
    list.part(blocks.len(), |k, out| {
        let Block { fits, deq, residual } = &blocks[k];
        out.push(if *fits { 0 } else { 8 });
        put(out, deq);
        put(out, if *fits { residual } else { &[0; N] });
    });
}

/// A block that is in range and not flat, whose last residual is one more than it should be.
fn wrong(blocks: &[Block<64>]) -> Block<64> {
    let flat = |block: &Block<64>| block.residual.iter().all(|&v| v == block.residual[0]);
    let mut block = *blocks.iter().find(|block| block.fits && !flat(block)).expect("a block that is in range and not flat");
    block.residual[63] += 1;
    block
}

fn main() {
    let folder = std::env::args().nth(1).expect("the folder of inverse_4x4.txt and inverse_8x8.txt");
    let file = |name: &str| Path::new(&folder).join(name);
    let small = blocks(&file("inverse_4x4.txt"), transform::inverse_core);
    let large = blocks(&file("inverse_8x8.txt"), inverse_8x8);
    let mut list = List::default();
    part(&mut list, &small);
    part(&mut list, &large);
    part(&mut list, &[wrong(&large)]);
    list.print();
}
