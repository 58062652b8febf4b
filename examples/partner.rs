//! A partner's scheduler decides in which order the macroblocks of a picture are rebuilt, and sends a list. The service checks it before it starts: a list
//! that passes is replayed without a refusal, and of one that does not pass the check tells which entry is the first out of place.
//!
//! The program fails if anything is not as it says. `make examples` runs it.
use jiwarbend::{check_order, ChromaMode, Luma16x16Mode, LumaMode, Picture};
use jiwarbend::{Record, Refusal, Verdict};

const W: u32 = 20;
const H: u32 = 12;
const DIAGONALS: u32 = W + H - 1;

/// The addresses of the macroblocks with x + y = d, from the top right end of the diagonal down to the left.
fn diagonal(d: u32) -> impl DoubleEndedIterator<Item = u32> {
    let rows = (0..H).filter(move |&y| y <= d && d - y < W);
    rows.map(move |y| y * W + d - y)
}

/// A record that reads from every neighbour that the macroblock has. A real service has it from its parser.
fn record(address: u32) -> Record {
    let (left, above) = (address % W > 0, address >= W);
    let chroma = if left && above {
        ChromaMode::Plane
    } else {
        ChromaMode::Dc
    };
    // One of the sixteen blocks reads what is above and to the right.
    let mut record = if above {
        Record::of_4x4([LumaMode::DiagonalDownLeft; 16], chroma)
    } else {
        Record::of_16x16(Luma16x16Mode::Dc, chroma)
    };
    for block in 0..24 {
        record.numbers[16 * block] = (address as usize * 7 + block * 5) as i32 % 33 * 64 - 1024;
    }
    record
}

/// Rebuilds a picture in the order of a list. If a macroblock is refused, it gives the place of its entry and the refusal.
fn replay(order: &[u32]) -> Result<Picture, (usize, Refusal)> {
    let mut picture = Picture::new(W, H).expect("a size that fits");
    for (place, &address) in order.iter().enumerate() {
        let answer = picture.rebuild(address % W, address / W, &record(address));
        answer.map_err(|refusal| (place, refusal))?;
    }
    Ok(picture)
}

fn is_same(a: &Picture, b: &Picture) -> bool {
    a.luma() == b.luma() && a.cb() == b.cb() && a.cr() == b.cr()
}

/// What the service does with a list that was sent: if it passes, it is replayed, and else it is sent back with what the check tells.
fn serve(order: &[u32]) -> Result<Picture, String> {
    let slices = [0; (W * H) as usize];
    match check_order(W, H, &slices, order) {
        Ok(Verdict::Yes) => Ok(replay(order).expect("a list that passes meets no refusal")),
        Ok(Verdict::No { place, address }) => {
            let (x, y) = (address % W, address / W);
            Err(format!(
                "entry {place}, macroblock ({x}, {y}), is out of place"
            ))
        }
        Err(refusal) => Err(refusal.to_string()),
    }
}

fn main() {
    let raster: Vec<u32> = (0..W * H).collect();
    let wanted = serve(&raster).expect("raster order passes");

    let sent: Vec<u32> = (0..DIAGONALS).flat_map(diagonal).collect();
    let picture = serve(&sent).expect("these diagonals pass");
    assert!(picture.is_finished() && is_same(&picture, &wanted));
    println!("diagonals from the top right: replayed, and the picture is that of raster order");

    // Of two on a diagonal, the one above and to the right comes second.
    let upwards: Vec<u32> = (0..DIAGONALS).flat_map(|d| diagonal(d).rev()).collect();
    let told = serve(&upwards).expect_err("these diagonals do not pass");
    assert_eq!(told, "entry 1, macroblock (0, 1), is out of place");
    // These records read from every neighbour, and so a replay is refused at the same entry.
    assert_eq!(replay(&upwards).err(), Some((1, Refusal::NotReady)));
    println!("diagonals from the bottom left: {told}");

    let mut twice = sent.clone();
    twice[100] = twice[99];
    let told = serve(&twice).expect_err("a macroblock twice does not pass");
    assert_eq!(told, "entry 100, macroblock (4, 9), is out of place");
    assert_eq!(replay(&twice).err(), Some((100, Refusal::Done)));
    println!("a macroblock twice: {told}");

    let mut outside = sent;
    outside[100] = W * H;
    let told = serve(&outside).expect_err("an address outside the picture is refused");
    assert_eq!(told, Refusal::Order.to_string());
    println!("an address outside the picture: {told}");
}
