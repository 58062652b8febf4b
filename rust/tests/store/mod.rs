//! Reads the records of a picture as rust/tests/data/README.md lays them out.

/// A macroblock: kind, luma modes, chroma mode and numbers.
pub type Stored = (u8, [u8; 16], u8, [i32; 384]);

/// A picture: its size in macroblocks, and for each macroblock its slice and its record.
pub struct Pictured {
    pub w: u32,
    pub h: u32,
    pub slices: Vec<u16>,
    pub records: Vec<Stored>,
}

pub fn read(file: &[u8]) -> Pictured {
    let word = |bytes: &[u8], at: usize| u16::from_le_bytes([bytes[at], bytes[at + 1]]);
    let blocks: Vec<&[u8]> = file.chunks_exact(512).map(|block| &block[..508]).collect();
    assert_eq!(&blocks[0][..4], b"RMB1");
    let (w, h) = (word(blocks[0], 4) as u32, word(blocks[0], 6) as u32);
    assert_eq!(blocks.len(), 1 + 2 * (w * h) as usize);
    let (mut slices, mut records) = (Vec::new(), Vec::new());
    for pair in blocks[1..].chunks_exact(2) {
        let content = pair.concat();
        slices.push(word(&content, 18));
        let numbers = std::array::from_fn(|k| word(&content, 20 + 2 * k) as i16 as i32);
        records.push((content[0], content[1..17].try_into().unwrap(), content[17], numbers));
    }
    Pictured { w, h, slices, records }
}
