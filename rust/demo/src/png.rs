//! A PNG of 8-bit RGB, its data in stored blocks.

fn crc(bytes: &[u8]) -> u32 {
    !bytes.iter().fold(!0, |mut c, &b| {
        c ^= b as u32;
        for _ in 0..8 {
            c = if c & 1 == 1 { c >> 1 ^ 0xedb8_8320 } else { c >> 1 };
        }
        c
    })
}

fn adler(bytes: &[u8]) -> u32 {
    let (a, b) = bytes.iter().fold((1u32, 0u32), |(a, b), &v| {
        let a = (a + v as u32) % 65521;
        (a, (a + b) % 65521)
    });
    b << 16 | a
}

fn chunk(out: &mut Vec<u8>, name: &[u8; 4], data: &[u8]) {
    out.extend((data.len() as u32).to_be_bytes());
    let from = out.len();
    out.extend(name);
    out.extend(data);
    out.extend(crc(&out[from..]).to_be_bytes());
}

fn stored(bytes: &[u8]) -> Vec<u8> {
    let mut out = vec![0x78, 0x01];
    let blocks = bytes.chunks(65535);
    let last = blocks.len() - 1;
    for (i, block) in blocks.enumerate() {
        out.push((i == last) as u8);
        out.extend((block.len() as u16).to_le_bytes());
        out.extend((!(block.len() as u16)).to_le_bytes());
        out.extend(block);
    }
    out.extend(adler(bytes).to_be_bytes());
    out
}

/// The file of `width` by `height` samples, row by row.
pub fn encode(width: usize, height: usize, rgb: &[[u8; 3]]) -> Vec<u8> {
    let mut header = Vec::new();
    header.extend((width as u32).to_be_bytes());
    header.extend((height as u32).to_be_bytes());
    header.extend([8, 2, 0, 0, 0]);
    let mut rows = Vec::new();
    for row in rgb.chunks(width) {
        rows.push(0);
        rows.extend(row.iter().flatten());
    }
    let mut out = b"\x89PNG\r\n\x1a\n".to_vec();
    chunk(&mut out, b"IHDR", &header);
    chunk(&mut out, b"IDAT", &stored(&rows));
    chunk(&mut out, b"IEND", &[]);
    out
}
