//! The 8x8 inverse transform as clause 8.5.13.2 of ITU-T H.264 writes it. The files of the Rust that was ported have none: this one says what is
//! right where the port's is compared, and stands for the Rust in the benchmark.

/// Eight numbers through the clause's steps: d, e, f and g for a row, and for a column g, h, k and m.
#[inline(always)]
fn line(d: [i32; 8]) -> [i32; 8] {
    let e = [
        d[0] + d[4],
        -d[3] + d[5] - d[7] - (d[7] >> 1),
        d[0] - d[4],
        d[1] + d[7] - d[3] - (d[3] >> 1),
        (d[2] >> 1) - d[6],
        -d[1] + d[7] + d[5] + (d[5] >> 1),
        d[2] + (d[6] >> 1),
        d[3] + d[5] + d[1] + (d[1] >> 1),
    ];
    let f = [
        e[0] + e[6],
        e[1] + (e[7] >> 2),
        e[2] + e[4],
        e[3] + (e[5] >> 2),
        e[2] - e[4],
        (e[3] >> 2) - e[5],
        e[0] - e[6],
        e[7] - (e[1] >> 2),
    ];
    [f[0] + f[7], f[2] + f[5], f[4] + f[3], f[6] + f[1], f[6] - f[1], f[4] - f[3], f[2] - f[5], f[0] - f[7]]
}

/// Each row of a block through the steps and into a column: of the forms that were tried the fastest. With the rows left in their place it is
/// slower.
#[inline(always)]
fn rows_into_columns(d: &[i32; 64]) -> [i32; 64] {
    let mut g = [0; 64];
    for i in 0..8 {
        let row = line(std::array::from_fn(|j| d[8 * i + j]));
        for (j, v) in row.into_iter().enumerate() {
            g[8 * j + i] = v;
        }
    }
    g
}

/// The residual of 64 coefficients in -32768..=32767, in raster order. The first pass leaves the block on its side, so that the rows of the second
/// are its columns, and come back into their place.
#[inline(always)]
pub fn inverse_8x8(deq: &[i32; 64]) -> [i32; 64] {
    let g = rows_into_columns(deq);
    let m = rows_into_columns(&g);
    m.map(|v| (v + 32) >> 6)
}
