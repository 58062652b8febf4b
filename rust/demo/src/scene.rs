//! The sample picture: an evening by the water under the library's name.

/// A picture in three planes, chroma at half the size.
pub struct Scene {
    pub width: usize,
    pub height: usize,
    pub luma: Vec<u8>,
    pub cb: Vec<u8>,
    pub cr: Vec<u8>,
}

type Colour = [f32; 3];

fn mix(a: Colour, b: Colour, t: f32) -> Colour {
    let t = t.clamp(0.0, 1.0);
    std::array::from_fn(|k| a[k] + (b[k] - a[k]) * t)
}

fn step(from: f32, to: f32, v: f32) -> f32 {
    let t = ((v - from) / (to - from)).clamp(0.0, 1.0);
    t * t * (3.0 - 2.0 * t)
}

/// The letters of the name, seven rows of five.
const LETTERS: [[u8; 7]; 9] = [
    [0b00111, 0b00010, 0b00010, 0b00010, 0b00010, 0b10010, 0b01100], // J
    [0b01110, 0b00100, 0b00100, 0b00100, 0b00100, 0b00100, 0b01110], // I
    [0b10001, 0b10001, 0b10001, 0b10101, 0b10101, 0b11011, 0b10001], // W
    [0b01110, 0b10001, 0b10001, 0b11111, 0b10001, 0b10001, 0b10001], // A
    [0b11110, 0b10001, 0b10001, 0b11110, 0b10100, 0b10010, 0b10001], // R
    [0b11110, 0b10001, 0b10001, 0b11110, 0b10001, 0b10001, 0b11110], // B
    [0b11111, 0b10000, 0b10000, 0b11110, 0b10000, 0b10000, 0b11111], // E
    [0b10001, 0b11001, 0b10101, 0b10011, 0b10001, 0b10001, 0b10001], // N
    [0b11110, 0b10001, 0b10001, 0b10001, 0b10001, 0b10001, 0b11110], // D
];

fn in_name(x: f32, y: f32, size: f32) -> bool {
    let (column, row) = ((x / size).floor(), (y / size).floor());
    if !(0.0..54.0).contains(&column) || !(0.0..7.0).contains(&row) {
        return false;
    }
    let (letter, bit) = (column as usize / 6, column as usize % 6);
    bit < 5 && LETTERS[letter][row as usize] >> (4 - bit) & 1 == 1
}

fn hill(x: f32, base: f32, tall: f32, long: f32, at: f32) -> f32 {
    base - tall * (0.6 * ((x + at) / long).sin() + 0.4 * ((x + 2.0 * at) / long * 2.3).sin())
}

/// The colour at a point of a picture of 640 by 352.
fn colour(x: f32, y: f32) -> Colour {
    let (sun_x, sun_y) = (452.0, 150.0);
    let horizon = 214.0;
    let from_sun = ((x - sun_x).powi(2) + (y - sun_y).powi(2)).sqrt();
    let mut c = if y < horizon {
        let sky = mix([34.0, 46.0, 104.0], [246.0, 168.0, 96.0], (y / horizon).powf(1.4));
        mix(sky, [255.0, 226.0, 160.0], 0.75 * (-from_sun / 70.0).exp())
    } else {
        let depth = (y - horizon) / (352.0 - horizon);
        let water = mix([196.0, 132.0, 96.0], [14.0, 40.0, 74.0], depth.powf(0.6));
        let wave = ((y - horizon).powf(1.35) * 0.9 + 2.5 * (x / (9.0 + 40.0 * depth)).sin()).sin();
        let path = (-(x - sun_x).abs() / (26.0 + 130.0 * depth)).exp();
        mix(water, [255.0, 214.0, 140.0], (0.35 + 0.35 * wave) * path)
    };
    if y < horizon {
        c = mix(c, [255.0, 240.0, 200.0], 1.0 - step(33.0, 35.0, from_sun));
        let far = hill(x, 186.0, 16.0, 61.0, 20.0);
        c = mix(c, [112.0, 92.0, 122.0], step(far - 0.7, far + 0.7, y));
        let near = hill(x, 204.0, 20.0, 93.0, 410.0);
        c = mix(c, [52.0, 60.0, 84.0], step(near - 0.7, near + 0.7, y));
    }
    // A mill on the left shore: a tower, and four sails that turn.
    let (mill_x, mill_y) = (108.0, 152.0);
    let (dx, dy) = (x - mill_x, y - mill_y);
    if dy > 0.0 && y < 232.0 && dx.abs() < 9.0 + 0.14 * dy {
        let brick = ((y / 5.0).floor() as i32 + (x / 8.0).floor() as i32) % 2 == 0;
        c = if brick { [92.0, 52.0, 44.0] } else { [78.0, 44.0, 40.0] };
        if dx.abs() < 4.0 && (150.0 - mill_y + 40.0..150.0 - mill_y + 54.0).contains(&dy) {
            c = [250.0, 222.0, 130.0];
        }
    }
    let turn = 0.42f32;
    for k in 0..4 {
        let a = turn + k as f32 * std::f32::consts::FRAC_PI_2;
        let (along, across) = (dx * a.cos() + dy * a.sin(), dy * a.cos() - dx * a.sin());
        if (3.0..62.0).contains(&along) && (0.0..13.0).contains(&across) && along > 12.0 {
            let lattice = along.rem_euclid(10.0) < 2.0 || across.rem_euclid(6.0) < 1.5;
            c = if lattice { [60.0, 44.0, 40.0] } else { mix(c, [236.0, 226.0, 206.0], 0.8) };
        } else if (0.0..62.0).contains(&along) && across.abs() < 1.6 {
            c = [60.0, 44.0, 40.0];
        }
    }
    // The name, with a shadow, and its trembling likeness in the water.
    let size = 10.0;
    let (name_x, name_y) = (50.0, 34.0);
    if in_name(x - name_x - 3.0, y - name_y - 3.0, size) {
        c = mix(c, [10.0, 14.0, 40.0], 0.6);
    }
    if in_name(x - name_x, y - name_y, size) {
        c = mix([255.0, 250.0, 236.0], [255.0, 206.0, 120.0], (y - name_y) / (7.0 * size));
    }
    let likeness_y = 104.0 - (y - 236.0) * 0.75;
    let likeness_x = x + 2.5 * (y / 3.1).sin();
    if y > 236.0 && in_name(likeness_x - name_x, likeness_y - name_y, size) {
        c = mix(c, [255.0, 226.0, 170.0], 0.30);
    }
    c
}

impl Scene {
    /// The scene at 640 by 352, each sample the mean of sixteen points.
    pub fn draw() -> Scene {
        let (width, height) = (640, 352);
        let pixel = |x: usize, y: usize| {
            let mut sum = [0.0; 3];
            for k in 0..16 {
                let at = |n: usize, k: usize| n as f32 + (k as f32 + 0.5) / 4.0;
                let c = colour(at(x, k % 4), at(y, k / 4));
                (0..3).for_each(|i| sum[i] += c[i] / 16.0);
            }
            sum
        };
        let rgb: Vec<Colour> = (0..width * height).map(|i| pixel(i % width, i / width)).collect();
        let byte = |v: f32| v.round().clamp(0.0, 255.0) as u8;
        let luma = rgb.iter().map(|c| byte(0.299 * c[0] + 0.587 * c[1] + 0.114 * c[2])).collect();
        let chroma = |weights: [f32; 3]| {
            let (w, h) = (width / 2, height / 2);
            let at = |i: usize| {
                let (x, y) = (i % w * 2, i / w * 2);
                let four = [(x, y), (x + 1, y), (x, y + 1), (x + 1, y + 1)];
                let mean = |k: usize| four.iter().map(|&(x, y)| rgb[y * width + x][k]).sum::<f32>() / 4.0;
                byte(128.0 + (0..3).map(|k| weights[k] * mean(k)).sum::<f32>())
            };
            (0..w * h).map(at).collect()
        };
        Scene { width, height, luma, cb: chroma([-0.168736, -0.331264, 0.5]), cr: chroma([0.5, -0.418688, -0.081312]) }
    }
}

/// Planes as RGB.
pub fn to_rgb(width: usize, luma: &[u8], cb: &[u8], cr: &[u8]) -> Vec<[u8; 3]> {
    let byte = |v: f32| v.round().clamp(0.0, 255.0) as u8;
    (0..luma.len())
        .map(|i| {
            let c = i / width / 2 * (width / 2) + i % width / 2;
            let (y, b, r) = (luma[i] as f32, cb[c] as f32 - 128.0, cr[c] as f32 - 128.0);
            [byte(y + 1.402 * r), byte(y - 0.344136 * b - 0.714136 * r), byte(y + 1.772 * b)]
        })
        .collect()
}
