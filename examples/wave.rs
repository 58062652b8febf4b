//! How many turns a picture takes, and how many cores have work in each: what a plan for a service asks, for some sizes and slice maps.
//!
//! Each picture is rebuilt turn by turn. Its turns are as many as `turns` has counted beforehand, or the program fails. `make examples` runs it.
use jiwarbend::{turns, ChromaMode, Luma16x16Mode, Picture, Record, Refusal};

/// The most columns and lines of a plot.
const COLUMNS: usize = 64;
const LINES: usize = 5;

/// A picture's turns: how many macroblocks each has, and with which turn each row is done.
struct Wave {
    turns: Vec<usize>,
    rows: Vec<usize>,
}

impl Wave {
    /// Takes whole turns, as several cores would, until the picture is finished.
    fn of(w: u32, h: u32, slices: &[u16]) -> Result<Wave, Refusal> {
        let mut picture = Picture::with_slices(w, h, slices.to_vec())?;
        let record = Record::of_16x16(Luma16x16Mode::Dc, ChromaMode::Dc);
        let (mut turns, mut rows) = (Vec::new(), vec![0; h as usize]);
        while !picture.is_finished() {
            let turn = picture.turn();
            for &(x, y) in &turn {
                picture.rebuild(x, y, &record)?;
                rows[y as usize] = turns.len() + 1;
            }
            turns.push(turn.len());
        }
        Ok(Wave { turns, rows })
    }

    fn most(&self) -> usize {
        self.turns.iter().copied().max().unwrap_or(0)
    }

    /// The lines of the plot, from the top down: a column is so many turns, and as high as they have macroblocks on average.
    fn plot(&self, of_column: usize) -> Vec<String> {
        let (most, lines) = (self.most(), self.most().min(LINES));
        let mark = |line: usize, column: &[usize]| {
            let macroblocks: usize = column.iter().sum();
            let high = 2 * lines * macroblocks >= (2 * line - 1) * most * column.len();
            // No turn is empty.
            if high || line == 1 {
                '#'
            } else {
                ' '
            }
        };
        let line = |line| -> String {
            let columns = self.turns.chunks(of_column);
            columns.map(|column| mark(line, column)).collect()
        };
        (1..=lines).rev().map(line).collect()
    }

    fn show(&self, name: &str) {
        let (many, all) = (self.turns.len(), self.turns.iter().sum::<usize>());
        let mean = all as f64 / many as f64;
        let of_column = (many + COLUMNS - 1) / COLUMNS;
        let most = self.most();
        println!("{name}: {many} turns, of {mean:.1} macroblocks on average and {most} at most");
        for line in self.plot(of_column) {
            println!("  {}", line.trim_end());
        }
        // The first quarter of the rows, the first half, three quarters and all.
        let quarters = (1..=4).map(|k| (self.rows.len() * k + 3) / 4);
        let until = |rows: usize| self.rows[..rows].iter().max().unwrap_or(&0);
        let done: Vec<String> = quarters
            .map(|rows| format!("{rows} after turn {}", until(rows)))
            .collect();
        println!(
            "  turns to a column: {of_column}; rows done: {}\n",
            done.join(", ")
        );
    }
}

fn main() -> Result<(), Refusal> {
    type Slice = fn(u32) -> u32;
    let pictures: [(&str, (u32, u32), Slice); 8] = [
        ("one slice", (11, 9), |_| 0),
        ("one slice", (120, 68), |_| 0),
        ("slices of 400 macroblocks", (120, 68), |a| a / 400),
        ("one slice", (1, 9), |_| 0),
        ("four slices of whole rows", (40, 22), |a| a / 40 / 6),
        ("a slice for each row", (40, 22), |a| a / 40),
        ("slices of 150 macroblocks", (40, 22), |a| a / 150),
        ("a checkerboard of slices", (40, 22), |a| (a / 40 + a) % 2),
    ];
    for (name, (w, h), slice) in pictures {
        // The slice of each macroblock by its address.
        let slices: Vec<u16> = (0..w * h).map(|a| slice(a) as u16).collect();
        let counted = turns(w, h, &slices)?;
        let wave = Wave::of(w, h, &slices)?;
        assert_eq!(wave.turns.len(), counted as usize);
        assert_eq!(wave.turns.iter().sum::<usize>(), slices.len());
        wave.show(&format!("{w} by {h}, {name}"));
    }
    Ok(())
}
