//! The fixed lists: parts, each with the number of its cases in two bytes before it.
use std::io::Write;

#[derive(Default)]
pub struct List(Vec<u8>);

impl List {
    pub fn part(&mut self, cases: usize, mut case: impl FnMut(usize, &mut Vec<u8>)) {
        self.0.extend((cases as u16).to_le_bytes());
        for k in 0..cases {
            case(k, &mut self.0);
        }
    }

    pub fn print(&self) {
        std::io::stdout().write_all(&self.0).unwrap();
    }
}

/// Numbers in three bytes each.
pub fn put(out: &mut Vec<u8>, numbers: &[i32]) {
    for n in numbers {
        out.extend(&(n + 8_388_608).to_le_bytes()[..3]);
    }
}
