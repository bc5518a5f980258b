//! The table on the screen, and the same figures as lines of a file.

use crate::ops::Op;
use crate::timing::{self, Pair};

/// What is said above the table.
const HEAD: &str = "\
Nanoseconds of one call: the median of the rounds (and the least), with the compiled library and with the Rust baseline, in turn, on the same
bytes, in one run. A round is a batch of calls, each on buffers of its own. Buffers are put back to the operation's start before each round,
outside of the timed part; the time of the clock and of an empty loop is taken off both alike. Ratio: library / Rust, the median of the rounds'
ratios, which two rounds that follow each other give.";

pub struct Report {
    lines: Vec<String>,
}

impl Report {
    pub fn new() -> Report {
        println!("\n{HEAD}\n");
        Report { lines: HEAD.lines().map(|line| format!("# {line}")).collect() }
    }

    /// Times every operation and prints its row.
    pub fn operations(&mut self, ops: &[Op], rounds: usize) {
        println!("{:20} {:34} {:>19} {:>19} {:>7}", "", "operation", "library (least)", "Rust (least)", "ratio");
        let mut group = "";
        for op in ops {
            let batch = if op.group == "transaction" { 1 } else { 16 };
            let pair = timing::time(op, batch, rounds);
            let shown = if op.group == group { "" } else { op.group };
            group = op.group;
            println!("{shown:20} {:34} {} {:7.2}", op.name, columns(pair), pair.ratio);
            self.lines.push(format!("operation\t{}\t{}\t{}", op.group, op.name, figures(pair)));
        }
    }

    /// The head of a curve.
    pub fn curve(&mut self, name: &str, unit: &str) {
        println!("\n{name}\n{unit:>24} {:>19} {:>19} {:>7}", "library (least)", "Rust (least)", "ratio");
    }

    /// A point of a curve.
    pub fn point(&mut self, name: &str, unit: &str, x: usize, pair: Pair) {
        println!("{x:24} {} {:7.2}", columns(pair), pair.ratio);
        self.lines.push(format!("growth\t{name}\t{unit}\t{x}\t{}", figures(pair)));
    }

    pub fn save(&self, path: &str) -> std::io::Result<()> {
        std::fs::write(path, self.lines.join("\n") + "\n")
    }
}

fn columns(pair: Pair) -> String {
    let Pair { product, rust, .. } = pair;
    format!("{:9.1} {:>9} {:9.1} {:>9}", product.median, format!("({:.1})", product.least), rust.median, format!("({:.1})", rust.least))
}

fn figures(pair: Pair) -> String {
    let Pair { product, rust, .. } = pair;
    format!("{:.1}\t{:.1}\t{:.1}\t{:.1}\t{:.4}", product.median, product.least, rust.median, rust.least, pair.ratio)
}
