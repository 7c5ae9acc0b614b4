//! `bitdo WIDTH ORDER MEMORY RIGHT START LEN` runs the commands of its input, one a line, on the bits of a memory, and prints what
//! each answers and the memory that they leave.
//!
//!     echo '0 16 reverse' | cargo run --example bitdo -- 8 lsb0 01,00 - 0 16

mod bitdo;

use fehimbary::memory::Global;
use std::io::{stdin, stdout, BufWriter};
use std::process::ExitCode;

fn main() -> ExitCode {
    let words: Vec<String> = std::env::args().skip(1).collect();
    ExitCode::from(bitdo::work(Global, &words, &mut stdin().lock(), &mut BufWriter::new(stdout().lock())))
}
