//! `bitdo` for a page: runs lines of commands on a memory, through `run_fields` of the package for Rust.
//!
//! The page writes a text where `room` says, `run` makes the reply of it, and `reply` says where that stands. The text has
//! the six words of `bitdo` on its first line and a command on each other one; the reply is what `bitdo` prints. Beside its
//! commands there are `load_le`, `load_be`, and `store_le` and `store_be` with a number.

use fehimbary::cells::{Exclusive, Shared};
use fehimbary::index::Window;
use fehimbary::memory::Global;
use fehimbary::prelude::*;
use fehimbary::run::{run as run_steps, run_fields, FieldOp, FieldStep, Op, Reply, RunError, Step};
use std::str::FromStr;
use std::sync::Mutex;

static TEXT: Mutex<Vec<u8>> = Mutex::new(Vec::new());

/// Makes room for a text of so many bytes, and says where it is.
#[no_mangle]
pub extern "C" fn room(len: usize) -> *mut u8 {
    let mut text = TEXT.lock().unwrap();
    *text = vec![0; len];
    text.as_mut_ptr()
}

/// Runs the text that was written, and says how long the reply is, which stands in its place.
#[no_mangle]
pub extern "C" fn run() -> usize {
    let mut text = TEXT.lock().unwrap();
    *text = printed(&String::from_utf8_lossy(&text)).into_bytes();
    text.len()
}

/// Where the reply stands.
#[no_mangle]
pub extern "C" fn reply() -> *const u8 {
    TEXT.lock().unwrap().as_ptr()
}

/// What a run prints, or the line of its fault.
fn printed(text: &str) -> String {
    let (head, lines) = text.split_once('\n').unwrap_or((text, ""));
    let words: Vec<&str> = head.split(' ').collect();
    of_words(&words, lines).unwrap_or_else(|fault| format!("{fault}\n"))
}

fn of_words(words: &[&str], lines: &str) -> Result<String, String> {
    match words {
        [width, "lsb0", rest @ ..] => of_width::<Lsb0>(width, rest, lines),
        [width, "msb0", rest @ ..] => of_width::<Msb0>(width, rest, lines),
        [width, "hilo", rest @ ..] => of_width::<HiLo>(width, rest, lines),
        _ => Err(bad_arguments()),
    }
}

fn of_width<O: Runs>(width: &str, words: &[&str], lines: &str) -> Result<String, String> {
    match width {
        "8" => of_elements::<u8, O>(words, lines),
        "16" => of_elements::<u16, O>(words, lines),
        "32" => of_elements::<u32, O>(words, lines),
        "64" => of_elements::<u64, O>(words, lines),
        _ => Err(bad_arguments()),
    }
}

fn of_elements<T: BitStore, O: Runs>(words: &[&str], lines: &str) -> Result<String, String> {
    let (mut elements, right, window) = arguments::<T>(words).ok_or_else(bad_arguments)?;
    let steps = steps(lines)?;
    let replies = O::replies(&mut elements, window, &right, &steps)?;
    Ok(format!("{replies}= {}\n", shown(&elements)))
}

/// An order under which steps are run.
trait Runs {
    /// The lines of the replies, or of the fault.
    fn replies<T: BitStore>(elements: &mut [T], window: Window, right: &[T], steps: &[FieldStep]) -> Result<String, String>;
}

macro_rules! runs_with_numbers {
    ($($order:ty)*) => {$(
        impl Runs for $order {
            fn replies<T: BitStore>(elements: &mut [T], window: Window, right: &[T], steps: &[FieldStep]) -> Result<String, String> {
                let replies = run_fields::<$order, _, _, _>(Global, &mut Exclusive::new(elements), window, &mut Shared::new(right), steps);
                Ok(replies.map_err(error)?.iter().map(line).collect())
            }
        }
    )*};
}

runs_with_numbers!(Lsb0 Msb0);

impl Runs for HiLo {
    fn replies<T: BitStore>(elements: &mut [T], window: Window, right: &[T], steps: &[FieldStep]) -> Result<String, String> {
        let plain = |it: &FieldStep| match it.op {
            FieldOp::Plain(op) => Ok(Step { from: it.from, to: it.to, op }),
            _ => Err("no numbers under hilo".to_string()),
        };
        let steps = steps.iter().map(plain).collect::<Result<Vec<Step>, String>>()?;
        let replies = run_steps::<HiLo, _, _, _>(Global, &mut Exclusive::new(elements), window, &mut Shared::new(right), &steps);
        Ok(replies.map_err(error)?.iter().map(line).collect())
    }
}

fn error(error: RunError) -> String {
    format!("run error: {}", format!("{error:?}").to_lowercase())
}

/// The two memories and the window of the last four words.
fn arguments<T: BitStore>(words: &[&str]) -> Option<(Vec<T>, Vec<T>, Window)> {
    match words {
        [memory, right, start, len] => Some((elements(memory)?, elements(right)?, window(start, len)?)),
        _ => None,
    }
}

fn bad_arguments() -> String {
    "bad arguments".to_string()
}

/// The number of a word of digits.
fn number<N: FromStr>(word: &str) -> Option<N> {
    let is_plain = !word.is_empty() && word.bytes().all(|it| it.is_ascii_digit());
    word.parse().ok().filter(|_| is_plain)
}

fn bit(word: &str) -> Option<bool> {
    match word {
        "0" => Some(false),
        "1" => Some(true),
        _ => None,
    }
}

fn window(start: &str, len: &str) -> Option<Window> {
    Some(Window { start: number(start)?, len: number(len)? })
}

/// The elements of a text: hexadecimal digits joined by commas, or `-` for none.
fn elements<T: BitStore>(text: &str) -> Option<Vec<T>> {
    let element = |word: &str| {
        let is_whole = word.len() == T::BITS as usize / 4 && word.bytes().all(|it| it.is_ascii_hexdigit());
        u128::from_str_radix(word, 16).ok().filter(|_| is_whole).map(T::from_u128)
    };
    if text == "-" { Some(Vec::new()) } else { text.split(',').map(element).collect() }
}

fn shown<T: BitStore>(elements: &[T]) -> String {
    let digits = T::BITS as usize / 4;
    let words: Vec<String> = elements.iter().map(|it| format!("{:0digits$X}", it.to_u128())).collect();
    if words.is_empty() { "-".to_string() } else { words.join(",") }
}

/// A line without its end: a line feed, and a carriage return before it.
fn without_end(line: &str) -> &str {
    line.strip_suffix('\n').map_or(line, |it| it.strip_suffix('\r').unwrap_or(it))
}

/// The steps of the lines, or which line is bad.
fn steps(lines: &str) -> Result<Vec<FieldStep>, String> {
    let lines = lines.split_inclusive('\n').map(without_end).enumerate().filter(|(_, line)| !line.is_empty());
    lines.map(|(index, line)| step(line).ok_or_else(|| format!("bad line {}", index + 1))).collect()
}

fn step(line: &str) -> Option<FieldStep> {
    let words: Vec<&str> = line.split(' ').collect();
    match words.as_slice() {
        [from, to, command, arguments @ ..] => {
            let op = field(command, arguments).or_else(|| plain(command, arguments).map(FieldOp::Plain))?;
            Some(FieldStep { from: number(from)?, to: number(to)?, op })
        }
        _ => None,
    }
}

fn field(command: &str, arguments: &[&str]) -> Option<FieldOp> {
    Some(match (command, arguments) {
        ("load_le", []) => FieldOp::LoadLe,
        ("load_be", []) => FieldOp::LoadBe,
        ("store_le", [value]) => FieldOp::StoreLe(number(value)?),
        ("store_be", [value]) => FieldOp::StoreBe(number(value)?),
        _ => return None,
    })
}

fn plain(command: &str, arguments: &[&str]) -> Option<Op> {
    Some(match arguments {
        [] => bare(command)?,
        [word] => counted(command, word)?,
        [first, second] => paired(command, first, second)?,
        [from, to, dest] if command == "copy_within" => Op::CopyWithin(number(from)?, number(to)?, number(dest)?),
        _ => return None,
    })
}

fn bare(command: &str) -> Option<Op> {
    Some(match command {
        "invert" => Op::Invert,
        "reverse" => Op::Reverse,
        "count_ones" => Op::CountOnes,
        "count_zeros" => Op::CountZeros,
        "first_one" => Op::FirstOne,
        "first_zero" => Op::FirstZero,
        "last_one" => Op::LastOne,
        "last_zero" => Op::LastZero,
        "any" => Op::Any,
        "all" => Op::All,
        _ => return None,
    })
}

fn counted(command: &str, word: &str) -> Option<Op> {
    Some(match command {
        "fill" => Op::Fill(bit(word)?),
        "get" => Op::Get(number(word)?),
        "shift_start" => Op::ShiftStart(number(word)?),
        "shift_end" => Op::ShiftEnd(number(word)?),
        "rotate_left" => Op::RotateLeft(number(word)?),
        "rotate_right" => Op::RotateRight(number(word)?),
        _ => return None,
    })
}

fn paired(command: &str, first: &str, second: &str) -> Option<Op> {
    Some(match command {
        "set" => Op::Set(number(first)?, bit(second)?),
        "replace" => Op::Replace(number(first)?, bit(second)?),
        "swap" => Op::Swap(number(first)?, number(second)?),
        "copy_from" => Op::CopyFrom(window(first, second)?),
        "and" => Op::And(window(first, second)?),
        "or" => Op::Or(window(first, second)?),
        "xor" => Op::Xor(window(first, second)?),
        "eq" => Op::Eq(window(first, second)?),
        "cmp" => Op::Cmp(window(first, second)?),
        "starts_with" => Op::StartsWith(window(first, second)?),
        "ends_with" => Op::EndsWith(window(first, second)?),
        "contains" => Op::Contains(window(first, second)?),
        _ => return None,
    })
}

/// The line of a reply.
fn line(reply: &Reply) -> String {
    match reply {
        Reply::Done => "done\n".to_string(),
        Reply::Bit(bit) => format!("bit {}\n", u8::from(*bit)),
        Reply::Count(count) => format!("count {count}\n"),
        Reply::Index(Some(index)) => format!("index {index}\n"),
        Reply::Index(None) => "index none\n".to_string(),
        Reply::Order(order) => format!("order {}\n", format!("{order:?}").to_lowercase()),
        Reply::Number(number) => format!("number {number}\n"),
        Reply::Refused(why) => format!("refused {}\n", format!("{why:?}").to_lowercase()),
    }
}
