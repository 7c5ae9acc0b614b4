//! The rows of the program `bitdo` whose commands are run, through `run`: replies and memory are those that the table says.

mod rows;

use fehimbary::cells::{Exclusive, Shared};
use fehimbary::index::Window;
use fehimbary::memory::Global;
use fehimbary::prelude::*;
use fehimbary::run::{run, Op, Refusal, Reply, Step};

/// The number of a word. One that no `usize` has is the greatest that there is, which lies behind each end too.
fn number_of(word: &str) -> usize {
    let number: u64 = word.parse().expect("a number");
    usize::try_from(number).unwrap_or(usize::MAX)
}

/// The command of a line's words, behind the two ends of its sub-range.
fn command(words: &[&str]) -> Op {
    let number = |place: usize| number_of(words[place]);
    let bit = |place: usize| words[place] == "1";
    let window = || Window { start: number(1), len: number(2) };
    match words[0] {
        "get" => Op::Get(number(1)),
        "set" => Op::Set(number(1), bit(2)),
        "replace" => Op::Replace(number(1), bit(2)),
        "swap" => Op::Swap(number(1), number(2)),
        "fill" => Op::Fill(bit(1)),
        "invert" => Op::Invert,
        "reverse" => Op::Reverse,
        "shift_start" => Op::ShiftStart(number(1)),
        "shift_end" => Op::ShiftEnd(number(1)),
        "rotate_left" => Op::RotateLeft(number(1)),
        "rotate_right" => Op::RotateRight(number(1)),
        "copy_within" => Op::CopyWithin(number(1), number(2), number(3)),
        "copy_from" => Op::CopyFrom(window()),
        "and" => Op::And(window()),
        "or" => Op::Or(window()),
        "xor" => Op::Xor(window()),
        "eq" => Op::Eq(window()),
        "cmp" => Op::Cmp(window()),
        "starts_with" => Op::StartsWith(window()),
        "ends_with" => Op::EndsWith(window()),
        "contains" => Op::Contains(window()),
        "count_ones" => Op::CountOnes,
        "count_zeros" => Op::CountZeros,
        "first_one" => Op::FirstOne,
        "first_zero" => Op::FirstZero,
        "last_one" => Op::LastOne,
        "last_zero" => Op::LastZero,
        "any" => Op::Any,
        "all" => Op::All,
        word => panic!("no command {word}"),
    }
}

fn step(line: &str) -> Step {
    let words: Vec<&str> = line.trim_end_matches('\r').split(' ').collect();
    let end = |place: usize| number_of(words[place]);
    Step { from: end(0), to: end(1), op: command(&words[2..]) }
}

fn refusal(why: Refusal) -> String {
    format!("{why:?}").to_lowercase()
}

fn reply(reply: &Reply) -> String {
    match reply {
        Reply::Done => "done\n".to_string(),
        Reply::Bit(bit) => format!("bit {}\n", u8::from(*bit)),
        Reply::Count(count) => format!("count {count}\n"),
        Reply::Index(Some(index)) => format!("index {index}\n"),
        Reply::Index(None) => "index none\n".to_string(),
        Reply::Order(order) => format!("order {}\n", format!("{order:?}").to_lowercase()),
        Reply::Number(number) => format!("number {number}\n"),
        Reply::Refused(why) => format!("refused {}\n", refusal(*why)),
    }
}

fn elements<T: BitStore>(text: &str) -> Vec<T> {
    let number = |digits| T::from_u128(u128::from_str_radix(digits, 16).expect("digits"));
    text.split(',').filter(|digits| *digits != "-").map(number).collect()
}

fn memory<T: BitStore>(elements: &[T]) -> String {
    let digits = T::BITS as usize / 4;
    let texts: Vec<String> = elements.iter().map(|it| format!("{:0digits$X}", it.to_u128())).collect();
    if texts.is_empty() { "-".to_string() } else { texts.join(",") }
}

/// What a run prints.
fn printed<T: BitStore, O: SliceOrder>(words: &[&str; 6], input: &str) -> String {
    let (mut left, right) = (elements::<T>(words[2]), elements::<T>(words[3]));
    let window = Window { start: number_of(words[4]), len: number_of(words[5]) };
    let steps: Vec<Step> = input.lines().filter(|line| !line.trim_end_matches('\r').is_empty()).map(step).collect();
    let replies = run::<O, _, _, _>(Global, &mut Exclusive::new(&mut left), window, &mut Shared::new(&right), &steps);
    let replies: String = replies.expect("a run").iter().map(reply).collect();
    format!("{replies}= {}\n", memory(&left))
}

fn of_width<O: SliceOrder>(words: &[&str; 6], input: &str) -> String {
    match words[0] {
        "8" => printed::<u8, O>(words, input),
        "16" => printed::<u16, O>(words, input),
        "32" => printed::<u32, O>(words, input),
        "64" => printed::<u64, O>(words, input),
        _ => printed::<u128, O>(words, input),
    }
}

#[test]
fn runs_reply_and_leave_what_the_table_says() {
    for (line, words, input, wanted) in rows::ROWS {
        let made = match words[1] {
            "lsb0" => of_width::<Lsb0>(words, input),
            "msb0" => of_width::<Msb0>(words, input),
            _ => of_width::<HiLo>(words, input),
        };
        assert_eq!(made, *wanted, "golden/bitdo.txt:{line}");
    }
}
