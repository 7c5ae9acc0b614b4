//! The rows of the program `bitdo`: what it prints, and the status that it ends with.

#[path = "../../examples/bitdo/bitdo/mod.rs"]
mod bitdo;
mod rows;

use fehimbary::memory::Global;

#[test]
fn the_program_prints_what_its_table_says() {
    for (line, words, input, status, printed) in rows::ROWS {
        let words: Vec<String> = words.iter().map(|word| word.to_string()).collect();
        let mut output = Vec::new();
        let ended = bitdo::work(Global, &words, &mut &input[..], &mut output);
        assert_eq!(String::from_utf8(output).as_deref(), Ok(*printed), "golden/bitdo.txt:{line}");
        assert_eq!(ended, *status, "golden/bitdo.txt:{line}");
    }
    assert!(rows::ROWS.len() > 100);
}
