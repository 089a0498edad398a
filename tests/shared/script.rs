//! A script program by a model: the lines of a script, and what is printed.

use std::io::{Read, Write};

/// Answers the script on standard input, line by line, up to the first bad one.
pub fn run(answer: impl FnMut(&[u8]) -> Option<String>) {
    let mut input = Vec::new();
    std::io::stdin().read_to_end(&mut input).expect("standard input can be read");
    let output = answers(&input, answer);
    std::io::stdout().write_all(output.as_bytes()).expect("standard output can be written");
}

/// All output lines; the last one tells of a bad line, if there is one.
fn answers(input: &[u8], mut answer: impl FnMut(&[u8]) -> Option<String>) -> String {
    let mut output = String::new();
    let text = input.strip_suffix(b"\n").unwrap_or(input);
    if input.is_empty() {
        return output;
    }
    for (at, line) in text.split(|&byte| byte == b'\n').enumerate() {
        match answer(line) {
            Some(line) => output += &(line + "\n"),
            None => {
                output += &format!("bad line {}\n", at + 1);
                break;
            }
        }
    }
    output
}

/// A plain decimal number of 64 bits; leading zeros are allowed.
pub fn number(word: &str) -> Option<u64> {
    let digits = !word.is_empty() && word.bytes().all(|byte| byte.is_ascii_digit());
    digits.then(|| word.parse().ok()).flatten()
}

/// An answer as the pages write it.
pub fn answer_word(place: usize, answer: u32) -> String {
    const VERDICTS: [&str; 5] =
        ["enqueued", "marked", "dropped-bytes", "dropped-slots", "dropped-early"];
    match (place, answer) {
        (_, 101..=110) => format!("refused {}", answer - 100),
        (1, _) => VERDICTS[answer as usize].to_string(),
        (place, _) => ["made", "", "departed", "ticked"][place].to_string(),
    }
}
