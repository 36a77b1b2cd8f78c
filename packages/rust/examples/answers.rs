//! Answers each line of standard input with `yes`, `no` or the error. A line has a call and its arguments, blanks between them: what is
//! agreed, numbers in decimal, byte strings in hexadecimal, lists of them with commas between; `-` stands for nothing.

use gawerunoa::{check_absence, check_operation, check_range, check_value, Agreed, Error, Family, Hash, Keys, Strings, Values};
use std::io::{stdin, BufRead};

struct Words<'a>(std::str::Split<'a, char>);

impl Words<'_> {
    fn word(&mut self) -> &str {
        self.0.next().expect("a line is too short")
    }

    fn number<T: std::str::FromStr>(&mut self) -> T
    where
        T::Err: std::fmt::Debug,
    {
        self.word().parse().expect("no number")
    }

    fn bytes(&mut self) -> Vec<u8> {
        bytes(self.word())
    }

    fn list(&mut self) -> (Vec<u8>, Vec<usize>) {
        let word = self.word();
        let strings: Vec<_> = if word == "-" { Vec::new() } else { word.split(',').map(bytes).collect() };
        (strings.concat(), strings.iter().map(Vec::len).collect())
    }

    fn agreed(&mut self) -> Agreed {
        let family = if self.word() == "0" { Family::Mmr } else { Family::Mmb };
        let hash = if self.word() == "0" { Hash::Sha256 } else { Hash::Sha512 };
        Agreed { family, hash, chunk_size: self.number() }
    }
}

fn bytes(word: &str) -> Vec<u8> {
    let digits = if word == "-" { "" } else { word };
    (0..digits.len()).step_by(2).map(|at| u8::from_str_radix(&digits[at..at + 2], 16).expect("no hexadecimal")).collect()
}

fn asked(line: &str) -> Result<bool, Error> {
    let mut words = Words(line.split(' '));
    let call = words.word().to_string();
    let agreed = words.agreed();
    match call.as_str() {
        "operation" => check_operation(agreed, words.number(), &words.bytes(), &words.bytes(), &words.bytes()),
        "range" => {
            let (max_digests, start, proof) = (words.number(), words.number(), words.bytes());
            let ((operations, lengths), (chunks, sizes)) = (words.list(), words.list());
            let operations = Strings { bytes: &operations, lengths: &lengths };
            let chunks = Strings { bytes: &chunks, lengths: &sizes };
            check_range(agreed, max_digests, start, &proof, operations, chunks, &words.bytes())
        }
        call => key_asked(call, agreed, &mut words),
    }
}

fn key_asked(call: &str, agreed: Agreed, words: &mut Words<'_>) -> Result<bool, Error> {
    let strings = call.strip_prefix("string_");
    let keys = match strings {
        Some(_) => Keys::Strings { min: words.number(), max: words.number() },
        None => Keys::OneSize,
    };
    let is_value = call.ends_with("value");
    let form = strings.unwrap_or(call);
    if is_value {
        let (proof, key, value) = (words.bytes(), words.bytes(), words.bytes());
        let values = match form.split_once('_') {
            Some(("sized", _)) => Values::Sized(value.len()),
            Some(_) => Values::Fixed(value.len()),
            None => Values::Variable { min: 0, max: usize::MAX },
        };
        return check_value(agreed, keys, values, &proof, &key, &value, &words.bytes());
    }
    let values = match form.split_once('_') {
        Some(("sized", _)) => Values::Sized(words.number()),
        Some(_) => Values::Fixed(words.number()),
        None => Values::Variable { min: words.number(), max: words.number() },
    };
    check_absence(agreed, keys, values, &words.bytes(), &words.bytes(), &words.bytes())
}

fn main() {
    for line in stdin().lock().lines() {
        match asked(&line.expect("no text")) {
            Ok(true) => println!("yes"),
            Ok(false) => println!("no"),
            Err(error) => println!("{error}"),
        }
    }
}
