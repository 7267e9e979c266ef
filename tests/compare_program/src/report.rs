//! Counts cases and prints differences.

use std::collections::BTreeMap;
use std::io::{self, Write};
use std::time::Instant;

use crate::answer;

/// Printed in full for each function; the rest are counted.
const PRINTED: u64 = 3;

/// An input as it is printed.
pub enum Shown<'a> {
    Bytes(&'static str, &'a [u8]),
    Numbers(&'static str, &'a [i32]),
    Number(&'static str, i64),
}

impl Shown<'_> {
    fn line(&self) -> String {
        match self {
            Shown::Bytes(name, bytes) => format!("{name}, {} bytes: {}", bytes.len(), hex(bytes)),
            Shown::Numbers(name, numbers) => {
                let bytes: Vec<u8> = numbers.iter().flat_map(|number| number.to_le_bytes()).collect();
                format!("{name}, {} numbers of 4 bytes, little-endian: {}", numbers.len(), hex(&bytes))
            }
            Shown::Number(name, number) => format!("{name}: {number} (0x{:08x})", *number as u32),
        }
    }
}

pub fn hex(bytes: &[u8]) -> String {
    bytes.iter().map(|byte| format!("{byte:02x}")).collect()
}

pub struct Report {
    start: Instant,
    part: &'static str,
    cases_before: u64,
    cases: u64,
    differences: BTreeMap<&'static str, u64>,
    /// Which numbers each function answered, so that a reader sees that all of them came up.
    numbers: BTreeMap<&'static str, [u64; 10]>,
}

impl Report {
    pub fn new() -> Report {
        Report {
            start: Instant::now(),
            part: "",
            cases_before: 0,
            cases: 0,
            differences: BTreeMap::new(),
            numbers: BTreeMap::new(),
        }
    }

    pub fn part(&mut self, name: &'static str) {
        self.part = name;
        self.cases_before = self.cases;
        self.progress("begins");
    }

    /// Says how far a part has come.
    pub fn progress(&self, what: &str) {
        eprintln!("{:6.1} s  {}: {what}", self.start.elapsed().as_secs_f64(), self.part);
    }

    pub fn part_done(&self) {
        self.progress(&format!("{} cases", grouped(self.cases - self.cases_before)));
    }

    /// Counts a case of a function that cannot refuse.
    pub fn plain(&mut self) {
        self.cases += 1;
    }

    /// Counts a case of a function that can refuse.
    pub fn answered(&mut self, function: &'static str, answer: u64) {
        self.cases += 1;
        let counts = self.numbers.entry(function).or_default();
        if let Some(count) = counts.get_mut(answer::number(answer) as usize) {
            *count += 1;
        }
    }

    pub fn differs(&mut self, function: &'static str, inputs: &[Shown], lines: &[String]) {
        let count = self.differences.entry(function).or_default();
        *count += 1;
        if *count > PRINTED {
            return;
        }
        let mut text = format!("difference in {function}\n");
        for input in inputs {
            text += &format!("  {}\n", input.line());
        }
        for line in lines {
            text += &format!("  {line}\n");
        }
        // A closed pipe must not end the comparison.
        let _ = io::stdout().write_all(text.as_bytes());
    }

    /// Prints what was answered and the last line. True if there was no difference.
    pub fn end(&self) -> bool {
        let mut text = String::from("answers of the archive, by number:\n");
        text += &format!("  {:22}", "");
        for number in 0..10 {
            text += &format!("{number:>8}");
        }
        text += "\n";
        for (function, counts) in &self.numbers {
            text += &format!("  {function:22}");
            for count in counts {
                text += &if *count == 0 { format!("{:>8}", "-") } else { format!("{count:>8}") };
            }
            text += "\n";
        }
        for (function, count) in &self.differences {
            text += &format!("{function}: {} differences\n", grouped(*count));
        }
        let differences: u64 = self.differences.values().sum();
        text += &format!("compare: {} cases, {differences} differences\n", self.cases);
        let written = io::stdout().write_all(text.as_bytes()).is_ok();
        written && differences == 0
    }
}

/// 1234567 as 1,234,567.
fn grouped(number: u64) -> String {
    let digits = number.to_string();
    let mut text = String::new();
    for (index, digit) in digits.chars().enumerate() {
        if index > 0 && (digits.len() - index) % 3 == 0 {
            text.push(',');
        }
        text.push(digit);
    }
    text
}
