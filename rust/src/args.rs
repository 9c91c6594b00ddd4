//! The arguments of a driver: a part by its name, where the driver has parts, and then numbers.
use std::env;
use std::iter::{Peekable, Skip};
use std::process::exit;
use std::str::FromStr;

pub struct Args {
    usage: &'static str,
    left: Peekable<Skip<env::Args>>,
}

impl Args {
    pub fn new(usage: &'static str) -> Args {
        Args { usage, left: env::args().skip(1).peekable() }
    }

    /// Says how the driver is called, and ends it.
    fn explain(&self, wrong: &str) -> ! {
        eprintln!("{wrong}\nusage: {}", self.usage);
        exit(2)
    }

    /// Which of the parts is named; none, where a number comes first or nothing does.
    pub fn part(&mut self, parts: &[&'static str]) -> Option<&'static str> {
        let name = self.left.next_if(|word| word.parse::<f64>().is_err())?;
        match parts.iter().find(|part| **part == name) {
            Some(part) => Some(part),
            None => self.explain(&format!("{name}: not one of {}", parts.join(", "))),
        }
    }

    /// The next number, if one is left.
    pub fn number<T: FromStr>(&mut self) -> Option<T> {
        let word = self.left.next()?;
        match word.parse() {
            Ok(number) => Some(number),
            Err(_) => self.explain(&format!("{word}: not such a number")),
        }
    }

    /// No more is wanted.
    pub fn end(mut self) {
        if let Some(word) = self.left.next() {
            self.explain(&format!("{word}: one too many"));
        }
    }
}
