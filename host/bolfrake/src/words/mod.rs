//! The words of the command line: a command, options with their values, and the rest in order.

pub mod failure;
pub mod help;

use std::collections::VecDeque;
use std::ffi::OsString;

use crate::words::failure::Failure;

pub struct Words {
    command: String,
    left: VecDeque<OsString>,
}

/// What stands at the front of what is left.
pub enum Word {
    /// An option by its name, as `--max`.
    Option(String),
    /// A file, a number, or whatever the command takes.
    Plain(OsString),
}

impl Words {
    pub fn new(given: Vec<OsString>) -> Words {
        let mut left = VecDeque::from(given);
        let command = left.pop_front().unwrap_or_default();
        Words {
            command: command.to_string_lossy().into_owned(),
            left,
        }
    }

    pub fn command(&self) -> String {
        self.command.clone()
    }

    /// The next word, if there is one.
    pub fn next_as_text(&mut self) -> String {
        let word = self.left.pop_front().unwrap_or_default();
        word.to_string_lossy().into_owned()
    }

    /// Whether `--help` stands among the options.
    pub fn asks_for_help(&self) -> bool {
        let options = self.left.iter().take_while(|word| *word != "--");
        let mut options = options.filter(|word| *word == "--help" || *word == "-h");
        options.next().is_some()
    }

    /// Sorts all words: each option is handed to `option` with these words to take its value from, the rest is answered in order.
    pub fn sort(
        mut self,
        mut option: impl FnMut(&str, &mut Words) -> Result<bool, Failure>,
    ) -> Result<Vec<OsString>, Failure> {
        let mut plain = Vec::new();
        while let Some(word) = self.next() {
            match word {
                Word::Plain(word) if word == "--" => plain.extend(self.left.drain(..)),
                Word::Plain(word) => plain.push(word),
                Word::Option(name) => {
                    if !option(&name, &mut self)? {
                        return Err(self.misused(&format!("takes no option `{name}`")));
                    }
                }
            }
        }
        Ok(plain)
    }

    /// The next word; `--name=value` gives the option, and its value next. `-` and `--` are plain, and so is a negative number: a minus and a digit, or a dot.
    fn next(&mut self) -> Option<Word> {
        let word = self.left.pop_front()?;
        let text = match word.to_str() {
            Some(text) if text.len() > 1 && text.starts_with('-') && text != "--" => {
                text.to_string()
            }
            _ => return Some(Word::Plain(word)),
        };
        if text[1..].starts_with(|c: char| c.is_ascii_digit() || c == '.') {
            return Some(Word::Plain(word));
        }
        match text.split_once('=') {
            Some((name, value)) if name.starts_with("--") => {
                self.left.push_front(OsString::from(value));
                Some(Word::Option(name.to_string()))
            }
            _ => Some(Word::Option(text)),
        }
    }

    /// The value of an option.
    pub fn value(&mut self, name: &str) -> Result<OsString, Failure> {
        let value = self.left.pop_front();
        value.ok_or_else(|| self.misused(&format!("needs a value after `{name}`")))
    }

    /// The value of an option, one of a few words.
    pub fn choice<'a>(&mut self, name: &str, all: &[&'a str]) -> Result<&'a str, Failure> {
        let value = self.value(name)?;
        let found = all.iter().find(|word| value == **word);
        found.copied().ok_or_else(|| {
            let shown = value.to_string_lossy();
            self.misused(&format!(
                "does not know `{name} {shown}`: use {}",
                all.join(", ")
            ))
        })
    }

    pub fn misused(&self, words: &str) -> Failure {
        misused(&self.command, words)
    }
}

/// A wrong use of a command, and where its use is told.
pub fn misused(command: &str, words: &str) -> Failure {
    Failure::usage(format!(
        "{command} {words} (`bolfrake {command} --help` tells how)"
    ))
}

/// A number from 0 on that stands for `what`.
pub fn number(command: &str, what: &str, word: &OsString) -> Result<u32, Failure> {
    let found = word.to_str().and_then(|text| text.parse().ok());
    found.ok_or_else(|| {
        let shown = word.to_string_lossy();
        misused(
            command,
            &format!("takes a number from 0 to 4294967295 as {what}, and `{shown}` is none"),
        )
    })
}

#[cfg(test)]
mod tests {
    use super::*;

    /// The options and the plain words of a line, `-o` with its value.
    fn sorted(line: &[&str]) -> (Vec<String>, Vec<String>) {
        let mut options = Vec::new();
        let given = line.iter().map(OsString::from).collect();
        let plain = Words::new(given).sort(|name, words| {
            options.push(name.to_string());
            if name == "-o" {
                options.push(words.value(name)?.into_string().unwrap());
            }
            Ok(true)
        });
        let text = |word: OsString| word.into_string().unwrap();
        (options, plain.unwrap().into_iter().map(text).collect())
    }

    #[test]
    fn negative_numbers_are_plain() {
        let numbers = ["-5", "-.5", "-12.50", "-1.2E-5", "-3e2", "-", "5", ""];
        let line = [&["edit"], &numbers[..]].concat();
        assert_eq!(sorted(&line), (vec![], numbers.map(String::from).to_vec()));
        let (options, plain) = sorted(&["edit", "-x", "-INF", "--5", "-"]);
        assert_eq!(options, ["-x", "-INF", "--5"]);
        assert_eq!(plain, ["-"]);
    }

    #[test]
    fn values_and_what_stands_after_two_minuses() {
        let (options, plain) = sorted(&["edit", "-o", "-x", "a", "--force", "--", "-o", "--"]);
        assert_eq!(options, ["-o", "-x", "--force"]);
        assert_eq!(plain, ["a", "-o", "--"]);
    }
}
