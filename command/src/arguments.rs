//! The arguments of a verb: options, and the words beside them.

use crate::stop::{wrong, Stop};
use crate::words::number;

/// What a verb takes: its name, options without a value, and options with one.
pub struct Takes {
    pub verb: &'static str,
    pub flags: &'static [&'static str],
    pub valued: &'static [&'static str],
}

/// The arguments of a verb, taken apart.
#[derive(Debug)]
pub struct Arguments {
    verb: &'static str,
    flags: Vec<String>,
    values: Vec<(String, String)>,
    pub words: Vec<String>,
    /// Help is asked for; what stands behind that is not looked at.
    pub help: bool,
}

impl Arguments {
    /// Takes the arguments behind a verb apart.
    pub fn of(takes: &Takes, given: &[String]) -> Result<Arguments, Stop> {
        let mut arguments = Arguments {
            verb: takes.verb,
            flags: Vec::new(),
            values: Vec::new(),
            words: Vec::new(),
            help: false,
        };
        let mut left = given.iter();
        while let Some(word) = left.next() {
            if word == "--help" || word == "-h" {
                arguments.help = true;
                break;
            } else if word == "--" {
                arguments.words.extend(left.by_ref().cloned());
            } else if !word.starts_with('-') || word == "-" {
                arguments.words.push(word.clone());
            } else if let Some((name, value)) = word.split_once('=') {
                arguments.valued(takes, name, Some(value.to_string()))?;
            } else if takes.flags.contains(&word.as_str()) {
                arguments.flags.push(word.clone());
            } else {
                arguments.valued(takes, word, left.next().cloned())?;
            }
        }
        Ok(arguments)
    }

    /// Takes an option with a value.
    fn valued(&mut self, takes: &Takes, name: &str, value: Option<String>) -> Result<(), Stop> {
        if takes.flags.contains(&name) {
            return self.misused(&format!("{name} takes no value"));
        }
        if !takes.valued.contains(&name) {
            return self.misused(&format!("{name} is no option of it"));
        }
        match value {
            Some(value) => self.values.push((name.to_string(), value)),
            None => return self.misused(&format!("{name} has no value")),
        }
        Ok(())
    }

    /// What is said of wrong usage.
    pub fn misused<T>(&self, said: &str) -> Result<T, Stop> {
        wrong(format!("tarnflaw {0}: {said}; see: tarnflaw {0} --help", self.verb))
    }

    /// Whether an option is given.
    pub fn has(&self, flag: &str) -> bool {
        self.flags.iter().any(|given| given == flag)
    }

    /// The values of an option, in their order.
    pub fn all(&self, name: &str) -> impl Iterator<Item = &str> + '_ {
        let name = name.to_string();
        self.values.iter().filter(move |given| given.0 == name).map(|given| given.1.as_str())
    }

    /// The last value of an option.
    pub fn value(&self, name: &str) -> Option<&str> {
        self.all(name).last()
    }

    /// The last value of an option as a number up to a limit; if it is not given, another one.
    pub fn number(&self, name: &str, limit: u64, otherwise: u64) -> Result<u64, Stop> {
        match self.value(name) {
            None => Ok(otherwise),
            Some(value) => self.parsed(name, value, limit),
        }
    }

    /// A word as a number up to a limit.
    pub fn parsed(&self, name: &str, word: &str, limit: u64) -> Result<u64, Stop> {
        match number(word.as_bytes()) {
            Some(value) if value <= limit => Ok(value),
            _ => self.misused(&format!(
                "'{word}' for {name}, and a number from 0 to {limit} was expected"
            )),
        }
    }

    /// The one file that may be named; standard input if none is.
    pub fn file(&self) -> Result<String, Stop> {
        match &self.words[..] {
            [] => Ok("-".to_string()),
            [name] => Ok(name.clone()),
            [_, more, ..] => {
                self.misused(&format!("'{more}', and no more than one file was expected"))
            }
        }
    }
}
