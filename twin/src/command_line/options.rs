//! The options of a command: pairs of a name with two dashes and a value.

use std::collections::BTreeMap;

#[derive(Debug)]
pub struct Options {
    values: BTreeMap<String, String>,
}

impl Options {
    /// Reads the pairs; every name must be one of the known ones.
    pub fn parse(words: &[String], known: &[&str]) -> Result<Options, String> {
        let mut values = BTreeMap::new();
        for pair in words.chunks(2) {
            let name = pair[0].strip_prefix("--").unwrap_or("");
            if !known.contains(&name) {
                return Err(format!("'{}' is not an option of this command", pair[0]));
            }
            let value = pair.get(1).ok_or(format!("the value of --{name} is missing"))?;
            values.insert(String::from(name), value.clone());
        }
        Ok(Options { values })
    }

    pub fn text(&self, name: &str) -> Option<&str> {
        self.values.get(name).map(String::as_str)
    }

    pub fn needed(&self, name: &str) -> Result<&str, String> {
        self.text(name).ok_or(format!("--{name} is missing"))
    }

    pub fn number(&self, name: &str, default: u64) -> Result<u64, String> {
        match self.text(name) {
            None => Ok(default),
            Some(text) => text.parse().map_err(|_| format!("--{name}: '{text}' is not a number")),
        }
    }

    /// A number that has to be there.
    pub fn needed_number(&self, name: &str) -> Result<u64, String> {
        self.needed(name)?;
        self.number(name, 0)
    }
}
