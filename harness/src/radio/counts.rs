//! The line in which a box or the air says what it counted: words with a number behind them, then how many were refused, by number, as in
//! `box 2 heard 9 accepted 5 sent 6 records 3 refused 8:3 12:1`.

use std::collections::BTreeMap;
use std::fmt;

#[derive(Clone, PartialEq, Eq, Debug, Default)]
pub struct Counts {
    pub named: BTreeMap<String, u64>,
    pub refused: BTreeMap<u8, u64>,
}

impl Counts {
    /// Nothing where a word has no number, or stands twice.
    pub fn parse(words: &str) -> Option<Counts> {
        let (named, refused) = words.split_once("refused")?;
        let mut counts = Counts::default();
        let mut words = named.split_whitespace();
        while let Some(name) = words.next() {
            if counts.named.insert(name.to_string(), words.next()?.parse().ok()?).is_some() {
                return None;
            }
        }
        for word in refused.split_whitespace() {
            let (number, times) = word.split_once(':')?;
            if counts.refused.insert(number.parse().ok()?, times.parse().ok()?).is_some() {
                return None;
            }
        }
        Some(counts)
    }

    pub fn of(&self, name: &str) -> u64 {
        self.named.get(name).copied().unwrap_or(0)
    }

    pub fn refused_by(&self, number: u8) -> u64 {
        self.refused.get(&number).copied().unwrap_or(0)
    }

    pub fn all_refused(&self) -> u64 {
        self.refused.values().sum()
    }

    pub fn count(&mut self, name: &str) {
        *self.named.entry(name.to_string()).or_default() += 1;
    }

    pub fn refuse(&mut self, number: u8) {
        *self.refused.entry(number).or_default() += 1;
    }

    pub fn add(&mut self, other: &Counts) {
        other.named.iter().for_each(|(name, times)| *self.named.entry(name.clone()).or_default() += times);
        other.refused.iter().for_each(|(number, times)| *self.refused.entry(*number).or_default() += times);
    }
}

impl fmt::Display for Counts {
    fn fmt(&self, out: &mut fmt::Formatter) -> fmt::Result {
        self.named.iter().try_for_each(|(name, times)| write!(out, "{name} {times} "))?;
        write!(out, "refused")?;
        self.refused.iter().try_for_each(|(number, times)| write!(out, " {number}:{times}"))
    }
}
