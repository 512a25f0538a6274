//! The words behind a command: operands and options, in any order.

use std::ffi::{OsStr, OsString};
use std::ops::RangeInclusive;
use std::os::unix::ffi::OsStrExt;
use std::path::Path;

use station::{Extent, Timestamp, LIMIT, MOST_SECTORS};

use crate::failure::Failure;
use crate::names::shown;
use crate::stamps;
use crate::syntax::{is_number, Syntax};

/// "The numbers v and k have 32 bits", and so have those of a closing.
const NUMBERS: RangeInclusive<u64> = 0..=u32::MAX as u64;

/// Those of them that a disc can have in use.
const ON_A_DISC: RangeInclusive<u64> = 0..=LIMIT as u64 - 1;

/// "It has 1 to 360,000 sectors."
const SECTORS: RangeInclusive<u64> = 1..=MOST_SECTORS as u64;

/// What the operator wants of a command.
pub enum Asked {
    Help,
    Run(Arguments),
}

/// As many operands as the command has, and its options, each at most once.
pub struct Arguments {
    command: &'static Syntax,
    operands: Vec<OsString>,
    options: Vec<(&'static str, OsString)>,
    rest: Vec<OsString>,
}

/// `--` ends the options. For `cut`, the words behind the operands belong to
/// the command that is cut.
pub fn parse(command: &'static Syntax, words: &[OsString]) -> Result<Asked, Failure> {
    let mut given = Arguments {
        command,
        operands: Vec::new(),
        options: Vec::new(),
        rest: Vec::new(),
    };
    let mut words = words.iter();
    let mut options_end = false;
    while let Some(word) = words.next() {
        let dashed = word.as_bytes().starts_with(b"-") && word != "-";
        let is_option = dashed && !options_end && !given.takes_as_number(word);
        if is_option && (word == "-h" || word == "--help") {
            return Ok(Asked::Help);
        } else if is_option && word == "--" {
            options_end = true;
        } else if is_option {
            given.take_option(word, &mut words)?;
        } else {
            given.operands.push(word.clone());
        }
        if command.takes_command && given.operands.len() == command.operands.len() {
            given.rest = words.by_ref().cloned().collect();
        }
    }
    given.check_operands()?;
    Ok(Asked::Run(given))
}

impl Arguments {
    /// Whether the word is a number below zero where the next operand is a number: it
    /// is told as one that is too small, and not as an option.
    fn takes_as_number(&self, word: &OsStr) -> bool {
        let next = self.command.operands.get(self.operands.len());
        next.is_some_and(|next| is_number(next)) && word.to_str().is_some_and(is_below_zero)
    }

    /// `--from FILE` or `--from=FILE`, or an option without a value.
    fn take_option<'a>(
        &mut self,
        word: &OsStr,
        words: &mut impl Iterator<Item = &'a OsString>,
    ) -> Result<(), Failure> {
        let mut parts = word.as_bytes().splitn(2, |byte| *byte == b'=');
        let name = OsStr::from_bytes(parts.next().unwrap_or_default());
        let joined = parts.next().map(OsStr::from_bytes);
        let known = self
            .command
            .options
            .iter()
            .find(|(known, _)| name == *known);
        let Some((known, follows)) = known else {
            let name = shown(Path::new(name));
            return Err(self.wrong(format!("{} has no option {name}", self.command.name)));
        };
        let missing = |what| self.wrong(format!("{known} needs {what} behind it"));
        let value = match (follows, joined) {
            (Some(_), Some(value)) => value,
            (Some(what), None) => words.next().ok_or_else(|| missing(what))?,
            (None, None) => OsStr::new(""),
            (None, Some(_)) => return Err(self.wrong(format!("{known} takes no value"))),
        };
        if self.has(known) {
            return Err(self.wrong(format!("{known} is given twice")));
        }
        self.options.push((known, value.to_owned()));
        Ok(())
    }

    fn check_operands(&self) -> Result<(), Failure> {
        let (name, wanted) = (self.command.name, self.command.operands);
        if let Some(missing) = wanted.get(self.operands.len()) {
            return Err(self.wrong(format!("{name} needs {missing}")));
        }
        match self.operands.get(wanted.len()) {
            Some(extra) => {
                let extra = shown(Path::new(extra));
                Err(self.wrong(format!("{name} has no use for {extra}")))
            }
            None => Ok(()),
        }
    }

    /// A failure that points to this command's help.
    pub fn wrong(&self, fault: String) -> Failure {
        Failure::Usage(fault, self.command.name)
    }

    pub fn has(&self, option: &str) -> bool {
        self.value(option).is_some()
    }

    pub fn value(&self, option: &str) -> Option<&OsStr> {
        let given = self.options.iter().find(|(name, _)| *name == option);
        given.map(|(_, value)| value.as_os_str())
    }

    /// The file behind an option; without it, and with `-`, the stream is meant.
    pub fn file(&self, option: &str) -> Option<&Path> {
        let named = self.value(option).filter(|name| *name != "-");
        named.map(Path::new)
    }

    /// The words of the command that is cut.
    pub fn rest(&self) -> &[OsString] {
        &self.rest
    }

    pub fn path(&self, place: usize) -> &Path {
        Path::new(&self.operands[place])
    }

    pub fn text(&self, place: usize) -> String {
        shown(self.path(place))
    }

    pub fn number(&self, place: usize) -> Result<u32, Failure> {
        let number = self.operand_in(place, NUMBERS)?;
        Ok(number as u32)
    }

    /// The number of a block or a run. Every one of 32 bits is left to the core, which
    /// refuses those that no disc has.
    pub fn number_on_disc(&self, place: usize) -> Result<u32, Failure> {
        let (name, word) = (self.command.operands[place], &self.operands[place]);
        let number = self.number_told(name, word, NUMBERS, ON_A_DISC)?;
        Ok(number as u32)
    }

    pub fn operand_in(&self, place: usize, range: RangeInclusive<u64>) -> Result<u64, Failure> {
        self.number_in(self.command.operands[place], &self.operands[place], range)
    }

    /// Of 32 bits, behind an option that may be missing.
    pub fn option_number(&self, option: &str) -> Result<Option<u32>, Failure> {
        let number = self.option_in(option, NUMBERS)?;
        Ok(number.map(|number| number as u32))
    }

    /// Behind an option that may be missing.
    fn option_in(&self, option: &str, range: RangeInclusive<u64>) -> Result<Option<u64>, Failure> {
        let word = self.value(option);
        word.map(|word| self.number_in(option, word, range))
            .transpose()
    }

    /// The same, of 64 bits: a run has more bytes than a number may count.
    pub fn option_long(&self, option: &str) -> Result<Option<u64>, Failure> {
        self.option_in(option, 0..=u64::MAX)
    }

    /// What stands behind an option without which the command means nothing.
    pub fn needed(&self, option: &str) -> Result<&OsStr, Failure> {
        let missing = || self.wrong(format!("{} needs {option}", self.command.name));
        self.value(option).ok_or_else(missing)
    }

    pub fn needed_number(&self, option: &str) -> Result<u32, Failure> {
        let number = self.number_in(option, self.needed(option)?, NUMBERS)?;
        Ok(number as u32)
    }

    /// The same where there are only so many: from 0 to below the end.
    pub fn needed_below(&self, option: &str, end: usize) -> Result<usize, Failure> {
        let last = end.saturating_sub(1) as u64;
        let number = self.number_in(option, self.needed(option)?, 0..=last)?;
        Ok(number as usize)
    }

    /// The range that is told is the one that is tested.
    fn number_in(
        &self,
        name: &str,
        word: &OsStr,
        range: RangeInclusive<u64>,
    ) -> Result<u64, Failure> {
        self.number_told(name, word, range.clone(), range)
    }

    fn number_told(
        &self,
        name: &str,
        word: &OsStr,
        range: RangeInclusive<u64>,
        told: RangeInclusive<u64>,
    ) -> Result<u64, Failure> {
        let text = shown(Path::new(word));
        let found = number(&text).filter(|number| range.contains(number));
        found.ok_or_else(|| {
            let (least, most) = (told.start(), told.end());
            let missed = missed(&text, *least);
            self.wrong(format!("{name} is a number from {least} to {most}{missed}"))
        })
    }

    /// `LENGTH,LOCATION`: an extent as a descriptor names it.
    pub fn needed_extent(&self, option: &str) -> Result<Extent, Failure> {
        let text = shown(Path::new(self.needed(option)?));
        extent(&text).ok_or_else(|| {
            let most = u32::MAX;
            self.wrong(format!(
                "{option} is LENGTH,LOCATION, two numbers from 0 to {most}, not '{text}'"
            ))
        })
    }

    /// Behind an option that may be missing.
    pub fn option_time(&self, option: &str) -> Result<Option<Timestamp>, Failure> {
        let Some(word) = self.value(option) else {
            return Ok(None);
        };
        let text = shown(Path::new(word));
        let time = stamps::parse(&text);
        time.map(Some).ok_or_else(|| {
            let example = stamps::EXAMPLE;
            self.wrong(format!(
                "{option} is a time such as {example}, not '{text}'"
            ))
        })
    }

    pub fn sectors(&self, place: usize) -> Result<usize, Failure> {
        let sectors = self.operand_in(place, SECTORS)?;
        Ok(sectors as usize)
    }

    /// Behind an option that may be missing.
    pub fn option_sectors(&self, option: &str) -> Result<Option<usize>, Failure> {
        let sectors = self.option_in(option, SECTORS)?;
        Ok(sectors.map(|sectors| sectors as usize))
    }
}

/// The number in a text of digits alone, if it has no more than 64 bits.
fn number(text: &str) -> Option<u64> {
    text.parse().ok().filter(|_| is_digits(text))
}

fn is_digits(text: &str) -> bool {
    !text.is_empty() && text.bytes().all(|byte| byte.is_ascii_digit())
}

fn is_below_zero(text: &str) -> bool {
    text.strip_prefix('-').is_some_and(is_digits)
}

/// How a text misses a range: as a number outside of it, or as none.
fn missed(text: &str, least: u64) -> String {
    let below = number(text).is_some_and(|number| number < least);
    match (is_below_zero(text) || below, is_digits(text)) {
        (true, _) => format!(": {text} is too small"),
        (false, true) => format!(": {text} is too large"),
        (false, false) => format!(", not '{text}'"),
    }
}

fn extent(text: &str) -> Option<Extent> {
    let (length, location) = text.split_once(',')?;
    let number = |text| number(text).and_then(|number| u32::try_from(number).ok());
    Some(Extent {
        length: number(length)?,
        location: number(location)?,
    })
}
