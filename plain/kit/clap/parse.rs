//! Scans the arguments of one command.
//!
//! An option that takes its value from the next argument stays pending. It is checked when the next option occurs or
//! the arguments end, as in clap, so that with several faults, the same one is reported.

use super::super::alloc::AllocError;
use super::super::string::String;
use super::super::vec::Vec;
use super::error::ErrorKind;
use super::similar::similar;
use super::texts::Place;
use super::{Arg, ArgAction, ArgMatches, Command, Error, HELP};

/// A given option: its index, and its number.
type Given = (usize, i128);

/// A command that follows, with its arguments.
type Next<'c, 'a> = Option<(&'c Command<'a>, &'c [&'a str])>;

pub(super) struct Parser<'c, 'a> {
    place: &'c Place<'c, 'a>,
    given: Vec<Given>,
    /// The last option, which hasn't been checked yet, and its value if that has occurred.
    waiting: Option<(usize, Option<&'c str>)>,
}

impl<'c, 'a> Parser<'c, 'a> {
    pub(super) fn new(place: &'c Place<'c, 'a>) -> Self {
        Parser { place, given: Vec::new(place.command.alloc), waiting: None }
    }

    fn option(&self, at: usize) -> &'c Arg<'a> {
        &self.place.command.options[at]
    }

    /// Returns the options given to this command, and the command that follows it, if any.
    pub(super) fn matches(mut self, words: &'c [&'a str]) -> Result<(ArgMatches<'a>, Next<'c, 'a>), Error> {
        let command = self.place.command;
        let next = self.walk(words)?;
        self.settle()?;
        if next.is_none() && !command.commands.is_empty() {
            return Err(self.place.help(ErrorKind::DisplayHelpOnMissingArgumentOrSubcommand)?);
        }
        self.all_required()?;
        let mut values = Vec::with_capacity(command.alloc, command.options.len())?;
        for (at, option) in command.options.iter().enumerate() {
            let given = self.given.iter().find(|it| it.0 == at).map(|it| it.1);
            let default = || option.default.and_then(|text| text.parse().ok());
            values.push_reserved((option.name, given.or_else(default).unwrap_or(0)));
        }
        Ok((ArgMatches { name: command.name, values, below: Vec::new(command.alloc) }, next))
    }

    /// Reads the arguments up to a command.
    fn walk(&mut self, words: &'c [&'a str]) -> Result<Next<'c, 'a>, Error> {
        let mut takes_value = false;
        let mut are_values = false;
        for (at, &word) in words.iter().enumerate() {
            let rest = &words[at + 1..];
            if are_values {
                return Err(self.stray(word, true)?);
            }
            if !takes_value {
                if let Some(command) = self.place.command.command(word) {
                    if command.name == HELP {
                        return Err(self.place.help_of(rest)?);
                    }
                    return Ok(Some((command, rest)));
                }
            }
            if word == "--" {
                are_values = true;
            } else if let Some(long) = word.strip_prefix("--") {
                takes_value = self.long(long, rest)?;
            } else if word.len() > 1 && word.starts_with('-') {
                return Err(self.short(&word[1..])?);
            } else if takes_value {
                if let Some(waiting) = &mut self.waiting {
                    waiting.1 = Some(word);
                }
                takes_value = false;
            } else {
                return Err(self.stray(word, false)?);
            }
        }
        Ok(None)
    }

    /// Parses `--name` or `--name=value`. Returns whether the next argument is its value.
    fn long(&mut self, text: &'c str, rest: &[&str]) -> Result<bool, Error> {
        let (name, value) = text.split_once('=').map_or((text, None), |(name, value)| (name, Some(value)));
        let at = match self.place.command.option(name) {
            Some(at) => at,
            None => {
                self.settle_for_message()?;
                return Err(self.unknown(name, rest)?);
            }
        };
        let takes_value = self.option(at).action == ArgAction::Set;
        if let (Some(value), false) = (value, takes_value) {
            return Err(self.too_many(at, value)?);
        }
        self.settle()?;
        self.waiting = Some((at, value));
        if takes_value && value.is_none() {
            return Ok(true);
        }
        self.settle()?;
        Ok(false)
    }

    /// Parses `-h`, `-V` and other short options; each of them ends the scan.
    fn short(&mut self, letters: &str) -> Result<Error, Error> {
        let letter = letters.chars().next().unwrap_or('-');
        match self.place.command.options.iter().find(|it| it.short == Some(letter)) {
            Some(option) => {
                self.settle()?;
                Ok(self.asked(option.action)?)
            }
            None => {
                self.settle_for_message()?;
                Ok(self.place.refusal(
                    ErrorKind::UnknownArgument,
                    format_args!("unexpected argument '-{letter}' found"),
                    Some(&[]),
                )?)
            }
        }
    }

    fn asked(&self, action: ArgAction) -> Result<Error, AllocError> {
        match action {
            ArgAction::Version => self.place.version(),
            _ => self.place.help(ErrorKind::DisplayHelp),
        }
    }

    /// Checks the pending option.
    fn settle(&mut self) -> Result<(), Error> {
        let (at, value) = match self.waiting.take() {
            Some(waiting) => waiting,
            None => return Ok(()),
        };
        let option = self.option(at);
        match (option.action, value) {
            (ArgAction::Set, Some(text)) => {
                self.only_once(at)?;
                let number = self.number(option, text);
                // (The usage in a later message includes an option whose value was refused.)
                self.given.push((at, *number.as_ref().unwrap_or(&0)))?;
                number.map(|_| ())
            }
            (ArgAction::Set, None) => Err(self.place.refusal(
                ErrorKind::InvalidValue,
                format_args!("a value is required for '{option}' but none was supplied"),
                None,
            )?),
            (ArgAction::SetTrue, _) => {
                self.only_once(at)?;
                Ok(self.given.push((at, 1))?)
            }
            (action, _) => Err(self.asked(action)?),
        }
    }

    /// Like `settle`, for use when another fault is already known: only running out of memory takes precedence over
    /// that fault.
    fn settle_for_message(&mut self) -> Result<(), Error> {
        match self.settle() {
            Err(refused) if refused.kind == ErrorKind::OutOfMemory => Err(refused),
            _ => Ok(()),
        }
    }

    fn only_once(&mut self, at: usize) -> Result<(), Error> {
        let count = self.given.len();
        self.given.retain(|it| it.0 != at);
        if self.given.len() == count {
            return Ok(());
        }
        Err(self.place.refusal(
            ErrorKind::ArgumentConflict,
            format_args!("the argument '{}' cannot be used multiple times", self.option(at)),
            Some(&[]),
        )?)
    }

    /// Returns the number that a string spells, or its refusal.
    fn number(&self, option: &Arg<'_>, text: &str) -> Result<i128, Error> {
        let numbers = option.numbers;
        let read =
            if numbers.is_signed { text.parse::<i64>().map(i128::from) } else { text.parse::<u64>().map(i128::from) };
        let refused = |why: core::fmt::Arguments<'_>| -> Result<Error, AllocError> {
            self.place.refusal(
                ErrorKind::ValueValidation,
                format_args!("invalid value '{text}' for '{option}': {why}"),
                None,
            )
        };
        match read {
            Ok(number) if number < numbers.least || number > numbers.most => {
                Err(refused(format_args!("{number} is not in {}..={}", numbers.least, numbers.most))?)
            }
            Ok(number) => Ok(number),
            Err(why) => Err(refused(format_args!("{why}"))?),
        }
    }

    /// Returns the indices of the given options.
    fn used(&self) -> Result<Vec<usize>, AllocError> {
        let mut used = Vec::with_capacity(self.place.command.alloc, self.given.len() + 1)?;
        for it in &self.given {
            used.push_reserved(it.0);
        }
        Ok(used)
    }

    /// Returns the refusal of a value for a flag, which takes none.
    fn too_many(&mut self, at: usize, value: &str) -> Result<Error, Error> {
        let mut used = self.used()?;
        used.retain(|it| !self.option(*it).is_required);
        used.push_reserved(at);
        self.settle_for_message()?;
        Ok(self.place.refusal(
            ErrorKind::TooManyValues,
            format_args!("unexpected value '{value}' for '{}' found; no more were expected", self.option(at)),
            Some(&used),
        )?)
    }

    /// Returns the refusal of an unknown option. It suggests the closest option of this command, or otherwise of a
    /// command that a later argument names.
    fn unknown(&mut self, name: &str, rest: &[&str]) -> Result<Error, Error> {
        let command = self.place.command;
        let mut used = self.used()?;
        let mut tip = String::new(command.alloc);
        if let Some(&close) = similar(command.alloc, name, names(command))?.last() {
            write!(tip, "\n\n  tip: a similar argument exists: '--{close}'")?;
            if let Some(at) = command.option(close) {
                used.retain(|it| *it != at);
                used.push_reserved(at);
            }
        } else {
            let mut first = rest.len();
            for below in &command.commands {
                let place = rest.iter().position(|it| *it == below.name).unwrap_or(first);
                if let (true, Some(close)) = (place < first, similar(command.alloc, name, names(below))?.last()) {
                    first = place;
                    tip.clear();
                    write!(tip, "\n\n  tip: '{} --{close}' exists", below.name)?;
                }
            }
        }
        Ok(self.place.refusal(
            ErrorKind::UnknownArgument,
            format_args!("unexpected argument '--{name}' found{tip}"),
            Some(&used),
        )?)
    }

    /// Returns the refusal of an argument that is neither an option nor a value.
    fn stray(&mut self, word: &str, follows_dashes: bool) -> Result<Error, Error> {
        self.settle_for_message()?;
        let command = self.place.command;
        if follows_dashes && command.command(word).is_some() {
            return Ok(self.place.refusal(
                ErrorKind::UnknownArgument,
                format_args!(
                    "unexpected argument '{word}' found\n\n  tip: subcommand '{word}' exists; to use it, \
                     remove the '--' before it"
                ),
                Some(&[]),
            )?);
        }
        if command.commands.is_empty() {
            return Ok(self.place.refusal(
                ErrorKind::UnknownArgument,
                format_args!("unexpected argument '{word}' found"),
                Some(&[]),
            )?);
        }
        let close = similar(command.alloc, word, command.commands.iter().map(|it| it.name))?;
        if close.is_empty() {
            return Ok(self.place.no_command(word)?);
        }
        let mut tip = String::new(command.alloc);
        tip.push_str(if close.len() == 1 {
            "a similar subcommand exists: "
        } else {
            "some similar subcommands exist: "
        })?;
        for (count, name) in close.iter().enumerate() {
            write!(tip, "{}'{name}'", if count > 0 { ", " } else { "" })?;
        }
        Ok(self.place.refusal(
            ErrorKind::InvalidSubcommand,
            format_args!("unrecognized subcommand '{word}'\n\n  tip: {tip}"),
            Some(&[]),
        )?)
    }

    fn all_required(&self) -> Result<(), Error> {
        let command = self.place.command;
        let mut used = self.used()?;
        let mut missing = String::new(command.alloc);
        for (at, option) in command.options.iter().enumerate() {
            if option.is_required && !self.given.iter().any(|it| it.0 == at) {
                write!(missing, "\n  {option}")?;
                used.push(at)?;
            }
        }
        if missing.is_empty() {
            return Ok(());
        }
        Err(self.place.refusal(
            ErrorKind::MissingRequiredArgument,
            format_args!("the following required arguments were not provided:{missing}"),
            Some(&used),
        )?)
    }
}

/// Returns the names of a command's options.
fn names<'c, 'a>(command: &'c Command<'a>) -> impl Iterator<Item = &'a str> + 'c {
    command.options.iter().map(|it| it.name)
}
