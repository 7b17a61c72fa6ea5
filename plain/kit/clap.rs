//! The `clap` crate: command lines of a program with commands, whose options have long names and take at most one
//! number. Help, messages and their tips match clap's output byte for byte.
//!
//! `try_get_matches_from` reads the arguments: `parse` scans them as clap does, `texts` formats the output, and
//! `similar` finds the name that was probably meant. The module omits what `bench_commands` doesn't use: short names,
//! positionals, groups, conflicts, values of other types, and help that is too wide for a terminal.

mod parse;
mod similar;
mod texts;

use super::alloc::{AllocError, Global};
use super::convert::AsStr;
use super::string::String;
use super::vec::Vec;
use builder::ValueParser;
use core::fmt;
use error::ErrorKind;
use parse::Parser;
use texts::Place;

pub mod error {
    //! Why no command is run: for example, an argument is invalid, or help was requested.

    #[derive(Clone, Copy, Debug, PartialEq, Eq)]
    pub enum ErrorKind {
        ArgumentConflict,
        DisplayHelp,
        DisplayHelpOnMissingArgumentOrSubcommand,
        DisplayVersion,
        InvalidSubcommand,
        InvalidValue,
        MissingRequiredArgument,
        OutOfMemory,
        TooManyValues,
        UnknownArgument,
        ValueValidation,
    }
}

pub mod builder {
    //! The values that options accept.

    use core::marker::PhantomData;

    /// The numbers that an option accepts. Their text is parsed as a 64-bit number, signed or unsigned.
    #[derive(Clone, Copy, Debug)]
    pub struct ValueParser<'a> {
        pub(super) is_signed: bool,
        pub(super) least: i128,
        pub(super) most: i128,
        lives: PhantomData<&'a ()>,
    }

    impl ValueParser<'_> {
        /// Numbers in a range, both bounds included.
        pub const fn signed(least: i64, most: i64) -> Self {
            ValueParser { is_signed: true, least: least as i128, most: most as i128, lives: PhantomData }
        }

        /// Unsigned numbers.
        pub const fn unsigned() -> Self {
            ValueParser { is_signed: false, least: 0, most: u64::MAX as i128, lives: PhantomData }
        }
    }
}

/// A type of value that an option can have: its numbers, and the conversion of a number to a value.
pub trait Value: Sized {
    const NUMBERS: ValueParser<'static>;

    fn of(number: i128) -> Self;
}

macro_rules! value {
    ($($of:ty = $numbers:expr;)*) => { $(impl Value for $of {
        const NUMBERS: ValueParser<'static> = $numbers;

        fn of(number: i128) -> $of {
            number as $of
        }
    })* };
}

value! {
    u8 = ValueParser::signed(0, u8::MAX as i64);
    u16 = ValueParser::signed(0, u16::MAX as i64);
    u64 = ValueParser::unsigned();
}

impl Value for bool {
    const NUMBERS: ValueParser<'static> = ValueParser::signed(0, 1);

    fn of(number: i128) -> bool {
        number != 0
    }
}

/// Defines the numbers of a type.
#[macro_export]
macro_rules! value_parser {
    ($of:ty) => {
        <$of as $crate::kit::clap::Value>::NUMBERS
    };
}

pub use crate::value_parser;

/// What to do when an option occurs.
#[derive(Clone, Copy, PartialEq, Eq, Debug)]
pub enum ArgAction {
    /// It takes a number.
    Set,
    /// It is a flag.
    SetTrue,
    /// It prints the help.
    Help,
    /// It prints the version.
    Version,
}

/// The reason why no command is run, with the text to print.
#[derive(Debug)]
pub struct Error {
    kind: ErrorKind,
    text: String,
}

impl Error {
    pub fn kind(&self) -> ErrorKind {
        self.kind
    }
}

impl fmt::Display for Error {
    fn fmt(&self, f: &mut fmt::Formatter<'_>) -> fmt::Result {
        f.write_str(&self.text)
    }
}

impl From<AllocError> for Error {
    fn from(_: AllocError) -> Error {
        Error { kind: ErrorKind::OutOfMemory, text: String::new(Global) }
    }
}

impl<T> From<super::alloc::AllocFailed<T>> for Error {
    fn from(_: super::alloc::AllocFailed<T>) -> Error {
        Error::from(AllocError)
    }
}

/// An option.
#[derive(Clone, Copy, Debug)]
pub struct Arg<'a> {
    name: &'a str,
    short: Option<char>,
    value_name: &'a str,
    help: &'a str,
    action: ArgAction,
    numbers: ValueParser<'a>,
    default: Option<&'a str>,
    is_required: bool,
}

impl<'a> Arg<'a> {
    pub fn new(_alloc: Global, name: &'a str) -> Self {
        Arg {
            name,
            short: None,
            value_name: name,
            help: "",
            action: ArgAction::Set,
            numbers: ValueParser::signed(i64::MIN, i64::MAX),
            default: None,
            is_required: false,
        }
    }

    /// Sets the option's name on the command line, after `--`. It is also the name of its value.
    pub fn long(self, name: &'a str) -> Self {
        Arg { name, ..self }
    }

    pub fn value_name(self, value_name: &'a str) -> Self {
        Arg { value_name, ..self }
    }

    pub fn help(self, help: &'a str) -> Self {
        Arg { help, ..self }
    }

    pub fn value_parser(self, numbers: ValueParser<'a>) -> Self {
        Arg { numbers, ..self }
    }

    /// Sets the value used when the option isn't given: a number that it accepts.
    pub fn default_value(self, text: &'a str) -> Self {
        Arg { default: Some(text), ..self }
    }

    pub fn required(self, is_required: bool) -> Self {
        Arg { is_required, ..self }
    }

    pub fn action(self, action: ArgAction) -> Self {
        Arg { action, ..self }
    }

    /// A flag that clap adds to each command, or to the program.
    fn request(name: &'a str, short: char, help: &'a str, action: ArgAction) -> Self {
        Arg { help, short: Some(short), action, ..Arg::new(Global, name) }
    }
}

/// The program, or one of its commands.
#[derive(Debug)]
pub struct Command<'a> {
    alloc: Global,
    name: &'a str,
    about: &'a str,
    version: Option<&'a str>,
    after_help: &'a str,
    options: Vec<Arg<'a>>,
    commands: Vec<Command<'a>>,
}

/// A parsed command line: a command, and the numbers of its options, 1 for a flag.
#[derive(Debug)]
pub struct ArgMatches<'a> {
    name: &'a str,
    values: Vec<(&'a str, i128)>,
    below: Vec<ArgMatches<'a>>,
}

impl<'a> ArgMatches<'a> {
    pub fn get_one<T: Value>(&self, name: &str) -> Option<T> {
        self.values.iter().find(|it| it.0 == name).map(|it| T::of(it.1))
    }

    pub fn subcommand(&self) -> Option<(&str, &ArgMatches<'a>)> {
        self.below.first().map(|it| (it.name, it))
    }
}

/// The `help` command, which every program with commands has.
const HELP: &str = "help";

impl<'a> Command<'a> {
    pub fn new(alloc: Global, name: &'a str) -> Self {
        let (options, commands) = (Vec::new(alloc), Vec::new(alloc));
        Command { alloc, name, about: "", version: None, after_help: "", options, commands }
    }

    pub fn about(self, about: &'a str) -> Self {
        Command { about, ..self }
    }

    pub fn version(self, version: &'a str) -> Self {
        Command { version: Some(version), ..self }
    }

    pub fn after_help(self, after_help: &'a str) -> Self {
        Command { after_help, ..self }
    }

    /// Does nothing: a program with commands always requires a command.
    pub fn subcommand_required(self, _is_required: bool) -> Self {
        self
    }

    /// Does nothing: a program with commands always shows its help if no command is given.
    pub fn arg_required_else_help(self, _is_shown: bool) -> Self {
        self
    }

    pub fn arg(mut self, option: Arg<'a>) -> Result<Self, Error> {
        self.options.push(option)?;
        Ok(self)
    }

    pub fn subcommand(mut self, command: Command<'a>) -> Result<Self, Error> {
        self.commands.push(command)?;
        Ok(self)
    }

    /// Creates a refusal with a message from the caller.
    pub fn error(&mut self, kind: ErrorKind, text: &str) -> Result<Error, Error> {
        let place = Place { command: self, path: self.name };
        Ok(place.refusal(kind, format_args!("{text}"), Some(&[]))?)
    }

    /// Adds the flags and the command that clap adds.
    fn built(mut self) -> Result<Self, Error> {
        self.options.push(Arg::request(HELP, 'h', "Print help", ArgAction::Help))?;
        if self.version.is_some() {
            self.options.push(Arg::request("version", 'V', "Print version", ArgAction::Version))?;
        }
        let mut commands = Vec::with_capacity(self.alloc, self.commands.len() + 1)?;
        for command in core::mem::replace(&mut self.commands, Vec::new(self.alloc)) {
            commands.push_reserved(command.built()?);
        }
        if !commands.is_empty() {
            let about = "Print this message or the help of the given subcommand(s)";
            commands.push_reserved(Command::new(self.alloc, HELP).about(about));
        }
        self.commands = commands;
        Ok(self)
    }

    /// Returns the command with a name.
    fn command(&self, name: &str) -> Option<&Command<'a>> {
        self.commands.iter().find(|it| it.name == name)
    }

    /// Returns the index of the option with a name.
    fn option(&self, name: &str) -> Option<usize> {
        self.options.iter().position(|it| it.name == name)
    }

    /// Parses arguments, starting with the program's name.
    pub fn try_get_matches_from<S: AsStr>(self, words: &'a [S]) -> Result<ArgMatches<'a>, Error> {
        let program = self.built()?;
        let mut texts = Vec::with_capacity(program.alloc, words.len())?;
        for word in words {
            texts.push_reserved(word.as_str());
        }
        let (first, rest) = texts.split_first().map_or(("", &[][..]), |(first, rest)| (*first, rest));
        let path = texts::file_name(first).unwrap_or(program.name);
        let place = Place { command: &program, path };
        let (mut found, next) = Parser::new(&place).matches(rest)?;
        if let Some((command, rest)) = next {
            let path = crate::format_in!(in program.alloc; "{path} {}", command.name)?;
            let place = Place { command, path: &path };
            found.below.push(Parser::new(&place).matches(rest)?.0)?;
        }
        Ok(found)
    }
}
