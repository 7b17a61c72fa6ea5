//! Formats usage, help and messages.

use super::super::alloc::AllocError;
use super::super::string::String;
use super::error::ErrorKind;
use super::{Arg, ArgAction, Command, Error, HELP};
use core::fmt;

/// A command, and the names on the way to it, starting with the program's name.
#[derive(Clone, Copy)]
pub(super) struct Place<'c, 'a> {
    pub(super) command: &'c Command<'a>,
    pub(super) path: &'c str,
}

/// Returns the part of a path after the last slash; None if that part names no file.
pub(super) fn file_name(path: &str) -> Option<&str> {
    let path = path.trim_end_matches('/');
    let name = path.rsplit_once('/').map_or(path, |it| it.1);
    Some(name).filter(|it| !it.is_empty() && *it != "..")
}

/// Formats an option for a message: `--limit <N>`.
impl fmt::Display for Arg<'_> {
    fn fmt(&self, f: &mut fmt::Formatter<'_>) -> fmt::Result {
        match self.action {
            ArgAction::Set => write!(f, "--{} <{}>", self.name, self.value_name),
            _ => write!(f, "--{}", self.name),
        }
    }
}

impl Arg<'_> {
    /// Returns the number of columns that it needs in a list of options.
    fn width(&self) -> usize {
        let value = if self.action == ArgAction::Set { self.value_name.chars().count() + 3 } else { 0 };
        2 + self.name.chars().count() + value
    }
}

impl<'a> Place<'_, 'a> {
    /// Appends `Usage: ..` with the options at these indices, or all if there are none. Required ones are always
    /// included.
    fn push_usage(&self, text: &mut String, used: &[usize]) -> Result<(), AllocError> {
        let command = self.command;
        write!(text, "Usage: {}", self.path)?;
        if command.name == HELP {
            return text.push_str(" [COMMAND]...");
        }
        let is_free = |it: &Arg<'_>| !it.is_required && matches!(it.action, ArgAction::Set | ArgAction::SetTrue);
        if used.is_empty() && command.options.iter().any(is_free) {
            text.push_str(" [OPTIONS]")?;
        }
        for option in command.options.iter().filter(|it| it.is_required) {
            write!(text, " {option}")?;
        }
        for (count, place) in used.iter().enumerate() {
            let option = &command.options[*place];
            if !option.is_required && !used[..count].contains(place) {
                write!(text, " {option}")?;
            }
        }
        if !command.commands.is_empty() {
            text.push_str(" <COMMAND>")?;
        }
        Ok(())
    }

    /// Returns the error for invalid arguments. Its text includes the usage with the options in `used`, if given.
    pub(super) fn refusal(
        &self,
        kind: ErrorKind,
        message: fmt::Arguments<'_>,
        used: Option<&[usize]>,
    ) -> Result<Error, AllocError> {
        let mut text = String::new(self.command.alloc);
        write!(text, "error: {message}")?;
        if let Some(used) = used {
            text.push_str("\n\n")?;
            self.push_usage(&mut text, used)?;
        }
        // (The `help` command itself has no help.)
        let has_help = self.command.name != HELP;
        text.push_str(if has_help { "\n\nFor more information, try '--help'.\n" } else { "\n" })?;
        Ok(Error { kind, text })
    }

    pub(super) fn version(&self) -> Result<Error, AllocError> {
        let command = self.command;
        let text = crate::format_in!(in command.alloc; "{} {}\n", command.name, command.version.unwrap_or(""))?;
        Ok(Error { kind: ErrorKind::DisplayVersion, text })
    }

    pub(super) fn help(&self, kind: ErrorKind) -> Result<Error, AllocError> {
        let command = self.command;
        let mut text = String::new(command.alloc);
        write!(text, "{}\n\n", command.about)?;
        self.push_usage(&mut text, &[])?;
        if command.name == HELP {
            text.push_str("\n\nArguments:\n  [COMMAND]...  Print help for the subcommand(s)")?;
        }
        push_commands(command, &mut text)?;
        push_options(command, &mut text)?;
        if !command.after_help.is_empty() {
            write!(text, "\n\n{}", command.after_help)?;
        }
        text.push_str("\n")?;
        Ok(Error { kind, text })
    }

    /// Returns the help of the command that these names lead to, starting from this command.
    pub(super) fn help_of(&self, names: &[&str]) -> Result<Error, AllocError> {
        let (name, rest) = match names.split_first() {
            Some((name, rest)) => (*name, rest),
            None => return self.help(ErrorKind::DisplayHelp),
        };
        match self.command.command(name) {
            Some(command) => {
                let path = crate::format_in!(in command.alloc; "{} {name}", self.path)?;
                Place { command, path: &path }.help_of(rest)
            }
            None => self.no_command(name),
        }
    }

    pub(super) fn no_command(&self, name: &str) -> Result<Error, AllocError> {
        self.refusal(ErrorKind::InvalidSubcommand, format_args!("unrecognized subcommand '{name}'"), Some(&[]))
    }
}

/// Appends the commands, one on each line.
fn push_commands(command: &Command<'_>, text: &mut String) -> Result<(), AllocError> {
    if command.commands.is_empty() {
        return Ok(());
    }
    let width = command.commands.iter().map(|it| it.name.chars().count()).max().unwrap_or(0);
    text.push_str("\n\nCommands:")?;
    for it in &command.commands {
        write!(text, "\n  {:width$}  {}", it.name, it.about)?;
    }
    Ok(())
}

/// Appends the options, one on each line.
fn push_options(command: &Command<'_>, text: &mut String) -> Result<(), AllocError> {
    if command.options.is_empty() {
        return Ok(());
    }
    let width = command.options.iter().map(Arg::width).max().unwrap_or(0);
    text.push_str("\n\nOptions:")?;
    for it in &command.options {
        match it.short {
            Some(short) => write!(text, "\n  -{short}, {it}")?,
            None => write!(text, "\n      {it}")?,
        }
        write!(text, "{:1$}  {2}", "", width - it.width(), it.help)?;
        if let Some(default) = it.default {
            write!(text, " [default: {default}]")?;
        }
    }
    Ok(())
}
