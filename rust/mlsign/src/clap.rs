//! For the crate `clap` of Rattle: that of crates.io, with its signatures: an allocator is passed on, and what is found is borrowed
//! (here from memory that is kept until the program ends).

use crate::standing::HostRuntime;
use rattle_std::alloc::{AllocError, Global};
use rattle_std::convert::AsStr;
use real_clap::builder::PossibleValuesParser;
use std::fmt;
use std::io::{self, Write};
use std::marker::PhantomData;

pub use real_clap::ArgAction;

/// Calls of clap's that are the same here.
macro_rules! same {
    ($of:ident: $($name:ident($kind:ty)),*) => {
        impl<'a> $of<'a> {
            $(pub fn $name(self, given: $kind) -> $of<'a> {
                $of(self.0.$name(given), PhantomData)
            })*
        }
    };
}

pub struct Arg<'a>(real_clap::Arg, PhantomData<&'a str>);

same! { Arg: action(ArgAction), allow_hyphen_values(bool), default_value(&'static str), help(&'static str),
hide_default_value(bool), required(bool) }

impl<'a> Arg<'a> {
    pub fn of(arg: real_clap::Arg) -> Arg<'a> {
        Arg(arg, PhantomData)
    }

    pub fn value_parser(self, words: &'static [&'static str]) -> Arg<'a> {
        Arg::of(self.0.value_parser(PossibleValuesParser::new(words)))
    }

    pub fn requires_arg(self, other: &'static str) -> Result<Arg<'a>, AllocError> {
        Ok(Arg::of(self.0.requires(other)))
    }
}

macro_rules! arg {
    (in $alloc:expr; $($form:tt)*) => {{
        let _ = $alloc;
        $crate::clap::Arg::of(::real_clap::arg!($($form)*))
    }};
}
pub(crate) use arg;

pub struct Command<'a>(real_clap::Command, PhantomData<&'a str>);

same! { Command: about(&'static str), after_help(&'static str), no_binary_name(bool), subcommand_required(bool),
version(&'static str) }

impl<'a> Command<'a> {
    fn of(command: real_clap::Command) -> Command<'a> {
        Command(command, PhantomData)
    }

    pub fn new(_: Global, name: &'static str) -> Command<'a> {
        Command::of(real_clap::Command::new(name))
    }

    pub fn bin_name(self, name: &'static str) -> Result<Command<'a>, AllocError> {
        Ok(Command::of(self.0.bin_name(name)))
    }

    pub fn subcommand(self, other: Command<'a>) -> Result<Command<'a>, AllocError> {
        Ok(Command::of(self.0.subcommand(other.0)))
    }

    pub fn arg(self, arg: Arg<'a>) -> Result<Command<'a>, AllocError> {
        Ok(Command::of(self.0.arg(arg.0)))
    }

    pub fn try_get_matches_from<S: AsStr>(self, words: &'a [S]) -> Result<ArgMatches<'a>, Error> {
        let given = words.iter().map(|word| word.as_str());
        let found = self.0.try_get_matches_from(given).map_err(Error)?;
        Ok(ArgMatches::of(Box::leak(Box::new(found))))
    }
}

/// The words that were found.
pub struct ArgMatches<'a> {
    found: &'a real_clap::ArgMatches,
    texts: Vec<(&'a str, Vec<&'a str>)>,
    below: Option<(&'a str, Box<ArgMatches<'a>>)>,
}

impl<'a> ArgMatches<'a> {
    fn of(found: &'a real_clap::ArgMatches) -> ArgMatches<'a> {
        let texts = found.ids().filter_map(|id| {
            let texts = found.try_get_many::<String>(id.as_str()).ok()??;
            Some((id.as_str(), texts.map(String::as_str).collect()))
        });
        let below = found.subcommand();
        ArgMatches {
            found,
            texts: texts.collect(),
            below: below.map(|(name, found)| (name, Box::new(ArgMatches::of(found)))),
        }
    }

    pub fn get_strs(&self, id: &str) -> Option<&[&'a str]> {
        let (_, texts) = self.texts.iter().find(|it| it.0 == id)?;
        Some(texts)
    }

    pub fn get_str(&self, id: &str) -> Option<&'a str> {
        self.get_strs(id)?.first().copied()
    }

    pub fn get_flag(&self, id: &str) -> bool {
        matches!(self.found.try_get_one::<bool>(id), Ok(Some(true)))
    }

    pub fn subcommand(&self) -> Option<(&'a str, &ArgMatches<'a>)> {
        let (name, found) = self.below.as_ref()?;
        Some((name, found))
    }
}

/// What is wrong with words, or the help that they ask for.
#[derive(Debug)]
pub struct Error(real_clap::Error);

impl Error {
    pub fn use_stderr(&self) -> bool {
        self.0.use_stderr()
    }

    /// Prints the help.
    pub fn print(&self, rt: &HostRuntime) -> io::Result<()> {
        rt.stdout().write_all(self.to_string().as_bytes())
    }
}

impl fmt::Display for Error {
    fn fmt(&self, f: &mut fmt::Formatter<'_>) -> fmt::Result {
        self.0.fmt(f)
    }
}
