//! Command lines, as far as the programs have them: flags, options with one value, and positional
//! arguments. The words of help and errors are those of the crate `clap`.
use super::alloc::AllocError;
use super::host::HostRuntime;
use std::ops::RangeFrom;

mod parse;
mod suggestions;
mod texts;

/// The kinds of errors and of requests.
pub mod error {
    /// A kind of error.
    #[derive(Clone, Copy, Debug, Eq, PartialEq)]
    pub enum ErrorKind {
        /// The value is not among the possible ones.
        InvalidValue,
        /// The word is no argument.
        UnknownArgument,
        /// The program refused the value.
        ValueValidation,
        /// A flag has a value.
        TooManyValues,
        /// Two arguments do not go together, or one is there twice.
        ArgumentConflict,
        /// A required argument is missing.
        MissingRequiredArgument,
        /// Help was requested.
        DisplayHelp,
        /// The version was requested.
        DisplayVersion,
    }
}

use error::ErrorKind;

/// The effect of an argument where it is used.
#[derive(Clone, Copy, Debug, Eq, PartialEq)]
pub enum ArgAction {
    /// It sets its value, once.
    Set,
    /// It adds a value, again and again.
    Append,
    /// It is set.
    SetTrue,
    /// It requests help.
    Help,
    /// It requests the version.
    Version,
}

/// An argument: a flag or an option, or a positional one if it has no long name.
#[derive(Clone)]
pub struct Arg<'a> {
    id: &'a str,
    long: Option<&'a str>,
    short: Option<char>,
    value_name: Option<&'a str>,
    help: &'a str,
    action: Option<ArgAction>,
    /// The values that it may have, if only some.
    possible: &'a [&'a str],
    default: Option<&'a str>,
    conflicts: Vec<&'a str>,
    needs: Vec<&'a str>,
    required: bool,
    /// Whether a positional argument takes one value after the other.
    takes_many: bool,
    /// Whether it may be used without a value.
    may_be_empty: bool,
}

impl<'a> Arg<'a> {
    /// Returns an argument that is read back by this id.
    pub fn new(id: &'a str) -> Arg<'a> {
        Arg {
            id,
            long: None,
            short: None,
            value_name: None,
            help: "",
            action: None,
            possible: &[],
            default: None,
            conflicts: Vec::new(),
            needs: Vec::new(),
            required: false,
            takes_many: false,
            may_be_empty: false,
        }
    }

    /// Gives it a long name.
    pub fn long(mut self, name: &'a str) -> Arg<'a> {
        self.long = Some(name);
        self
    }

    /// Gives it a short name.
    pub fn short(mut self, name: char) -> Arg<'a> {
        self.short = Some(name);
        self
    }

    /// Names its value.
    pub fn value_name(mut self, name: &'a str) -> Arg<'a> {
        self.value_name = Some(name);
        self
    }

    /// Says what it is for.
    pub fn help(mut self, text: &'a str) -> Arg<'a> {
        self.help = text;
        self
    }

    /// Says what it does.
    pub fn action(mut self, action: ArgAction) -> Arg<'a> {
        self.action = Some(action);
        self
    }

    /// Lets it have only these values.
    pub fn value_parser(mut self, possible: &'a [&'a str]) -> Arg<'a> {
        self.possible = possible;
        self
    }

    /// Gives it this value where it is not used.
    pub fn default_value(mut self, value: &'a str) -> Arg<'a> {
        self.default = Some(value);
        self
    }

    /// Requires it.
    pub fn required(mut self, is_required: bool) -> Arg<'a> {
        self.required = is_required;
        self
    }

    /// Lets a positional argument take one value after the other.
    pub fn num_args(mut self, range: RangeFrom<usize>) -> Arg<'a> {
        self.takes_many = true;
        self.may_be_empty = range.start == 0;
        self
    }

    /// Says that it does not go with another one.
    pub fn conflicts_with(mut self, id: &'a str) -> Result<Arg<'a>, AllocError> {
        self.conflicts.push(id);
        Ok(self)
    }

    /// Says that it does not go with others.
    pub fn conflicts_with_all(mut self, ids: &[&'a str]) -> Result<Arg<'a>, AllocError> {
        self.conflicts.extend_from_slice(ids);
        Ok(self)
    }

    /// Says that it needs others.
    pub fn requires_all(mut self, ids: &[&'a str]) -> Result<Arg<'a>, AllocError> {
        self.needs.extend_from_slice(ids);
        Ok(self)
    }

    fn is_positional(&self) -> bool {
        self.long.is_none() && self.short.is_none()
    }

    fn action_of(&self) -> ArgAction {
        self.action.unwrap_or(if self.takes_many {
            ArgAction::Append
        } else {
            ArgAction::Set
        })
    }

    fn takes_value(&self) -> bool {
        matches!(self.action_of(), ArgAction::Set | ArgAction::Append)
    }
}

/// Arguments under a name. One at most is used, unless several may be.
pub struct ArgGroup<'a> {
    id: &'a str,
    args: Vec<&'a str>,
    multiple: bool,
}

impl<'a> ArgGroup<'a> {
    /// Returns a group without arguments.
    pub fn new(id: &'a str) -> ArgGroup<'a> {
        ArgGroup {
            id,
            args: Vec::new(),
            multiple: false,
        }
    }

    /// Lets several of the arguments be used, or one at most.
    pub fn multiple(mut self, yes: bool) -> ArgGroup<'a> {
        self.multiple = yes;
        self
    }

    /// Adds an argument.
    pub fn arg(mut self, id: &'a str) -> Result<ArgGroup<'a>, AllocError> {
        self.args.push(id);
        Ok(self)
    }

    /// Adds arguments.
    pub fn args(mut self, ids: &[&'a str]) -> Result<ArgGroup<'a>, AllocError> {
        self.args.extend_from_slice(ids);
        Ok(self)
    }
}

/// A command with its arguments.
pub struct Command<'a> {
    name: &'a str,
    version: Option<&'a str>,
    about: Option<&'a str>,
    after_help: Option<&'a str>,
    args: Vec<Arg<'a>>,
    groups: Vec<ArgGroup<'a>>,
}

impl<'a> Command<'a> {
    /// Returns a command without arguments.
    pub fn new(name: &'a str) -> Command<'a> {
        Command {
            name,
            version: None,
            about: None,
            after_help: None,
            args: Vec::new(),
            groups: Vec::new(),
        }
    }

    /// Names it in its usage.
    pub fn bin_name(mut self, name: &'a str) -> Result<Command<'a>, AllocError> {
        self.name = name;
        Ok(self)
    }

    /// Gives it a version.
    pub fn version(mut self, version: &'a str) -> Command<'a> {
        self.version = Some(version);
        self
    }

    /// Says what it is for.
    pub fn about(mut self, text: &'a str) -> Command<'a> {
        self.about = Some(text);
        self
    }

    /// Adds a text after the help.
    pub fn after_help(mut self, text: &'a str) -> Command<'a> {
        self.after_help = Some(text);
        self
    }

    /// Adds an argument.
    pub fn arg(mut self, arg: Arg<'a>) -> Result<Command<'a>, AllocError> {
        self.args.push(arg);
        Ok(self)
    }

    /// Adds a group.
    pub fn group(mut self, group: ArgGroup<'a>) -> Result<Command<'a>, AllocError> {
        self.groups.push(group);
        Ok(self)
    }

    /// Reads the words of a command line, of which the first one is the program's name.
    pub fn try_get_matches_from(mut self, words: &'a [String]) -> Result<ArgMatches<'a>, Error> {
        self.add_requests();
        let words = words.get(1..).unwrap_or_default();
        parse::parse(&self, words)
    }

    /// Returns an error that the program found itself.
    pub fn error(mut self, kind: ErrorKind, message: &str) -> Result<Error, AllocError> {
        self.add_requests();
        let usage = self.usage(&[], &self.required());
        Ok(self.fault(kind, message, Some(usage)))
    }

    /// Adds the flags that request help and the version.
    fn add_requests(&mut self) {
        let help = Arg::new("help").short('h').long("help");
        self.args
            .push(help.action(ArgAction::Help).help("Print help"));
        if self.version.is_some() {
            let version = Arg::new("version").short('V').long("version");
            self.args
                .push(version.action(ArgAction::Version).help("Print version"));
        }
    }

    fn find(&self, id: &str) -> Option<&Arg<'a>> {
        self.args.iter().find(|arg| arg.id == id)
    }

    fn group_of(&self, id: &str) -> Option<&ArgGroup<'a>> {
        self.groups.iter().find(|group| group.id == id)
    }

    fn positionals(&self) -> impl Iterator<Item = &Arg<'a>> {
        self.args.iter().filter(|arg| arg.is_positional())
    }
}

/// The values of an argument.
struct Found<'a> {
    id: &'a str,
    values: Vec<&'a str>,
    /// Whether the words have it, and it is no default.
    is_used: bool,
}

/// The arguments that were found.
pub struct ArgMatches<'a> {
    found: Vec<Found<'a>>,
}

impl<'a> ArgMatches<'a> {
    /// Returns the first value of an argument, or `None` if it has none.
    pub fn get_str(&self, id: &str) -> Option<&'a str> {
        self.get_strs(id)?.first().copied()
    }

    /// Returns the values of an argument, or `None` if it has none.
    pub fn get_strs(&self, id: &str) -> Option<&[&'a str]> {
        let found = self.found.iter().find(|found| found.id == id);
        found.map(|found| found.values.as_slice())
    }

    /// Returns whether a flag is set.
    pub fn get_flag(&self, id: &str) -> bool {
        self.get_str(id) == Some("true")
    }
}

/// Why there are no matches: words that are wrong, or a request for help or the version.
#[derive(Debug)]
pub struct Error {
    kind: ErrorKind,
    text: String,
}

impl Error {
    fn is_request(&self) -> bool {
        matches!(
            self.kind,
            ErrorKind::DisplayHelp | ErrorKind::DisplayVersion
        )
    }

    /// Returns the exit status of a program that ends with it.
    pub fn exit_code(&self) -> i32 {
        if self.is_request() {
            0
        } else {
            2
        }
    }

    /// Writes it: what was asked for to standard output, and the others to standard error.
    pub fn print(&self, rt: &HostRuntime) -> std::io::Result<()> {
        if self.is_request() {
            rt.print(&self.text)
        } else {
            rt.eprint(&self.text)
        }
    }
}

impl From<AllocError> for Error {
    fn from(error: AllocError) -> Error {
        match error {}
    }
}
