//! The texts of help, usage and errors.
use super::error::ErrorKind;
use super::suggestions::similar;
use super::{Arg, ArgAction, Command, Error};

/// The columns of a line of help, and those after which a text goes to a line of its own.
const LINE: usize = 100;
const MOST: usize = 40;

/// Returns a value in quotes if it is empty or has white space.
fn quoted(value: &str) -> String {
    if value.is_empty() || value.contains(char::is_whitespace) {
        format!("{value:?}")
    } else {
        value.to_string()
    }
}

fn width(text: &str) -> usize {
    text.chars().count()
}

impl<'a> Arg<'a> {
    /// Returns the name of its value, if it takes one. A positional argument may be shown as one
    /// that is required.
    fn suffix(&self, required: Option<bool>) -> String {
        let name = self.value_name.unwrap_or(self.id);
        if !self.takes_value() {
            return String::new();
        }
        if !self.is_positional() {
            return format!(" <{name}>");
        }
        let more = if self.action_of() == ArgAction::Append {
            "..."
        } else {
            ""
        };
        if required.unwrap_or(self.required) && !self.may_be_empty {
            format!("<{name}>{more}")
        } else {
            format!("[{name}]{more}")
        }
    }

    /// Returns how a message names it.
    pub(super) fn shown(&self, required: Option<bool>) -> String {
        let suffix = self.suffix(required);
        match (self.long, self.short) {
            (Some(long), _) => format!("--{long}{suffix}"),
            (None, Some(short)) => format!("-{short}{suffix}"),
            (None, None) => suffix,
        }
    }

    /// Returns the words of help after its text.
    fn details(&self) -> String {
        let mut parts = Vec::new();
        if let Some(value) = self.default.filter(|_| self.takes_value()) {
            parts.push(format!("[default: {}]", quoted(value)));
        }
        if self.takes_value() && !self.possible.is_empty() {
            parts.push(format!("[possible values: {}]", self.possible_values()));
        }
        parts.join(" ")
    }

    fn possible_values(&self) -> String {
        let values: Vec<String> = self.possible.iter().map(|it| quoted(it)).collect();
        values.join(", ")
    }
}

impl<'a> Command<'a> {
    /// Returns the ids of the arguments that are required.
    pub(super) fn required(&self) -> Vec<&'a str> {
        let required = self.args.iter().filter(|arg| arg.required);
        required.map(|arg| arg.id).collect()
    }

    /// Returns the ids of the arguments that one needs, and those that they need in turn.
    pub(super) fn needs_of(&self, id: &str) -> Vec<&'a str> {
        let mut found: Vec<&'a str> = Vec::new();
        let mut next = self.find(id).map_or(Vec::new(), |arg| arg.needs.clone());
        while let Some(id) = next.pop() {
            if !found.contains(&id) {
                found.push(id);
                next.extend(self.find(id).iter().flat_map(|arg| &arg.needs));
            }
        }
        found
    }

    /// Returns ids, each after those that it needs.
    pub(super) fn with_needs<'b>(&self, ids: &[&'b str]) -> Vec<&'b str>
    where
        'a: 'b,
    {
        let mut found: Vec<&'b str> = Vec::new();
        for id in ids {
            found.extend(self.needs_of(id));
            found.push(id);
        }
        found
    }

    /// Returns the line with the usage: of the arguments that are used, or of all if none is.
    pub(super) fn usage(&self, used: &[&str], required: &[&str]) -> String {
        let mut words = vec!["Usage:".to_string(), self.name.to_string()];
        let is_open = |arg: &Arg<'_>| {
            let is_request = matches!(arg.action_of(), ArgAction::Help | ArgAction::Version);
            !arg.is_positional() && !arg.required && !is_request
        };
        if used.is_empty() && self.args.iter().any(is_open) {
            words.push("[OPTIONS]".to_string());
        }
        let mut wanted = self.with_needs(required);
        wanted.extend(used);
        let [options, groups, _] = self.names_of(&wanted);
        words.extend(options.into_iter().chain(groups));
        for arg in self.positionals() {
            words.push(arg.shown(Some(wanted.contains(&arg.id))));
        }
        words.join(" ")
    }

    /// Returns how a message names arguments, each once: the options, then the groups with all that
    /// is in them, and then the positional ones.
    pub(super) fn names_of(&self, ids: &[&str]) -> [Vec<String>; 3] {
        let groups: Vec<_> = ids.iter().filter_map(|id| self.group_of(id)).collect();
        let mut names = [Vec::new(), Vec::new(), Vec::new()];
        let mut add = |place: usize, name: String| {
            if !names[place].contains(&name) {
                names[place].push(name);
            }
        };
        for arg in ids.iter().filter_map(|id| self.find(id)) {
            if !groups.iter().any(|group| group.args.contains(&arg.id)) {
                add(
                    if arg.is_positional() { 2 } else { 0 },
                    arg.shown(Some(true)),
                );
            }
        }
        for group in &groups {
            let args = group.args.iter().filter_map(|id| self.find(id));
            let shown: Vec<String> = args.map(|arg| arg.shown(None)).collect();
            add(1, format!("<{}>", shown.join("|")));
        }
        names
    }

    /// Returns an error with these words, perhaps with the usage.
    pub(super) fn fault(&self, kind: ErrorKind, told: &str, usage: Option<String>) -> Error {
        let usage = usage.map_or(String::new(), |it| format!("\n\n{it}"));
        let text = format!("error: {told}{usage}\n\nFor more information, try '--help'.\n");
        Error { kind, text }
    }

    /// Returns the error of a value that an argument may not have, or of none at all.
    pub(super) fn invalid(&self, arg: &Arg<'a>, value: &str) -> Error {
        let shown = arg.shown(None);
        let mut told = if value.is_empty() {
            format!("a value is required for '{shown}' but none was supplied")
        } else {
            format!("invalid value '{value}' for '{shown}'")
        };
        if !arg.possible.is_empty() {
            told += &format!("\n  [possible values: {}]", arg.possible_values());
        }
        if let Some(close) = similar(value, arg.possible.iter().copied()) {
            told += &format!("\n\n  tip: a similar value exists: '{close}'");
        }
        self.fault(ErrorKind::InvalidValue, &told, None)
    }

    /// Returns what was asked for: help, or the version.
    pub(super) fn request(&self, kind: ErrorKind) -> Error {
        let text = if kind == ErrorKind::DisplayVersion {
            format!("{} {}\n", self.name, self.version.unwrap_or_default())
        } else {
            self.help()
        };
        Error { kind, text }
    }

    fn help(&self) -> String {
        let about = self.about.map_or(String::new(), |it| format!("{it}\n\n"));
        let mut text = format!("{about}{}", self.usage(&[], &[]));
        let (positionals, options): (Vec<_>, Vec<_>) =
            self.args.iter().partition(|arg| arg.is_positional());
        for (title, args) in [("Arguments", positionals), ("Options", options)] {
            if !args.is_empty() {
                text += &format!("\n\n{title}:\n{}", rows(&args).join("\n"));
            }
        }
        if let Some(after) = self.after_help {
            text += &format!("\n\n{after}");
        }
        format!("{}\n", text.trim_end())
    }
}

/// Returns the rows of arguments in help.
fn rows(args: &[&Arg<'_>]) -> Vec<String> {
    let names: Vec<String> = args
        .iter()
        .map(|arg| match (arg.long, arg.short) {
            (Some(_), None) => format!("    {}", arg.shown(None)),
            (Some(_), Some(short)) => format!("-{short}, {}", arg.shown(None)),
            (None, _) => arg.shown(None),
        })
        .collect();
    let longest = names.iter().map(|it| width(it)).max().unwrap_or(0).max(2);
    let taken = longest + 4;
    let is_wide = |arg: &&&Arg<'_>| width(arg.help) + width(&arg.details()) > LINE - taken;
    let is_below = taken > MOST && taken <= LINE && args.iter().any(|arg| is_wide(&arg));
    let row = |(name, arg): (&String, &&Arg<'_>)| {
        let details = arg.details();
        let space = if arg.help.is_empty() || details.is_empty() {
            ""
        } else {
            " "
        };
        let text = format!("{}{space}{details}", arg.help);
        let gap = if is_below {
            format!("\n{}", " ".repeat(10))
        } else {
            " ".repeat(longest + 2 - width(name))
        };
        let indent = if is_below { 10 } else { taken };
        let text = text.replace('\n', &format!("\n{}", " ".repeat(indent)));
        format!("  {name}{gap}{text}")
    };
    names.iter().zip(args).map(row).collect()
}
