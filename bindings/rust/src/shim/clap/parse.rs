//! The walk over the words of a command line, and what is checked of all of them.
use super::error::ErrorKind;
use super::{Arg, ArgAction, ArgMatches, Command, Error, Found};

/// The words that were read so far.
struct Parse<'c, 'a> {
    command: &'c Command<'a>,
    found: Vec<Found<'a>>,
    /// The argument whose values are read, with those.
    pending: Option<(&'c Arg<'a>, Vec<&'a str>)>,
}

/// Reads the words of a command line.
pub fn parse<'a>(command: &Command<'a>, words: &'a [String]) -> Result<ArgMatches<'a>, Error> {
    let mut parse = Parse {
        command,
        found: Vec::new(),
        pending: None,
    };
    parse.read(words)?;
    parse.settle()?;
    for arg in &command.args {
        parse.add_default(arg);
    }
    parse.check_conflicts()?;
    parse.check_needs()?;
    Ok(ArgMatches { found: parse.found })
}

/// Adds an id to a list that does not have it.
fn add<'a>(ids: &mut Vec<&'a str>, id: &'a str) {
    if !ids.contains(&id) {
        ids.push(id);
    }
}

impl<'c, 'a> Parse<'c, 'a> {
    fn read(&mut self, words: &'a [String]) -> Result<(), Error> {
        let (mut position, mut is_waiting, mut is_trailing) = (0, false, false);
        for word in words {
            if !is_trailing {
                if word == "--" {
                    is_trailing = true;
                    continue;
                }
                if let Some(rest) = word.strip_prefix("--") {
                    is_waiting = self.read_long(rest)?;
                    continue;
                }
                if let Some(rest) = word.strip_prefix('-').filter(|rest| !rest.is_empty()) {
                    is_waiting = self.read_short(rest)?;
                    continue;
                }
                if is_waiting {
                    self.pending.iter_mut().for_each(|it| it.1.push(word));
                    is_waiting = false;
                    continue;
                }
            }
            let Some(arg) = self.command.positionals().nth(position) else {
                let _ = self.settle();
                let is_flag = !is_trailing && word.len() > 1 && word.starts_with('-');
                return Err(self.unknown(word, None, is_flag, &[]));
            };
            match &mut self.pending {
                Some((pending, values)) if pending.id == arg.id && arg.takes_many => {
                    values.push(word);
                }
                _ => {
                    self.settle()?;
                    self.pending = Some((arg, vec![word]));
                }
            }
            is_waiting = false;
            if arg.action_of() != ArgAction::Append {
                position += 1;
            }
        }
        Ok(())
    }

    /// Reads a word after its `--`. Returns whether its value is to come.
    fn read_long(&mut self, rest: &'a str) -> Result<bool, Error> {
        let (name, value) = match rest.split_once('=') {
            Some((name, value)) => (name, Some(value)),
            None => (rest, None),
        };
        let command = self.command;
        let Some(arg) = command.args.iter().find(|arg| arg.long == Some(name)) else {
            let _ = self.settle();
            return Err(self.unknown_long(name));
        };
        match value {
            Some(value) if !arg.takes_value() => {
                let mut used = self.used();
                used.retain(|id| !command.find(id).map_or(false, |it| it.required));
                used.push(arg.id);
                let _ = self.settle();
                let told = format!(
                    "unexpected value '{value}' for '{}' found; no more were expected",
                    arg.shown(None)
                );
                let usage = command.usage(&used, &command.required());
                Err(command.fault(ErrorKind::TooManyValues, &told, Some(usage)))
            }
            value => self.take(arg, value),
        }
    }

    /// Reads a word after its `-`. Returns whether its value is to come.
    fn read_short(&mut self, rest: &'a str) -> Result<bool, Error> {
        let (mut letters, command) = (rest.chars(), self.command);
        while let Some(letter) = letters.next() {
            let of_letter = |arg: &&Arg<'a>| arg.short == Some(letter);
            let Some(arg) = command.args.iter().find(of_letter) else {
                let _ = self.settle();
                let has_tip = command.positionals().next().is_some();
                return Err(self.unknown(&format!("-{letter}"), None, has_tip, &[]));
            };
            if arg.takes_value() {
                let rest = letters.as_str();
                let value = rest
                    .strip_prefix('=')
                    .or(Some(rest).filter(|it| !it.is_empty()));
                return self.take(arg, value);
            }
            self.take(arg, None)?;
        }
        Ok(false)
    }

    /// Takes a flag, or an option with the value in its word. Returns whether its value is to come.
    fn take(&mut self, arg: &'c Arg<'a>, value: Option<&'a str>) -> Result<bool, Error> {
        self.settle()?;
        if arg.takes_value() && value.is_none() {
            self.pending = Some((arg, Vec::new()));
            return Ok(true);
        }
        self.act(arg, value.into_iter().collect())?;
        Ok(false)
    }

    /// Acts on the argument whose values were read.
    fn settle(&mut self) -> Result<(), Error> {
        match self.pending.take() {
            Some((arg, values)) => self.act(arg, values),
            None => Ok(()),
        }
    }

    fn act(&mut self, arg: &'c Arg<'a>, mut values: Vec<&'a str>) -> Result<(), Error> {
        let command = self.command;
        match arg.action_of() {
            ArgAction::Help => return Err(command.request(ErrorKind::DisplayHelp)),
            ArgAction::Version => return Err(command.request(ErrorKind::DisplayVersion)),
            ArgAction::SetTrue => values = vec!["true"],
            _ if values.is_empty() => return Err(command.invalid(arg, "")),
            _ => {}
        }
        let known = self.found.iter().position(|it| it.id == arg.id);
        if arg.action_of() != ArgAction::Append {
            if let Some(known) = known {
                self.found.remove(known);
                let told = format!(
                    "the argument '{}' cannot be used multiple times",
                    arg.shown(None)
                );
                let usage = command.usage(&[], &command.required());
                return Err(command.fault(ErrorKind::ArgumentConflict, &told, Some(usage)));
            }
        }
        self.start(arg.id);
        if arg.takes_value() && !arg.possible.is_empty() {
            if let Some(wrong) = values.iter().find(|it| !arg.possible.contains(it)) {
                return Err(command.invalid(arg, wrong));
            }
        }
        let found = self.found.iter_mut().find(|it| it.id == arg.id);
        found
            .into_iter()
            .for_each(|it| it.values.append(&mut values));
        Ok(())
    }

    /// Notes that the words have an argument.
    fn start(&mut self, id: &'a str) {
        let of_group = self
            .command
            .groups
            .iter()
            .filter(|it| it.args.contains(&id));
        for id in std::iter::once(id).chain(of_group.map(|it| it.id)) {
            if !self.found.iter().any(|it| it.id == id) {
                let (values, is_used) = (Vec::new(), true);
                self.found.push(Found {
                    id,
                    values,
                    is_used,
                });
            }
        }
    }

    fn add_default(&mut self, arg: &Arg<'a>) {
        let value = match arg.action_of() {
            ArgAction::SetTrue => Some("false"),
            _ => arg.default,
        };
        if let Some(value) = value.filter(|_| !self.found.iter().any(|it| it.id == arg.id)) {
            let (values, is_used) = (vec![value], false);
            self.found.push(Found {
                id: arg.id,
                values,
                is_used,
            });
        }
    }

    /// Returns the ids of the arguments that the words have.
    fn used(&self) -> Vec<&'a str> {
        let used = self.found.iter().filter(|it| it.is_used);
        used.map(|it| it.id).collect()
    }

    fn unknown(&self, word: &str, similar: Option<&str>, has_tip: bool, used: &[&str]) -> Error {
        let mut told = format!("unexpected argument '{word}' found");
        if let Some(similar) = similar {
            told += &format!("\n\n  tip: a similar argument exists: '--{similar}'");
        }
        if has_tip {
            let gap = if similar.is_none() { "\n\n" } else { "\n" };
            told += &format!("{gap}  tip: to pass '{word}' as a value, use '-- {word}'");
        }
        let usage = self.command.usage(used, &self.command.required());
        self.command
            .fault(ErrorKind::UnknownArgument, &told, Some(usage))
    }

    fn unknown_long(&mut self, name: &str) -> Error {
        let command = self.command;
        let longs = command.args.iter().filter_map(|arg| arg.long);
        let similar = super::suggestions::similar(name, longs);
        let arg = command.args.iter().find(|arg| arg.long == similar);
        if let Some(arg) = arg.filter(|_| similar.is_some()) {
            self.start(arg.id);
        }
        let has_tip = similar.is_none() && command.positionals().next().is_some();
        let mut used = self.used();
        used.retain(|id| command.find(id).is_some());
        self.unknown(&format!("--{name}"), similar, has_tip, &used)
    }

    /// Returns those of the used arguments that do not go with one of these.
    fn conflicts_of(&self, id: &str) -> Vec<&'a str> {
        let are_in =
            |ids: &[&str], it: &str, other: &str| ids.contains(&it) && ids.contains(&other);
        let declares = |id: &str, other: &str| {
            let arg = self.command.find(id);
            arg.map_or(false, |arg| arg.conflicts.contains(&other))
                || self
                    .command
                    .groups
                    .iter()
                    .any(|group| !group.multiple && are_in(&group.args, id, other))
        };
        let mut others = self.used();
        others.retain(|other| *other != id && (declares(id, other) || declares(other, id)));
        others
    }

    fn check_conflicts(&self) -> Result<(), Error> {
        let (command, used) = (self.command, self.used());
        for id in &used {
            let others = self.conflicts_of(id);
            if others.is_empty() || command.find(id).is_none() {
                continue;
            }
            let shown = |id: &str| command.find(id).map_or(String::new(), |it| it.shown(None));
            let mut told = format!("the argument '{}' cannot be used with", shown(id));
            match others[..] {
                [other] => told += &format!(" '{}'", shown(other)),
                _ => {
                    told.push(':');
                    others
                        .iter()
                        .for_each(|it| told += &format!("\n  {}", shown(it)));
                }
            }
            let mut kept = used.clone();
            kept.retain(|it| !others.contains(it) && command.find(it).is_some());
            let mut ids = Vec::new();
            for need in kept
                .iter()
                .filter_map(|it| command.find(it))
                .flat_map(|it| &it.needs)
            {
                if !kept.contains(need) && !others.contains(need) {
                    ids.push(*need);
                }
            }
            ids.extend(kept);
            let usage = command.usage(&ids, &command.required());
            return Err(command.fault(ErrorKind::ArgumentConflict, &told, Some(usage)));
        }
        Ok(())
    }

    fn check_needs(&self) -> Result<(), Error> {
        let (command, mut used) = (self.command, self.used());
        let mut required = command.required();
        for need in used.iter().flat_map(|it| command.needs_of(it)) {
            add(&mut required, need);
        }
        let mut missing = required.clone();
        missing.retain(|id| !used.contains(id) && self.conflicts_of(id).is_empty());
        if missing.is_empty() {
            return Ok(());
        }
        let mut told = "the following required arguments were not provided:".to_string();
        let mut wanted = command.with_needs(&required);
        wanted.retain(|id| !used.contains(id));
        let [mut names, groups, positionals] = command.names_of(&wanted);
        names.extend(groups.into_iter().chain(positionals));
        names.iter().for_each(|name| told += &format!("\n  {name}"));
        used.retain(|id| command.find(id).is_some());
        used.extend(&missing);
        let usage = command.usage(&used, &required);
        Err(command.fault(ErrorKind::MissingRequiredArgument, &told, Some(usage)))
    }
}
