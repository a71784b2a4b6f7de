//! The calls of the port of `clap` that rsp_cli_args makes, and clap 4's texts for its forms: a program, subcommands, flags, options with a value and
//! files by position.
use error::ErrorKind;
use kit_std::alloc::{AllocError, Allocator, Global};
use kit_std::string::String as Word;
use kit_std::vec::Vec as Words;
use std::fmt::{self, Display, Formatter};

pub mod builder {
    #[derive(Clone, Copy)]
    pub enum ValueParser {
        NonEmptyString,
    }
}
pub mod error {
    #[derive(Clone, Copy, Debug, PartialEq, Eq)]
    pub enum ErrorKind {
        OutOfMemory,
        DisplayVersion,
        DisplayHelp,
        MissingSubcommand,
        InvalidSubcommand,
        UnknownArgument,
        InvalidValue,
        TooManyValues,
        ArgumentConflict,
        MissingRequiredArgument,
    }
}
#[derive(Debug)]
pub struct Error {
    kind: ErrorKind,
    text: String,
}
impl Error {
    pub fn kind(&self) -> ErrorKind {
        self.kind
    }
}
impl Display for Error {
    fn fmt(&self, f: &mut Formatter<'_>) -> fmt::Result {
        f.write_str(&self.text)
    }
}
impl std::error::Error for Error {}
impl From<AllocError> for Error {
    fn from(_: AllocError) -> Error {
        Error { kind: ErrorKind::OutOfMemory, text: "error: out of memory\n".into() }
    }
}
pub enum ArgAction {
    SetTrue,
}
pub struct Arg<'a> {
    name: &'a str,
    help: &'a str,
    long: Option<&'a str>,
    value: Option<&'a str>,
    alias: Option<&'a str>,
    required: bool,
    is_flag: bool,
}
impl<'a> Arg<'a> {
    pub fn new(_: Global, name: &'a str) -> Arg<'a> {
        Arg { name, help: "", long: None, value: None, alias: None, required: false, is_flag: false }
    }
    pub fn help(self, help: &'a str) -> Self {
        Arg { help, ..self }
    }
    pub fn required(self, required: bool) -> Self {
        Arg { required, ..self }
    }
    pub fn long(self, name: &'a str) -> Self {
        Arg { long: Some(name), ..self }
    }
    pub fn value_name(self, name: &'a str) -> Self {
        Arg { value: Some(name), ..self }
    }
    pub fn action(self, _: ArgAction) -> Self {
        Arg { is_flag: true, ..self }
    }
    pub fn alias(self, name: &'a str) -> Result<Self, AllocError> {
        Global.may()?;
        Ok(Arg { alias: Some(name), ..self })
    }
    pub fn value_parser(self, _: builder::ValueParser) -> Self {
        self
    }
    fn shown(&self) -> String {
        match (self.long, self.value) {
            (Some(long), Some(value)) => format!("--{long} <{value}>"),
            (Some(long), None) => format!("--{long}"),
            _ if self.required => format!("<{}>", self.name),
            _ => format!("[{}]", self.name),
        }
    }
}
pub struct Command<'a> {
    name: &'a str,
    path: String,
    about: &'a str,
    after: &'a str,
    version: Option<&'a str>,
    arguments: Vec<Arg<'a>>,
    subcommands: Vec<Command<'a>>,
}
pub struct ArgMatches<'a> {
    values: Vec<(&'a str, &'a str)>,
    flags: Vec<&'a str>,
    sub: Option<(&'static str, Box<ArgMatches<'a>>)>,
}
impl<'a> ArgMatches<'a> {
    pub fn get_str(&self, name: &str) -> Option<&'a str> {
        self.values.iter().find(|v| v.0 == name).map(|v| v.1)
    }
    pub fn get_flag(&self, name: &str) -> bool {
        self.flags.contains(&name)
    }
    pub fn subcommand(&self) -> Option<(&'static str, &ArgMatches<'a>)> {
        self.sub.as_ref().map(|(name, given)| (*name, &**given))
    }
}
impl<'a> Command<'a> {
    pub fn new(_: Global, name: &'a str) -> Command<'a> {
        Command { name, path: name.into(), about: "", after: "", version: None, arguments: vec![], subcommands: vec![] }
    }
    pub fn about(self, about: &'a str) -> Self {
        Command { about, ..self }
    }
    pub fn after_help(self, after: &'a str) -> Self {
        Command { after, ..self }
    }
    pub fn version(self, version: &'a str) -> Self {
        Command { version: Some(version), ..self }
    }
    pub fn subcommand_required(self, _: bool) -> Self {
        self
    }
    pub fn arg(mut self, argument: Arg<'a>) -> Result<Self, AllocError> {
        Global.may()?;
        self.arguments.push(argument);
        Ok(self)
    }
    pub fn subcommands(mut self, made: Words<Command<'a>>) -> Result<Self, AllocError> {
        Global.may()?;
        for mut sub in made {
            sub.path = format!("{} {}", self.name, sub.name);
            self.subcommands.push(sub);
        }
        Ok(self)
    }
    pub fn bin_name(self, _: &'a str) -> Result<Self, AllocError> {
        Global.may()?;
        Ok(self)
    }
    fn usage(&self, used: &[&str]) -> String {
        let mut text = format!("Usage: {}", self.path);
        if !self.subcommands.is_empty() {
            return text + " <COMMAND>";
        }
        if used.is_empty() && self.arguments.iter().any(|a| a.long.is_some()) {
            text += " [OPTIONS]";
        }
        for it in self.arguments.iter().filter(|a| a.long.is_some() && used.contains(&a.name)) {
            text += &format!(" {}", it.shown());
        }
        for it in self.arguments.iter().filter(|a| a.long.is_none()) {
            text += &format!(" {}", it.shown());
        }
        text
    }
    /// An error with the usage of the command.
    pub fn error(&self, kind: ErrorKind, message: &str) -> Result<Error, AllocError> {
        Global.may()?;
        Ok(self.fault(kind, &format!("{message}\n"), &[]))
    }
    fn fault(&self, kind: ErrorKind, message: &str, used: &[&str]) -> Error {
        let text = format!("error: {message}\n{}\n\nFor more information, try '--help'.\n", self.usage(used));
        Error { kind, text }
    }
    fn plain(&self, kind: ErrorKind, message: &str) -> Error {
        Error { kind, text: format!("error: {message}\n\nFor more information, try '--help'.\n") }
    }
    fn help(&self) -> Error {
        fn table(rows: &[(String, &str)]) -> String {
            let width = rows.iter().map(|row| row.0.len()).max().unwrap_or(0);
            rows.iter().map(|(left, right)| format!("  {left:width$}  {right}\n")).collect()
        }
        let mut text = format!("{}\n\n{}\n", self.about, self.usage(&[]));
        if !self.subcommands.is_empty() {
            let mut rows: Vec<_> = self.subcommands.iter().map(|it| (it.name.to_string(), it.about)).collect();
            rows.push(("help".into(), "Print this message or the help of the given subcommand(s)"));
            text += &format!("\nCommands:\n{}", table(&rows));
        }
        let files: Vec<_> = self.arguments.iter().filter(|a| a.long.is_none()).map(|a| (a.shown(), a.help)).collect();
        if !files.is_empty() {
            text += &format!("\nArguments:\n{}", table(&files));
        }
        let indent = if self.subcommands.is_empty() { "    " } else { "" };
        let mut rows: Vec<_> =
            self.arguments.iter().filter(|a| a.long.is_some()).map(|a| (format!("{indent}{}", a.shown()), a.help)).collect();
        rows.push(("-h, --help".into(), "Print help"));
        if self.version.is_some() {
            rows.push(("-V, --version".into(), "Print version"));
        }
        text += &format!("\nOptions:\n{}", table(&rows));
        if !self.after.is_empty() {
            text += &format!("\n{}", self.after);
        }
        Error { kind: ErrorKind::DisplayHelp, text }
    }
    pub fn try_get_matches_from(self, words: &'a [Word]) -> Result<ArgMatches<'a>, Error> {
        Global.may()?;
        let words: Vec<&'a str> = words.iter().skip(1).map(|word| word.as_str()).collect();
        let Some((first, rest)) = words.split_first() else {
            let names: Vec<_> = self.subcommands.iter().map(|it| it.name).chain(["help"]).collect();
            let message =
                format!("'{}' requires a subcommand but one was not provided\n  [subcommands: {}]\n", self.name, names.join(", "));
            return Err(self.fault(ErrorKind::MissingSubcommand, &message, &[]));
        };
        match *first {
            "-h" | "--help" => return Err(self.help()),
            "-V" | "--version" => {
                let text = format!("{}\n", kit_std::rt::unproved());
                return Err(Error { kind: ErrorKind::DisplayVersion, text });
            }
            "help" => {
                return Err(match rest.first() {
                    None => self.help(),
                    Some(name) => match self.subcommands.iter().find(|it| it.name == *name) {
                        Some(sub) => sub.help(),
                        None => self.fault(ErrorKind::InvalidSubcommand, &format!("unrecognized subcommand '{name}'\n"), &[]),
                    },
                });
            }
            word if word.starts_with('-') && word.len() > 1 => {
                return Err(self.fault(ErrorKind::UnknownArgument, &format!("unexpected argument '{word}' found\n"), &[]));
            }
            _ => {}
        }
        let Some(sub) = self.subcommands.iter().find(|it| it.name == *first) else {
            return Err(self.fault(ErrorKind::InvalidSubcommand, &format!("unrecognized subcommand '{first}'\n"), &[]));
        };
        let name = ["run", "asm", "dis"].into_iter().find(|it| it == first).unwrap();
        Ok(ArgMatches { values: vec![], flags: vec![], sub: Some((name, Box::new(sub.matches(rest)?))) })
    }
    fn matches(&self, words: &[&'a str]) -> Result<ArgMatches<'a>, Error> {
        let mut given = ArgMatches { values: vec![], flags: vec![], sub: None };
        let mut files = self.arguments.iter().filter(|a| a.long.is_none());
        let mut words = words.iter();
        let mut only_files = false;
        while let Some(&word) = words.next() {
            let Some(option) = word.strip_prefix("--").filter(|_| !only_files) else {
                if word == "-h" && !only_files {
                    return Err(self.help());
                }
                if word.starts_with('-') && word.len() > 1 && !only_files {
                    return Err(self.unknown(word));
                }
                let Some(file) = files.next() else {
                    return Err(self.fault(ErrorKind::UnknownArgument, &format!("unexpected argument '{word}' found\n"), &[]));
                };
                if word.is_empty() {
                    return Err(self.lacking(file));
                }
                given.values.push((name_of(file), word));
                continue;
            };
            if option.is_empty() {
                only_files = true;
                continue;
            }
            if option == "help" {
                return Err(self.help());
            }
            let (name, joined) = match option.split_once('=') {
                Some((name, value)) => (name, Some(value)),
                None => (option, None),
            };
            let Some(argument) = self.arguments.iter().find(|a| a.long == Some(name) || a.long.is_some() && a.alias == Some(name)) else {
                return Err(self.unknown(&format!("--{name}")));
            };
            let name = name_of(argument);
            if argument.is_flag {
                if let Some(value) = joined {
                    let message = format!("unexpected value '{value}' for '--{}' found; no more were expected\n", argument.name);
                    return Err(self.fault(ErrorKind::TooManyValues, &message, &[argument.name]));
                }
                if given.flags.contains(&name) {
                    return Err(self.twice(argument));
                }
                given.flags.push(name);
            } else {
                let value = match joined.or_else(|| {
                    words.clone().next().copied().filter(|it| !it.starts_with('-') || *it == "-").inspect(|_| {
                        words.next();
                    })
                }) {
                    Some(value) if !value.is_empty() => value,
                    _ => return Err(self.lacking(argument)),
                };
                if given.get_str(name).is_some() {
                    return Err(self.twice(argument));
                }
                // a value borrows the words of the caller
                given.values.push((name, value));
            }
        }
        let lacking: Vec<_> = self.arguments.iter().filter(|a| a.required && given.get_str(a.name).is_none()).collect();
        if !lacking.is_empty() {
            let list: String = lacking.iter().map(|a| format!("  {}\n", a.shown())).collect();
            let message = format!("the following required arguments were not provided:\n{list}");
            let mut used: Vec<&str> = given.flags.clone();
            used.extend(given.values.iter().map(|v| v.0));
            used.push("");
            return Err(self.fault(ErrorKind::MissingRequiredArgument, &message, &used));
        }
        Ok(given)
    }
    fn unknown(&self, word: &str) -> Error {
        let message = format!("unexpected argument '{word}' found\n\n  tip: to pass '{word}' as a value, use '-- {word}'\n");
        self.fault(ErrorKind::UnknownArgument, &message, &[])
    }
    fn twice(&self, argument: &Arg<'_>) -> Error {
        self.fault(ErrorKind::ArgumentConflict, &format!("the argument '{}' cannot be used multiple times\n", argument.shown()), &[])
    }
    fn lacking(&self, argument: &Arg<'_>) -> Error {
        self.plain(ErrorKind::InvalidValue, &format!("a value is required for '{}' but none was supplied", argument.shown()))
    }
}
/// The names are literals of the program.
fn name_of(argument: &Arg<'_>) -> &'static str {
    ["SCRIPT", "SRC", "OUT", "FILE", "rdram", "save", "strict", "explain", "at", "listing", "labels"]
        .into_iter()
        .find(|it| *it == argument.name)
        .unwrap()
}
