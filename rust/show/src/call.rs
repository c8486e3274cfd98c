//! Writes a call, from the names that `--json` shows. Which fields an operation has at a version is the library's to say.
use crate::fields::{self, Blank};
use crate::hex;
use crate::names;
use lintelow::wire::{mode_text, write_u64};
use lintelow::{read_op_args, write_op_args, Mode, OpCall, Refusal, Version};
use std::ffi::OsString;
use std::fs;
use std::io::{self, Write};

pub const USAGE: &str = "\
usage: call [--hex] [--ported] VERSION OPERATION [NAME=VALUE ..]

Writes a call as a Nix client sends it, the operation's number and its arguments, to standard output. VERSION is the one spoken, such as 1.38; OPERATION
is a name or a number; the NAMEs are those that 'show --json' has.

  path=TEXT             a string; the name again for each further string of a set
  verbosity=3           a number
  repair=true           a flag: true or false
  mode=check            a mode: normal, repair, check, or a number
  overrides=NAME=VALUE  a pair; the name again for each further one
  payload=@FILE         what the file holds

A set or pairs that are not named are empty; every other field of this operation and version is named once. docs/CALL.md lists them.

  --hex                 hexadecimal in place of the bytes
  --ported              arguments as nix-wire reads them, not as daemons do

Exit status: 0 the call was written; 1 it was refused; 2 a file or the command line.
";

const NO_ARGUMENTS: u64 = 13;

/// What became of a call; the number is the exit status.
#[derive(Debug, Clone, Copy, PartialEq, Eq)]
pub enum Status {
    Written = 0,
    Refused = 1,
    Unreadable = 2,
}

/// Why no call is written.
#[derive(Debug, PartialEq, Eq)]
enum Wrong {
    Refused(String),
    Unreadable(String),
}

impl From<String> for Wrong {
    fn from(why: String) -> Wrong {
        Wrong::Unreadable(why)
    }
}

#[derive(Debug, PartialEq, Eq)]
enum Command {
    Write(Asked),
    Help,
}

/// The call that is asked for: names and values in the order of the command line.
#[derive(Debug, PartialEq, Eq)]
struct Asked {
    hex: bool,
    mode: Mode,
    version: Version,
    op: u64,
    fields: Vec<(String, String)>,
}

/// The program: what the words of its command line ask for.
pub fn run(words: impl Iterator<Item = OsString>) -> Status {
    let (why, status) = match output(words) {
        Ok(output) => match io::stdout().write_all(&output) {
            Err(why) if why.kind() != io::ErrorKind::BrokenPipe => (format!("cannot write: {why}"), Status::Unreadable),
            // Where the reader is gone it has seen enough.
            _ => return Status::Written,
        },
        Err(Wrong::Refused(why)) => (why, Status::Refused),
        Err(Wrong::Unreadable(why)) => (why, Status::Unreadable),
    };
    let _ = writeln!(io::stderr(), "call: {why}");
    status
}

fn output(words: impl Iterator<Item = OsString>) -> Result<Vec<u8>, Wrong> {
    let asked = match parse(words)? {
        Command::Write(asked) => asked,
        Command::Help => return Ok(USAGE.into()),
    };
    let call = written(&asked)?;
    Ok(if asked.hex { (hex::joined(&call) + "\n").into() } else { call })
}

/// The command that the words say, or what is wrong with them.
fn parse(words: impl Iterator<Item = OsString>) -> Result<Command, String> {
    let mut hex = false;
    let mut mode = Mode::Published;
    let mut others = Vec::new();
    for word in words {
        let word = word.into_string().map_err(|word| format!("{word:?} is no UTF-8"))?;
        match word.as_str() {
            "--hex" => hex = true,
            "--ported" => mode = Mode::Ported,
            "--help" | "-h" => return Ok(Command::Help),
            _ if word.starts_with('-') => return Err(format!("there is no option {word:?}; --help lists them")),
            _ => others.push(word),
        }
    }
    let mut others = others.into_iter();
    let (Some(version), Some(operation)) = (others.next(), others.next()) else {
        return Err("name a version and an operation; --help says how".to_owned());
    };
    let version = self::version(&version).ok_or_else(|| format!("{version:?} is no version such as 1.38"))?;
    let op = number(&operation).or_else(|| names::number(&operation)).ok_or_else(|| format!("there is no operation {operation:?}"))?;
    let field = |word: String| match word.split_once('=') {
        Some((name, value)) => Ok((name.to_owned(), value.to_owned())),
        None => Err(format!("{word:?} is no NAME=VALUE")),
    };
    Ok(Command::Write(Asked { hex, mode, version, op, fields: others.map(field).collect::<Result<_, _>>()? }))
}

fn version(text: &str) -> Option<Version> {
    let (major, minor) = text.split_once('.')?;
    Some(Version::new(number(major)?.try_into().ok()?, number(minor)?.try_into().ok()?))
}

/// Digits only: no sign, no space.
fn number(text: &str) -> Option<u64> {
    text.bytes().all(|byte| byte.is_ascii_digit()).then(|| text.parse().ok())?
}

/// The operation's number and its arguments.
fn written(asked: &Asked) -> Result<Vec<u8>, Wrong> {
    let Asked { mode, op, version, fields, .. } = asked;
    let title = format!("{op} {} at version {version}", names::operation(*op));
    let refused = |refusal: Refusal| Wrong::Refused(format!("{title}: {refusal}"));
    let mut call = empty_call(*mode, *op, *version).map_err(refused)?;
    let known = names_there(*mode, &call, *version);
    fill_in(&mut call, &known, fields).map_err(|wrong| match wrong {
        Unfit::Unknown(name) if known.is_empty() => format!("{title} has no field {name:?}; its fields: none"),
        Unfit::Unknown(name) => format!("{title} has no field {name:?}; its fields: {}", known.join(", ")),
        Unfit::Missing(names) => format!("{title} lacks {}", names.join(", ")),
        Unfit::Value(why) => why,
    })?;
    let mut out = Vec::new();
    write_u64(&mut out, *op);
    out.extend(write_op_args(*mode, &call, *version).map_err(refused)?);
    Ok(out)
}

/// The call with everything 0 or empty: what is read from zeros.
fn empty_call(mode: Mode, op: u64, version: Version) -> Result<OpCall, Refusal> {
    let (call, _) = read_op_args(mode, op, version, &[0; 1024])?;
    call.ok_or(Refusal { number: NO_ARGUMENTS, place: 0, stream: 0 })
}

/// The fields of an empty call that the version has: for one that it lacks nothing else than 0 or empty is written.
fn names_there(mode: Mode, call: &OpCall, version: Version) -> Vec<&'static str> {
    let count = fields::blanks(&mut call.clone()).len();
    let there = (0..count).filter_map(|index| {
        let mut tried = call.clone();
        let (name, blank) = fields::blanks(&mut tried).swap_remove(index);
        match blank {
            Blank::Number(number) | Blank::Mode(number) => *number = 1,
            Blank::Flag(flag) => *flag = true,
            Blank::Text(text) => text.push('x'),
            Blank::Set(set) => set.push(String::new()),
            Blank::Pairs(pairs) => pairs.push(Default::default()),
            Blank::Payload(payload) => payload.push(0),
        }
        write_op_args(mode, &tried, version).is_ok().then_some(name)
    });
    there.collect()
}

/// Why names and values do not make a call.
enum Unfit {
    Unknown(String),
    Missing(Vec<&'static str>),
    Value(String),
}

/// Fills in the fields that are known: a set or pairs by any number of values, each other one by one.
fn fill_in(call: &mut OpCall, known: &[&str], fields: &[(String, String)]) -> Result<(), Unfit> {
    if let Some((name, _)) = fields.iter().find(|(name, _)| !known.contains(&name.as_str())) {
        return Err(Unfit::Unknown(name.clone()));
    }
    let mut missing = Vec::new();
    for (name, blank) in fields::blanks(call).into_iter().filter(|(name, _)| known.contains(name)) {
        let values: Vec<&str> = fields.iter().filter(|(named, _)| named == name).map(|(_, value)| value.as_str()).collect();
        match (blank, &values[..]) {
            (Blank::Set(set), _) => *set = values.into_iter().map(str::to_owned).collect(),
            (Blank::Pairs(pairs), _) => *pairs = values.into_iter().map(|value| pair(name, value)).collect::<Result<_, _>>().map_err(Unfit::Value)?,
            (blank, [value]) => fill(name, blank, value).map_err(Unfit::Value)?,
            (_, []) => missing.push(name),
            (_, [..]) => return Err(Unfit::Value(format!("{name} takes one value, and is named {} times", values.len()))),
        }
    }
    if missing.is_empty() {
        Ok(())
    } else {
        Err(Unfit::Missing(missing))
    }
}

fn pair(name: &str, value: &str) -> Result<(String, String), String> {
    let (left, right) = value.split_once('=').ok_or_else(|| format!("{name} takes pairs, {name}=NAME=VALUE, and {value:?} is none"))?;
    Ok((left.to_owned(), right.to_owned()))
}

/// Fills in a field that takes one value.
fn fill(name: &str, blank: Blank, value: &str) -> Result<(), String> {
    let takes = |what: &str| format!("{name} takes {what}, and {value:?} is none of these");
    match blank {
        Blank::Number(place) => *place = number(value).ok_or_else(|| takes("a number from 0 to 18446744073709551615"))?,
        Blank::Mode(place) => {
            let by_text = || (0..=2).find(|&mode| mode_text(mode) == value);
            *place = number(value).or_else(by_text).ok_or_else(|| takes("normal, repair, check or a number"))?;
        }
        Blank::Flag(place) => *place = value.parse().map_err(|_| takes("true or false"))?,
        Blank::Text(place) => *place = value.to_owned(),
        Blank::Payload(place) => {
            let file = value.strip_prefix('@').ok_or_else(|| takes("a file, @FILE"))?;
            *place = fs::read(file).map_err(|why| format!("cannot read {file:?}: {why}"))?;
        }
        Blank::Set(_) | Blank::Pairs(_) => unreachable!("{name} takes any number of values"),
    }
    Ok(())
}
