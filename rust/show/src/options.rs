//! The command line.
use lintelow::Mode;
use std::ffi::OsString;
use std::path::PathBuf;

pub const USAGE: &str = "\
usage: show [--json] [--summary] [--full] [--ported] [FOLDER]

Shows a recorded session between a Nix client and its daemon. FOLDER has client.bin and daemon.bin, the bytes that each of them sent.

  --json      one JSON object a line, as docs/SHOW.md says
  --summary   counts by operation, bytes and refusals, and the errors; with --json as JSON
  --full      in words: nothing is shortened or left out
  --ported    reads arguments and errors as nix-wire does, not as daemons do

Exit status: 0 the session was read to its end; 1 a refusal; 2 a file or the command line; 3 a call that can't be followed; 4 messages not ended.
";

#[derive(Debug, Default, PartialEq, Eq)]
pub struct Options {
    pub json: bool,
    pub summary: bool,
    pub full: bool,
    pub ported: bool,
    pub folder: PathBuf,
}

impl Options {
    pub fn mode(&self) -> Mode {
        if self.ported {
            Mode::Ported
        } else {
            Mode::Published
        }
    }
}

#[derive(Debug, PartialEq, Eq)]
pub enum Command {
    Show(Options),
    Help,
}

/// The command that the words say, or what is wrong with them.
pub fn parse(words: impl Iterator<Item = OsString>) -> Result<Command, String> {
    let mut options = Options::default();
    let mut folder = None;
    for word in words {
        match word.to_str() {
            Some("--json") => options.json = true,
            Some("--summary") => options.summary = true,
            Some("--full") => options.full = true,
            Some("--ported") => options.ported = true,
            Some("--help" | "-h") => return Ok(Command::Help),
            Some(unknown) if unknown.starts_with('-') => return Err(format!("there is no option {unknown:?}; --help lists them")),
            _ if folder.is_some() => return Err(format!("one folder only, and not {word:?} too")),
            _ => folder = Some(PathBuf::from(word)),
        }
    }
    options.folder = folder.ok_or("name a folder that has client.bin and daemon.bin")?;
    Ok(Command::Show(options))
}

#[cfg(test)]
mod tests {
    use super::*;

    fn parsed(words: &[&str]) -> Result<Command, String> {
        parse(words.iter().map(OsString::from))
    }

    #[test]
    fn options_and_a_folder_in_any_order() {
        let options = Options { json: true, summary: true, ported: true, full: false, folder: "here".into() };
        assert_eq!(parsed(&["--json", "--ported", "here", "--summary"]), Ok(Command::Show(options)));
        assert_eq!(parsed(&["here", "--help"]), Ok(Command::Help));
    }

    #[test]
    fn what_is_wrong_is_said() {
        assert!(parsed(&[]).unwrap_err().contains("name a folder"));
        assert!(parsed(&["--jason", "here"]).unwrap_err().contains("--jason"));
        assert!(parsed(&["here", "there"]).unwrap_err().contains("there"));
    }
}
