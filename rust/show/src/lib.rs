//! Shows a recorded session: a program over the crate `lintelow`. The library reads; here is the order of a session and how it is told. [`call`] is a
//! second program, which writes a call under the same names.
pub mod call;
mod fields;
mod hex;
mod json;
mod library;
mod map;
mod names;
mod options;
mod progress;
mod recording;
mod session;
mod summary;
mod text;
mod view;
mod words;

use options::Command;
use recording::Recording;
use session::{Event, Session, Stop};
use std::env;
use std::ffi::OsString;
use std::io::{self, BufWriter, IsTerminal, Write};
use summary::{Form, Summary};
use view::View;
use words::Words;

pub use options::Options;
pub use progress::Progress;
pub use words::Style;

/// How a session ended; the number is the exit status.
#[derive(Debug, Clone, Copy, PartialEq, Eq)]
pub enum Status {
    Read = 0,
    Refused = 1,
    Unreadable = 2,
    Unfollowed = 3,
    Unended = 4,
}

/// The program: what the words of its command line ask for.
pub fn run(words: impl Iterator<Item = OsString>) -> Status {
    let options = match options::parse(words) {
        Ok(Command::Show(options)) => options,
        Ok(Command::Help) => {
            let _ = io::stdout().write_all(options::USAGE.as_bytes());
            return Status::Read;
        }
        Err(wrong) => return complain(&wrong),
    };
    let recording = match Recording::open(&options.folder) {
        Ok(recording) => recording,
        Err(unreadable) => return complain(&format!("cannot read {}: {}", unreadable.path.display(), unreadable.why)),
    };
    match show(&recording, &options) {
        Ok(status) => status,
        // Whoever reads the output has seen enough.
        Err(why) if why.kind() == io::ErrorKind::BrokenPipe => Status::Read,
        Err(why) => complain(&format!("cannot write: {why}")),
    }
}

fn complain(wrong: &str) -> Status {
    let _ = writeln!(io::stderr(), "show: {wrong}");
    Status::Unreadable
}

fn show(recording: &Recording, options: &Options) -> io::Result<Status> {
    let out = io::stdout();
    let style = Style { colour: out.is_terminal() && colour_wanted(), full: options.full };
    let shared = out.is_terminal() && !options.summary;
    let total = recording.client.len() + recording.daemon.len();
    let mut progress = Progress::new(io::stderr().is_terminal().then(io::stderr), shared, total);
    tell(&recording.client, &recording.daemon, options, style, BufWriter::new(out.lock()), &mut progress)
}

/// Tells a session as the options ask for.
pub fn tell(
    client: &[u8],
    daemon: &[u8],
    options: &Options,
    style: Style,
    out: impl Write,
    progress: &mut Progress<impl Write>,
) -> io::Result<Status> {
    let mut view = view(client, daemon, options, style, out);
    let mut session = Session::new(options.mode(), client, daemon);
    let mut status = Status::Read;
    while let Some(event) = session.next() {
        progress.make_way()?;
        status = after(&event);
        view.event(&event)?;
        if progress.is_due() {
            view.flush()?;
            progress.draw(session.bytes_read())?;
        }
    }
    progress.clear()?;
    view.flush()?;
    Ok(status)
}

fn view<'a>(client: &'a [u8], daemon: &'a [u8], options: &Options, style: Style, out: impl Write + 'a) -> Box<dyn View + 'a> {
    match (options.summary, options.json) {
        (false, false) => Box::new(Words::new(out, style, client, daemon)),
        (false, true) => Box::new(json::Json::new(out)),
        (true, false) => Box::new(Summary::new(out, Form::Words(style), client, daemon)),
        (true, true) => Box::new(Summary::new(out, Form::Json, client, daemon)),
    }
}

/// The status if a session ended with this event.
fn after(event: &Event) -> Status {
    match event {
        Event::Stop(Stop::Refused(_)) => Status::Refused,
        Event::Stop(Stop::Unfollowed(_)) => Status::Unfollowed,
        Event::Stop(Stop::Unended(_)) => Status::Unended,
        Event::Handshake(_) | Event::Call(_) | Event::End(_) => Status::Read,
    }
}

/// By the custom of no-color.org, and not on a terminal that has no colours.
fn colour_wanted() -> bool {
    let unset = |name| env::var_os(name).map_or(true, |value| value.is_empty());
    unset("NO_COLOR") && env::var_os("TERM").map_or(true, |terminal| terminal != "dumb")
}
