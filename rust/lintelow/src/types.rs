//! What streams say, under nix-wire's names. Where nix-wire has an `Op` there is the operation's number, where it has `FramedData` the bytes, and for
//! a build's mode its number. The two variants of [`OpCall`] and the two fields of [`ErrorInfo`] that only [`Mode::Published`] has are ours.
use std::fmt;

/// A version of the protocol; they compare by major, then minor.
#[derive(Debug, Clone, Copy, PartialEq, Eq, PartialOrd, Ord, Hash)]
pub struct Version {
    pub major: u16,
    pub minor: u8,
}

impl Version {
    pub const fn new(major: u16, minor: u8) -> Version {
        Version { major, minor }
    }
}

impl fmt::Display for Version {
    fn fmt(&self, f: &mut fmt::Formatter) -> fmt::Result {
        write!(f, "{}.{}", self.major, self.minor)
    }
}

/// Whose layouts arguments and errors have. They differ in two operations and in all errors: there nix-wire loses the stream.
#[derive(Debug, Clone, Copy, PartialEq, Eq, Hash)]
#[repr(u8)]
pub enum Mode {
    /// Those of nix-wire.
    Ported = 0,
    /// Those of daemons: 30 has pairs from 1.22 on, in place of a set ([`OpCall::QuerySubstitutablePairs`]), and 42 has two strings below 1.31, in place of
    /// one ([`OpCall::RegisterDrvOutputOld`]); an error has traces from 1.26 on, and below it is a message and an exit status ([`ErrorInfo`]).
    Published = 1,
}

/// An operation with its arguments.
#[derive(Debug, Clone, PartialEq, Eq)]
pub enum OpCall {
    SinglePath {
        op: u64,
        path: String,
    },
    SingleString {
        op: u64,
        value: String,
    },
    PathSet {
        op: u64,
        paths: Vec<String>,
    },
    PathSetFlag {
        op: u64,
        paths: Vec<String>,
        substitute: bool,
    },
    /// The mode is 0 for normal, 1 for repair, 2 for check.
    PathSetMode {
        op: u64,
        paths: Vec<String>,
        mode: u64,
    },
    NoArgs {
        op: u64,
    },
    SetOptions {
        keep_failed: u64,
        keep_going: u64,
        try_fallback: u64,
        verbosity: u64,
        max_build_jobs: u64,
        max_silent_time: u64,
        use_build_hook: u64,
        verbose_build: u64,
        log_type: u64,
        print_build_trace: u64,
        build_cores: u64,
        use_substitutes: u64,
        overrides: Vec<(String, String)>,
    },
    CollectGarbage {
        action: u64,
        paths: Vec<String>,
        ignore_liveness: u64,
        max_freed: u64,
    },
    VerifyStore {
        check_contents: bool,
        repair: bool,
    },
    AddPermRoot {
        path: String,
        gc_root: String,
    },
    AddSignatures {
        path: String,
        sigs: Vec<String>,
    },
    AddTextToStore {
        suffix: String,
        text: String,
        refs: Vec<String>,
    },
    AddToStore {
        name: String,
        cam_str: String,
        refs: Vec<String>,
        repair: bool,
        data: Vec<u8>,
    },
    AddMultipleToStore {
        repair: bool,
        dont_check_sigs: bool,
        data: Vec<u8>,
    },
    AddBuildLog {
        path: String,
        data: Vec<u8>,
    },
    RegisterDrvOutput {
        value: String,
    },
    QueryRealisation {
        value: String,
    },
    QuerySubstitutablePathInfo {
        path: String,
    },
    QuerySubstitutablePathInfos {
        paths: Vec<String>,
    },
    /// Of operation 30 in [`Mode::Published`], from 1.22 on: paths, each with its content address.
    QuerySubstitutablePairs {
        pairs: Vec<(String, String)>,
    },
    /// Of operation 42 in [`Mode::Published`], below 1.31.
    RegisterDrvOutputOld {
        id: String,
        path: String,
    },
}

impl OpCall {
    /// The operation's number.
    pub fn op(&self) -> u64 {
        match *self {
            OpCall::SinglePath { op, .. }
            | OpCall::SingleString { op, .. }
            | OpCall::PathSet { op, .. }
            | OpCall::PathSetFlag { op, .. }
            | OpCall::PathSetMode { op, .. }
            | OpCall::NoArgs { op } => op,
            OpCall::AddToStore { .. } => 7,
            OpCall::AddTextToStore { .. } => 8,
            OpCall::SetOptions { .. } => 19,
            OpCall::CollectGarbage { .. } => 20,
            OpCall::QuerySubstitutablePathInfo { .. } => 21,
            OpCall::QuerySubstitutablePathInfos { .. } | OpCall::QuerySubstitutablePairs { .. } => 30,
            OpCall::VerifyStore { .. } => 35,
            OpCall::AddSignatures { .. } => 37,
            OpCall::RegisterDrvOutput { .. } | OpCall::RegisterDrvOutputOld { .. } => 42,
            OpCall::QueryRealisation { .. } => 43,
            OpCall::AddMultipleToStore { .. } => 44,
            OpCall::AddBuildLog { .. } => 45,
            OpCall::AddPermRoot { .. } => 47,
        }
    }
}

/// What is said of arguments that were skipped.
#[derive(Debug, Clone, Copy, PartialEq, Eq)]
pub enum SkippedArgs<'s> {
    /// Arguments that are not read: nothing was consumed.
    None,
    Empty,
    /// The first string, as a part of the stream.
    Str(&'s str),
    Paths(u64),
    Overrides(u64),
}

impl SkippedArgs<'_> {
    /// The text that nix-wire answers.
    pub fn text(&self) -> Option<String> {
        match self {
            SkippedArgs::None => None,
            SkippedArgs::Empty => Some(String::new()),
            SkippedArgs::Str(text) => Some(text.to_string()),
            SkippedArgs::Paths(count) => Some(format!("{count} paths")),
            SkippedArgs::Overrides(count) => Some(format!("{count} overrides")),
        }
    }
}

/// The daemon's reply to an operation.
#[derive(Debug, Clone, PartialEq, Eq)]
pub enum ResultData {
    None,
    U64(u64),
    Str(String),
    PathInfo(PathInfoResult),
    StringSet(Vec<String>),
    StringMap(Vec<(String, String)>),
    CollectGarbage {
        bytes_freed: u64,
    },
    /// Where `valid` is false all else is `None`.
    SubstitutablePathInfo {
        valid: bool,
        deriver: Option<String>,
        refs: Option<Vec<String>>,
        download_size: Option<u64>,
        nar_size: Option<u64>,
    },
    Missing {
        will_build: Vec<String>,
        will_substitute: Vec<String>,
        unknown: Vec<String>,
        download_size: u64,
        nar_size: u64,
    },
    Framed(Vec<u8>),
}

/// Where `valid` is false all else is `None`; of old versions the last three are.
#[derive(Debug, Clone, PartialEq, Eq, Default)]
pub struct PathInfoResult {
    pub valid: bool,
    pub deriver: Option<String>,
    pub nar_hash: Option<String>,
    pub references: Option<Vec<String>>,
    pub registration_time: Option<u64>,
    pub nar_size: Option<u64>,
    pub ultimate: Option<bool>,
    pub sigs: Option<Vec<String>>,
    pub ca: Option<String>,
}

/// The codes that end the daemon's messages.
#[derive(Debug, Clone, Copy, PartialEq, Eq, Hash)]
#[repr(u64)]
pub enum StderrCode {
    Last = 0x616c7473,
    Error = 0x63787470,
}

/// The daemon's messages, skipped.
#[derive(Debug, Clone, Copy, PartialEq, Eq)]
pub struct StderrResult {
    /// How many, with the terminal one.
    pub count: u64,
    /// `None` where something else follows the last message, or nothing: the stream may be cut there, and what follows need not be a reply.
    pub terminal: Option<StderrCode>,
}

/// What follows [`StderrCode::Error`]. In [`Mode::Published`] below 1.26 an error has only `message` and `exit_status`: type and name are empty, and the
/// level is 0.
#[derive(Debug, Clone, PartialEq, Eq, Default)]
pub struct ErrorInfo {
    pub error_type: String,
    pub level: u64,
    pub name: String,
    pub message: String,
    /// Those of [`Mode::Published`] from 1.26 on, in the stream's order; else empty.
    pub traces: Vec<String>,
    /// That of [`Mode::Published`] below 1.26; else `None`.
    pub exit_status: Option<u64>,
}

/// What client and daemon said of themselves.
#[derive(Debug, Clone, PartialEq, Eq)]
pub struct HandshakeInfo {
    pub client_version: Version,
    pub server_version: Version,
    pub negotiated_version: Version,
    pub client_features: Vec<String>,
    pub server_features: Vec<String>,
    pub daemon_nix_version: Option<String>,
    pub trust_status: Option<u64>,
}
