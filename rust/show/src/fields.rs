//! What arguments and replies say, as named fields: one description for words and JSON, and for calls that are written.
use crate::library::Payload;
use lintelow::{OpCall, PathInfoResult, ResultData};

pub enum Value<'a> {
    Number(&'a u64),
    Flag(&'a bool),
    /// A build's mode.
    Mode(&'a u64),
    Text(&'a str),
    Set(&'a [String]),
    Pairs(&'a [(String, String)]),
    Payload(&'a Payload),
}

/// A field that is still to be filled in.
pub enum Blank<'a> {
    Number(&'a mut u64),
    Flag(&'a mut bool),
    Mode(&'a mut u64),
    Text(&'a mut String),
    Set(&'a mut Vec<String>),
    Pairs(&'a mut Vec<(String, String)>),
    Payload(&'a mut Vec<u8>),
}

/// The kind under nix-wire's name, and its fields in reading order.
pub struct Fields<'a> {
    pub kind: &'static str,
    pub fields: Vec<(&'static str, Value<'a>)>,
}

/// The kind of a call and its fields, each as a variant of `$as`: the same list for those that are shown and those that are filled in.
macro_rules! arguments {
    ($call:expr, $as:ident, $payload:expr) => {{
        use $as::*;
        match $call {
            OpCall::SinglePath { path, .. } => ("SinglePath", vec![("path", Text(path))]),
            OpCall::SingleString { value, .. } => ("SingleString", vec![("value", Text(value))]),
            OpCall::PathSet { paths, .. } => ("PathSet", vec![("paths", Set(paths))]),
            OpCall::PathSetFlag { paths, substitute, .. } => ("PathSetFlag", vec![("paths", Set(paths)), ("substitute", Flag(substitute))]),
            OpCall::PathSetMode { paths, mode, .. } => ("PathSetMode", vec![("paths", Set(paths)), ("mode", Mode(mode))]),
            OpCall::NoArgs { .. } => ("NoArgs", vec![]),
            OpCall::SetOptions {
                keep_failed,
                keep_going,
                try_fallback,
                verbosity,
                max_build_jobs,
                max_silent_time,
                use_build_hook,
                verbose_build,
                log_type,
                print_build_trace,
                build_cores,
                use_substitutes,
                overrides,
            } => (
                "SetOptions",
                vec![
                    ("keep_failed", Number(keep_failed)),
                    ("keep_going", Number(keep_going)),
                    ("try_fallback", Number(try_fallback)),
                    ("verbosity", Number(verbosity)),
                    ("max_build_jobs", Number(max_build_jobs)),
                    ("max_silent_time", Number(max_silent_time)),
                    ("use_build_hook", Number(use_build_hook)),
                    ("verbose_build", Number(verbose_build)),
                    ("log_type", Number(log_type)),
                    ("print_build_trace", Number(print_build_trace)),
                    ("build_cores", Number(build_cores)),
                    ("use_substitutes", Number(use_substitutes)),
                    ("overrides", Pairs(overrides)),
                ],
            ),
            OpCall::CollectGarbage { action, paths, ignore_liveness, max_freed } => (
                "CollectGarbage",
                vec![
                    ("action", Number(action)),
                    ("paths", Set(paths)),
                    ("ignore_liveness", Number(ignore_liveness)),
                    ("max_freed", Number(max_freed)),
                ],
            ),
            OpCall::VerifyStore { check_contents, repair } => {
                ("VerifyStore", vec![("check_contents", Flag(check_contents)), ("repair", Flag(repair))])
            }
            OpCall::AddPermRoot { path, gc_root } => ("AddPermRoot", vec![("path", Text(path)), ("gc_root", Text(gc_root))]),
            OpCall::AddSignatures { path, sigs } => ("AddSignatures", vec![("path", Text(path)), ("sigs", Set(sigs))]),
            OpCall::AddTextToStore { suffix, text, refs } => {
                ("AddTextToStore", vec![("suffix", Text(suffix)), ("text", Text(text)), ("refs", Set(refs))])
            }
            OpCall::AddToStore { name, cam_str, refs, repair, data } => (
                "AddToStore",
                vec![("name", Text(name)), ("cam_str", Text(cam_str)), ("refs", Set(refs)), ("repair", Flag(repair)), ("payload", $payload(data))],
            ),
            OpCall::AddMultipleToStore { repair, dont_check_sigs, data } => {
                ("AddMultipleToStore", vec![("repair", Flag(repair)), ("dont_check_sigs", Flag(dont_check_sigs)), ("payload", $payload(data))])
            }
            OpCall::AddBuildLog { path, data } => ("AddBuildLog", vec![("path", Text(path)), ("payload", $payload(data))]),
            OpCall::RegisterDrvOutput { value } => ("RegisterDrvOutput", vec![("value", Text(value))]),
            OpCall::QueryRealisation { value } => ("QueryRealisation", vec![("value", Text(value))]),
            OpCall::QuerySubstitutablePathInfo { path } => ("QuerySubstitutablePathInfo", vec![("path", Text(path))]),
            OpCall::QuerySubstitutablePathInfos { paths } => ("QuerySubstitutablePathInfos", vec![("paths", Set(paths))]),
            OpCall::QuerySubstitutablePairs { pairs } => ("QuerySubstitutablePairs", vec![("pairs", Pairs(pairs))]),
            OpCall::RegisterDrvOutputOld { id, path } => ("RegisterDrvOutputOld", vec![("id", Text(id)), ("path", Text(path))]),
        }
    }};
}

pub fn of_arguments<'a>(call: &'a OpCall, payload: &'a Payload) -> Fields<'a> {
    let (kind, fields) = arguments!(call, Value, |_| Value::Payload(payload));
    Fields { kind, fields }
}

/// The fields of a call, to be filled in.
pub fn blanks(call: &mut OpCall) -> Vec<(&'static str, Blank<'_>)> {
    let (_, fields) = arguments!(call, Blank, Blank::Payload);
    fields
}

pub fn of_reply<'a>(reply: &'a ResultData, payload: &'a Payload) -> Fields<'a> {
    use Value::*;
    let (kind, fields) = match reply {
        ResultData::None => ("None", vec![]),
        ResultData::U64(number) => ("U64", vec![("number", Number(number))]),
        ResultData::Str(text) => ("Str", vec![("text", Text(text))]),
        ResultData::PathInfo(info) => ("PathInfo", path_info(info)),
        ResultData::StringSet(strings) => ("StringSet", vec![("strings", Set(strings))]),
        ResultData::StringMap(pairs) => ("StringMap", vec![("pairs", Pairs(pairs))]),
        ResultData::CollectGarbage { bytes_freed } => ("CollectGarbage", vec![("bytes_freed", Number(bytes_freed))]),
        ResultData::SubstitutablePathInfo { valid, deriver, refs, download_size, nar_size } => (
            "SubstitutablePathInfo",
            present([
                ("valid", Some(Flag(valid))),
                ("deriver", deriver.as_deref().map(Text)),
                ("refs", refs.as_deref().map(Set)),
                ("download_size", download_size.as_ref().map(Number)),
                ("nar_size", nar_size.as_ref().map(Number)),
            ]),
        ),
        ResultData::Missing { will_build, will_substitute, unknown, download_size, nar_size } => (
            "Missing",
            vec![
                ("will_build", Set(will_build)),
                ("will_substitute", Set(will_substitute)),
                ("unknown", Set(unknown)),
                ("download_size", Number(download_size)),
                ("nar_size", Number(nar_size)),
            ],
        ),
        ResultData::Framed(_) => ("Framed", vec![("payload", Payload(payload))]),
    };
    Fields { kind, fields }
}

fn path_info(info: &PathInfoResult) -> Vec<(&'static str, Value<'_>)> {
    use Value::*;
    present([
        ("valid", Some(Flag(&info.valid))),
        ("deriver", info.deriver.as_deref().map(Text)),
        ("nar_hash", info.nar_hash.as_deref().map(Text)),
        ("references", info.references.as_deref().map(Set)),
        ("registration_time", info.registration_time.as_ref().map(Number)),
        ("nar_size", info.nar_size.as_ref().map(Number)),
        ("ultimate", info.ultimate.as_ref().map(Flag)),
        ("sigs", info.sigs.as_deref().map(Set)),
        ("ca", info.ca.as_deref().map(Text)),
    ])
}

/// The fields that the version has.
fn present<'a, const N: usize>(fields: [(&'static str, Option<Value<'a>>); N]) -> Vec<(&'static str, Value<'a>)> {
    fields.into_iter().filter_map(|(name, value)| Some((name, value?))).collect()
}
