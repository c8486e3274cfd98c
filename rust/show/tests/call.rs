//! Calls that `./call` writes: read back by `./show`, every operation once; the line and the status where none is written.
mod common;

use common::*;
use lintelow::{skip_daemon_result, Mode, Version};
use std::fs;
use std::path::{Path, PathBuf};
use std::process::{Command, Output};

fn call(words: &[&str]) -> Output {
    Command::new(env!("CARGO_BIN_EXE_lintelow-call")).args(words).output().unwrap()
}

/// The bytes of a call that is written.
fn written(words: &[&str]) -> Vec<u8> {
    let output = call(words);
    assert_eq!((status(&output), String::from_utf8_lossy(&output.stderr).as_ref()), (0, ""), "{words:?}");
    output.stdout
}

/// One line says why nothing is written.
fn complains(words: &[&str], code: i32, line: &str) {
    let output = call(words);
    let said = String::from_utf8_lossy(&output.stderr);
    assert_eq!((status(&output), said.as_ref()), (code, format!("call: {line}\n").as_str()), "{words:?}");
    assert!(output.stdout.is_empty(), "{words:?}");
}

fn folder(name: &str) -> PathBuf {
    let folder = Path::new(env!("CARGO_TARGET_TMPDIR")).join(name);
    let _ = fs::remove_dir_all(&folder);
    fs::create_dir_all(&folder).unwrap();
    folder
}

/// Each operation, its fields, and what the JSON has of its arguments.
const CALLS: [(&str, &[&str], &str); 35] = [
    ("IsValidPath", &["path=/nix/store/a b=c"], r#""kind":"SinglePath","path":"/nix/store/a b=c""#),
    ("QueryReferrers", &["path=straße"], r#""kind":"SinglePath","path":"straße""#),
    (
        "AddToStore",
        &["name=n", "refs=r", "cam_str=text:sha256", "refs=", "repair=true", "payload=@FILE"],
        r#""kind":"AddToStore","name":"n","cam_str":"text:sha256","refs":["r",""],"repair":true,"payload":{"size":70000,"first":"000102030405060708090a0b0c0d0e0f"}"#,
    ),
    ("AddTextToStore", &["text=two\nlines", "suffix=s"], r#""kind":"AddTextToStore","suffix":"s","text":"two\u000alines","refs":[]"#),
    ("BuildPaths", &["mode=repair", "paths=a", "paths=b"], r#""kind":"PathSetMode","paths":["a","b"],"mode":"repair""#),
    ("EnsurePath", &["path="], r#""kind":"SinglePath","path":"""#),
    ("AddTempRoot", &["path=p"], r#""kind":"SinglePath","path":"p""#),
    ("12", &["value=v"], r#""kind":"SingleString","value":"v""#),
    ("SyncWithGC", &[], r#""kind":"NoArgs""#),
    ("14", &[], r#""kind":"NoArgs""#),
    ("QueryDeriver", &["path=p"], r#""kind":"SinglePath","path":"p""#),
    (
        "SetOptions",
        &[
            "keep_failed=1",
            "keep_going=2",
            "try_fallback=3",
            "verbosity=4",
            "max_build_jobs=5",
            "max_silent_time=6",
            "use_build_hook=7",
            "verbose_build=8",
            "log_type=9",
            "print_build_trace=10",
            "build_cores=11",
            "use_substitutes=18446744073709551615",
            "overrides=cores=4",
            "overrides=a==b",
            "overrides==",
        ],
        concat!(
            r#""kind":"SetOptions","keep_failed":1,"keep_going":2,"try_fallback":3,"verbosity":4,"max_build_jobs":5,"max_silent_time":6,"#,
            r#""use_build_hook":7,"verbose_build":8,"log_type":9,"print_build_trace":10,"build_cores":11,"#,
            r#""use_substitutes":18446744073709551615,"overrides":[["cores","4"],["a","=b"],["",""]]"#
        ),
    ),
    (
        "CollectGarbage",
        &["action=3", "ignore_liveness=0", "max_freed=5", "paths=p"],
        r#""kind":"CollectGarbage","action":3,"paths":["p"],"ignore_liveness":0,"max_freed":5"#,
    ),
    ("QuerySubstitutablePathInfo", &["path=p"], r#""kind":"QuerySubstitutablePathInfo","path":"p""#),
    ("QueryDerivationOutputs", &["path=p"], r#""kind":"SinglePath","path":"p""#),
    ("QueryAllValidPaths", &[], r#""kind":"NoArgs""#),
    ("QueryPathInfo", &["path=p"], r#""kind":"SinglePath","path":"p""#),
    ("QueryDerivationOutputNames", &["path=p"], r#""kind":"SinglePath","path":"p""#),
    ("QueryPathFromHashPart", &["value=v"], r#""kind":"SingleString","value":"v""#),
    (
        "QuerySubstitutablePathInfos",
        &["pairs=/nix/store/p=fixed:sha256:ab", "pairs=q="],
        r#""kind":"QuerySubstitutablePairs","pairs":[["/nix/store/p","fixed:sha256:ab"],["q",""]]"#,
    ),
    ("QueryValidPaths", &["substitute=false", "paths=p"], r#""kind":"PathSetFlag","paths":["p"],"substitute":false"#),
    ("QuerySubstitutablePaths", &[], r#""kind":"PathSet","paths":[]"#),
    ("QueryValidDerivers", &["path=p"], r#""kind":"SinglePath","path":"p""#),
    ("OptimiseStore", &[], r#""kind":"NoArgs""#),
    ("VerifyStore", &["repair=false", "check_contents=true"], r#""kind":"VerifyStore","check_contents":true,"repair":false"#),
    ("AddSignatures", &["sigs=one", "path=p", "sigs=two"], r#""kind":"AddSignatures","path":"p","sigs":["one","two"]"#),
    ("NarFromPath", &["path=p"], r#""kind":"SinglePath","path":"p""#),
    ("QueryMissing", &["paths=p"], r#""kind":"PathSet","paths":["p"]"#),
    ("QueryDerivationOutputMap", &["path=p"], r#""kind":"SinglePath","path":"p""#),
    ("RegisterDrvOutput", &["value=v"], r#""kind":"RegisterDrvOutput","value":"v""#),
    ("QueryRealisation", &["value=v"], r#""kind":"QueryRealisation","value":"v""#),
    (
        "AddMultipleToStore",
        &["repair=false", "dont_check_sigs=true", "payload=@EMPTY"],
        r#""kind":"AddMultipleToStore","repair":false,"dont_check_sigs":true,"payload":{"size":0,"first":""}"#,
    ),
    (
        "AddBuildLog",
        &["path=p", "payload=@FILE"],
        r#""kind":"AddBuildLog","path":"p","payload":{"size":70000,"first":"000102030405060708090a0b0c0d0e0f"}"#,
    ),
    ("BuildPathsWithResults", &["mode=77", "paths=p"], r#""kind":"PathSetMode","paths":["p"],"mode":"77""#),
    ("AddPermRoot", &["gc_root=/root", "path=/nix/store/p"], r#""kind":"AddPermRoot","path":"/nix/store/p","gc_root":"/root""#),
];

const NEW: Version = Version::new(1, 38);

/// The words of a call, with the payload's files put in.
fn words(operation: &str, fields: &[&str], folder: &Path) -> Vec<String> {
    let file = |field: &&str| field.replace('@', &format!("@{}/", folder.display()));
    [NEW.to_string(), operation.to_owned()].into_iter().chain(fields.iter().map(file)).collect()
}

#[test]
fn every_operation_is_read_back_by_show() {
    let folder = folder("written");
    fs::write(folder.join("FILE"), (0..70_000).map(|i| i as u8).collect::<Vec<_>>()).unwrap();
    fs::write(folder.join("EMPTY"), b"").unwrap();
    let (mut client, mut daemon) = handshake(38);
    let mut operations = Vec::new();
    for (operation, fields, _) in CALLS {
        let words = words(operation, fields, &folder);
        let bytes = written(&words.iter().map(String::as_str).collect::<Vec<_>>());
        let op = u64::from_le_bytes(bytes[..8].try_into().unwrap());
        client.extend(bytes);
        // A reply of zeros.
        let zeros = [0; 256];
        daemon.extend(numbers(&[LAST]));
        daemon.extend(&zeros[..skip_daemon_result(op, NEW, &zeros).unwrap()]);
        operations.push(op);
    }
    fs::write(folder.join("client.bin"), client).unwrap();
    fs::write(folder.join("daemon.bin"), daemon).unwrap();

    let output = program().arg("--json").arg(&folder).output().unwrap();
    assert_eq!(status(&output), 0, "{}", printed(&output));
    let lines: Vec<&str> = printed(&output).lines().collect();
    assert_eq!(lines.len(), CALLS.len() + 2);
    for ((line, (operation, _, json)), op) in lines[1..].iter().zip(CALLS).zip(&operations) {
        assert!(line.contains(&format!("\"op\":{op},")), "{operation}: {line}");
        assert!(operation.parse() == Ok(*op) || line.contains(&format!("\"name\":\"{operation}\"")), "{operation}: {line}");
        let arguments = line.split_once("\"arguments\":{").unwrap().1.split_once(",\"messages\"").unwrap().0;
        assert!(arguments.ends_with(&format!(",{json}}}")), "{operation}: {arguments}");
    }
    let end = lines.last().unwrap();
    assert!(end.starts_with(&format!("{{\"event\":\"end\",\"calls\":{}", CALLS.len())), "{end}");

    operations.sort();
    let known: Vec<u64> = (0..=100).filter(|&op| matches!(lintelow::read_op_args(Mode::Published, op, NEW, &[0; 256]), Ok((Some(_), _)))).collect();
    assert_eq!(operations, known, "every operation once");
}

#[test]
fn hexadecimal_is_the_same_bytes() {
    let words = ["1.38", "IsValidPath", "path=/nix/store/x"];
    let bytes = written(&words);
    assert_eq!(bytes, [&numbers(&[1, 12])[..], b"/nix/store/x\0\0\0\0"].concat());
    let hex: String = bytes.iter().map(|byte| format!("{byte:02x}")).collect();
    for at in 0..=words.len() {
        let mut words = words.to_vec();
        words.insert(at, "--hex");
        assert_eq!(written(&words), format!("{hex}\n").into_bytes());
    }
}

#[test]
fn versions_have_their_fields() {
    let named: Vec<String> =
        CALLS.iter().find(|(operation, ..)| *operation == "SetOptions").unwrap().1.iter().map(|field| field.to_string()).collect();
    for (version, fields, length) in [("1.9", 10, 88), ("0.255", 10, 88), ("1.10", 11, 96), ("1.12", 15, 192), ("2.0", 15, 192)] {
        let words = |fields: usize| [version, "SetOptions"].into_iter().chain(named[..fields].iter().map(String::as_str)).collect::<Vec<_>>();
        assert_eq!(written(&words(fields)).len(), length, "{version}");
        if fields < named.len() {
            let output = call(&words(fields + 1));
            let (name, _) = named[fields].split_once('=').unwrap();
            let said = String::from_utf8(output.stderr).unwrap();
            assert!(said.starts_with(&format!("call: 19 SetOptions at version {version} has no field {name:?}; its fields: keep_failed,")), "{said}");
        }
    }
    assert_eq!(written(&["1.26", "QueryValidPaths"]), numbers(&[31, 0]));
    assert_eq!(written(&["1.27", "QueryValidPaths", "substitute=true"]), numbers(&[31, 0, 1]));
    complains(&["1.27", "QueryValidPaths"], 2, "31 QueryValidPaths at version 1.27 lacks substitute");
    complains(&["1.26", "31", "substitute=false"], 2, "31 QueryValidPaths at version 1.26 has no field \"substitute\"; its fields: paths");
}

#[test]
fn modes_have_their_fields() {
    let strings = |op: u64, numbers_before: &[u64], texts: &[&str]| {
        let mut bytes = numbers(&[&[op], numbers_before].concat());
        for text in texts {
            bytes.extend(numbers(&[text.len() as u64]));
            bytes.extend(text.bytes());
            bytes.resize(bytes.len().next_multiple_of(8), 0);
        }
        bytes
    };
    assert_eq!(written(&["1.22", "30", "pairs=p=ca", "pairs=q="]), strings(30, &[2], &["p", "ca", "q", ""]));
    assert_eq!(written(&["1.22", "30"]), strings(30, &[0], &[]));
    assert_eq!(written(&["1.21", "30", "paths=p", "paths=q"]), strings(30, &[2], &["p", "q"]));
    assert_eq!(written(&["1.30", "42", "path=p", "id=i"]), strings(42, &[], &["i", "p"]));
    assert_eq!(written(&["1.31", "42", "value=v"]), strings(42, &[], &["v"]));
    complains(&["1.22", "30", "pairs=p"], 2, "pairs takes pairs, pairs=NAME=VALUE, and \"p\" is none");
    complains(&["1.22", "30", "paths=p"], 2, "30 QuerySubstitutablePathInfos at version 1.22 has no field \"paths\"; its fields: pairs");
    complains(&["1.30", "42", "id=i"], 2, "42 RegisterDrvOutput at version 1.30 lacks path");

    let in_words = |words: &[&str], expected: Vec<u8>| {
        for at in 0..=words.len() {
            let mut words = words.to_vec();
            words.insert(at, "--ported");
            assert_eq!(written(&words), expected);
        }
    };
    in_words(&["1.22", "30", "paths=p", "paths=q"], strings(30, &[2], &["p", "q"]));
    in_words(&["1.30", "42", "value=v"], strings(42, &[], &["v"]));
    complains(&["--ported", "1.22", "30", "pairs=p="], 2, "30 QuerySubstitutablePathInfos at version 1.22 has no field \"pairs\"; its fields: paths");
    complains(&["--ported", "1.30", "42", "id=i"], 2, "42 RegisterDrvOutput at version 1.30 has no field \"id\"; its fields: value");
}

#[test]
fn what_is_missing_unknown_or_named_twice() {
    complains(&["1.38", "IsValidPath"], 2, "1 IsValidPath at version 1.38 lacks path");
    complains(&["1.38", "AddToStore", "cam_str=c"], 2, "7 AddToStore at version 1.38 lacks name, repair, payload");
    complains(&["1.38", "IsValidPath", "paths=p"], 2, "1 IsValidPath at version 1.38 has no field \"paths\"; its fields: path");
    complains(&["1.38", "SyncWithGC", "path=p"], 2, "13 SyncWithGC at version 1.38 has no field \"path\"; its fields: none");
    complains(&["1.38", "IsValidPath", "path=p", "path=p"], 2, "path takes one value, and is named 2 times");
    complains(&["1.38", "IsValidPath", "path"], 2, "\"path\" is no NAME=VALUE");
}

#[test]
fn values_that_are_none() {
    let sets = ["1.38", "BuildPaths", "mode=fix"];
    complains(&sets, 2, "mode takes normal, repair, check or a number, and \"fix\" is none of these");
    for value in ["1", "yes", ""] {
        let line = format!("repair takes true or false, and {value:?} is none of these");
        complains(&["1.38", "VerifyStore", "check_contents=true", &format!("repair={value}")], 2, &line);
    }
    for value in ["", "-1", "+1", "0x1", "18446744073709551616"] {
        let line = format!("action takes a number from 0 to 18446744073709551615, and {value:?} is none of these");
        complains(&["1.38", "CollectGarbage", &format!("action={value}"), "ignore_liveness=0", "max_freed=0"], 2, &line);
    }
    complains(&["1.38", "AddBuildLog", "path=p", "payload=text"], 2, "payload takes a file, @FILE, and \"text\" is none of these");
    let missing = folder("no payload").join("missing");
    let line = format!("cannot read {:?}: No such file or directory (os error 2)", missing.to_str().unwrap());
    complains(&["1.38", "AddBuildLog", "path=p", &format!("payload=@{}", missing.display())], 2, &line);
    let options = CALLS.iter().find(|(operation, ..)| *operation == "SetOptions").unwrap().1;
    let words = [&["1.38", "SetOptions", "overrides=cores"], &options[..12]].concat();
    complains(&words, 2, "overrides takes pairs, overrides=NAME=VALUE, and \"cores\" is none");
}

#[test]
fn command_lines_that_make_no_sense() {
    complains(&[], 2, "name a version and an operation; --help says how");
    complains(&["1.38"], 2, "name a version and an operation; --help says how");
    complains(&["--bytes", "1.38", "SyncWithGC"], 2, "there is no option \"--bytes\"; --help lists them");
    for version in ["1", "1.x", "1.256", "65536.0", "1.+3", "."] {
        complains(&[version, "SyncWithGC"], 2, &format!("{version:?} is no version such as 1.38"));
    }
    complains(&["1.38", "syncWithGC"], 2, "there is no operation \"syncWithGC\"");
    use std::os::unix::ffi::OsStrExt;
    let output = Command::new(env!("CARGO_BIN_EXE_lintelow-call")).arg(std::ffi::OsStr::from_bytes(b"\xff")).output().unwrap();
    assert_eq!((status(&output), &output.stderr[..]), (2, &b"call: \"\\xFF\" is no UTF-8\n"[..]));
    assert!(String::from_utf8(written(&["1.38", "--help"])).unwrap().starts_with("usage: call "));
}

#[test]
fn what_the_library_refuses() {
    let unknown = "refusal 9 at 0: unknown operation: number not in the table";
    complains(&["1.38", "48"], 1, &format!("48 unknown at version 1.38: {unknown}"));
    complains(&["1.38", "18446744073709551615"], 1, &format!("18446744073709551615 unknown at version 1.38: {unknown}"));
    let not_known = "refusal 13 at 0: no arguments: none are known for this operation and version";
    complains(&["1.38", "BuildDerivation"], 1, &format!("36 BuildDerivation at version 1.38: {not_known}"));
    complains(&["1.38", "39"], 1, &format!("39 AddToStoreNar at version 1.38: {not_known}"));
    complains(&["1.24", "AddToStore"], 1, &format!("7 AddToStore at version 1.24: {not_known}"));
}

/// The text between backticks.
fn quoted(cell: &str) -> Vec<&str> {
    cell.split('`').skip(1).step_by(2).collect()
}

/// The rows of the table of docs/CALL.md that begins so, by their cells.
fn table(head: &str) -> Vec<Vec<String>> {
    let document = fs::read_to_string(Path::new(env!("CARGO_MANIFEST_DIR")).join("../../docs/CALL.md")).unwrap();
    let table = document.split_once(head).unwrap().1.split_once("\n\n").unwrap().0;
    table.lines().skip(2).map(|row| row.split('|').map(str::to_owned).collect()).collect()
}

/// The program knows the fields that a cell names, and no others.
fn has_fields(options: &[&str], version: &str, operation: &str, cell: &str) {
    let (op, name) = (operation.trim().split_once(' ').unwrap().0, quoted(operation)[0]);
    let fields = quoted(cell);
    let fields = if fields.is_empty() { "none".to_owned() } else { fields.join(", ") };
    let line = format!("{op} {name} at version {version} has no field \"no\"; its fields: {fields}");
    complains(&[options, &[version, name, "no="]].concat(), 2, &line);
}

/// docs/CALL.md lists the fields of every operation, as the program knows them.
#[test]
fn fields_are_documented() {
    let mut documented = 0;
    for cells in table("| operation | fields |") {
        for operation in cells[1].split(',') {
            has_fields(&[], "1.38", operation, &cells[2]);
            documented += 1;
        }
    }
    assert_eq!(documented, CALLS.len());
}

/// And those of the two that the modes write otherwise, on both sides of a version.
#[test]
fn fields_are_documented_by_mode() {
    let rows = table("| operation | versions | fields | with `--ported` |");
    for cells in &rows {
        let (side, gate) = cells[2].trim().split_once(' ').unwrap();
        let minor: u8 = gate.strip_prefix("1.").unwrap().parse().unwrap();
        let versions = if side == "from" { [format!("1.{minor}"), "1.255".to_owned()] } else { ["1.0".to_owned(), format!("1.{}", minor - 1)] };
        for version in &versions {
            has_fields(&[], version, &cells[1], &cells[3]);
            has_fields(&["--ported"], version, &cells[1], &cells[4]);
        }
    }
    assert_eq!(rows.len(), 4);
}
