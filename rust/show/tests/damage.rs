//! Recordings that are cut short or damaged: each of them is told to some end, and no input makes the program panic.
mod common;

use common::*;
use lintelow_show::{Options, Status};
use std::fs;
use std::path::Path;

const EVERY_VIEW: [(bool, bool); 4] = [(false, false), (true, false), (false, true), (true, true)];

/// Tells the streams in every view, which must agree on how the session ends.
fn any_end(client: &[u8], daemon: &[u8]) -> Status {
    end_with(false, client, daemon)
}

fn end_with(ported: bool, client: &[u8], daemon: &[u8]) -> Status {
    let statuses = EVERY_VIEW.map(|(json, summary)| {
        let (status, out) = told(client, daemon, &Options { json, summary, ported, full: true, ..Options::default() });
        assert!(out.ends_with('\n'));
        assert!(out.chars().all(|c| c == '\n' || !c.is_control()), "a control character is told");
        status
    });
    assert!(statuses.iter().all(|status| *status == statuses[0]), "{statuses:?}");
    assert_ne!(statuses[0], Status::Unreadable);
    statuses[0]
}

#[test]
fn every_beginning_of_the_clients_stream() {
    for name in ["hand226c38-0", "n226-mix2-2", "n226-nbuild-0", "n23-realise-0", "n28-nsign-0", "n28c29-cacopyng-0"] {
        let (client, daemon) = streams(name);
        for length in 0..client.len() {
            any_end(&client[..length], &daemon);
        }
    }
}

/// None of them is told as a whole session.
#[test]
fn every_beginning_of_the_daemons_stream() {
    for name in names() {
        let (client, daemon) = streams(&name);
        let (_, json) = told(&client, &daemon, &as_json());
        // Bytes that are left over belong to no call, and those behind a call that can't be followed are not looked at: none lacks them.
        let last = json.lines().last().unwrap();
        let left = range_after(last, "\"left\":").map(|(start, _)| start).or(number_after(last, "\"daemon\":"));
        let end = left.unwrap_or(daemon.len());
        let mut unended = 0;
        for length in 0..end {
            let status = any_end(&client, &daemon[..length]);
            assert_ne!(status, Status::Read, "{name}, cut to {length} bytes");
            unended += usize::from(status == Status::Unended);
        }
        // Messages are not ended where the eight bytes of a message's code are missing or cut.
        let messages: usize = json.lines().filter_map(|line| number_after(line, "\"count\":")).sum();
        assert_eq!(unended, 8 * messages, "{name}");
    }
}

/// The same of each call's answer where the client says no more: no later call shows then that something is missing.
#[test]
fn every_beginning_of_a_last_answer() {
    let mut answers = 0;
    for name in names() {
        let (client, daemon) = streams(&name);
        let (_, json) = told(&client, &daemon, &as_json());
        for call in json.lines() {
            let range = |part: &str| range_after(call, &format!("\"{part}\":{{\"range\":"));
            let (Some((_, said)), Some((start, _)), Some((_, end))) = (range("arguments"), range("messages"), range("reply").or(range("error")))
            else {
                continue;
            };
            let status = |length| told(&client[..said], &daemon[..length], &as_json()).0;
            assert_eq!(status(end), Status::Read, "{name}, whole at {end} bytes");
            for length in start..end {
                assert_ne!(status(length), Status::Read, "{name}, cut to {length} bytes");
            }
            answers += 1;
        }
    }
    assert_eq!(answers, 107, "answers of captures/");
}

/// A call's messages, none or one, and then no code: nothing, the beginning of Last, the reply without Last, and other numbers, some almost Last.
#[test]
fn messages_that_are_not_ended() {
    const NEXT: u64 = 0x6f6c6d67;
    let (mut client, mut before) = handshake(34);
    client.extend(numbers(&[13, 13, 13]));
    before.extend(numbers(&[LAST, 1]));
    let last = numbers(&[LAST]);
    let mut rests: Vec<Vec<u8>> = (0..8).map(|length| last[..length].to_vec()).collect();
    rests.extend([&[1][..], &[1, LAST, 1], &[LAST + 1, 1], &[LAST | 1 << 32, 1], &[u64::MAX]].map(numbers));
    for (count, messages) in [(0, numbers(&[])), (1, numbers(&[NEXT, 0]))] {
        let (start, stop) = (before.len(), before.len() + messages.len());
        for rest in &rests {
            let daemon = [&before[..], &messages, rest].concat();
            assert_eq!(any_end(&client, &daemon), Status::Unended, "{rest:?}");
            let (_, json) = told(&client, &daemon, &as_json());
            let lines: Vec<&str> = json.lines().collect();
            let [_, _, call, unended] = lines[..] else { panic!("{lines:?}") };
            let expected = format!("}},\"messages\":{{\"range\":[{start},{stop}],\"count\":{count},\"terminal\":null}}}}");
            assert!(call.starts_with("{\"event\":\"call\",\"call\":2,\"op\":13,") && call.ends_with(&expected), "{rest:?}: {call}");
            assert_eq!(unended, format!("{{\"event\":\"unended\",\"call\":2,\"op\":13,\"daemon\":{stop}}}"), "{rest:?}");
        }
    }
}

/// A string that is no text: its first bad byte is marked, and it is told how far the string is good.
#[test]
fn a_bad_byte() {
    let (client, daemon) = handshake(34);
    let string = [numbers(&[5]), b"a\xc3\xa9\xffb\0\0\0".to_vec()].concat();
    let said = |numbers: Vec<u8>, string: &[u8]| [&client[..], &numbers, string].concat();
    let answered = |numbers: Vec<u8>| [&daemon[..], &numbers, &string].concat();
    let path = numbers(&[0]);
    let cases = [
        ("handshake", "daemon", client.clone(), [numbers(&[0x6478696f, 0x122]), string.clone()].concat()),
        ("arguments", "client", said(numbers(&[1]), &string), daemon.clone()),
        ("error", "daemon", said(numbers(&[1]), &path), answered(numbers(&[ERROR, 0, 0, 0]))),
        ("error", "daemon", said(numbers(&[1]), &path), answered(numbers(&[ERROR, 0, 0, 0, 0, 0, 1, 0]))),
        ("reply", "daemon", said(numbers(&[18]), &path), answered(numbers(&[LAST]))),
    ];
    for (part, side, client, daemon) in cases {
        let start = if side == "client" { client.len() } else { daemon.len() } - 8;
        assert_eq!(any_end(&client, &daemon), Status::Refused);
        let (_, json) = told(&client, &daemon, &as_json());
        assert!(json.contains(&format!("\"part\":\"{part}\",\"refusal\":3,")), "{json}");
        assert!(json.ends_with(&format!("\"stream\":\"{side}\",\"place\":{0},\"good\":[{start},{0}]}}\n", start + 3)), "{json}");
        let (_, words) = told(&client, &daemon, &Options::default());
        assert!(
            words.contains(&format!(", at byte {}\n  the string begins at byte {start}; its first 3 bytes are text, up to aé\n", start + 3)),
            "{words}"
        );
        assert!(words.ends_with(&format!("    {start}  61 c3 a9[ff]62 00 00 00  a...b...\n")), "{words}");
    }
    let at_once = said(numbers(&[1, 1]), b"\xff");
    let (_, words) = told(&at_once, &daemon, &Options::default());
    assert!(words.contains(&format!(", at byte {}\n  the string begins there\n", at_once.len() - 1)), "{words}");
}

#[test]
fn one_byte_changed() {
    for name in names() {
        let (mut client, mut daemon) = streams(&name);
        for change in [0x01, 0x80, 0xff] {
            for at in (0..client.len()).step_by(37) {
                client[at] ^= change;
                any_end(&client, &daemon);
                client[at] ^= change;
            }
            for at in (0..daemon.len()).step_by(41) {
                daemon[at] ^= change;
                any_end(&client, &daemon);
                daemon[at] ^= change;
            }
        }
    }
}

#[test]
fn numbers_as_large_as_can_be() {
    for name in ["hand226c38-0", "n226-mix2-2", "n226-nbuild-0", "n23-fail-0", "n28-mix2-0", "n28c29-cacopyng-0", "tr28-trace1-0"] {
        let (client, daemon) = streams(name);
        for at in (0..client.len() - 8).step_by(8) {
            let mut changed = client.clone();
            changed[at..at + 8].fill(0xff);
            any_end(&changed, &daemon);
        }
        for at in (0..daemon.len() - 8).step_by(8) {
            let mut changed = daemon.clone();
            changed[at..at + 8].fill(0xff);
            any_end(&client, &changed);
        }
    }
}

/// The sessions that are read otherwise then.
#[test]
fn with_ported() {
    for name in ["n226-mix2-2", "n28c29-cacopyng-0"] {
        let (mut client, daemon) = streams(name);
        for at in 0..client.len() {
            end_with(true, &client[..at], &daemon);
            client[at] ^= 0xff;
            end_with(true, &client, &daemon);
            client[at] ^= 0xff;
        }
    }
    for (name, messages) in [("n23-fail-0", 2400), ("n28-fail-0", 2424), ("tr28-trace1-0", 1392)] {
        let (client, mut daemon) = streams(name);
        for at in messages..daemon.len() {
            end_with(true, &client, &daemon[..at]);
            daemon[at] ^= 0xff;
            end_with(true, &client, &daemon);
            daemon[at] ^= 0xff;
        }
    }
}

#[test]
fn streams_of_chance() {
    let (client, daemon) = streams("n28-build-0");
    let mut state = 0x9e37_79b9_7f4a_7c15u64;
    let mut chance = move || {
        state ^= state << 13;
        state ^= state >> 7;
        state ^= state << 17;
        state
    };
    for _ in 0..500 {
        // The handshakes stay, so that calls are reached; then any operation, and small numbers, which layouts have most.
        let mut noise = |stream: &[u8], kept: usize| {
            let mut bytes = stream[..kept].to_vec();
            for _ in 0..60 {
                let number = if chance() % 4 == 0 { chance() } else { chance() % 48 };
                bytes.extend(number.to_le_bytes());
            }
            bytes
        };
        let (noisy_client, noisy_daemon) = (noise(&client, 32), noise(&daemon, 40));
        any_end(&noisy_client, &noisy_daemon);
    }
}

/// What the program prints of a recording with these streams, whose folder gets a name; its exit status.
fn shown(name: &str, client: &[u8], daemon: &[u8], options: &[&str]) -> (i32, String) {
    let folder = Path::new(env!("CARGO_TARGET_TMPDIR")).join(name);
    fs::create_dir_all(&folder).unwrap();
    fs::write(folder.join("client.bin"), client).unwrap();
    fs::write(folder.join("daemon.bin"), daemon).unwrap();
    let output = program().args(options).arg(&folder).output().unwrap();
    assert!(output.stderr.is_empty());
    (status(&output), printed(&output).to_owned())
}

#[test]
fn the_program_says_what_is_refused() {
    let (client, daemon) = streams("n226-nbuild-0");
    let (status, words) = shown("cut", &client, &daemon[..500], &[]);
    assert_eq!(status, 1);
    let expected = "
refused by 1  cut short: a number, contents, padding or chunk needs more bytes than remain
  in the reply of call 3, 7 AddToStore, the daemon's stream (daemon.bin), at byte 496
";
    let refusal = &words[words.find("\nrefused").unwrap()..];
    assert!(refusal.starts_with(expected), "{refusal}");
}

/// The first call of this recording, SetOptions, has a reply of nothing: without the daemon's Last it would look whole.
#[test]
fn the_program_says_what_is_not_ended() {
    let (client, daemon) = streams("n28-delete-0");
    let in_words = "
not ended  call 1: the messages of 19 SetOptions end with neither Last nor Error, so no reply is read
  they stop at byte 40 of daemon.bin: it may be cut, or the daemon said more than was read (docs/DIFFERENCES.md)
    24  32 2e 38 2e 30 00 00 00  2.8.0...
    32  73 74 6c 61 00 00 00 00  stla....
    40 [--]
";
    let in_json = "\n{\"event\":\"unended\",\"call\":1,\"op\":19,\"daemon\":40}\n";
    let messages_in_words = "  messages   daemon 40..40  0, not ended\n";
    let messages_in_json = "\"messages\":{\"range\":[40,40],\"count\":0,\"terminal\":null}}";
    let counts_in_words = "     all                                 1        0        1             104              0            0\n";
    let counts_in_json =
        "\"refused\":1,\"argument_bytes\":104,\"message_bytes\":0,\"reply_bytes\":0},\"failed\":[],\"client_bytes\":144,\"daemon_bytes\":40}";
    for (options, before, last) in [
        (&[][..], messages_in_words, in_words),
        (&["--json"], messages_in_json, in_json),
        (&["--summary"], counts_in_words, in_words),
        (&["--summary", "--json"], counts_in_json, in_json),
    ] {
        let (status, told) = shown("unended", &client[..144], &daemon[..40], options);
        assert_eq!(status, 4, "{options:?}");
        assert!(told.ends_with(&[before, last].concat()), "{options:?}: {told}");
    }
    let (status, _) = shown("ended", &client[..144], &daemon[..48], &[]);
    assert_eq!(status, 0);
}
