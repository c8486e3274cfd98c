//! Pieces read back as they were written, refusals, texts, store paths and entries.
mod bytes;

use bytes::*;
use lintelow::wire::*;
use lintelow::*;

fn refused(number: u64, place: usize) -> Refusal {
    Refusal { number, place, stream: 0 }
}

#[test]
fn what_is_written_is_read() {
    let payload: Vec<u8> = (0..100_000).map(|i| i as u8).collect();
    let mut out = b"before, ".to_vec();
    write_u64(&mut out, u64::MAX);
    write_u32(&mut out, 0x376e6962);
    write_u32(&mut out, 0);
    write_bytes(&mut out, b"\xff");
    write_string(&mut out, "stra\u{df}e");
    write_string_set(&mut out, &["", "one", "a longer one"]);
    write_framed(&mut out, &payload);

    assert_eq!(read_u64(&out, 8), Ok((u64::MAX, 16)));
    assert_eq!(peek_u64(&out, 8), Ok(Some(u64::MAX)));
    assert_eq!(read_u32(&out, 16), Ok((0x376e6962, 20)));
    assert_eq!(read_bytes(&out, 24), Ok((&b"\xff"[..], 40)));
    assert_eq!(read_string(&out, 40), Ok(("stra\u{df}e", 56)));
    assert_eq!(skip_string(&out, 40), Ok(56));
    assert_eq!(read_string_set(&out, 56), Ok((vec!["", "one", "a longer one"], 112)));
    assert_eq!(skip_string_set(&out, 56), Ok((3, 112)));
    assert_eq!(read_framed(&out, 112), Ok((payload, out.len())));
    assert_eq!(skip_framed(&out, 112), Ok((100_000, out.len())));
}

#[test]
fn writers_write_the_same_bytes_as_the_layouts() {
    let mut out = Vec::new();
    write_string_set(&mut out, &[""; 500]);
    assert_eq!(out, set(&[""; 500]));
    out.clear();
    write_framed(&mut out, &[7; 32769]);
    assert_eq!(out, framed(&[&[7; 32768], &[7]]));
    out.clear();
    write_string_set::<&str>(&mut out, &[]);
    assert_eq!(out, numbers(&[0]));
}

#[test]
fn pieces_are_refused_by_number_and_place() {
    let stream = [numbers(&[1]), b"\xff\0\0\0\0\0\0\0".to_vec(), numbers(&[268435457])].concat();
    assert_eq!(read_string(&stream, 0), Err(refused(3, 8)));
    assert_eq!(read_string(&stream, 16), Err(refused(2, 16)));
    assert_eq!(read_u64(&stream, 17), Err(refused(1, 17)));
    assert_eq!(read_u64(&stream, usize::MAX), Err(refused(1, usize::MAX)));
    assert_eq!(peek_u64(&stream, 17), Ok(None));
    assert_eq!(peek_u64(&[], 0), Ok(None));
    assert_eq!(read_framed(&stream, 16), Err(refused(2, 16)));
}

#[test]
fn texts() {
    assert_eq!([0, 1, 2, 3].map(mode_text), ["normal", "repair", "check", "3"]);
    assert_eq!((paths_text(0), overrides_text(u64::MAX)), ("0 paths".into(), "18446744073709551615 overrides".into()));
    for count in [0, 1, 12] {
        assert_eq!(SkippedArgs::Paths(count).text(), Some(paths_text(count)));
        assert_eq!(SkippedArgs::Overrides(count).text(), Some(overrides_text(count)));
    }
}

#[test]
fn store_paths_and_entries() {
    let path = "/nix/store/pczmyy74v7nix6zir6hbarllxr5swa31-dep";
    assert_eq!(extract_store_path(path.as_bytes()), Some(path));
    assert_eq!(extract_store_path(&path.as_bytes()[..43]), None);
    assert_eq!(extract_store_path(&[path.as_bytes(), b"\xff"].concat()), None);

    let entries = numbers(&[11, 32, 40, 8]);
    let entry = |index| raw::entry(path.as_bytes(), &entries, index).map(|answer| answer.own_entry());
    assert_eq!(entry(0), Ok(Entry { start: 11, length: 32 }));
    assert_eq!((entry(1), entry(2)), (Err(refused(12, 1)), Err(refused(11, 2))));
}

#[test]
fn operations_and_versions() {
    assert_eq!((op_has_client_framed_data(39), op_has_client_framed_data(38)), (Ok(true), Ok(false)));
    assert_eq!(op_has_client_framed_data(48), Err(refused(9, 0)));
    assert_eq!(version_from_wire(0x1_0126), Version::new(1, 38));
}
