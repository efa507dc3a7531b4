//! The flat row on both sides: `siting.h`'s struct, compiled with `cc`, and this crate's, by size,
//! alignment and every offset; and both read what the calls wrote.

use std::fmt::Write;
use std::mem::{align_of, offset_of, size_of};
use std::path::Path;
use std::process::Command;

use siting::{Key, NONE, Position, Row, Site, Watch};

/// Each field but the key: its name, its place in the row, how it is read.
type Field = (&'static str, usize, fn(&Row) -> u64);

macro_rules! fields {
    ($($name:ident)*) => {
        [$((stringify!($name), offset_of!(Row, $name), |row: &Row| row.$name)),*]
    };
}

const FIELDS: [Field; 21] = fields!(
    has_site lat_bits lon_bits has_alt alt_m generation has_even even_id has_odd odd_id
    has_verdict last wrongs others has_off off_km moved before after
    has_judged_ms judged_ms
);

const SITE: Site = Site {
    lat: 51.4775,
    lon: -0.4614,
    alt_m: Some(-3),
};

/// The key of four little-endian words.
fn key(words: [u64; 4]) -> Key {
    let bytes: Vec<u8> = words.into_iter().flat_map(u64::to_le_bytes).collect();
    bytes.try_into().expect("32 bytes")
}

/// The calls of row.c.
fn called() -> Watch {
    let (a, b) = (key([1, 2, 3, 4]), key([5, 6, 7, 8]));
    let mut watch = Watch::new(3).expect("three rows");
    let heard = Position {
        lat: 51.6,
        lon: -0.3,
        feet: Some(7_400),
        address: 77,
        at_ms: 86_400_000,
    };
    watch.claim(&a, Some(SITE)).expect("there is room");
    watch.claim(&b, None).expect("there is room");
    watch.position(&a, &heard).expect("held");
    watch.judging(&a, 86_400_000, 15).expect("held");
    watch
}

/// What row.c prints, said by this side's struct.
fn said() -> String {
    let mut text = format!("size {}\nalign {}\n", size_of::<Row>(), align_of::<Row>());
    let _ = writeln!(
        text,
        "key {} {}",
        offset_of!(Row, key),
        size_of::<[u64; 4]>()
    );
    for (name, at, _) in FIELDS {
        let _ = writeln!(text, "{name} {at} {}", size_of::<u64>());
    }
    let watch = called();
    for row in Row::all(&watch.rows) {
        let read = FIELDS.iter().map(|(.., read)| read(row));
        let words: Vec<String> = row
            .key
            .into_iter()
            .chain(read)
            .map(|word| format!("{word:x}"))
            .collect();
        let _ = writeln!(text, "row {}", words.join(" "));
    }
    let [first, last, free] = watch.ends;
    text + &format!("ends {first} {last} {free}\n")
}

/// Compiles row.c against siting.h and the archive, and runs it.
fn said_by_c() -> String {
    let folder = Path::new(env!("CARGO_TARGET_TMPDIR"));
    let fields: String = FIELDS
        .iter()
        .map(|(name, ..)| format!("FIELD({name})\n"))
        .collect();
    std::fs::write(folder.join("fields.inc"), fields).expect("cargo's folder can be written");
    let here = env!("CARGO_MANIFEST_DIR");
    let program = folder.join("row");
    let compiled = Command::new("cc")
        .args(["-std=c11", "-Wall", "-Wextra", "-Werror", "-I"])
        .arg(folder)
        .arg(format!("-I{here}/../../crates/siting/include"))
        .arg(format!("{here}/tests/row.c"))
        .args([env!("SITING_ARCHIVE"), "-o"])
        .arg(&program)
        .output()
        .expect("this test needs a C compiler by the name `cc` (on Debian: apt install gcc)");
    let errors = String::from_utf8_lossy(&compiled.stderr);
    assert!(compiled.status.success(), "cc: {errors}");
    let ran = Command::new(&program).output().expect("it was compiled");
    assert!(ran.status.success(), "row.c: the judging was not accepted");
    String::from_utf8(ran.stdout).expect("ASCII")
}

#[test]
fn both_sides_have_one_layout() {
    assert_eq!(said_by_c(), said());
}

/// The fields are the row's 25 numbers, none left out.
#[test]
fn no_number_is_left_out() {
    let places: Vec<usize> = FIELDS.iter().map(|(_, at, _)| *at / 8).collect();
    assert_eq!(offset_of!(Row, key), 0);
    assert_eq!(places, (4..25).collect::<Vec<_>>());
}

/// What the calls wrote, by name: key, degrees' bits, altitude, generation, id, run, links, clock.
#[test]
fn a_written_row_is_read() {
    let watch = called();
    let none = u64::from(NONE);
    let rows = Row::all(&watch.rows);
    let judged = Row {
        key: [1, 2, 3, 4],
        has_site: 1,
        lat_bits: SITE.lat.to_bits(),
        lon_bits: SITE.lon.to_bits(),
        has_alt: 1,
        alt_m: u64::from(-3_i32 as u32),
        generation: 1,
        has_even: 1,
        even_id: 2,
        has_verdict: 1,
        others: 1,
        before: 1,
        after: none,
        has_judged_ms: 1,
        judged_ms: 86_400_000,
        ..Row::default()
    };
    let claimed = Row {
        key: [5, 6, 7, 8],
        before: none,
        ..Row::default()
    };
    let free = Row {
        before: none,
        after: none,
        ..Row::default()
    };
    assert_eq!(rows, [judged, claimed, free]);
    assert_eq!(watch.ends, [1, 0, 2]);
    assert_eq!(rows[0].site(), Some(SITE));
    assert_eq!(rows[0].ids(), [Some(2), None]);
    assert_eq!(rows[0].judged_ms(), Some(86_400_000));
    assert_eq!(rows[1].judged_ms(), None);
}
