//! Files around the most records, the most table bytes and the longest bodies. What each lists is worked out by hand.

use crate::pair::{of_model, Pair};
use crate::program::Program;
use crate::recorded;

/// How a file ends after so many records that are listed with `ok`, and how its listing ends.
struct Tail {
    records: usize,
    bytes: &'static [u8],
    listed: &'static str,
}

const fn tail(records: usize, bytes: &'static [u8], listed: &'static str) -> Tail {
    Tail { records, bytes, listed }
}

/// An empty row.
const ROW: [u8; 3] = [4, 0, 0];

const TAILS: [Tail; 24] = [
    tail(999_998, &[0, 0, 0], ""),
    tail(999_999, &[0, 0, 0], ""),
    tail(999_999, &[], "refused 13 999999\n"),
    tail(999_999, &[7], "refused 12 999999\n"),
    tail(999_999, &[1], "refused 13 999999\n"),
    tail(999_999, &[1, 0, 7], "refused 12 999999\n"),
    tail(999_999, &[6, 0, 2, 0], "refused 13 999999\n"),
    tail(999_999, &[6, 0, 2, 0, 9, 0, 0, 0], "refused 6 9\nrefused 14 1000000\n"),
    tail(999_999, &[2, 0, 4, 0, 0, 0, 0, 9], "at 0 0\nrefused 12 1000000\n"),
    tail(1_000_000, &[], "refused 13 1000000\n"),
    tail(1_000_000, &[0, 0, 0], "refused 14 1000000\n"),
    tail(1_000_000, &[0], "refused 14 1000000\n"),
    tail(1_000_000, &[0, 0, 1], "refused 12 1000000\n"),
    tail(1_000_000, &[9], "refused 12 1000000\n"),
    tail(1_000_000, &[1], "refused 14 1000000\n"),
    tail(1_000_000, &[1, 0], "refused 14 1000000\n"),
    tail(1_000_000, &[1, 0, 7], "refused 12 1000000\n"),
    tail(1_000_000, &[1, 0, 8, 0], "refused 14 1000000\n"),
    tail(1_000_000, &[2, 0, 4, 1, 0, 0, 1], "refused 12 1000000\n"),
    tail(1_000_000, &[2, 0, 4, 0xFF, 0xFF, 0xFF], "refused 14 1000000\n"),
    tail(1_000_000, &[2, 0, 4, 1, 0, 0, 0], "refused 14 1000000\n"),
    tail(1_000_000, &[3, 0xFF, 0xFF, 0], "refused 14 1000000\n"),
    tail(1_000_000, &[5, 8, 1], "refused 12 1000000\n"),
    tail(1_000_001, &[0, 0, 0], "refused 14 1000000\n"),
];

/// All of them; answers how many files there were.
pub fn compare_all(pair: &Pair) -> Result<usize, String> {
    let most = ROW.repeat(1_000_001);
    for Tail { records, bytes, listed } in TAILS {
        let file = [&most[..ROW.len() * records], bytes].concat();
        let listing = "ok\n".repeat(records.min(1_000_000)) + listed;
        compare(pair, &file, &listing).map_err(|fault| format!("{records} records and {bytes:?}: {fault}"))?;
    }
    let others = others();
    for (what, file, listing) in &others {
        compare(pair, file, listing).map_err(|fault| format!("{what}: {fault}"))?;
    }
    Ok(TAILS.len() + others.len())
}

/// A file by its name, and as it comes in.
fn compare(pair: &Pair, file: &[u8], by_hand: &str) -> Result<(), String> {
    let model = of_model(file);
    if model != by_hand.as_bytes() {
        return Err("the model lists something else than was worked out by hand\n".into());
    }
    pair.compare_one(file, &model, Program::list)?;
    pair.compare_one(file, &model, |program, file| program.list_input(file, 65_535))
}

fn others() -> Vec<(&'static str, Vec<u8>, String)> {
    let table = |bytes: usize| recorded::table(&vec![0; bytes]);
    let end = recorded::END.to_vec();
    let line = recorded::line(0);
    vec![
        (
            "refused writes are counted up to the last record",
            recorded::write(1, 0).repeat(1_000_001),
            "refused 1 1\n".repeat(1_000_000) + "refused 14 1000000\n",
        ),
        (
            "refused lines are counted, and wait for no row",
            line.repeat(1_000_000),
            "refused 5 3\n".repeat(1_000_000) + "refused 13 1000000\n",
        ),
        (
            "a table byte by byte",
            [table(1).repeat(65_536), table(0), table(1), end.clone()].concat(),
            "ok\n".repeat(65_537) + "refused 14 65537\n",
        ),
        ("a table in two halves", [table(32_768), table(32_768), end.clone()].concat(), "ok\nok\n".into()),
        ("65,535 and 2 bytes of a table", [table(65_535), table(2)].concat(), "ok\nrefused 14 1\n".into()),
        ("65,535 and 1 byte of a table, cut", [&table(65_535)[..], &[3, 0, 1]].concat(), "ok\nrefused 13 1\n".into()),
        (
            "half a length after 32,768 bytes of a table",
            [&table(32_768)[..], &[3, 0xFF]].concat(),
            "ok\nrefused 13 1\n".into(),
        ),
        ("65,534 and 2 bytes of a table", [table(65_534), table(2), end.clone()].concat(), "ok\nok\n".into()),
        ("65,535 bytes of a table, one short", table(65_535)[..65_537].to_vec(), "refused 13 0\n".into()),
        ("a write of 65,535 bytes", recorded::record(1, &[0; 65_535]), "refused 12 0\n".into()),
        ("a normal row of 65,535 bytes", recorded::record(4, &[0; 65_535]), "refused 12 0\n".into()),
        ("an overlay row of 65,535 bytes", recorded::record(5, &[0; 65_535]), "refused 12 0\n".into()),
        ("an unknown tag with 65,535 bytes", recorded::record(255, &[0; 65_535]), "refused 12 0\n".into()),
        (
            "a table of 65,535 bytes behind records of every length up to 300",
            [(0..300).flat_map(|bytes| recorded::normal(&vec![7; bytes])).collect(), table(65_535), end].concat(),
            "ok\n".repeat(301),
        ),
    ]
}
