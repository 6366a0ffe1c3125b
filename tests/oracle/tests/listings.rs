//! The listing, and the samples beside their expected output.

use oracle::layout::Header;
use oracle::listing::{listing, HEADING};
use oracle::samples::{log_by_hand, log_of, records_of, samples, Request::Insert};
use std::collections::BTreeSet;
use std::path::PathBuf;

fn sample(name: &str) -> String {
    let input = samples().into_iter().find(|(other, _)| *other == name).unwrap().1;
    listing(&input)
}

/// Expected output written by hand.
#[test]
fn by_hand() {
    let lines = |lines: &str| HEADING.to_string() + lines;
    let log_by_hand = lines("10 0 E 1\n20 0 E 2\n30 1 E 2\n40 2 L 1\n50 2 L 2\n60 3 L 2\nunits 50\n");
    assert_eq!(sample("log-by-hand"), log_by_hand);
    assert_eq!(sample("longer-than-lent"), log_by_hand);
    assert_eq!(sample("empty-log"), lines("units 0\n"));
    assert_eq!(sample("short-empty-log"), lines("units 0\n"));
    assert_eq!(sample("update-over-two-pages"), lines("10 0 E 1\n20 1 L 1\nunits 44\n"));
    assert_eq!(sample("article-0-count-0"), lines("10 0 E 1\n20 0 E 2\n30 1 L 1\n40 1 L 0\nunits 0\n"));
    assert_eq!(sample("cut-input"), lines("10 0 E 1\n20 0 L 2\nunits 50\n"));
    let latest =
        "1 0 E 1\n9223372036854775808 0 E 2\n18446744073709551614 1 L 3\n18446744073709551615 2 L 3\n";
    // 44, 12 and 2^32 - 1
    assert_eq!(sample("latest-times"), lines(latest) + "units 4294967351\n");
    let order_2 = "5 0 E 1\n10 0 E 2\n15 1 E 3\n20 1 E 4\n25 2 L 5\n30 2 L 6\n35 3 L 7\n40 3 L 8\n45 4 L 9\n";
    assert_eq!(sample("order-2"), lines(order_2) + "units 360\n");
}

/// The units below the last table (02, wish 1), by hand.
#[test]
fn units_by_hand() {
    let lines = |lines: &str| HEADING.to_string() + lines;
    let over_32_bits = lines("10 0 E 1\n20 0 E 2\n30 1 L 3\n40 2 L 3\nunits 12884901882\n");
    assert_eq!(sample("units-over-32-bits"), over_32_bits);
    // 20 and 12: the last request took 5 away again
    let raised = lines("10 0 E 1\n20 1 E 1\n30 1 E 2\n40 2 L 2\n50 3 L 2\n60 4 L 3\n70 4 L 2\nunits 32\n");
    assert_eq!(sample("units-raised-and-lowered"), raised);
    let emptied = lines("10 0 E 1\n20 1 E 1\n30 1 L 2\n40 2 L 1\n50 2 L 0\nunits 0\n");
    assert_eq!(sample("units-of-an-emptied-store"), emptied);
}

/// Nearness in requests (02, wish 6), by hand. Beside a line stand the requests up to its time and those after it;
/// pages would have chosen E wherever there is a star.
#[test]
fn nearness_by_hand() {
    let expected = |lines: &[&str]| HEADING.to_string() + &lines.concat();
    let one_page = expected(&[
        "5 0 E 1\n",  // 1 and 4
        "10 0 E 2\n", // 2 and 3
        "15 0 L 3\n", // 3 and 2 *
        "20 0 L 4\n", // 4 and 1 *
        "25 0 L 5\n", // 5 and 0 *
        "units 100\n",
    ]);
    assert_eq!(sample("one-page"), one_page);
    let tie_of_requests = expected(&[
        "5 0 E 1\n",  // 1 and 5
        "10 0 E 2\n", // 2 and 4
        "15 0 E 3\n", // 3 and 3
        "20 0 L 4\n", // 4 and 2 *
        "25 1 L 5\n", // 5 and 1
        "30 1 L 6\n", // 6 and 0
        "units 150\n",
    ]);
    assert_eq!(sample("tie-of-requests"), tie_of_requests);
    let split_update_later = expected(&[
        "10 0 E 1\n", // 1 and 4
        "20 1 L 1\n", // 3 and 2 *
        "30 1 L 2\n", // 4 and 1 *
        "40 2 L 3\n", // 5 and 0
        "units 61\n",
    ]);
    assert_eq!(sample("split-update-later"), split_update_later);
    let split_update_tie = expected(&[
        "10 0 E 1\n", // 1 and 5
        "20 0 E 2\n", // 2 and 4
        "30 1 E 3\n", // 3 and 3
        "40 2 L 3\n", // 5 and 1
        "50 2 L 4\n", // 6 and 0
        "units 62\n",
    ]);
    assert_eq!(sample("split-update-tie"), split_update_tie);
    // 1 and 4, 2 and 3, 3 and 2 *, 4 and 1 *, 5 and 0
    let start = expected(&["1 0 E 1\n", "2 0 E 2\n", "3 1 L 1\n", "4 1 L 2\n", "1000 2 L 1\n", "units 1\n"]);
    assert_eq!(sample("crowded-start"), start);
    let end = ["996 0 E 1\n", "997 0 E 2\n", "998 1 L 1\n", "999 1 L 2\n", "1000 2 L 1\n", "units 1\n"];
    assert_eq!(sample("crowded-end"), expected(&end));
}

#[test]
fn refusals_by_hand() {
    for number in [1, 2, 3, 4, 5, 17] {
        assert_eq!(sample(&format!("refused-{number}")), format!("refused {number}\n"));
    }
    assert_eq!(sample("empty-input"), "refused 1\n");
    // the 24th byte is a zero, so the header is whole; the records are zeros
    assert_eq!(sample("short-input"), "refused 17\n");
    assert_eq!(sample("last-time-wrong"), "refused 17\n");
    assert_eq!(sample("empty-log-last-time-wrong"), "refused 17\n");
}

/// Twenty pages of two insertions at 5, 10, 15 …: positions 0 to 19, the later outset from the 21st request
/// on, as the 20th is a tie. Counts 0, 10, 20 … 390.
#[test]
fn right_edge_by_rule() {
    let expected: String = (1..=40)
        .map(|c| format!("{} {} {} {}\n", 5 * c, (c - 1) / 2, if c > 20 { "L" } else { "E" }, c))
        .collect();
    assert_eq!(sample("edge-skips-two-levels"), HEADING.to_string() + &expected + "units 7800\n");
}

#[test]
fn most_records() {
    let output = sample("most-records");
    assert_eq!(output.lines().count(), 1 + 900 + 29 + 900 + 1);
    // 871 rows, each updated to 2
    let end: Vec<&str> = output.lines().skip(1 + 900 + 29 + 899).collect();
    assert_eq!(end, ["4697 1364 L 871", "units 1742"]);
    // 929 records and 217 updates up to 2648, 1363 against 1366; one update more, 1365 against 1364
    let turn: Vec<&str> = output.lines().skip_while(|line| !line.starts_with("2648 ")).take(2).collect();
    assert_eq!(turn, ["2648 681 E 871", "2651 682 L 871"]);
    // one record more does not fit
    let mut input = samples().into_iter().find(|(name, _)| *name == "most-records").unwrap().1;
    input[..24].copy_from_slice(&Header::new(2, 2, 900, 2_730, 4_697).bytes());
    input.resize(65_544, 0);
    assert_eq!(listing(&input), "refused 5\n");
}

/// Cut anywhere: the missing bytes are zeros, and only where they were zeros is the log as before.
#[test]
fn cuts() {
    let log = log_of(3, 2, 4, &records_of(&[Insert(10, 7, 50), Insert(20, 3, 12)]));
    let with_units = |total: &str| HEADING.to_string() + "10 0 E 1\n20 0 L 2\nunits " + total + "\n";
    for cut in 0..log.len() {
        let mut padded = log[..cut].to_vec();
        padded.resize(log.len(), 0);
        assert_eq!(listing(&log[..cut]), listing(&padded));
    }
    // the count's three upper bytes are zeros; without its lowest byte the count is 0, a legal log
    // all the same
    assert_eq!(listing(&log), with_units("62"));
    assert_eq!(listing(&log[..log.len() - 3]), with_units("62"));
    assert_eq!(listing(&log[..log.len() - 4]), with_units("50"));
    // without the article too: article 0, still a legal insertion
    assert_eq!(listing(&log[..log.len() - 8]), with_units("50"));
    assert_eq!(listing(&log[..log.len() - 16]), "refused 17\n");
}

#[test]
fn bytes_behind_the_records_do_not_matter() {
    let mut log = log_by_hand();
    log.extend([0xFF; 100]);
    assert_eq!(listing(&log), listing(&log_by_hand()));
}

/// The files in the folder of samples are those of `make_samples`, no more and no fewer.
#[test]
fn sample_files() {
    let folder = PathBuf::from(env!("CARGO_MANIFEST_DIR")).join("../../samples");
    let mut names = BTreeSet::new();
    for (name, input) in samples() {
        let (log, out) = (format!("{name}.log"), format!("{name}.out"));
        assert_eq!(std::fs::read(folder.join(&log)).unwrap(), input, "{log}");
        assert_eq!(std::fs::read_to_string(folder.join(&out)).unwrap(), listing(&input), "{out}");
        names.extend([log, out]);
    }
    let found =
        std::fs::read_dir(&folder).unwrap().map(|file| file.unwrap().file_name().into_string().unwrap());
    let found: BTreeSet<String> =
        found.filter(|name| name.ends_with(".log") || name.ends_with(".out")).collect();
    assert_eq!(found, names);
}
