//! `caisson upgrade` as one calls it, and what other commands say of old tables.

use crate::common::{bytes, folder, path, said};
use crate::names_files::{failure, silent};
use std::fs;

/// The lease table as version 1.2.0 had it, 208 bytes, and as version 2.5.0 had it, 210 bytes.
fn old_lease(format: u8) -> String {
    let path = path(&format!("tools/tests/data/lease_format_{format}.table"));
    path.to_string_lossy().into_owned()
}

#[test]
fn old_tables_are_known() {
    for (format, records, shown) in [
        (
            1,
            "register records have 6 bytes and whose state records 4",
            "(the registers have 12 bytes, with 7 for each):\n    20,4 24,12 36,20 56,104 160,48\n",
        ),
        (
            2,
            "state records have 4 bytes",
            "(the states have 20 bytes, with 9 for each):\n    20,4 24,14 38,20 58,104 162,48\n",
        ),
    ] {
        let advice = format!(
            "is a table of format {format}, whose {records}; \
             `caisson upgrade OLD NEW` makes one of format 3 from it"
        );
        let old = old_lease(format);
        let words = format!("{old}: {advice}");
        assert_eq!(said(&["print", &old]), failure(&words));
        let (status, text, _) = said(&["explain", &old]);
        assert_eq!(status, Some(1));
        assert!(text.starts_with("refused by 1 at place 0\n"), "{text}");
        assert!(
            text.ends_with(&format!("{shown}\nIt {advice}.\n")),
            "{text}"
        );
    }
}

#[test]
fn upgrade_writes_another_table() {
    let new = format!("{}/upgraded.table", env!("CARGO_TARGET_TMPDIR"));
    for format in [1, 2] {
        assert_eq!(said(&["upgrade", &old_lease(format), &new]), silent());
        assert_eq!(fs::read(&new).unwrap(), bytes("designs/lease.table"));
    }
}

/// Nothing is written, and the old table stays.
#[test]
fn upgrade_says_why_it_cannot() {
    let folder = folder("upgrades");
    let new = format!("{folder}/new.table");
    for (old, why) in [
        ("lease.table", "is a table of format 3 already"),
        (
            "cut_short.table",
            "is no table of format 1 or 2: the states have 45 bytes, with 4 for each",
        ),
    ] {
        let words = format!("{old}: {why}");
        assert_eq!(said(&["upgrade", old, &new]), failure(&words));
        assert!(fs::metadata(&new).is_err());
    }
    let (old, link) = (format!("{folder}/old.table"), format!("{folder}/link"));
    fs::copy(old_lease(2), &old).unwrap();
    std::os::unix::fs::symlink("old.table", &link).unwrap();
    for table in [&old, &link] {
        let words = format!("{table}: is the old table itself, and would be lost");
        assert_eq!(said(&["upgrade", &old, table]), failure(&words));
        assert_eq!(fs::read(&old).unwrap(), fs::read(old_lease(2)).unwrap());
    }
}
