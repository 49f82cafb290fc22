//! The program's stored inputs and outputs, among them the listing of rule K.

use std::fs;
use std::path::Path;

use oracle::enumerating::Oracle;
use oracle::monitor::{Monitor, Stepping};
use oracle::runs::printed;

fn all_print_what_is_stored(monitor: fn() -> Box<dyn Monitor>) {
    let folder = Path::new(env!("CARGO_MANIFEST_DIR")).join("cases");
    let mut count = 0;
    for entry in fs::read_dir(folder).expect("the cases are there") {
        let path = entry.expect("the entry reads").path();
        if path.extension().is_some_and(|extension| extension == "in") {
            let input = fs::read(&path).expect("the input reads");
            let wanted = fs::read(path.with_extension("out")).expect("the output reads");
            let found = printed(&mut *monitor(), &input);
            assert_eq!(
                String::from_utf8_lossy(&found),
                String::from_utf8_lossy(&wanted),
                "{}",
                path.display()
            );
            count += 1;
        }
    }
    assert!(count >= 18, "{count} cases are fewer than document 01 has");
}

#[test]
fn the_enumerating_program_prints_what_is_stored() {
    all_print_what_is_stored(|| Box::new(Oracle::default()));
}

#[test]
fn the_stepping_program_prints_what_is_stored() {
    all_print_what_is_stored(|| Box::new(Stepping));
}

#[test]
fn the_listing_of_rule_k_is_the_one_of_document_01() {
    let rows =
        "r 2 3 1 0 0 0 0 0 0\nr 2 2 1 0 0 0 0 0 0\nr 4 1 0 0 0 0 0 0 0\nr 2 1 1 0 0 0 0 0 0\n\
        r 5 2 3 0 0 0 0 0 0\nr 4 4 0 0 0 0 0 0 0\nr 3 0 5 0 0 0 0 0 0\nr 7 0 6 0 0 0 0 0 0\n\
        r 4 7 0 0 0 0 0 0 0\n";
    let input = format!("2 64\n{rows}e 1 7\ne 3 7\ne 3 8\ne 2 7\ne 3 7");
    let listing = "event verdict kept room\n1 yes 4 4\n2 yes 4 4\n3 no 5 6\n4 yes 4 5\n5 no 2 5\n";
    let found = printed(&mut Oracle::default(), input.as_bytes());
    assert_eq!(String::from_utf8_lossy(&found), listing);
}

#[test]
fn lines_read_as_document_01_says() {
    let good = "2 64\nr 1 0 0 0 0 0 0 0 0\n";
    let header = "event verdict kept room\n";
    let cases: [(&str, &str); 17] = [
        ("", "bad line\n"),
        ("\n", "bad line\n"),
        ("2 64", "no start 2 0\n"),
        ("2 64\n\n", "bad line\n"),
        ("2 512\nr 1 0 0 0 0 0 0 0 0", header),
        ("2 513\nr 1 0 0 0 0 0 0 0 0", "bad line\n"),
        ("2 0\nr 1 0 0 0 0 0 0 0 0", "no start 3 0\n"),
        ("4294967295 0\n", "no start 1 0\n"),
        ("4294967296 0\n", "bad line\n"),
        ("02 64\n", "bad line\n"),
        ("2  64\n", "bad line\n"),
        ("2 64 \n", "bad line\n"),
        ("2 64\r\n", "bad line\n"),
        ("e 1\n", "bad line\n"),
        ("2 64\n2 64\n", "bad line\n"),
        ("2 64\nr 1 0 0 0 0 0 0 0 0\ne\n", "bad line\n"),
        ("11 64\nr 1 0 0 0 0 0 0 0 0\nx\n", "bad line\n"),
    ];
    for (input, wanted) in cases {
        let found = printed(&mut Oracle::default(), input.as_bytes());
        assert_eq!(String::from_utf8_lossy(&found), wanted, "{input:?}");
    }
    for (events, wanted) in [
        ("e 1\nr 1 0 0 0 0 0 0 0 0\n", "1 yes 0 0\nbad line\n"),
        ("e 1 2 3 4 5\ne 1", "1 refused 5 0\n2 yes 0 0\n"),
        ("e 1 2 3 4\n\n", "1 yes 0 0\nbad line\n"),
        ("e 0\ne 1 2 3 4 5 6\ne 0\n", "1 yes 0 0\nbad line\n"),
    ] {
        let input = format!("{good}{events}");
        let found = printed(&mut Oracle::default(), input.as_bytes());
        let wanted = format!("{header}{wanted}");
        assert_eq!(String::from_utf8_lossy(&found), wanted, "{input:?}");
    }
}
