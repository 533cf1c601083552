//! Shapes of lines, and the ends of a listing.

use compare::sheet::{listing, parse_line, Line};

fn body(input: &str) -> String {
    let listing = listing(input.as_bytes());
    listing.strip_prefix("wear-run 1\n").unwrap().to_string()
}

#[test]
fn empty_input_and_empty_lines() {
    assert_eq!(body(""), "e 0\n");
    assert_eq!(body("\n"), "bad 1\n");
    assert_eq!(body("s 0\n\n"), "s 0 no 5\nbad 2\n");
}

#[test]
fn numbers() {
    for good in ["0", "9", "10", "4294967295"] {
        assert!(parse_line(format!("s {good}").as_bytes()).is_some(), "{good}");
    }
    for bad in ["", "00", "01", "-1", "+1", "4294967296", "99999999999999999999999", "1a", "0x1", "1.0"] {
        assert_eq!(parse_line(format!("s {bad}").as_bytes()), None, "{bad}");
        assert_eq!(parse_line(format!("o 0 {bad} 01").as_bytes()), None, "{bad}");
    }
}

#[test]
fn hex() {
    let open = Line::Open { seat: 16, reading: 0, frame: vec![0, 0xff] };
    assert_eq!(parse_line(b"o 16 0 00ff"), Some(open));
    for bad in ["", "0", "000", "0F", "0g", "0x", "00 "] {
        assert_eq!(parse_line(format!("o 0 0 {bad}").as_bytes()), None, "{bad}");
    }
}

#[test]
fn fields() {
    let bad = [
        "s",
        "s ",
        "s  0",
        " s 0",
        "s 0 ",
        "s 0 1",
        "S 0",
        "x 0",
        "s\t0",
        "s 0\r",
        "o 0 0",
        "o 0 0 01 02",
        "o 0  0 01",
        "ss 0",
    ];
    for line in bad {
        assert_eq!(parse_line(line.as_bytes()), None, "{line}");
    }
    assert_eq!(parse_line(b"s \xff"), None);
    assert_eq!(parse_line(b"s 0\0"), None);
}

#[test]
fn numbers_above_the_ranges_are_refused_not_bad() {
    assert_eq!(body("s 16\no 4294967295 0 01\n"), "s 16 no 3\no 4294967295 3\ne 0\n");
}

#[test]
fn a_bad_line_ends_the_listing_after_what_came_before() {
    let sheet = "o 0 9 01000403000000\ns 0\ns 0\ns x\ns 0\n";
    assert_eq!(body(sheet), "o 0 0\ns 0 ran\ns 0 committed\nbad 4\n");
}

#[test]
fn failed_transactions_count_as_ended_and_leave_no_cell() {
    // Cell 0 is kept, then cell 1,024 ends the transaction.
    let sheet = "o 0 1024 0100080300000005000000\ns 0\ns 0\ns 0\n";
    assert_eq!(body(sheet), "o 0 0\ns 0 ran\ns 0 failed\ns 0 no 5\ne 1\n");
}

#[test]
fn a_seat_opened_again_counts_twice() {
    let sheet = "o 0 0 010000\ns 0\no 0 0 010000\ns 0\n";
    assert_eq!(body(sheet), "o 0 0\ns 0 committed\no 0 0\ns 0 committed\ne 2\n");
}

#[test]
fn inputs_at_the_length_limit() {
    let full = "s 0\n".repeat(65_536 / 4);
    assert_eq!(body(&full), "s 0 no 5\n".repeat(65_536 / 4) + "e 0\n");
    assert_eq!(body(&(full.clone() + "\n")), "bad 0\n");
    assert_eq!(body(&"x".repeat(65_537)), "bad 0\n");
    assert_eq!(body(&"x".repeat(65_536)), "bad 1\n");
}
