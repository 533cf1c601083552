//! The worked listing of the description, byte for byte.

use compare::sheet::listing;
use compare::table::{Outcome, Table};

const SHEET: &str = "o 0 5 0100080300000803000000\no 1 7 0100080300000003000008\n\
    s 0\ns 1\ns 0\ns 0\ns 1\ns 1\ns 0\ns 0\ns 0\ns 0\ns 0\n";

const LISTING: &str = "wear-run 1\no 0 0\no 1 0\ns 0 ran\ns 1 ran\ns 0 restarted\ns 0 queued\n\
    s 1 ran\ns 1 committed\ns 0 got\ns 0 got\ns 0 ran\ns 0 ran\ns 0 committed\nc 0 5\nc 8 5\ne 2\n";

#[test]
fn the_listing_is_the_one_in_the_description() {
    assert_eq!(listing(SHEET.as_bytes()), LISTING);
}

#[test]
fn the_last_line_may_lack_its_line_feed() {
    assert_eq!(listing(SHEET.trim_end().as_bytes()), LISTING);
}

#[test]
fn seat_0_has_one_restart_and_eight_working_steps() {
    let mut table = Table::fresh();
    let mut image = vec![0; 1024];
    table.open(0, 5, &[1, 0, 8, 3, 0, 0, 8, 3, 0, 0, 0]).unwrap();
    table.open(1, 7, &[1, 0, 8, 3, 0, 0, 0, 3, 0, 0, 8]).unwrap();
    for seat in [0, 1, 0, 0, 1, 1, 0, 0, 0, 0, 0] {
        table.step(&mut image, seat).unwrap();
    }
    let report = table.result(0).unwrap();
    assert_eq!((report.outcome, report.restarts, report.working), (Outcome::Committed, 1, 8));
    assert_eq!((report.slots, report.registers), (2, [5, 0, 0, 0, 0, 0, 0, 0]));
}
