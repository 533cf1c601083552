//! Made sheets: the same from the same seed, and every listing has an end.

use compare::make::sheet;
use compare::sheet::listing;

#[test]
fn the_same_seed_makes_the_same_sheets() {
    for index in 0..20 {
        assert_eq!(sheet(7, index), sheet(7, index));
    }
    assert_ne!(sheet(7, 0), sheet(8, 0));
}

#[test]
fn every_listing_begins_and_ends_as_described() {
    for index in 0..200 {
        let listing = listing(&sheet(3, index));
        assert!(listing.starts_with("wear-run 1\n") && listing.ends_with('\n'));
        let last = listing.trim_end().rsplit('\n').next().unwrap();
        assert!(last.starts_with("e ") || last.starts_with("bad "), "{last}");
        // A sheet never leads to refusal 1: its table is made by calls.
        assert!(!listing.contains(" no 1\n"));
    }
}
