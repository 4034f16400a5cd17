//! Keys: their halves, their order, and where they end.

use keydesk::Key;

#[test]
fn a_key_has_the_pupil_above_the_delivery() {
    assert_eq!(Key::of(7, 30), Key(7 * 4_294_967_296 + 30));
    assert_eq!((Key::of(7, 30).pupil(), Key::of(7, 30).delivery()), (7, 30));
    assert_eq!(Key::of(u32::MAX, 5).to_string(), "4294967295/5");
    assert_eq!(Key::from(100), Key::of(0, 100));
}

#[test]
fn keys_are_ordered_by_pupil_and_then_by_delivery() {
    let ascending = [Key::LOWEST, Key::of(0, u32::MAX), Key::of(1, 0), Key::of(1, 1), Key::HIGHEST];
    assert!(ascending.is_sorted_by(|low, high| low < high));
}

#[test]
fn the_next_key_up_is_one_more_even_into_the_next_pupil() {
    assert_eq!(Key::LOWEST.next(), Some(Key(1)));
    assert_eq!(Key::of(7, u32::MAX).next(), Some(Key::of(8, 0)));
}

/// "lowest 0, highest 2^64-2, and 2^64-1 names the end of the index and is never a key."
#[test]
fn there_is_no_key_above_the_highest() {
    assert_eq!((Key::LOWEST, Key::HIGHEST), (Key(0), Key(18_446_744_073_709_551_614)));
    assert_eq!(Key(18_446_744_073_709_551_613).next(), Some(Key::HIGHEST));
    assert_eq!(Key::HIGHEST.next(), None);
    assert_eq!(Key(u64::MAX).next(), None);
}
