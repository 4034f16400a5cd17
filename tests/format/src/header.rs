//! The numbers that `include/keydesk.h` defines.

use crate::file;
use std::collections::BTreeMap;

/// Every `#define KEYDESK_NAME number` of the header, by its name.
pub fn defined() -> BTreeMap<String, u64> {
    let text = file("include/keydesk.h");
    let defines = text.lines().filter_map(|line| line.strip_prefix("#define "));
    let numbers = defines.filter_map(|define| {
        let mut words = define.split_whitespace();
        let (name, value) = (words.next()?, words.next()?);
        let digits = value.trim_start_matches("UINT64_C(").trim_end_matches(')');
        Some((name.to_string(), digits.parse().ok()?))
    });
    numbers.collect()
}
