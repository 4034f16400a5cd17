//! Every door of the crate `testing_index`, declared once. Nothing checks a declaration here against the
//! source in crates/testing_index but these tests. A slice passes as a pointer and a length; the door
//! itself judges the bytes, so that any arguments are safe.

use model::entry::Entry;
use model::key::Key;
use model::layout::little_endian::u64_at;

unsafe extern "C" {
    fn shelf_is_whole(pages: *const u8, length: usize) -> bool;
    fn shelf_fresh(pages: *mut u8, length: usize) -> bool;
    fn shelf_find(
        pages: *const u8,
        length: usize,
        lo: u64,
        hi: u64,
        asker: u16,
        out: *mut u8,
        out_length: usize,
    ) -> u64;
    fn shelf_add(pages: *mut u8, length: usize, key: u64, owner: u16, now: u64, before: u64)
    -> u64;
    fn shelf_replace(
        pages: *mut u8,
        length: usize,
        key: u64,
        owner: u16,
        now: u64,
        before: u64,
    ) -> bool;
    fn shelf_settle(pages: *mut u8, length: usize, owner: u16, commits: bool) -> bool;
}

/// What a door that returns a number returns where it refuses. One that returns a bool says false.
const REFUSED: u64 = u64::MAX;

/// What a door finds where it writes its numbers to.
const UNTOUCHED: u8 = 0xEE;

/// The door doesn't act: the buffer isn't whole, or the key can't be added.
#[derive(Clone, Copy, Debug, PartialEq, Eq)]
pub struct Refused;

/// A record as a door takes it: above every record where it is absent.
fn number_of(record: Option<u32>) -> u64 {
    record.map_or(u64::MAX, u64::from)
}

fn record_of(number: u64) -> Option<u32> {
    (number != u64::MAX).then(|| u32::try_from(number).expect("a record has 32 bits"))
}

fn acted(done: bool) -> Result<(), Refused> {
    done.then_some(()).ok_or(Refused)
}

pub fn is_whole(pages: &[u8]) -> bool {
    unsafe { shelf_is_whole(pages.as_ptr(), pages.len()) }
}

pub fn fresh(pages: &mut [u8]) -> Result<(), Refused> {
    acted(unsafe { shelf_fresh(pages.as_mut_ptr(), pages.len()) })
}

/// The first entry at or above lo that is above hi or isn't the asker's own ghost, if there is one.
pub fn find(pages: &[u8], lo: Key, hi: Key, asker: u16) -> Result<Option<Entry>, Refused> {
    let mut out = [UNTOUCHED; 32];
    let (length, out_length) = (pages.len(), out.len());
    let out_at = out.as_mut_ptr();
    let said = unsafe { shelf_find(pages.as_ptr(), length, lo.0, hi.0, asker, out_at, out_length) };
    if said != 1 {
        assert_eq!(out, [UNTOUCHED; 32], "there is no entry to give the numbers of");
    }
    match said {
        0 => Ok(None),
        1 => Ok(Some(Entry {
            key: Key(u64_at(&out, 0)),
            owner: u16::try_from(u64_at(&out, 8)).expect("a transaction has 16 bits"),
            now: record_of(u64_at(&out, 16)),
            before: record_of(u64_at(&out, 24)),
        })),
        REFUSED => Err(Refused),
        other => panic!("find says {other}"),
    }
}

/// Whether there was room for the entry.
pub fn add(pages: &mut [u8], entry: Entry) -> Result<bool, Refused> {
    let Entry { key, owner, now, before } = entry;
    let (now, before) = (number_of(now), number_of(before));
    match unsafe { shelf_add(pages.as_mut_ptr(), pages.len(), key.0, owner, now, before) } {
        0 => Ok(false),
        1 => Ok(true),
        REFUSED => Err(Refused),
        other => panic!("add says {other}"),
    }
}

pub fn replace(pages: &mut [u8], entry: Entry) -> Result<(), Refused> {
    let Entry { key, owner, now, before } = entry;
    let (now, before) = (number_of(now), number_of(before));
    let (at, length) = (pages.as_mut_ptr(), pages.len());
    acted(unsafe { shelf_replace(at, length, key.0, owner, now, before) })
}

pub fn settle(pages: &mut [u8], owner: u16, commits: bool) -> Result<(), Refused> {
    acted(unsafe { shelf_settle(pages.as_mut_ptr(), pages.len(), owner, commits) })
}
