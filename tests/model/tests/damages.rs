//! Damaged pictures: whatever the bytes, the desk ends, and refuses with 11 whatever isn't whole
//! without touching it.

use model::desk::{Picture, serve};
use model::generators::damages::Damage;
use model::generators::pictures::picture;
use model::generators::random::Random;
use model::whole::{broken_clauses, whole};

/// Asks a begin of 16 with the picture. Gives the number; a refusal has left everything alone.
fn ask(picture: &Picture) -> u16 {
    let Picture { mut pages, mut desk } = picture.clone();
    let mut answers = [3; 320];
    let begin_16 = [8, 0, 1, 0, 16, 0, 0, 0];
    let returned = serve(&mut pages, &mut desk, &mut answers, &begin_16);
    if returned.number == 0 {
        assert!(whole(&pages, &desk), "whole pictures lead to whole pictures");
    } else {
        assert_eq!((&pages, &desk), (&picture.pages, &picture.desk));
        assert_eq!((answers, returned.written), ([3; 320], 0));
    }
    returned.number
}

/// Does one kind of damage to many whole pictures. Gives how many stayed whole and how many broke.
fn judge(damage: Damage) -> (usize, usize) {
    let mut random = Random::new(damage as u64);
    let (mut stayed_whole, mut broke) = (0, 0);
    for _ in 0..400 {
        let picture = picture(&mut random);
        let Some(damaged) = damage.to(&mut random, &picture) else { continue };
        let is_whole = whole(&damaged.pages, &damaged.desk);
        assert_eq!(is_whole, broken_clauses(&damaged.pages, &damaged.desk).is_empty());
        assert_eq!(ask(&damaged), if is_whole { 0 } else { 11 });
        if is_whole { stayed_whole += 1 } else { broke += 1 }
    }
    (stayed_whole, broke)
}

#[test]
fn every_kind_of_damage_breaks_some_picture() {
    for damage in Damage::ALL {
        let (_, broke) = judge(damage);
        assert!(broke >= 20, "{damage:?} broke {broke} pictures");
    }
}

/// A second lock of one holder on one name, a page in the place of another and a child elsewhere
/// leave nothing whole.
#[test]
fn some_kinds_of_damage_leave_nothing_whole() {
    for damage in [Damage::DuplicatedLock, Damage::SwappedPages, Damage::MovedChild] {
        assert_eq!(judge(damage).0, 0, "{damage:?}");
    }
}

/// A changed bit may be a transaction that runs or not, or an owned entry's record.
#[test]
fn some_changed_bits_leave_the_picture_whole() {
    assert!(judge(Damage::Bit).0 >= 1);
    assert!(judge(Damage::ChangedLock).0 >= 1);
}

/// Damage on damage, as long as the layouts still hold: hostile trees that must not keep the desk
/// busy for ever.
#[test]
fn damage_on_damage() {
    let mut random = Random::new(99);
    let mut most = 0;
    for _ in 0..400 {
        let mut picture = picture(&mut random);
        let mut damages = 0;
        for _ in 0..12 {
            let kinds = [Damage::MovedChild, Damage::CopiedPage, Damage::MovedSeparator];
            let damage = random.pick(&kinds).expect("there are kinds");
            if let Some(damaged) = damage.to(&mut random, &picture) {
                picture = damaged;
                damages += 1;
                let is_whole = whole(&picture.pages, &picture.desk);
                assert_eq!(ask(&picture), if is_whole { 0 } else { 11 });
            }
        }
        most = most.max(damages);
    }
    assert!(most >= 5, "at most {most} damages on one picture");
}

/// Bytes that are nothing at all.
#[test]
fn random_bytes_are_not_whole() {
    let mut random = Random::new(3);
    for _ in 0..50 {
        let pages: Vec<u8> = (0..32_768).map(|_| random.bits() as u8).collect();
        let desk: Vec<u8> = (0..4_672).map(|_| random.bits() as u8).collect();
        assert_eq!(ask(&Picture { pages, desk }), 11);
    }
}
