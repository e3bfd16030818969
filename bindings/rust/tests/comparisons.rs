//! Comparisons of two grids: worked examples, and the library and the second
//! program on the same pairs.

use cellang::{compare, compare_flat, Difference, Entry, NotCompared};
use reference::pairs::{pairs, Pair};

const PAIRS: usize = 200_000;

/// The number and total of an answer.
fn told(answer: Result<u32, NotCompared>) -> (u32, u32) {
    match answer {
        Ok(total) => (0, total),
        Err(refusal) => (refusal.number(), 0),
    }
}

fn difference(entry: u32, left: i32, right: i32) -> Difference {
    let entry = Entry(entry);
    Difference { entry, left, right }
}

#[test]
fn worked() {
    let (a, b) = ([1, 2, 3], [1, 5, 4]);
    assert_eq!(compare(&a, &b, &mut []), Ok(2));
    let before = difference(9, 9, 9);
    let mut room = [before; 3];
    assert_eq!(compare(&a, &b, &mut room), Ok(2));
    assert_eq!(room, [difference(1, 2, 5), difference(2, 3, 4), before]);
    assert_eq!(compare(&b, &a, &mut room), Ok(2));
    assert_eq!(room, [difference(1, 5, 2), difference(2, 4, 3), before]);
    let mut room = [before];
    assert_eq!(compare(&a, &b, &mut room), Ok(2));
    assert_eq!(room, [difference(1, 2, 5)]);
    let mut room = [before];
    assert_eq!(compare(&a, &b[..2], &mut room), Err(NotCompared));
    assert_eq!(room, [before]);
    assert!(NotCompared
        .to_string()
        .starts_with("not compared 21: grids of unlike length"));
}

#[test]
fn flat_rooms() {
    let mut room = [9; 4];
    // 3k is 4 in 64 bits that wrap.
    for k in [
        0,
        1,
        2,
        usize::MAX,
        4usize.wrapping_mul(0xAAAA_AAAA_AAAA_AAAB),
    ] {
        assert_eq!(compare_flat(&[1], &[2], k, &mut room), Err(NotCompared));
    }
    assert_eq!(room, [9; 4]);
    assert_eq!(compare_flat(&[1], &[2], 1, &mut room[..3]), Ok(1));
    assert_eq!(room, [0, 1, 2, 9]);
}

/// Holds the library to the second program on a pair.
fn compare_pair(pair: &Pair) -> (u32, u32) {
    let Pair {
        left,
        right,
        k,
        room,
    } = pair;
    let mut expected_room = room.clone();
    let expected = reference::compare::compare(left, right, *k, &mut expected_room);
    let mut given_room = room.clone();
    let given = told(compare_flat(left, right, *k, &mut given_room));
    assert_eq!(given, (expected.number, expected.total), "{pair:?}");
    assert_eq!(given_room, expected_room, "{pair:?}");
    if k.checked_mul(3) != Some(room.len()) {
        return given;
    }
    let mut places: Vec<Difference> = room
        .chunks(3)
        .map(|place| difference(place[0] as u32, place[1], place[2]))
        .collect();
    assert_eq!(told(compare(left, right, &mut places)), given);
    let flat: Vec<i32> = places
        .iter()
        .flat_map(|place| [place.entry.0 as i32, place.left, place.right])
        .collect();
    assert_eq!(flat, given_room);
    given
}

#[test]
fn compared() {
    let (mut refused, mut cut, mut rest) = (0, 0, 0);
    for pair in pairs(20_003, PAIRS) {
        let (number, total) = compare_pair(&pair);
        refused += usize::from(number == 21);
        cut += usize::from(total as usize > pair.k);
        rest += usize::from(number == 0 && (total as usize) < pair.k);
    }
    println!("{PAIRS} pairs compared: {refused} refused, {cut} with more differences than places, {rest} with fewer");
    assert!(refused > 0 && cut > 0 && rest > 0);
}
