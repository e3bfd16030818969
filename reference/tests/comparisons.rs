//! Comparisons worked out by hand, and properties over generated pairs.

use reference::compare::compare;
use reference::pairs::pairs;

/// The number, the total and the room of a comparison.
fn compared(left: &[i32], right: &[i32], k: usize, room: &[i32]) -> (u32, u32, Vec<i32>) {
    let mut after = room.to_vec();
    let said = compare(left, right, k, &mut after);
    (said.number, said.total, after)
}

#[test]
fn worked() {
    let (a, b) = ([1, 2, 3], [1, 5, 4]);
    assert_eq!(compared(&a, &a, 0, &[]), (0, 0, vec![]));
    assert_eq!(compared(&a, &b, 0, &[]), (0, 2, vec![]));
    assert_eq!(compared(&a, &b, 1, &[9; 3]), (0, 2, vec![1, 2, 5]));
    let both = vec![1, 2, 5, 2, 3, 4, 9, 9, 9];
    assert_eq!(compared(&a, &b, 3, &[9; 9]), (0, 2, both));
    let swapped = vec![1, 5, 2, 2, 4, 3, 9, 9, 9];
    assert_eq!(compared(&b, &a, 3, &[9; 9]), (0, 2, swapped));
    assert_eq!(compared(&[], &[], 2, &[7; 6]), (0, 0, vec![7; 6]));
    let (low, high) = (i32::MIN, i32::MAX);
    assert_eq!(
        compared(&[low, high], &[high, low], 2, &[0; 6]),
        (0, 2, vec![0, low, high, 1, high, low])
    );
}

#[test]
fn refused() {
    for (left, right, k, room) in [
        (&[1][..], &[2, 2][..], 1, &[9; 3][..]),
        (&[1], &[2], 1, &[9; 2]),
        (&[1], &[2], 0, &[9; 3]),
        (&[1], &[2], 1, &[9; 6]),
        (&[1], &[2], usize::MAX, &[]),
        // 3k is 1 in 64 bits that wrap.
        (&[1], &[2], 0xAAAA_AAAA_AAAA_AAAB, &[9]),
    ] {
        assert_eq!(compared(left, right, k, room), (21, 0, room.to_vec()));
    }
}

#[test]
fn generated() {
    let (mut refused, mut cut, mut rest, mut none) = (0, 0, 0, 0);
    for pair in pairs(1, 20_000) {
        let (number, total, after) = compared(&pair.left, &pair.right, pair.k, &pair.room);
        let (back_number, back_total, back) = compared(&pair.right, &pair.left, pair.k, &pair.room);
        assert_eq!((number, total), (back_number, back_total));
        if number != 0 {
            assert_eq!((number, total, &after), (21, 0, &pair.room));
            refused += 1;
            continue;
        }
        let written = 3 * pair.k.min(total as usize);
        assert_eq!(after[written..], pair.room[written..]);
        assert_eq!(back[written..], pair.room[written..]);
        let mut last = -1;
        for (there, again) in after[..written].chunks(3).zip(back.chunks(3)) {
            let at = there[0] as usize;
            assert!(there[0] > last && pair.left[at] != pair.right[at]);
            assert_eq!(there, [there[0], pair.left[at], pair.right[at]]);
            assert_eq!(again, [there[0], there[2], there[1]]);
            last = there[0];
        }
        cut += usize::from(total as usize > pair.k);
        rest += usize::from(written < pair.room.len());
        none += usize::from(total == 0);
    }
    for seen in [refused, cut, rest, none] {
        assert!(seen > 500, "{refused} {cut} {rest} {none}");
    }
}
