//! Writings: the cases worked out in the papers, and reading back.

use reference::check;
use reference::lists::{read_list, Limits};
use reference::one_move::flag;
use reference::vectors;
use reference::write_case::{room_on_entry, write_case, WriteCase};

/// The reply's number, place and length, and the room.
fn written(
    source: &str,
    shape: &[u32],
    grids: [&[i32]; 2],
    time: i64,
    room: usize,
) -> (u32, u32, u64, Vec<u8>) {
    let [earlier, later] = grids.map(<[i32]>::to_vec);
    let case = WriteCase::new(source.into(), shape, earlier, later, time, room);
    let (written, room) = write_case(&case);
    (written.number, written.place, written.length, room)
}

#[test]
fn worked() {
    let source = "2 dimensions of a of 0..9 b of -99..99 end";
    let earlier = [1, 2, 3, 4, 5, 6, 7, 8];
    let later = [1, 2, 0, 4, 5, 6, 7, -12];
    let text = b"40\n[0, 1] = 0, 4\n[1, 1] = 7, -12\n";
    let (number, place, length, room) = written(source, &[2, 2], [&earlier, &later], 40, 35);
    assert_eq!((number, place, length), (0, 0, 33));
    assert_eq!(room[..33], text[..]);
    assert_eq!(room[33..], room_on_entry(35)[33..]);
    let exact = written(source, &[2, 2], [&earlier, &later], 40, 33);
    assert_eq!(exact, (0, 0, 33, text.to_vec()));
    let short = written(source, &[2, 2], [&earlier, &later], 40, 32);
    assert_eq!(short, (57, 0, 0, room_on_entry(32)));
    let none = written(source, &[2, 2], [&earlier, &earlier], 40, 3);
    assert_eq!(none, (0, 0, 3, b"40\n".to_vec()));
    let one = "1 dimensions of 0..1";
    let short = written(one, &[1], [&[0], &[1]], 7, 2);
    assert_eq!(short, (57, 0, 0, room_on_entry(2)));
    let ends = [2_147_483_647, -2_147_483_647, 0];
    let wide = "1 dimensions of -2147483647..2147483647";
    let text = b"0\n[0] = 2147483647\n[1] = -2147483647\n";
    let whole = written(wide, &[3], [&[0, 0, 0], &ends], 0, text.len());
    assert_eq!(whole, (0, 0, text.len() as u64, text.to_vec()));
}

#[test]
fn refused() {
    let bits = "1 dimensions of 0..1 cell := [3]";
    let reply = |shape: &[u32], earlier: &[i32], later: &[i32], time: i64| {
        let (number, place, length, room) = written(bits, shape, [earlier, later], time, 9);
        assert_eq!((length, room), (0, room_on_entry(9)));
        (number, place)
    };
    assert_eq!(reply(&[3], &[0, 0, 2], &[0, 2, 0], 5), (24, 2));
    assert_eq!(reply(&[3], &[0, 0, 1], &[0, 2, 0], 5), (24, 1));
    assert_eq!(reply(&[3], &[0, 0, 2], &[0, 0], 5), (21, 0));
    assert_eq!(reply(&[3], &[0, 0], &[0, 0, 2], 5), (21, 0));
    assert_eq!(reply(&[3], &[0, 0, 2], &[0, 0, 2], -1), (22, 0));
    assert_eq!(reply(&[3], &[0; 3], &[0; 3], 2_147_483_648), (22, 0));
    assert_eq!(reply(&[2], &[0, 2], &[2, 0], 5), (23, 30));
    assert_eq!(reply(&[0], &[0, 2], &[2, 0], -5), (20, 0));
    assert_eq!(reply(&[3], &[0; 3], &[1; 3], 5), (57, 0));
    let wrong = written("1 dimensions of 0..1 x := y", &[0], [&[], &[]], -1, 0);
    assert_eq!(wrong, (8, 26, 0, vec![]));
    let mut case = WriteCase::new(bits.into(), &[3], vec![0; 3], vec![0; 3], 5, 9);
    case.words = 16_383;
    assert_eq!(write_case(&case).0.number, 1);
}

#[test]
fn read_back() {
    let (mut texts, mut same, mut all, mut rest) = (0, 0, 0, 0);
    let cases = vectors::writings(16, 20_000).chain(vectors::stored_writings());
    for case in cases {
        let (written, room) = write_case(&case);
        let length = written.length as usize;
        assert_eq!(room[length..], room_on_entry(case.room)[length..]);
        if written.number != 0 {
            assert_eq!(length, 0);
            continue;
        }
        let program = check(&case.source).program.expect("accepted");
        let fields = program.fields.len();
        for (start, steps) in [(case.time, 0), (0, case.time), (case.time / 2, case.time)] {
            let limits = Limits {
                sizes: &case.shape,
                fields: &program.fields,
                flag: flag(&case.source, &program),
                start,
                steps,
            };
            let blocks = read_list(&room[..length], &limits).expect("a list that passes");
            let mut grid = case.earlier.clone();
            assert_eq!(blocks.len(), 1);
            assert_eq!(blocks[0].time, case.time);
            assert!(blocks[0]
                .lines
                .windows(2)
                .all(|two| two[0].cell < two[1].cell));
            blocks[0].set(fields, &mut grid);
            assert_eq!(grid == case.later, !case.flag_falls());
            let cells = case.earlier.len() / fields;
            all += usize::from(blocks[0].lines.len() == cells);
            same += usize::from(blocks[0].lines.is_empty());
        }
        texts += 1;
        rest += usize::from(length < case.room);
    }
    for seen in [texts, same, all, rest] {
        assert!(seen > 1_000, "{texts} {same} {all} {rest}");
    }
}
