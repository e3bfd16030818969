//! Rules that move a pixel once: the near misses, and lists and the writer of
//! such rules.

use reference::admission::Read;
use reference::case::run_case;
use reference::check;
use reference::one_move::{check_one_move, profile, Profile};
use reference::pausing::Manner;
use reference::write_case::{room_on_entry, write_case};
use reference::written_moves::{
    calls, not_once, on_three, shown, IN_PROFILE, LISTS, NO_FLAG, REFUSED, SHOWN, THREE,
};

fn missed(rule: u32) -> Profile {
    Profile {
        rule,
        ..Profile::default()
    }
}

fn refused(number: u32, place: u32) -> Profile {
    Profile {
        rule: 1,
        number,
        place,
    }
}

#[test]
fn near_misses() {
    for source in IN_PROFILE {
        assert_eq!(profile(source.as_bytes()), missed(0), "{source}");
    }
    for source in REFUSED {
        let reply = check(source.as_bytes()).reply;
        assert_ne!(reply.number, 0, "{source}");
        let expected = refused(reply.number, reply.place);
        assert_eq!(profile(source.as_bytes()), expected, "{source}");
    }
    for source in NO_FLAG {
        assert_eq!(profile(source.as_bytes()), missed(2), "{source}");
    }
    for source in not_once() {
        assert_eq!(profile(source.as_bytes()), missed(3), "{source}");
    }
}

/// Rule 1 is missed too where something beside the source is wrong.
#[test]
fn lent() {
    let source = IN_PROFILE[0].as_bytes();
    let read = Read::of(source);
    assert_eq!(check_one_move(&read), missed(0));
    let list: &[u8] = b"cell time";
    for other in [
        Read {
            words: 16_383,
            ..read
        },
        Read { names: 257, ..read },
        Read { list, ..read },
    ] {
        assert_eq!(check_one_move(&other), refused(1, 0));
    }
    let long = [source, &[b' '; 65_536]].concat();
    assert_eq!(profile(&long), refused(2, 65_535));
}

/// Rules that are near one in the profile.
fn near_three() -> [String; 4] {
    [
        THREE.replace(":= 1", ":= 01"),
        THREE.replace("moved", "m"),
        THREE.replace("moved of 0..1", "moved of -1..1"),
        format!("{THREE} x := 1"),
    ]
}

#[test]
fn lists() {
    for (number, line, list) in LISTS {
        for quiet in [false, true] {
            let report = run_case(&on_three(THREE, list), quiet).report;
            assert_eq!((report.number, report.line), (number, line), "{list:?}");
        }
        for near in near_three() {
            assert!(matches!(profile(near.as_bytes()).rule, 2 | 3), "{near}");
            let report = run_case(&on_three(&near, list), false).report;
            // What follows the line then decides.
            let passed = number == 58 && (report.number == 0 || report.line > line);
            // A range that is another may take the value.
            let taken = number == 53 && near.contains("-1..1") && list.contains("-1");
            let same = (report.number, report.line) == (number, line);
            assert!(passed || taken || same, "{near} {list:?}");
        }
    }
}

#[test]
fn every_manner() {
    for call in calls() {
        let report = call.made().report;
        let known = |list: &str| list.as_bytes() == call.run.values;
        let found = LISTS.into_iter().find(|&(_, _, list)| known(list));
        let (number, line, _) = found.expect("a list of these");
        let expected = if call.counted && call.field == 3 {
            (61, 0)
        } else {
            (number, line)
        };
        assert_eq!((report.number, report.line), expected, "{:?}", call.manner);
    }
    let made = |manner: &Manner| calls().iter().any(|call| call.manner == *manner);
    assert!(Manner::ALL.iter().all(made));
}

#[test]
fn writer() {
    for (fields, order, end) in SHOWN {
        let text = format!("40\n[0, 3] = {end}\n");
        let (written, room) = write_case(&shown(fields, order, false, text.len()));
        assert_eq!((written.number, written.length), (0, text.len() as u64));
        assert_eq!(room, text.as_bytes());
        let (written, room) = write_case(&shown(fields, order, false, text.len() - 1));
        assert_eq!((written.number, written.length), (57, 0));
        assert_eq!(room, room_on_entry(text.len() - 1));
        // Near the profile the flag is written.
        let (written, room) = write_case(&shown(fields, order, true, text.len() + 1));
        assert_eq!((written.number, written.length), (0, text.len() as u64 + 1));
        let values = String::from_utf8_lossy(&room[12..]).into_owned();
        let flag = order.iter().position(|&field| field == 1);
        let shown = values.trim_end().split(", ").nth(flag.expect("a flag"));
        assert_eq!(shown, Some("0"), "{values}");
    }
}
