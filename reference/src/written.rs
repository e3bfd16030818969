//! Runs written by hand.

use crate::case::RunCase;
use crate::limits::S;

/// All of them.
pub fn runs() -> Vec<RunCase> {
    let mut row = Vec::new();
    let mut add = |rest: &str, shape: &[u32], grid: &[i32], start: i64, steps: i64| {
        row.push(RunCase::new(
            rest.as_bytes().to_vec(),
            shape,
            grid.to_vec(),
            start,
            steps,
        ));
    };
    let s = S;
    let nine = "1 dimensions of 0..9 ";
    add(&format!("{s}cell := [-1]"), &[5], &[1, 0, 0, 0, 0], 0, 2);
    add(&format!("{s}cell := [-1]"), &[5], &[1, 0, 0, 0, 0], 0, 0);
    add(&format!("{nine}cell := time"), &[2], &[0, 0], 0, 3);
    add(
        "1 dimensions of 0..3 cell := cell + 1",
        &[3],
        &[0, 2, 1],
        0,
        5,
    );
    for index in ["5", "-5", "6", "-6", "4", "-4"] {
        add(
            &format!("{nine}cell := [{index}]"),
            &[5],
            &[1, 2, 3, 4, 5],
            0,
            1,
        );
    }
    for (range, size) in [("-5..5", 5), ("-6..5", 5), ("-5..6", 5), ("0..5", 4)] {
        let text = format!("{nine}forall i : {range} cell := [i] end cell := [+{size}]");
        let grid: Vec<i32> = (0..size).collect();
        add(&text, &[size as u32], &grid, 0, 2);
    }
    // Variables that outlive the records of indices, names used again, and more loops than records.
    let wide = "1 dimensions of -99..99 ";
    let short = "forall i : 0..1 x := x + i end ".repeat(80);
    for rest in [
        "forall i : 0..3 a := a + i end b := a forall j : 0..1 c := c + b end cell := c + a",
        "i := 3 forall j : 0..1 i := i + 1 end forall k : 0..1 j := 9 end cell := i * 10 + j",
        "forall i : 0..2 forall j : 0..1 x := i + j end y := y + x end i := y j := i + 1 cell := j",
        &format!("{short}i := x cell := i + cell"),
        &format!("{}cell := i", "forall i : 0..0 end ".repeat(257)),
        &format!("{}i := 7 cell := i", "forall i : 0..0 end ".repeat(257)),
    ] {
        add(&format!("{wide}{rest}"), &[2], &[0, 1], 0, 1);
    }
    // 23 in code that never runs, and first in source order.
    add(
        &format!("{s}if 0 then cell := [- 3] end cell := [9]"),
        &[2],
        &[0, 1],
        0,
        1,
    );
    add(
        &format!("{s}cell := 1 when 0 & [+2] := [-3] otherwise"),
        &[2],
        &[0, 1],
        0,
        1,
    );
    add(
        &format!("{s}const m := -2147483647 cell := cell + [m]"),
        &[2],
        &[0, 1],
        0,
        1,
    );
    add(
        "2 dimensions of 0..1 cell := [1,-4] + [-3,0]",
        &[2, 3],
        &[0; 6],
        0,
        1,
    );
    add(
        "2 dimensions of 0..1 cell := [1,3] & [-2,-3]",
        &[2, 3],
        &[1; 6],
        0,
        4,
    );
    // The value range and the remainder.
    let wide = "1 dimensions of -2147483647..2147483647 ";
    for expression in [
        "7 / -2",
        "-7 / 2",
        "-7 % 2",
        "7 % -2",
        "-7 % -2",
        "7 % 2",
        "1 | 0 & 0",
        "0 & 0 | 1",
        "2147483647 + 1",
        "2147483647 - -1",
        "-2147483647 - 1",
        "-2147483647 - 2",
        "65536 * 32768",
        "65536 * -32768",
        "46341 * 46341",
        "-(-2147483647 - 1)",
        "+(-2147483647 - 1)",
        "!(-2147483647 - 1)",
        "(-2147483647 - 1) / -1",
        "(-2147483647 - 1) % -1",
        "(-2147483647 - 1) / 1",
        "(-2147483647 - 1) % 1",
        "(-2147483647 - 1) % 2147483647",
        "(-2147483647 - 1) % -2147483647",
        "2147483647 % -2147483647",
        "2147483647 % -2",
        "1073741824 % -2",
        "1073741823 % -2",
        "1 / 0",
        "1 % 0",
        "0 / 0",
        "0 & 1 / 0",
        "1 | 1 / 0",
        "!5",
        "!0",
        "-!0",
        "- 5 * 3",
        "2 - 3 - 4",
        "100 / 7 / 2",
        "2 + 3 * 4",
        "(2 + 3) * 4",
        "1 + 1 = 2",
        "!1 = 0",
        "!(1 = 0)",
        "1 < 2 & 2 < 1",
        "1 <= 1",
        "1 >= 2",
        "1 != 1",
        "(1 < 2) = 1",
        "2147483647 + 1 + 1 / 0",
        "1 / 0 + (2147483647 + 1)",
        "(1 / 0) * (2147483647 + 1)",
        "1 * (1 % 0)",
        "5 % -3",
        "-5 % -3",
        "6 % -3",
        "-6 % -3",
        "0 % -3",
        "2147483647 % -1",
        "2147483647 % (-2147483647 - 1)",
        "-2147483647 % (-2147483647 - 1)",
        "(-2147483647 - 1) % (-2147483647 - 1)",
        "(-2147483647 - 1) % -2",
        "(-2147483647 - 1) % 3",
        "(-2147483647 - 1) % -3",
        "(-2147483647 - 1) % 0",
        "-7 % 0",
        "0 % 0",
        "1 + (-2147483647 - 1) % -1 % -1",
        "time + cell",
    ] {
        add(&format!("{wide}cell := {expression}"), &[2], &[0, 3], 0, 1);
        let through = format!("{nine}x := {expression} cell := 4 when x > 0 := 5 when x < 0");
        add(&through, &[2], &[0, 3], 2, 1);
    }
    // Both signs of dividend and divisor, a divisor 0 among them or not.
    let mut pairs = Vec::new();
    for a in [-9, -7, -4, -1, 0, 1, 4, 7, 9] {
        for b in [-9, -7, -2, -1, 1, 2, 7, 9] {
            pairs.extend([a, b, 5]);
        }
    }
    let three = "1 dimensions of const a, const b, c of -9..9 end ";
    let by = format!("{three}cell.c := cell.a % cell.b");
    add(&by, &[72], &pairs, 0, 2);
    pairs[3 * 40 + 1] = 0;
    add(&by, &[72], &pairs, 0, 2);
    let apart = format!("{three}cell.c := cell.a - cell.b * (cell.a / cell.b) - cell.a % cell.b");
    pairs[3 * 40 + 1] = -3;
    add(&apart, &[72], &pairs, 0, 2);
    // Where 33 points, chains, and faults that hide others.
    add(
        &format!("{s}cell := 1 when cell := 2 when 1 := 3 otherwise"),
        &[2],
        &[1, 0],
        0,
        2,
    );
    add(
        &format!("{s}cell := 2 when 0 := 3 when 0 := 4 otherwise"),
        &[2],
        &[1, 0],
        0,
        2,
    );
    add(&format!("{s}cell := 5"), &[2], &[1, 0], 0, 2_147_483_647);
    add(&format!("{s}cell := 5 cell := 1"), &[2], &[1, 0], 7, 3);
    add(
        &format!("{s}cell := 1 / 0 when 0 := 1 otherwise"),
        &[2],
        &[1, 0],
        0,
        3,
    );
    add(&format!("{s}cell := 1 when 1 / 0"), &[2], &[1, 0], 0, 3);
    add(
        &format!("{s}if 0 then elsif 1 % 0 then end"),
        &[2],
        &[1, 0],
        0,
        3,
    );
    add(
        &format!("{s}if 1 then elsif 1 % 0 then end"),
        &[2],
        &[1, 0],
        0,
        3,
    );
    // Variables begin at 0 in every cell, also those declared in a branch.
    add(
        &format!("{nine}x := x + cell cell := x"),
        &[4],
        &[1, 2, 3, 4],
        0,
        3,
    );
    add(
        &format!("{nine}if cell = 3 then y := 7 end cell := y"),
        &[4],
        &[1, 2, 3, 4],
        0,
        2,
    );
    // Loops and exits.
    let loops = "forall i : 0..3 forall j : 0..3 if j = 2 then exit end n := n + 1 end end";
    add(&format!("{nine}{loops} cell := n"), &[2], &[0, 0], 0, 2);
    add(
        &format!("{nine}forall i : 0..3 n := i exit n := 9 end cell := n"),
        &[2],
        &[1, 1],
        0,
        2,
    );
    add(
        &format!("{nine}forall i : 5..9 if i > 6 then exit end cell := i end"),
        &[1],
        &[0],
        0,
        2,
    );
    // `time` in a comment only, and where it never runs.
    add(&format!("{s}# time\ncell := cell"), &[3], &[1, 0, 1], 0, 4);
    add(
        &format!("{s}if 0 then x := TiMe end cell := cell"),
        &[3],
        &[1, 0, 1],
        0,
        4,
    );
    add(
        &format!("{nine}cell := 9 when time = 2147483646"),
        &[2],
        &[1, 0],
        2_147_483_645,
        2,
    );
    add(
        &format!("{nine}cell := 9 when time = 2147483646"),
        &[2],
        &[1, 0],
        2_147_483_646,
        2,
    );
    add(&format!("{nine}cell := 9"), &[2], &[1, 0], 2_147_483_647, 0);
    add(&format!("{nine}cell := 9"), &[2], &[1, 0], 2_147_483_648, 0);
    add(
        &format!("{nine}cell := 9"),
        &[2],
        &[1, 0],
        i64::MAX,
        i64::MAX,
    );
    add(
        &format!("{nine}cell := 9"),
        &[2],
        &[1, 0],
        i64::MIN,
        i64::MAX,
    );
    add(&format!("{nine}cell := 9"), &[2], &[1, 0], 1, i64::MAX);
    // Shapes.
    let three = "3 dimensions of 0..9 cell := [1,0,0] + [0,1,0] * 0 + [0,0,1] * 0";
    let grid: Vec<i32> = (0..24).map(|i| i % 10).collect();
    add(three, &[2, 3, 4], &grid, 0, 3);
    add(three, &[4, 3, 2], &grid, 0, 3);
    add(
        "3 dimensions of 0..9 cell := [0,0,-1]",
        &[2, 3, 4],
        &grid,
        0,
        3,
    );
    add(
        "3 dimensions of 0..9 cell := [0,-1,0]",
        &[2, 3, 4],
        &grid,
        0,
        3,
    );
    for shape in [
        &[][..],
        &[0],
        &[1],
        &[4_096],
        &[4_097],
        &[4_294_967_295],
        &[1, 1],
        &[24, 1, 1, 1],
        &[2, 2, 2, 2, 2],
        &[24],
        &[23],
    ] {
        add(&format!("{nine}cell := [1]"), shape, &grid, 0, 1);
    }
    for shape in [
        &[4_096, 4_096][..],
        &[1_024, 1_024],
        &[1_024, 1_025],
        &[4_096, 256],
        &[4_096, 257],
        &[0, 4],
        &[4, 0],
        &[6, 4],
        &[4, 6],
        &[24, 1],
        &[1, 24],
        &[65_536, 65_536],
    ] {
        add("2 dimensions of 0..9 cell := [1,1]", shape, &grid, 0, 2);
    }
    for shape in [
        &[4_096, 4_096, 4_096][..],
        &[1_024, 1_024, 1],
        &[128, 128, 64],
        &[128, 128, 65],
    ] {
        add(three, shape, &grid, 0, 2);
    }
    // The longest dimension, and eight fields.
    let many: Vec<i32> = (0..4_096).map(|i| (i * i / 7) % 10).collect();
    add(
        &format!("{nine}cell := [4096] when [-4096] = cell"),
        &[4_096],
        &many,
        0,
        2,
    );
    add(
        &format!("{nine}cell := [1] when cell = 3"),
        &[4_096],
        &many,
        0,
        3,
    );
    let two = "2 dimensions of 0..9 cell := [0,1] when [0,4096] > [1,-1]";
    add(two, &[1, 4_096], &many, 0, 2);
    let eight = "2 dimensions of a,b,c,d,e,f,g,h of 0..9 end \
                 cell.a := [1,0].h cell.h := [0,-1].a when cell.c > cell.d";
    add(eight, &[16, 32], &many, 0, 3);
    // A long row of operators, and deep nesting.
    let sum = "+1".repeat(1_500);
    add(
        &format!("1 dimensions of 0..1501 cell := 1{sum}"),
        &[2],
        &[1, 0],
        0,
        2,
    );
    let rest = "-1".repeat(1_500);
    add(
        &format!("{nine}x := 2147483647{sum}{rest}"),
        &[2],
        &[1, 0],
        0,
        2,
    );
    add(
        &format!("{nine}x := 2147480000{sum}{rest} cell := x = 2147480000"),
        &[2],
        &[1, 0],
        0,
        3,
    );
    let open = "(1+".repeat(16);
    let close = ")".repeat(16);
    add(
        &format!("1 dimensions of 0..99 cell := {open}cell{close}"),
        &[3],
        &[1, 0, 60],
        0,
        4,
    );
    // Entries out of range, const fields too.
    let fields = "1 dimensions of a of 0..1 const b of -1..1 end cell.a := cell.b when cell.b >= 0";
    for grid in [
        [0, 0, 0, 0],
        [0, 2, 0, 0],
        [0, -1, 0, 1],
        [0, -2, 2, 0],
        [2, -2, 2, 0],
        [0, 0, 0, i32::MIN],
        [0, 0, -1, 5],
    ] {
        add(fields, &[2], &grid, 0, 2);
    }
    add(wide, &[2], &[i32::MAX, i32::MIN], 0, 1);
    add(wide, &[2], &[i32::MAX, -i32::MAX], 0, 1);
    // Order of the refusals.
    add(&format!("{s}cell := [9]"), &[3], &[0, 9, 0], -1, 1);
    add(&format!("{s}cell := [9]"), &[3], &[0, 9, 0], 0, 1);
    add(&format!("{s}cell := [9]"), &[3], &[0, 9], -1, 1);
    add(&format!("{s}cell := [9]"), &[0], &[0, 9], -1, 1);
    add(&format!("{s}cell := [3]"), &[3], &[0, 9, 0], 0, 0);
    add(&format!("{s}cell := y"), &[0], &[0, 9], -1, 1);
    let mut long = S.as_bytes().to_vec();
    long.resize(65_536, b' ');
    let mut wrong = RunCase::new(long, &[2], vec![0, 1], 0, 1);
    row.push(wrong.clone());
    wrong.words = 16_383;
    row.push(wrong);
    for (words, names) in [
        (16_383, 256),
        (16_385, 256),
        (0, 256),
        (16_384, 255),
        (16_384, 257),
        (16_384, 0),
    ] {
        for text in [&format!("{s}cell := [-1]"), "$"] {
            let mut case = RunCase::new(text.as_bytes().to_vec(), &[2], vec![0, 1], 0, 1);
            case.words = words;
            case.names = names;
            row.push(case);
        }
    }
    for (scratch, marks) in [(0, 3), (2, 3), (4, 3), (3, 2), (3, 4), (3, 0), (0, 0)] {
        let source = format!("{s}cell := [-1]").into_bytes();
        let mut case = RunCase::new(source, &[3], vec![0, 1, 1], 0, 1);
        case.scratch = scratch;
        case.marks = marks;
        row.push(case);
    }
    row.extend(places());
    row
}

/// One cell that changes in the first step, so that the second opens as many
/// cells as have it in their reach.
fn opening(rest: &str, shape: &[u32]) -> RunCase {
    let cells: u32 = shape.iter().product();
    let mut grid = vec![0; cells as usize];
    grid[0] = 1;
    let text = format!("{} dimensions of 0..9 {rest}", shape.len());
    RunCase::new(text.into_bytes(), shape, grid, 0, 3)
}

/// Lists of places: equal and unequal to the box, both sides of 256, and a
/// relative index in every position.
fn places() -> Vec<RunCase> {
    let mut row = Vec::new();
    let plane = [
        "cell := 0",
        "cell := 0 * [0,1] * [1,0]",
        "cell := 0 * [0,1] * [0,1]",
        "forall i : -1..1 cell := 0 * [i,i] end",
        "forall i : -1..1 forall j : -1..1 cell := 0 * [i,j] end end",
        "forall i : -1..1 forall j : 0..1 cell := 0 * [0,j] end end",
        "if 0 then cell := [2,2] end cell := 0",
        "cell := 0 * [0,1] * [0,-2]",
        "cell := 0 * [3,0] * [-3,3]",
        "forall i : -1..1 cell := 0 * [i,0] * [0,i] end",
        "forall i : 1..2 x := [i,0] end forall i : 3..3 x := [0,i] end cell := 0",
        "forall i : 1..2 x := [i,0] forall j : 0..1 x := [j,i] + [j,j] end end cell := 0",
        "forall i : 0..1 exit x := [i,-2] end cell := 0",
        "cell := 0 when [1,2] >= 0 := [2,1] otherwise",
        "const a[] for 1 := 0 cell := a[[1,1] - [1,1] + 0 * [-1,-2]]",
        "if [1,0] > 9 then elsif [0,-1] > 9 then else x := [-2,2] end cell := 0",
        "cell := 0 * -[1,1] * !([1,-1])",
        "cell := 0 * [0,0] * cell",
    ];
    for rest in plane {
        row.push(opening(rest, &[3, 3]));
        row.push(opening(rest, &[4, 7]));
    }
    // A size of 1, and an index as large as its dimension.
    row.push(opening("cell := 0 * [1,1] * [0,1]", &[1, 2]));
    row.push(opening("cell := 0 * [-1,2]", &[1, 2]));
    row.push(opening("cell := 0 * [9,0] * [0,9]", &[10, 10]));
    for rest in [
        "cell := 0 * [1] * [-4]",
        "cell := 0 * [2] * [4] * [-3]",
        "forall i : -2..2 cell := 0 * [i] end",
        "cell := 0 * [5] * [-5]",
    ] {
        row.push(opening(rest, &[5]));
    }
    for rest in [
        "cell := 0 * [1,0,0] * [0,1,0] * [0,0,1]",
        "forall i : -1..1 cell := 0 * [i,i,i] end",
        "forall i : -1..1 forall j : 0..1 cell := 0 * [i,j,i] end end",
        "forall i : 0..1 forall j : 0..1 forall k : -1..0 cell := 0 * [k,j,i] end end end",
    ] {
        row.push(opening(rest, &[2, 3, 4]));
    }
    // The limit: 256 places and 257, with the own cell among the values and
    // without it, where the list is the box and where it is not.
    for range in [
        "-127..128",
        "-128..128",
        "1..255",
        "1..256",
        "0..255",
        "0..256",
    ] {
        row.push(opening(
            &format!("forall i : {range} cell := 0 * [i] end"),
            &[300],
        ));
    }
    for last in [264, 265] {
        let text =
            format!("forall i : 1..150 x := [i] end forall i : 160..{last} x := [i] end cell := 0");
        row.push(opening(&text, &[300]));
    }
    for more in ["x := [-104]", "x := [-103]"] {
        let fixed = "x := [-100] + [-101] + [-102] + [-103]";
        let text = format!("forall i : 1..200 x := [i] end forall i : -200..-150 x := [i] end {fixed} {more} cell := 0");
        row.push(opening(&text, &[500]));
    }
    for (first, second) in [
        ("-7..8", "-7..8"),
        ("-8..8", "-7..8"),
        ("1..16", "1..16"),
        ("1..15", "1..17"),
    ] {
        let text = format!("forall i : {first} forall j : {second} cell := 0 * [i,j] end end");
        row.push(opening(&text, &[20, 18]));
    }
    for more in ["[7,7]", "[9,0]"] {
        let square = "forall i : -7..7 forall j : -7..7 x := [i,j] end end";
        let line = "forall i : -15..15 x := [8,i] end";
        row.push(opening(
            &format!("{square} {line} x := {more} cell := 0"),
            &[32, 33],
        ));
    }
    for more in ["[3,3,3]", "[0,0,5]"] {
        let cube = "forall i : -2..3 forall j : -2..3 forall k : -3..3 x := [i,j,k] end end end";
        let fixed = "x := [4,0,0] + [0,4,0] + [5,0,0] + [0,5,0]";
        row.push(opening(
            &format!("{cube} {fixed} + {more} cell := 0"),
            &[8, 9, 10],
        ));
    }
    for range in ["-3..2", "-3..3"] {
        let text = format!(
            "forall i : {range} forall j : {range} forall k : {range} cell := 0 * [i,j,k] end end end"
        );
        row.push(opening(&text, &[6, 6, 7]));
    }
    // Many indices that come to 256 places, and to 257.
    for last in [15, 16] {
        let mut text = String::new();
        for at in 0..=last {
            text += &format!("forall i : 0..14 x := [{at},i] end ");
        }
        row.push(opening(&(text + "x := [16,15] cell := 0"), &[16, 16]));
    }
    row
}
