//! Sources in the profile of 6/13 and near it, runs and writings of such
//! sources, written by hand.

use crate::call_case::Call;
use crate::case::{marks_on_entry, RunCase};
use crate::pausing::Manner;
use crate::write_case::WriteCase;

/// Sources in the profile.
pub const IN_PROFILE: [&str; 44] = [
    "1 dimensions of moved of 0..1 end if cell.moved = 0 then cell.moved := 1 end",
    "3 dimensions of moved of 0..1 end if cell.moved = 0 then cell.moved := 1 end",
    // Letter case, separators and comments between the tokens.
    "1 DIMENSIONS OF MOVED OF 0..1 END IF CELL.MOVED = 0 THEN CELL.MOVED := 1 END",
    "1 dimensions of Moved of 0..1 end If Cell.mOVED=0 Then cELL.moveD:=1 End",
    "1 dimensions of moved of 0..1 end#\nif#a\rcell#b\n.#c\nmoved#\n=#0\n0#\nthen#\ncell#\n.#\nmoved#\n:=#\n1#2\nend#",
    "1 dimensions of\tmoved of 0..1 end\x0bif\x0ccell\n.\rmoved\t= 0 then cell . moved := 1 end # else",
    // The range is its values.
    "const one := 1 1 dimensions of moved of 0..one end if cell.moved = 0 then cell.moved := 1 end",
    "const o := -1 const z := 0 1 dimensions of moved of -z..-o end if cell.moved = 0 then cell.moved := 1 end",
    "1 dimensions of moved of -0..+1 end if cell.moved = 0 then cell.moved := 1 end",
    "1 dimensions of moved of 00..0_1 end if cell.moved = 0 then cell.moved := 1 end",
    // Other fields, before and behind, of any kind and range.
    "1 dimensions of a, moved, b of 0..1 end if cell.moved = 0 then cell.moved := 1 end",
    "1 dimensions of const a of -9..9 moved of 0..1 const mo_ved of 0..1 end if cell.moved = 0 then cell.moved := 1 end",
    "2 dimensions of a of 5..5 b, c, d, e, f, g of 0..255 moved of 0..1 end if cell.moved = 0 then cell.moved := 1 end",
    // The name elsewhere: fields have their own name space.
    "const moved := 7 1 dimensions of moved of 0..1 end if cell.moved = 0 then cell.moved := 1 end",
    "const moved[] for 2 := 1, 2 1 dimensions of moved of 0..1 end if cell.moved = 0 then cell.moved := 1 end",
    "1 dimensions of moved of 0..1 end if cell.moved = 0 then moved := 2 cell.moved := 1 end",
    "1 dimensions of moved of 0..1 end if cell.moved = 0 then forall moved : 0..1 end cell.moved := 1 end",
    // Constants before, between and after.
    "const k := 1 const t[] for 2 := -1, +k 1 dimensions of moved of 0..1 end if cell.moved = 0 then cell.moved := 1 end",
    "1 dimensions of moved of 0..1 end const k := 1 if cell.moved = 0 then cell.moved := 1 end",
    "1 dimensions of moved of 0..1 end const t[] for 3 := 1, -2, +3 if cell.moved = 0 then cell.moved := 1 end",
    "1 dimensions of moved of 0..1 end if cell.moved = 0 then const k := -1 cell.moved := 1 end",
    "1 dimensions of moved of 0..1 end if cell.moved = 0 then cell.moved := 1 const k := 1 end",
    "1 dimensions of moved of 0..1 end if cell.moved = 0 then cell.moved := 1 const t[] for 2 := 1, 0 const k := 1 end",
    "1 dimensions of moved of 0..1 end if cell.moved = 0 then cell.moved := 1 end const k := 1",
    "1 dimensions of moved of 0..1 end if cell.moved = 0 then cell.moved := 1 end const t[] for 1 := 1 const k := 1",
    "1 dimensions of moved of 0..1 end const a := 0 const b := a if cell.moved = 0 then const c := b x := c const d := a \
     cell.moved := 1 const e := d end const f := e",
    "1 dimensions of moved of 0..1 end if cell.moved = 0 then if 1 then const k := 1 end cell.moved := 1 end",
    // Any statements before the last one.
    "1 dimensions of moved of 0..1 end if cell.moved = 0 then cell.moved := 0 cell.moved := 1 end",
    "1 dimensions of moved of 0..1 end if cell.moved = 0 then cell.moved := 1 cell.moved := 0 cell.moved := 1 end",
    "1 dimensions of moved of 0..1 end if cell.moved = 0 then cell.moved := 1 when 0 cell.moved := 1 end",
    "1 dimensions of moved of 0..1 end if cell.moved = 0 then cell.moved := 00 when 0 := 5 otherwise cell.moved := 1 end",
    "1 dimensions of moved of 0..1 end if cell.moved = 0 then if 1 then x := 1 elsif 2 then else x := 2 end cell.moved := 1 end",
    "1 dimensions of moved of 0..1 end if cell.moved = 0 then if cell.moved = 0 then cell.moved := 1 end cell.moved := 1 end",
    "1 dimensions of moved of 0..1 end if cell.moved = 0 then forall i : 0..3 if i then exit end else_1 := i end cell.moved := 1 end",
    "1 dimensions of moved of 0..1 end if cell.moved = 0 then forall i : 0..3 forall j : 0..1 exit end end cell.moved := 1 end",
    "1 dimensions of moved of 0..1 end if cell.moved = 0 then if 1 then else end cell.moved := 1 end",
    "1 dimensions of moved of 0..1 end if cell.moved = 0 then x := time x := cell.moved cell.moved := 1 end",
    "1 dimensions of moved of 0..1 end if cell.moved = 0 then x := [-1].moved + [1].moved cell.moved := 1 end",
    "1 dimensions of moved of 0..1 end if cell.moved = 0 then x := 1 / 0 cell.moved := 1 end",
    "1 dimensions of moved of 0..1 end if cell.moved = 0 then cell.moved := 2 cell.moved := 1 end",
    "1 dimensions of a of 0..9 moved of 0..1 end if cell.moved = 0 then cell.a := [1].a cell.moved := 1 end",
    "1 dimensions of moved of 0..1 a of 0..9 end if cell.moved = 0 then cell.a := 6 / cell.a cell.moved := 1 end",
    "2 dimensions of grey of 0..255 const shift of -2..2 moved of 0..1 end if cell.moved = 0 then forall k : -2..2 \
     if k = cell.shift then cell.grey := [0,k].grey exit end end cell.moved := 1 end",
    "1 dimensions of moved of 0..1 end if cell.moved = 0 then x := 1 if x then x := 2 end cell.moved := 1 end const one := 1",
];

/// Sources that are refused: rule 1 is missed, whatever else is.
pub const REFUSED: [&str; 17] = [
    "",
    "1 dimensions of 0..1 x := y",
    "1 dimensions of const moved of 0..1 end if cell.moved = 0 then cell.moved := 1 end",
    "1 dimensions of moved of 0..2 end if cell.moved = 0 then exit cell.moved := 1 end",
    "1 dimensions of moved of 0..1 end if cell.moved = 0 then cell.moved := 1",
    "1 dimensions of moved of 0..1 end if cell.moved = 0 then cell.moved := 1 end end",
    "1 dimensions of moved of 0..1 end if cell.moved = 0 then cell.moved := 1 otherwise end",
    "1 dimensions of moved of 0..1 end if cell.moved = 0 then cell.moved := 1, 1 end",
    "1 dimensions of moved of 0..1 end if cell.moved = 0 then cell := 1 end",
    "1 dimensions of moved of 0..1 end if cell.moved = 0 = 0 then cell.moved := 1 end",
    "1 dimensions of moved of 0..1 end if cell.moved = 0 then [0].moved := 1 end",
    "1 dimensions of moved of 1..0 end if cell.moved = 0 then cell.moved := 1 end",
    "1 dimensions of moved[] for 2 of 0..1 end if cell.moved = 0 then cell.moved := 1 end",
    "1 dimensions of moved of 0..1 moved of 0..1 end if cell.moved = 0 then cell.moved := 1 end",
    "1 dimensions of moves of 0..1 end if cell.moved = 0 then cell.moved := 1 end",
    "4 dimensions of moved of 0..1 end if cell.moved = 0 then cell.moved := 1 end",
    "1 dimensions of moved of 0..1 end if cell.moved = 0 then cell.moved := 1 end agent",
];

/// Sources that are accepted and miss rule 2, whatever else they miss.
pub const NO_FLAG: [&str; 19] = [
    "1 dimensions of 0..1",
    "1 dimensions of 0..1 if cell = 0 then cell := 1 end",
    "1 dimensions of 0..1 moved := 1 if moved = 0 then moved := 1 end",
    "const moved := 1 1 dimensions of 0..1 if cell = 0 then cell := 1 end",
    "1 dimensions of a of 0..1 end if cell.a = 0 then cell.a := 1 end",
    "1 dimensions of mo_ved of 0..1 end if cell.mo_ved = 0 then cell.mo_ved := 1 end",
    "1 dimensions of move of 0..1 end if cell.move = 0 then cell.move := 1 end",
    "1 dimensions of moved1 of 0..1 end if cell.moved1 = 0 then cell.moved1 := 1 end",
    "1 dimensions of moved of 0..2 end if cell.moved = 0 then cell.moved := 1 end",
    "1 dimensions of moved of -1..1 end if cell.moved = 0 then cell.moved := 1 end",
    "1 dimensions of moved of 1..1 end if cell.moved = 0 then cell.moved := 1 end",
    "1 dimensions of moved of 0..0 end if cell.moved = 0 then cell.moved := 1 end",
    "1 dimensions of moved of 0..2147483647 end if cell.moved = 0 then cell.moved := 1 end",
    "const one := 2 1 dimensions of moved of 0..one end if cell.moved = 0 then cell.moved := 1 end",
    "1 dimensions of const moved of 0..1 end",
    "1 dimensions of const moved of 0..1 end if cell.moved = 0 then end",
    "1 dimensions of const moved of 0..1 a of 0..1 end if cell.moved = 0 then cell.a := 1 end",
    "1 dimensions of const a, moved of 0..1 move of 0..1 end if cell.move = 0 then cell.move := 1 end",
    "1 dimensions of moved of 0..2 end cell.moved := 2",
];

/// Sources that miss rule 3 alone, without their declaration in front.
const NOT_ONCE: [&str; 78] = [
    "",
    "const k := 1",
    "cell.moved := 1",
    // The statement itself.
    "if cell.moved = 0 then end",
    "if cell.moved = 0 then cell.moved := 1 else end",
    "if cell.moved = 0 then cell.moved := 1 else cell.moved := 1 end",
    "if cell.moved = 0 then else cell.moved := 1 end",
    "if cell.moved = 0 then cell.moved := 1 elsif 1 then end",
    "if cell.moved = 0 then cell.moved := 1 elsif cell.moved = 0 then cell.moved := 1 end",
    "if cell.moved = 0 then elsif 1 then cell.moved := 1 end",
    "if cell.moved = 0 then const k := 1 cell.moved := 1 else const l := 1 end",
    "forall i : 0..0 if cell.moved = 0 then cell.moved := 1 end end",
    "if 1 then if cell.moved = 0 then cell.moved := 1 end end",
    // The condition.
    "if 0 = cell.moved then cell.moved := 1 end",
    "if cell.moved = 00 then cell.moved := 1 end",
    "if cell.moved = 0_0 then cell.moved := 1 end",
    "if cell.moved = -0 then cell.moved := 1 end",
    "if cell.moved = +0 then cell.moved := 1 end",
    "if cell.moved = zero then cell.moved := 1 end",
    "if cell.moved = (0) then cell.moved := 1 end",
    "if (cell.moved = 0) then cell.moved := 1 end",
    "if (cell.moved) = 0 then cell.moved := 1 end",
    "if +cell.moved = 0 then cell.moved := 1 end",
    "if [0].moved = 0 then cell.moved := 1 end",
    "if !cell.moved then cell.moved := 1 end",
    "if cell.moved then cell.moved := 1 end",
    "if cell.moved != 1 then cell.moved := 1 end",
    "if cell.moved < 1 then cell.moved := 1 end",
    "if cell.moved <= 0 then cell.moved := 1 end",
    "if cell.moved = 1 then cell.moved := 1 end",
    "if cell.moved = 0 & 1 then cell.moved := 1 end",
    "if cell.moved = 0 + 0 then cell.moved := 1 end",
    "if 1 & cell.moved = 0 then cell.moved := 1 end",
    "if cell.a = 0 then cell.moved := 1 end",
    "if 0 then cell.moved := 1 end",
    // The last statement.
    "if cell.moved = 0 then cell.moved := 01 end",
    "if cell.moved = 0 then cell.moved := 0_1 end",
    "if cell.moved = 0 then cell.moved := +1 end",
    "if cell.moved = 0 then cell.moved := one end",
    "if cell.moved = 0 then cell.moved := (1) end",
    "if cell.moved = 0 then cell.moved := 1 + 0 end",
    "if cell.moved = 0 then cell.moved := 0 + 1 end",
    "if cell.moved = 0 then cell.moved := !0 end",
    "if cell.moved = 0 then cell.moved := 0 end",
    "if cell.moved = 0 then cell.moved := 2 end",
    "if cell.moved = 0 then cell.moved := 11 end",
    "if cell.moved = 0 then cell.moved := 1 when 1 end",
    "if cell.moved = 0 then cell.moved := 1 when cell.moved = 0 end",
    "if cell.moved = 0 then cell.moved := 1 when 1 := 1 otherwise end",
    "if cell.moved = 0 then cell.moved := 1 when 1 := 1 when 1 end",
    "if cell.moved = 0 then x := 1 when cell.moved := 1 otherwise end",
    "if cell.moved = 0 then cell.a := 1 end",
    "if cell.moved = 0 then moved := 1 end",
    "if cell.moved = 0 then x := cell.moved end",
    "if cell.moved = 0 then cell.moved := 1 x := 1 end",
    "if cell.moved = 0 then cell.moved := 1 cell.a := 1 end",
    "if cell.moved = 0 then cell.moved := 1 cell.moved := 0 end",
    "if cell.moved = 0 then cell.moved := 1 if 0 then end end",
    "if cell.moved = 0 then cell.moved := 1 forall i : 0..0 end end",
    "if cell.moved = 0 then if 1 then cell.moved := 1 end end",
    "if cell.moved = 0 then if 0 then else cell.moved := 1 end end",
    "if cell.moved = 0 then if cell.moved = 0 then cell.moved := 1 end end",
    "if cell.moved = 0 then forall i : 0..0 cell.moved := 1 end end",
    "if cell.moved = 0 then cell.moved := 1 if cell.moved = 0 then cell.moved := 1 end end",
    // A second statement.
    "x := 1 if cell.moved = 0 then cell.moved := 1 end",
    "if cell.moved = 0 then cell.moved := 1 end x := 1",
    "cell.moved := 1 if cell.moved = 0 then cell.moved := 1 end",
    "if cell.moved = 0 then cell.moved := 1 end cell.moved := 1",
    "if cell.moved = 0 then cell.moved := 1 end cell.moved := 0",
    "if cell.moved = 0 then cell.moved := 1 end if cell.moved = 0 then cell.moved := 1 end",
    "if cell.moved = 0 then cell.moved := 1 end if 0 then end",
    "if cell.moved = 0 then cell.moved := 1 end forall i : 0..0 end",
    "forall i : 0..0 end if cell.moved = 0 then cell.moved := 1 end",
    "if cell.moved = 0 then end if cell.moved = 0 then cell.moved := 1 end",
    "if cell.moved = 0 then cell.moved := 1 end if 1 then cell.moved := 1 end",
    "const k := 1 x := k const l := 1 if cell.moved = 0 then cell.moved := 1 end",
    "if cell.moved = 0 then cell.moved := 1 end const k := 1 x := k",
    "if 1 then x := 1 end if cell.moved = 0 then cell.moved := 1 end",
];

/// Sources that miss rule 3 alone.
pub fn not_once() -> impl Iterator<Item = String> {
    let declaration = "const zero := 0 const one := 1 1 dimensions of a of 0..9 moved of 0..1 end";
    NOT_ONCE
        .iter()
        .map(move |rest| format!("{declaration} {rest}"))
}

/// All of them.
pub fn sources() -> Vec<Vec<u8>> {
    let whole = IN_PROFILE.iter().chain(&REFUSED).chain(&NO_FLAG);
    let row = whole.map(|text| text.to_string()).chain(not_once());
    row.map(String::into_bytes).collect()
}

/// A rule in the profile with three fields.
pub const THREE: &str = "1 dimensions of c of 0..9 moved of 0..1 d of 0..1 end \
     if cell.moved = 0 then cell.c := [1].c cell.moved := 1 end";

/// The same with a last statement that is another.
const NEAR_THREE: &str = "1 dimensions of c of 0..9 moved of 0..1 d of 0..1 end \
     if cell.moved = 0 then cell.c := [1].c cell.moved := 1 when 1 end";

/// Lists for three cells of this rule, from time 3 on, 2 steps; with the number
/// and the line of the reply.
pub const LISTS: [(u32, u64, &str); 46] = [
    // A moved of 0, however it is spelled.
    (58, 2, "3\n[0] = 5, 0\n"),
    (58, 2, "3\n[0] = 5, -0\n"),
    (58, 2, "3\n[0] = 5, +0\n"),
    (58, 2, "3\n[0] = 5, 00, 1\n"),
    (58, 2, "3\n[0] = 5, - 0_0, 1\n"),
    (58, 2, "3\r[0]=,0,\r"),
    (58, 2, "3\n[1] = , 0\n"),
    (58, 2, "4\n[1] = , 0\n"),
    (58, 2, "5\n[1] = , 0\n"),
    // One that is missing, or 1.
    (0, 0, "3\n[0] = 0\n"),
    (0, 0, "3\n[0] =\n"),
    (0, 0, "3\n[0] = 0,\n"),
    (0, 0, "3\n[0] = 5, , 0\n"),
    (0, 0, "3\n[0] = , , \n"),
    (0, 0, "3\n[0] = 0, 1, 0\n"),
    (0, 0, "4\n[2] = 0, +0_1, 0\n5\n[2] = 7\n"),
    // On its own line it is the last.
    (50, 1, "[0] = 5, 0\n"),
    (50, 2, "3\n[0] = 5, 0"),
    (50, 2, "3\n[0] = 5, 0 x\n"),
    (50, 2, "3\n[0] = 5, 0 0\n"),
    (50, 2, "3\n[0] = 5, --0\n"),
    (50, 2, "3\n[0, 0] = 5, 0\n"),
    (50, 2, "3\n[0] = 2147483648, 0\n"),
    (51, 2, "3\n[3] = 5, 0\n"),
    (51, 2, "3\n[3] = 10, 0, 2, 1\n"),
    (52, 2, "3\n[0] = 5, 0, 1, \n"),
    (52, 2, "3\n[0] = 10, 0, 2, 1\n"),
    (53, 2, "3\n[0] = 10, 0\n"),
    (53, 2, "3\n[0] = 5, 0, 2\n"),
    (53, 2, "3\n[0] = 5, 2\n"),
    (53, 2, "3\n[0] = 5, -1\n"),
    // The lowest line wins.
    (58, 2, "3\n[0] = 5, 0\n[0] = 10\n"),
    (58, 3, "3\n[0] = 5, 1\n[0] = 5, 0\n[0] = 5, 0\n"),
    (58, 2, "3\n[0] = 5, 0\n[3] = 5\n"),
    (58, 2, "3\n[0] = 5, 0\nx\n"),
    (58, 2, "3\n[0] = 5, 0\n3\n"),
    (58, 2, "3\n[0] = 5, 0\n2\n"),
    (58, 2, "3\n[0] = 5, 0\n6\n"),
    (58, 2, "3\n[0] = 5, 0\n4"),
    (53, 2, "3\n[0] = 10\n[0] = 5, 0\n"),
    (51, 2, "3\n[9] =\n[0] = 5, 0\n"),
    (52, 2, "3\n[0] = , , ,\n[0] = 5, 0\n"),
    (50, 2, "3\n\n[0] = 5, 0\n"),
    (54, 2, "4\n3\n[0] = 5, 0\n"),
    (55, 1, "2\n[0] = 5, 0\n"),
    (56, 1, "6\n[0] = 5, 0\n"),
];

/// A run of such a rule on three cells, from time 3 on, 2 steps.
pub fn on_three(source: &str, list: &str) -> RunCase {
    let grid = vec![1, 0, 1, 2, 1, 0, 3, 0, 0];
    RunCase::new(source.into(), &[3], grid, 3, 2).with_list(list.as_bytes())
}

/// Rules with the flag at other places, and a list that gives it 0.
const PLACES: [(&str, &str); 5] = [
    (
        "1 dimensions of moved of 0..1 end if cell.moved = 0 then cell.moved := 1 end",
        "3\n[1] = 0\n",
    ),
    (
        "1 dimensions of moved of 0..1 end if cell.moved = 0 then cell.moved := 1 end",
        "3\n[1] =\n4\n[1] = 1\n",
    ),
    (
        "1 dimensions of MOVED, a of 0..1 end if cell.moved = 0 then cell.moved := 1 end",
        "3\n[1] = 0, 1\n",
    ),
    (
        "1 dimensions of a, Moved of 0..1 end if cell.moved = 0 then cell.moved := 1 end",
        "3\n[1] = 0, 0\n",
    ),
    (
        "1 dimensions of a, Moved of 0..1 end if cell.moved = 0 then cell.moved := 1 end",
        "3\n[1] = 0, \n",
    ),
];

/// Runs with lists.
pub fn runs() -> Vec<RunCase> {
    let lists = || LISTS.iter().map(|&(_, _, list)| list);
    let mut row: Vec<RunCase> = lists().map(|list| on_three(THREE, list)).collect();
    row.extend(lists().take(9).map(|list| on_three(NEAR_THREE, list)));
    for (source, list) in PLACES {
        let fields = if source.contains('a') { 2 } else { 1 };
        let grid = vec![0, 1, 0, 0, 1, 1][..3 * fields].to_vec();
        row.push(RunCase::new(source.into(), &[3], grid, 3, 1).with_list(list.as_bytes()));
    }
    // What is tried before the list.
    for (shape, start, entry) in [(3, -1, 0), (0, 3, 0), (3, 3, 10)] {
        let mut case = on_three(THREE, "3\n[0] = 5, 0\n");
        (case.shape, case.start, case.grid[0]) = (vec![shape], start, entry);
        row.push(case);
    }
    row
}

/// Runs in every manner, with counts and without.
pub fn calls() -> Vec<Call> {
    let mut row = Vec::new();
    let lists = [
        LISTS[0], LISTS[1], LISTS[8], LISTS[13], LISTS[15], LISTS[27], LISTS[31],
    ];
    for (_, _, list) in lists {
        for manner in Manner::ALL {
            let call = Call::new(on_three(THREE, list), manner, marks_on_entry(3));
            row.push(call.clone());
            row.push(call.clone().counting(1, vec![7; 3]));
            row.push(call.counting(3, vec![7; 3]));
        }
    }
    row
}

/// The grids of the worked writings: a row of four cells, of which the last
/// differs.
fn last_of_four(fields: [i32; 3], order: &[usize]) -> [Vec<i32>; 2] {
    let cell = |values: [i32; 3]| order.iter().map(move |&field| values[field]);
    let earlier = (0..4).flat_map(|_| cell([2, 0, 0]));
    let later = (0..3).flat_map(|_| cell([2, 0, 0])).chain(cell(fields));
    [earlier.collect(), later.collect()]
}

/// Writings: the declaration of the fields, and how a cell's line ends.
pub const SHOWN: [(&str, &[usize], &str); 6] = [
    ("c of 0..9 moved of 0..1 d of 0..1", &[0, 1, 2], "5, , 1"),
    ("c of 0..9 d of 0..1 moved of 0..1", &[0, 2, 1], "5, 1, "),
    ("moved of 0..1 c of 0..9", &[1, 0], ", 5"),
    ("c of 0..9 moved of 0..1", &[0, 1], "5, "),
    ("moved of 0..1", &[1], ""),
    ("d of 0..1 MOVED of 0..1 c of 0..9", &[2, 1, 0], "1, , 5"),
];

/// A rule of these fields that is in the profile, or near it.
fn rule_of(fields: &str, near: bool) -> String {
    let last = if near {
        "cell.moved := (1)"
    } else {
        "cell.moved := 1"
    };
    format!("2 dimensions of {fields} end if cell.moved = 0 then {last} end")
}

/// The writing of one row of 4 cells for such fields, at time 40. A rule with
/// the flag alone has to have it fall.
pub fn shown(fields: &str, order: &[usize], near: bool, room: usize) -> WriteCase {
    let mut grids = last_of_four([5, 0, 1], order);
    if order == [1] {
        grids[0][3] = 1;
    }
    let [earlier, later] = grids;
    WriteCase::new(
        rule_of(fields, near).into(),
        &[1, 4],
        earlier,
        later,
        40,
        room,
    )
}

/// Writings.
pub fn writings() -> Vec<WriteCase> {
    let mut row = Vec::new();
    for (fields, order, end) in SHOWN {
        let length = "40\n[0, 3] = \n".len() + end.len();
        for room in [length - 1, length, length + 1] {
            row.push(shown(fields, order, false, room));
        }
        row.push(shown(fields, order, true, length));
        row.push(shown(fields, order, true, length + 1));
    }
    // Flags that rise, fall and stay, alone and with another field.
    let two = "1 dimensions of moved of 0..1 a of 0..9 end if cell.moved = 0 then cell.a := 1 cell.moved := 1 end";
    let earlier = vec![0, 0, 0, 0, 1, 0, 1, 0, 0, 5, 1, 5];
    let later = vec![0, 3, 1, 3, 0, 3, 1, 3, 1, 5, 0, 5];
    for room in [0, 57, 58, 59, 90] {
        row.push(WriteCase::new(
            two.into(),
            &[6],
            earlier.clone(),
            later.clone(),
            7,
            room,
        ));
        row.push(WriteCase::new(
            two.into(),
            &[6],
            later.clone(),
            earlier.clone(),
            7,
            room,
        ));
        row.push(WriteCase::new(
            two.into(),
            &[6],
            later.clone(),
            later.clone(),
            7,
            room,
        ));
    }
    row
}
