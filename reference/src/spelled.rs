//! Sources that are refused with spellings of every sort.

use crate::lex::MAX_TOKENS;
use crate::limits::of_tokens;
use crate::soup::HALVES;

const S: &str = "1 dimensions of 0..1 ";

/// Predefined names in any letter case, other names that begin so or with
/// which they begin, and words that come from the source as written.
const WORDS: [&str; 21] = [
    "cell",
    "CELL",
    "cEll",
    "time",
    "TIME",
    "timE",
    "random",
    "RANDOM",
    "RanDom",
    "agent",
    "AGENT",
    "cells",
    "cel",
    "ce_ll",
    "time1",
    "tim",
    "random1",
    "rando",
    "Long_Name_9",
    "OtherWise",
    "1_0",
];

/// Sources without a declaration in front.
const WHOLE: [&str; 14] = [
    "4 dimensions of 0..1",
    "0_4 dimensions of 0..1",
    "1 dimensions of 1..-1",
    "1 dimensions of 1..0",
    "1 dimensions of a,b,c,d,e,f,g,h,i of 0..1 end",
    "1 dimensions of a,b,c,d,e,f,g,h,CELL of 0..1 end",
    "const a[] for 1025 := 1",
    "const n := 0 const a[] for N := 1",
    "const a[] for 2 := 1,2,3 1 dimensions of 0..1 ",
    "const a[] for 3 := 1,2 4 dimensions of 0..1",
    "const a[] for 3 := 1,2 CELL dimensions of 0..1",
    "const a[] for 1 := 1 1 dimensions of 0..1 cell := a Cell := 1",
    "const a[] for 1 := 1 1 dimensions of 0..1 cell := a ",
    "1 dimensions of a of 0..1 end cell",
];

/// Sources with the shortest declaration in front.
const BEHIND: [&str; 30] = [
    "forall i : 0..4096 end",
    "forall i : 1..0_0 end",
    "const a[] for 2 := 1 cell.q := 1",
    "const a[] for 3 := 1,2",
    "const a[] for 3 := 1,2 # to the end",
    "cell := RanDom",
    "AGENT",
    "12ab",
    "1_",
    "1_0_",
    "x_",
    "x__y",
    "_",
    "$$",
    "\u{e9}",
    "cell := 9_999_999_999",
    "cell := 2147483648",
    "cell := 00000000000000000000000000000000000000000000000000002147483648",
    "cell := 99999999999999999999999999999999999999999999999999999999999999",
    "if 1 then",
    "if 1 then # if \n ",
    "forall x",
    "forall x ",
    "x := y",
    "x := Y_1z#comment",
    "x := 1+y+1",
    "x := cell.a",
    "x := 1 <= 2 != 3",
    "x := 1 <= 2 > 3",
    "x := 1, 2",
];

/// The sources.
pub fn sources() -> Vec<Vec<u8>> {
    let mut row: Vec<String> = WHOLE.iter().map(|text| text.to_string()).collect();
    row.extend(BEHIND.iter().map(|text| format!("{S}{text}")));
    for half in HALVES {
        row.extend(WORDS.iter().map(|word| format!("{half} {word}")));
    }
    for word in WORDS {
        row.push(format!("{} {word}", of_tokens(MAX_TOKENS)));
    }
    for opening in ["(", "[", "If", "FORALL"] {
        row.push(format!("{S}{}{opening}", "if 1 then ".repeat(16)));
        row.push(format!("{S}x := {}{opening}", "(".repeat(16)));
    }
    let constants = |count| -> String { (0..count).map(|i| format!("const c{i}:=1 ")).collect() };
    row.push(format!("{S}{}Long_Name := 1", constants(256)));
    let full = constants(255);
    row.push(format!("{S}{full}const a[] for 2 := 1 x := 1"));
    row.push(format!("{S}{full}const a[] for 2 := 1 Cell := 1"));
    row.into_iter().map(String::into_bytes).collect()
}
