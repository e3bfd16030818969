//! Programs that move a pixel once.

use super::{Maker, Wish};
use crate::random::Random;

/// A program in the profile of 6/13, as a row of tokens.
pub fn moving(random: &mut Random, wish: Wish) -> Vec<String> {
    let mut maker = Maker::new(random, wish);
    maker.moving();
    maker.out
}

impl Maker<'_> {
    fn moving(&mut self) {
        if self.random.chance(8) {
            // The name in the other name space.
            self.put_all("const moved := 1");
            self.constants.push(("moved".to_string(), 1));
            self.records += 1;
        }
        self.some_constants(40);
        self.moving_declaration();
        self.some_constants(15);
        self.put_all("if cell . moved = 0 then");
        self.depth = 1;
        for _ in 0..self.random.below(5) {
            self.statement();
        }
        while self.left() > self.wish.tokens / 2 && self.random.chance(60) {
            self.statement();
        }
        self.put_all("cell . moved := 1");
        self.some_constants(15);
        self.put("end");
        self.depth = 0;
        self.some_constants(15);
    }

    fn some_constants(&mut self, part: usize) {
        while self.random.chance(part) {
            self.constant_declaration();
        }
    }

    fn moving_declaration(&mut self) {
        self.dimensions = [1, 1, 1, 2, 2, 3][self.random.below(6)];
        self.unsigned(self.dimensions as i64);
        self.put_all("dimensions of");
        self.named = true;
        let before = [0, 1, 1, 1, 2, 3][self.random.below(6)];
        while self.fields.len() < before {
            self.field_group(before);
        }
        self.flag();
        let all = self.fields.len() + [0, 0, 0, 1, 1, 3][self.random.below(6)];
        while self.fields.len() < all {
            self.field_group(all);
        }
        self.put("end");
    }

    /// The field `moved`, alone or beside others of its range.
    fn flag(&mut self) {
        let beside = self.random.below(10);
        if beside == 0 {
            let name = self.field_name();
            self.field(name, false, 0, 1);
            self.put(",");
        }
        self.field("moved".to_string(), false, 0, 1);
        if beside == 1 {
            self.put(",");
            let name = self.field_name();
            self.field(name, false, 0, 1);
        }
        self.put("of");
        if self.random.chance(5) {
            self.put_all("- 0");
        } else {
            self.signed(0);
        }
        self.put("..");
        self.signed(1);
    }
}
