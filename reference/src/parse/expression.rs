//! Reading expressions, loosest level first. The refusals are those of the
//! table in the module above.

use super::{Read, Reader};
use crate::lex::{Kind, Symbol};
use crate::names::{Entry, ARRAY, CONSTANT, INDEX};
use crate::tree::{Binary, Expression, Offset, Unary, Written};

impl Reader<'_> {
    pub(super) fn expression(&mut self) -> Read<Expression> {
        let mut left = self.relation()?;
        loop {
            let operator = match self.token().kind {
                Kind::Symbol(Symbol::And) => Binary::And,
                Kind::Symbol(Symbol::Or) => Binary::Or,
                _ => return Ok(left),
            };
            let place = self.place();
            self.advance();
            let right = self.relation()?;
            left = Expression::Binary(operator, place, Box::new((left, right)));
        }
    }

    fn relation_operator(&self) -> Option<Binary> {
        match self.token().kind {
            Kind::Symbol(Symbol::Equal) => Some(Binary::Equal),
            Kind::Symbol(Symbol::NotEqual) => Some(Binary::NotEqual),
            Kind::Symbol(Symbol::Less) => Some(Binary::Less),
            Kind::Symbol(Symbol::LessEqual) => Some(Binary::LessEqual),
            Kind::Symbol(Symbol::Greater) => Some(Binary::Greater),
            Kind::Symbol(Symbol::GreaterEqual) => Some(Binary::GreaterEqual),
            _ => None,
        }
    }

    fn relation(&mut self) -> Read<Expression> {
        let left = self.sum()?;
        let Some(operator) = self.relation_operator() else {
            return Ok(left);
        };
        let place = self.place();
        self.advance();
        let right = self.sum()?;
        if self.relation_operator().is_some() {
            return self.complain(13);
        }
        Ok(Expression::Binary(operator, place, Box::new((left, right))))
    }

    fn sum(&mut self) -> Read<Expression> {
        let mut left = self.product()?;
        loop {
            let operator = match self.token().kind {
                Kind::Symbol(Symbol::Plus) => Binary::Add,
                Kind::Symbol(Symbol::Minus) => Binary::Subtract,
                _ => return Ok(left),
            };
            let place = self.place();
            self.advance();
            let right = self.product()?;
            left = Expression::Binary(operator, place, Box::new((left, right)));
        }
    }

    fn product(&mut self) -> Read<Expression> {
        let mut left = self.operand()?;
        loop {
            let operator = match self.token().kind {
                Kind::Symbol(Symbol::Star) => Binary::Times,
                Kind::Symbol(Symbol::Slash) => Binary::Quotient,
                Kind::Symbol(Symbol::Percent) => Binary::Remainder,
                _ => return Ok(left),
            };
            let place = self.place();
            self.advance();
            let right = self.operand()?;
            left = Expression::Binary(operator, place, Box::new((left, right)));
        }
    }

    /// A primary with at most one unary operator.
    fn operand(&mut self) -> Read<Expression> {
        let operator = match self.token().kind {
            Kind::Symbol(Symbol::Plus) => Unary::Plus,
            Kind::Symbol(Symbol::Minus) => Unary::Minus,
            Kind::Symbol(Symbol::Not) => Unary::Not,
            _ => return self.primary(),
        };
        let place = self.place();
        self.advance();
        let primary = self.primary()?;
        Ok(Expression::Unary(operator, place, Box::new(primary)))
    }

    fn primary(&mut self) -> Read<Expression> {
        match self.token().kind {
            Kind::Literal(value) => {
                self.advance();
                Ok(Expression::Number(value))
            }
            Kind::Name => self.named_primary(),
            Kind::Symbol(Symbol::OpenBracket) => self.relative_index(),
            Kind::Symbol(Symbol::OpenParenthesis) => {
                self.open()?;
                let inner = self.expression()?;
                self.close(Symbol::CloseParenthesis)?;
                Ok(inner)
            }
            _ => self.complain(7),
        }
    }

    fn named_primary(&mut self) -> Read<Expression> {
        let spelling = self.spelling();
        let first = self.at;
        if spelling == b"cell" {
            self.advance();
            let field = if self.named {
                self.field_reference(false)?
            } else {
                self.plain_name_end()?;
                0
            };
            self.put(first, field as u32, self.at as u32);
            return Ok(Expression::Own(field));
        }
        if spelling == b"time" {
            self.advance();
            self.plain_name_end()?;
            return Ok(Expression::Time);
        }
        let Some(entry) = self.names.find(&spelling) else {
            return self.complain(8);
        };
        let Entry {
            record,
            slot,
            noted,
            ..
        } = *entry;
        self.put(first, record.kind, noted);
        self.advance();
        match record.kind {
            ARRAY if self.is_symbol(Symbol::OpenBracket) => {
                let place = self.place();
                self.open()?;
                let inner = self.expression()?;
                self.close(Symbol::CloseBracket)?;
                self.no_field_here()?;
                Ok(Expression::Element(slot, place, Box::new(inner)))
            }
            ARRAY => {
                self.note(12);
                self.no_field_here()?;
                Ok(Expression::Number(0))
            }
            CONSTANT => {
                self.plain_name_end()?;
                Ok(Expression::Number(record.value))
            }
            _ => {
                self.plain_name_end()?;
                Ok(Expression::Slot(slot))
            }
        }
    }

    fn relative_index(&mut self) -> Read<Expression> {
        let first = self.at;
        self.open()?;
        let mut offsets = Vec::new();
        loop {
            offsets.push(self.offset(offsets.len())?);
            let complete = offsets.len() == self.dimensions;
            if self.is_symbol(Symbol::Comma) {
                if complete {
                    return self.complain(12);
                }
                self.advance();
            } else if self.is_symbol(Symbol::CloseBracket) && !complete {
                return self.complain(12);
            } else {
                self.close(Symbol::CloseBracket)?;
                break;
            }
        }
        let field = if self.named {
            self.field_reference(false)?
        } else {
            self.no_field_here()?;
            0
        };
        self.put(first, field as u32, self.at as u32);
        Ok(Expression::Near(offsets.into_boxed_slice(), field))
    }

    /// "An element of a relative index is a signed constant or a visible
    /// index variable without sign." What follows it is a comma or `]`:
    /// `[` and `.` are 7 there.
    fn offset(&mut self, dimension: usize) -> Read<Offset> {
        let place = self.place();
        let first = self.at;
        let sign = self.sign();
        let index = if self.is_name() && sign.is_none() {
            self.names
                .find(&self.spelling())
                .filter(|entry| entry.record.kind == INDEX)
        } else {
            None
        };
        let (low, high, offset) = match index {
            Some(entry) => {
                let found = (entry.low, entry.high, Offset::Slot(entry.slot));
                let depth = entry.noted;
                self.put(first, INDEX, depth);
                self.advance();
                found
            }
            None => {
                let value = self.constant()?;
                let value = if sign == Some(true) { -value } else { value };
                self.table[first][3] = value as u32;
                (value, value, Offset::Fixed(value))
            }
        };
        self.written.push(Written {
            place,
            dimension,
            low,
            high,
        });
        Ok(offset)
    }
}
