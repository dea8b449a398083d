//! Expressions, as in parser.rs: atoms, postfix chains, prefix operators, chains of operators, choices, lambdas.

use crate::records::{kind, Pos, Read, Reader};

/// The engine's BIN_OPS: sign and strength, the lower the tighter. An operator's number is its turn here, from 1.
const BINARY: [(&str, u32); 18] = [
    ("*", 3), ("/", 3), ("%", 3), ("+", 4), ("-", 4), ("<<", 5), (">>", 5), ("<=", 6), ("<", 6), (">=", 6), (">", 6),
    ("==", 7), ("!=", 7), ("&&", 11), ("||", 12), ("&", 8), ("^", 9), ("|", 10),
];
pub const PLUS: u32 = 4;
pub const MINUS: u32 = 5;

/// The engine's ASSIGN_OPS, with the number of the binary operator, or 0 for the plain `=`.
const ASSIGN: [(&str, u32); 11] = [
    ("<<=", 6), (">>=", 7), ("*=", 1), ("/=", 2), ("%=", 3), ("+=", 4), ("-=", 5), ("&=", 16), ("^=", 17), ("|=", 18),
    ("=", 0),
];

/// The strength of `?`: weaker than every operator.
const CHOICE: u32 = 13;

/// The signs of a unary record.
const NEGATED: u32 = 1;
const NOT: u32 = 2;

/// Operands and operators that wait for their right side.
struct Chain {
    operands: Vec<u32>,
    operators: Vec<(u32, u32)>,
}

impl Reader {
    /// An expression, one level higher. An assignment sign after it is 25, unless `before_assignment`.
    pub fn expression(&mut self, before_assignment: bool) -> Read<u32> {
        self.deeper(|reader| reader.chain(before_assignment))
    }

    fn chain(&mut self, before_assignment: bool) -> Read<u32> {
        let first = self.prefix()?;
        let mut chain = Chain { operands: vec![first], operators: Vec::new() };
        while !self.at_end() {
            if self.token("?")? {
                self.fold(&mut chain, CHOICE)?;
                return self.choice(chain.operands[0]);
            }
            let Some((operator, strength)) = self.binary_sign()? else {
                if !before_assignment && self.assignment_sign().is_some() {
                    return self.refuse(25);
                }
                break;
            };
            self.fold(&mut chain, strength)?;
            chain.operators.push((operator, strength));
            let operand = self.prefix()?;
            chain.operands.push(operand);
        }
        self.fold(&mut chain, CHOICE)?;
        Ok(chain.operands[0])
    }

    /// Makes the binaries whose operator binds at least as tightly as this strength.
    fn fold(&mut self, chain: &mut Chain, strength: u32) -> Read<()> {
        while chain.operators.last().is_some_and(|top| top.1 <= strength) {
            let (operator, _) = chain.operators.pop().expect("an operator");
            let right = chain.operands.pop().expect("its right operand");
            let left = chain.operands.pop().expect("its left operand");
            let made = self.binary(operator, left, right)?;
            chain.operands.push(made);
        }
        Ok(())
    }

    /// "Binary and choice take their leftmost operand's" position.
    pub fn binary(&mut self, operator: u32, left: u32, right: u32) -> Read<u32> {
        self.make(kind::BINARY, self.pos_of(left), [operator, left, right, 0])
    }

    fn choice(&mut self, test: u32) -> Read<u32> {
        let then = self.expression(false)?;
        self.expect(":")?;
        let other = self.expression(false)?;
        self.make(kind::CHOICE, self.pos_of(test), [test, then, other, 0])
    }

    /// The assignment sign that comes next: its length and its operator.
    fn assignment_sign(&self) -> Option<(usize, u32)> {
        let found = ASSIGN.iter().find(|(sign, _)| self.sees(sign) && !(*sign == "=" && self.sees("==")));
        found.map(|(sign, operator)| (sign.len(), *operator))
    }

    /// Takes an assignment sign, after blanks.
    pub fn take_assignment(&mut self) -> Read<Option<u32>> {
        self.blanks()?;
        let Some((length, operator)) = self.assignment_sign() else { return Ok(None) };
        for _ in 0..length {
            self.eat();
        }
        Ok(Some(operator))
    }

    /// Takes a binary operator, after blanks; an assignment sign is left alone.
    fn binary_sign(&mut self) -> Read<Option<(u32, u32)>> {
        self.blanks()?;
        if self.assignment_sign().is_some() {
            return Ok(None);
        }
        for (at, (sign, strength)) in BINARY.iter().enumerate() {
            if self.takes(sign) {
                return Ok(Some((at as u32 + 1, *strength)));
            }
        }
        Ok(None)
    }

    /// "Each prefix operator reads its operand by the same rule again", one level higher.
    fn prefix(&mut self) -> Read<u32> {
        self.blanks()?;
        let pos = self.pos();
        if self.sees("++") || self.sees("--") {
            return self.refuse(23);
        }
        if self.takes("!") {
            let operand = self.deeper(Reader::prefix)?;
            return self.make(kind::UNARY, pos, [NOT, operand, 0, 0]);
        }
        if self.takes("-") {
            let operand = self.deeper(Reader::prefix)?;
            return self.negated(operand);
        }
        if self.takes("+") {
            let operand = self.deeper(Reader::prefix)?;
            return match self.kind_of(operand) {
                kind::INT | kind::FLOAT => Ok(operand),
                _ => self.refuse(24),
            };
        }
        self.postfix()
    }

    /// "A negated literal is a second record." "Minus its operand's" position.
    fn negated(&mut self, operand: u32) -> Read<u32> {
        let pos = self.pos_of(operand);
        let row = self.rows[operand as usize - 1];
        match row[0] {
            kind::INT => {
                let value = row[4] as u64 | (row[5] as u64) << 32;
                self.make_int(pos, value.wrapping_neg())
            }
            kind::FLOAT => self.make(kind::FLOAT, pos, [row[4], 1 - row[5], 0, 0]),
            _ => self.make(kind::UNARY, pos, [NEGATED, operand, 0, 0]),
        }
    }

    pub fn postfix(&mut self) -> Read<u32> {
        let mut base = self.atom()?;
        loop {
            self.blanks()?;
            let pos = self.pos();
            if self.takes("(") {
                let arguments = self.expressions(")")?;
                // "Arguments: at most 254."
                if arguments.count > 254 {
                    return self.refuse(31);
                }
                base = self.make(kind::CALL, pos, [base, arguments.last, 0, 0])?;
            } else if self.takes("[") {
                let index = self.expression(false)?;
                self.expect("]")?;
                base = self.make(kind::INDEX, pos, [base, index, 0, 0])?;
            } else if self.takes(".") {
                let name = self.any_name()?;
                base = self.make(kind::MEMBER, pos, [base, name.span, 0, 0])?;
            } else if self.keyword("instanceof")? {
                self.blanks()?;
                let name = self.any_name()?;
                base = self.make(kind::INSTANCEOF, pos, [base, name.span, 0, 0])?;
            } else if self.takes("++") || self.takes("--") {
                return self.refuse(22);
            } else {
                return Ok(base);
            }
        }
    }

    fn atom(&mut self) -> Read<u32> {
        self.blanks()?;
        let pos = self.pos();
        if self.takes("0x") {
            return self.based(pos, 16);
        }
        if self.takes("0b") {
            return self.based(pos, 2);
        }
        if self.peek().is_ascii_digit() {
            return self.decimal(pos);
        }
        for (word, number) in [("true", kind::TRUE), ("false", kind::FALSE), ("nil", kind::NIL)] {
            if self.keyword(word)? {
                return self.make(number, pos, [0; 4]);
            }
        }
        match self.peek() {
            '"' | '\'' => {
                let (_, span) = self.string()?;
                self.make(kind::STRING, pos, [span, 0, 0, 0])
            }
            '|' => self.lambda(pos),
            _ if self.opens_name() => {
                let name = self.free_name()?;
                self.make(kind::NAME, pos, [name.span, 0, 0, 0])
            }
            _ => self.bracketed(pos),
        }
    }

    /// The atoms that open with a sign of their own; 13 where there is none.
    fn bracketed(&mut self, pos: Pos) -> Read<u32> {
        if self.takes("(") {
            let inner = self.expression(false)?;
            self.expect(")")?;
            return Ok(inner);
        }
        if self.takes("[") {
            let list = self.expressions("]")?;
            return self.make(kind::ARRAY, pos, [list.last, 0, 0, 0]);
        }
        if self.takes("{") {
            return self.dictionary(pos);
        }
        if self.takes("#[") {
            return self.bytearray(pos);
        }
        if self.takes("$") {
            let name = self.any_name()?;
            return self.make(kind::HOST, pos, [name.span, 0, 0, 0]);
        }
        self.refuse(13)
    }

    /// A lambda, tested before its `|`. An implied return stands at the `|` too.
    fn lambda(&mut self, pos: Pos) -> Read<u32> {
        let fun = self.deeper(|reader| {
            reader.expect("|")?;
            let parameters = reader.parameters("|")?;
            reader.blanks()?;
            let body = if reader.peek() == '{' {
                reader.block()?
            } else {
                let value = reader.expression(false)?;
                reader.make(kind::RETURN, pos, [value, 0, 0, 0])?
            };
            let id = reader.next_id();
            reader.make(kind::FUN, pos, [id, 0, parameters.last, body])
        })?;
        self.make(kind::CLOSURE, pos, [fun, 0, 0, 0])
    }
}
