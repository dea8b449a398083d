//! Statements, functions, classes and the unit, as in parser.rs.

use crate::expressions::{MINUS, PLUS};
use crate::lists::List;
use crate::records::{kind, Pos, Read, Reader};

/// The names of the unit so far, and the next global number.
#[derive(Default)]
struct Unit {
    classes: Vec<String>,
    functions: Vec<String>,
    globals: u32,
}

impl Reader {
    /// A statement, one level higher.
    fn statement(&mut self) -> Read<u32> {
        self.deeper(|reader| {
            reader.blanks()?;
            let pos = reader.pos();
            reader.statement_at(pos)
        })
    }

    fn statement_at(&mut self, pos: Pos) -> Read<u32> {
        if self.keyword("return")? {
            return self.return_value(pos);
        }
        for (word, number) in [("break", kind::BREAK), ("continue", kind::CONTINUE)] {
            if self.keyword(word)? {
                self.expect(";")?;
                return self.make(number, pos, [0; 4]);
            }
        }
        if self.keyword("if")? {
            return self.if_else(pos);
        }
        if self.keyword("loop")? {
            let body = self.control_body()?;
            return self.make_for(pos, [0, 0, 0, body]);
        }
        if self.keyword("while")? {
            let test = self.in_parentheses()?;
            let body = self.control_body()?;
            return self.make_for(pos, [0, test, 0, body]);
        }
        if self.keyword("for")? {
            return self.for_loop(pos);
        }
        if self.keyword("assert")? {
            let test = self.in_parentheses()?;
            self.expect(";")?;
            return self.make(kind::ASSERT, pos, [test, 0, 0, 0]);
        }
        if self.peek() == '{' {
            return self.block();
        }
        if self.keyword("let")? {
            return self.let_value(pos);
        }
        if self.keyword("fun")? {
            return self.fun_statement(pos);
        }
        if self.peek() == ';' {
            return self.refuse(29);
        }
        self.call_or_assignment(";")
    }

    fn return_value(&mut self, pos: Pos) -> Read<u32> {
        let value = if self.token(";")? {
            self.make(kind::NIL, pos, [0; 4])?
        } else {
            let value = self.expression(false)?;
            self.expect(";")?;
            value
        };
        self.make(kind::RETURN, pos, [value, 0, 0, 0])
    }

    fn in_parentheses(&mut self) -> Read<u32> {
        self.expect("(")?;
        let test = self.expression(false)?;
        self.expect(")")?;
        Ok(test)
    }

    /// 28: "the body statement's" position.
    fn control_body(&mut self) -> Read<u32> {
        let body = self.statement()?;
        if self.kind_of(body) == kind::LET {
            return self.refuse_at(28, self.pos_of(body));
        }
        Ok(body)
    }

    fn if_else(&mut self, pos: Pos) -> Read<u32> {
        let test = self.in_parentheses()?;
        let then = self.control_body()?;
        let other = if self.keyword("else")? { self.control_body()? } else { 0 };
        self.make(kind::IF, pos, [test, then, other, 0])
    }

    fn for_loop(&mut self, pos: Pos) -> Read<u32> {
        self.expect("(")?;
        let first = if self.token(";")? { 0 } else { self.statement()? };
        let test = if self.token(";")? {
            0
        } else {
            let test = self.expression(false)?;
            self.expect(";")?;
            test
        };
        // "The third part of `for` [...] add[s] none."
        let third = if self.token(")")? { 0 } else { self.call_or_assignment(")")? };
        let body = self.control_body()?;
        self.make_for(pos, [first, test, third, body])
    }

    /// "Implied literals come just before their holder": here a `true` where there is no test.
    fn make_for(&mut self, pos: Pos, parts: [u32; 4]) -> Read<u32> {
        let [first, mut test, third, body] = parts;
        if test == 0 {
            test = self.make(kind::TRUE, pos, [0; 4])?;
        }
        self.make(kind::FOR, pos, [first, test, third, body])
    }

    fn let_value(&mut self, pos: Pos) -> Read<u32> {
        let mutable = self.keyword("var")?;
        self.blanks()?;
        let name = self.free_name()?;
        self.expect("=")?;
        let value = self.expression(false)?;
        self.expect(";")?;
        self.make(kind::LET, pos, [mutable as u32, name.span, value, 0])
    }

    fn fun_statement(&mut self, pos: Pos) -> Read<u32> {
        self.blanks()?;
        let name = self.free_name()?;
        let (fun, _) = self.function(name.span, pos)?;
        let closure = self.make(kind::CLOSURE, pos, [fun, 0, 0, 0])?;
        self.make(kind::LET, pos, [0, name.span, closure, 0])
    }

    /// "Targets are names, members, indexes."
    fn check_target(&mut self, target: u32) -> Read<()> {
        match self.kind_of(target) {
            kind::NAME | kind::MEMBER | kind::INDEX => Ok(()),
            _ => self.refuse_at(26, self.pos_of(target)),
        }
    }

    fn call_or_assignment(&mut self, end: &str) -> Read<u32> {
        self.blanks()?;
        let pos = self.pos();
        for (sign, operator) in [("++", PLUS), ("--", MINUS)] {
            if self.takes(sign) {
                return self.step(pos, operator, end);
            }
        }
        let left = self.expression(true)?;
        if let Some(operator) = self.take_assignment()? {
            self.check_target(left)?;
            let mut right = self.expression(false)?;
            self.expect(end)?;
            if operator != 0 {
                right = self.binary(operator, left, right)?;
            }
            return self.make(kind::ASSIGN, pos, [left, right, 0, 0]);
        }
        self.expect(end)?;
        if self.kind_of(left) != kind::CALL {
            return self.refuse_at(27, self.pos_of(left));
        }
        self.make(kind::DO, pos, [left, 0, 0, 0])
    }

    /// After `++` or `--`. "The binary of `op=` or `++` follows the end token."
    fn step(&mut self, pos: Pos, operator: u32, end: &str) -> Read<u32> {
        let target = self.postfix()?;
        self.check_target(target)?;
        self.expect(end)?;
        let one = self.make_int(self.pos_of(target), 1)?;
        let sum = self.binary(operator, target, one)?;
        self.make(kind::ASSIGN, pos, [target, sum, 0, 0])
    }

    /// The end of the text is tested before blanks.
    pub fn block(&mut self) -> Read<u32> {
        self.blanks()?;
        let pos = self.pos();
        self.expect("{")?;
        let mut last = 0;
        loop {
            if self.at_end() {
                return self.refuse(19);
            }
            if self.token("}")? {
                return self.make(kind::BLOCK, pos, [last, 0, 0, 0]);
            }
            let statement = self.statement()?;
            last = self.item(kind::STATED, [statement, last, 0])?;
        }
    }

    /// A function after its name, one level higher: its record, and its parameters.
    fn function(&mut self, name: u32, pos: Pos) -> Read<(u32, List)> {
        self.deeper(|reader| {
            reader.expect("(")?;
            let parameters = reader.parameters(")")?;
            let body = reader.block()?;
            let id = reader.next_id();
            let fun = reader.make(kind::FUN, pos, [id, name, parameters.last, body])?;
            Ok((fun, parameters))
        })
    }

    /// After `class`: the class and its declaration. 30 stands at the class's start.
    fn class(&mut self, pos: Pos, unit: &mut Unit) -> Read<u32> {
        self.blanks()?;
        let name = self.free_name()?;
        if self.is_among(&name.word, &unit.classes)? {
            return self.refuse_at(30, pos);
        }
        let mut parent = 0;
        if self.keyword("extends")? {
            self.blanks()?;
            parent = self.free_name()?.span;
        }
        self.expect("{")?;
        let last = self.methods()?;
        let id = self.next_id();
        let class = self.make(kind::CLASS, pos, [id, name.span, parent, last])?;
        unit.classes.push(name.word);
        self.make(kind::CLASSDECL, pos, [class, 0, 0, 0])
    }

    /// The methods up to `}`: the last item. 32: `init` without parameter.
    fn methods(&mut self) -> Read<u32> {
        let mut names: Vec<String> = Vec::new();
        let mut last = 0;
        while !self.closes("}")? {
            let pos = self.pos();
            let name = self.any_name()?;
            if self.is_among(&name.word, &names)? {
                return self.refuse(30);
            }
            let (fun, parameters) = self.function(name.span, pos)?;
            if name.word == "init" && parameters.count == 0 {
                return self.refuse(32);
            }
            names.push(name.word);
            last = self.item(kind::METHOD, [fun, last, 0])?;
        }
        Ok(last)
    }

    /// The whole unit. The file form "first skips a line opening with `#!`".
    pub fn unit(&mut self, file_form: bool) -> Read<()> {
        if file_form && self.takes("#!") {
            self.line_comment();
        }
        self.blanks()?;
        let start = self.pos();
        if self.keyword("from")? {
            return self.refuse_at(4, start);
        }
        let mut unit = Unit::default();
        let mut last = 0;
        loop {
            self.blanks()?;
            if self.at_end() {
                break;
            }
            last = self.unit_item(&mut unit, last)?;
        }
        let body = self.make(kind::BLOCK, start, [last, 0, 0, 0])?;
        let id = self.next_id();
        self.make(kind::FUN, start, [id, 0, 0, body])?;
        Ok(())
    }

    fn unit_item(&mut self, unit: &mut Unit, last: u32) -> Read<u32> {
        let pos = self.pos();
        if self.keyword("class")? {
            let class = self.deeper(|reader| reader.class(pos, unit))?;
            return self.item(kind::STATED, [class, last, 0]);
        }
        let statement = self.statement()?;
        let row = self.rows[statement as usize - 1];
        if row[0] == kind::LET && self.kind_of(row[6]) == kind::CLOSURE {
            let name = self.word_of(row[5]);
            if self.is_among(&name, &unit.functions)? {
                return self.refuse_at(30, self.pos_of(statement));
            }
            unit.functions.push(name);
        } else if row[0] == kind::LET && row[4] == 0 {
            let number = unit.globals;
            unit.globals += 1;
            return self.item(kind::GLOBAL, [statement, last, number]);
        }
        self.item(kind::STATED, [statement, last, 0])
    }

    /// The characters of a name's span.
    fn word_of(&self, span: u32) -> String {
        let within = |at: &usize| (span % 65_536..span / 65_536).contains(&self.offsets[*at]);
        let from = self.offsets.partition_point(|offset| *offset < span % 65_536);
        (from..self.chars.len()).take_while(within).map(|at| self.chars[at]).collect()
    }
}
