//! Numbers, strings and bytearrays, as in lexer.rs and `parse_bytearray`.

use crate::records::{kind, Pos, Read, Reader};

const HIGHEST: i128 = 9_223_372_036_854_775_807;

impl Reader {
    fn int(&mut self, pos: Pos, value: i128) -> Read<u32> {
        if value > HIGHEST {
            return self.refuse(14);
        }
        self.make_int(pos, value as u64)
    }

    /// An int64 in two's complement: its low half, its high half.
    pub fn make_int(&mut self, pos: Pos, value: u64) -> Read<u32> {
        self.make(kind::INT, pos, [value as u32, (value >> 32) as u32, 0, 0])
    }

    /// After `0x` or `0b`.
    pub fn based(&mut self, pos: Pos, radix: u32) -> Read<u32> {
        if !self.peek().is_digit(radix) {
            return self.refuse(16);
        }
        let mut value: i128 = 0;
        loop {
            if self.peek() == '_' {
                if !self.peek_by(1).is_digit(radix) {
                    return self.refuse(17);
                }
                self.eat();
                continue;
            }
            let Some(digit) = self.peek().to_digit(radix) else { break };
            // 15 "at the digit which would reach 2 to the 127th".
            match value.checked_mul(radix as i128).and_then(|v| v.checked_add(digit as i128)) {
                Some(more) => value = more,
                None => return self.refuse(15),
            }
            self.eat();
        }
        self.int(pos, value)
    }

    /// "Digits with single `_` between digits." False where no digit comes first.
    fn digits(&mut self) -> Read<bool> {
        if !self.peek().is_ascii_digit() {
            return Ok(false);
        }
        loop {
            if self.peek() == '_' {
                if !self.peek_by(1).is_ascii_digit() {
                    return self.refuse(17);
                }
            } else if !self.peek().is_ascii_digit() {
                return Ok(true);
            }
            self.eat();
        }
    }

    pub fn decimal(&mut self, pos: Pos) -> Read<u32> {
        let from = self.index;
        let mut float = false;
        self.digits()?;
        if self.peek() == '.' && self.peek_by(1) == '_' {
            return self.refuse(17);
        }
        if self.peek() == '.' && self.peek_by(1).is_ascii_digit() {
            float = true;
            self.eat();
            self.digits()?;
        }
        if self.takes("e") || self.takes("E") {
            float = true;
            let _ = self.takes("+") || self.takes("-");
            if !self.digits()? {
                return self.refuse(18);
            }
        }
        if float {
            let span = self.span_from(from);
            return self.make(kind::FLOAT, pos, [span, 0, 0, 0]);
        }
        let mut value: i128 = 0;
        for digit in self.chars[from..self.index].iter().filter_map(|ch| ch.to_digit(10)) {
            value = (value * 10 + digit as i128).min(HIGHEST + 1);
        }
        self.int(pos, value)
    }

    /// A string's decoded characters and its span, quotes included.
    pub fn string(&mut self) -> Read<(String, u32)> {
        let from = self.index;
        let quote = self.eat();
        let mut out = String::new();
        loop {
            if self.at_end() {
                return self.refuse(19);
            }
            let ch = self.eat();
            if ch == quote {
                return Ok((out, self.span_from(from)));
            }
            out.push(if ch == '\\' { self.escape()? } else { ch });
        }
    }

    fn escape(&mut self) -> Read<char> {
        let ch = self.eat();
        match ch {
            'x' => {
                let high = self.eat().to_digit(16);
                let low = self.eat().to_digit(16);
                match (high, low) {
                    (Some(high), Some(low)) if high < 8 => Ok((high * 16 + low) as u8 as char),
                    _ => self.refuse(20),
                }
            }
            'u' => self.unicode(),
            _ => match plain_escape(ch) {
                Some(ch) => Ok(ch),
                None => self.refuse(20),
            },
        }
    }

    /// "`\u{}` with 1 to 6 hex digits naming a Unicode scalar value."
    fn unicode(&mut self) -> Read<char> {
        if !self.takes("{") {
            return self.refuse(20);
        }
        let mut value = 0;
        let mut count = 0;
        while let Some(digit) = self.peek().to_digit(16) {
            if count == 6 {
                return self.refuse(20);
            }
            self.eat();
            value = value * 16 + digit;
            count += 1;
        }
        if count == 0 || !self.takes("}") {
            return self.refuse(20);
        }
        match char::from_u32(value) {
            Some(ch) => Ok(ch),
            None => self.refuse(20),
        }
    }

    /// After `#[`. Only the last byte so far matters to the reading.
    pub fn bytearray(&mut self, pos: Pos) -> Read<u32> {
        let from = self.index - 2;
        let mut last = None;
        loop {
            self.blanks()?;
            if self.at_end() {
                return self.refuse(19);
            }
            if self.takes("]") {
                let span = self.span_from(from);
                return self.make(kind::BYTES, pos, [span, 0, 0, 0]);
            }
            if self.eat() != '\\' {
                return self.refuse(21);
            }
            match self.eat() {
                'a' => self.ascii_run(&mut last)?,
                'x' => self.hex_run(&mut last)?,
                'b' => self.binary_run(&mut last)?,
                _ => return self.refuse(21),
            }
        }
    }

    fn ascii_run(&mut self, last: &mut Option<u8>) -> Read<()> {
        loop {
            let ch = self.peek();
            if ch == ']' || ["\\x", "\\b", "//", "/*"].iter().any(|word| self.sees(word)) {
                return Ok(());
            }
            if ch == '\r' || ch == '\n' {
                return if *last == Some(b' ') { self.refuse(21) } else { Ok(()) };
            }
            if ch == '\t' {
                return self.refuse(21);
            }
            if ch == '\\' {
                self.eat();
                match plain_escape(self.eat()) {
                    Some(ch) => *last = Some(ch as u8),
                    None => return self.refuse(21),
                }
                continue;
            }
            if !(' '..='~').contains(&ch) {
                return Ok(());
            }
            self.eat();
            *last = Some(ch as u8);
        }
    }

    fn hex_run(&mut self, last: &mut Option<u8>) -> Read<()> {
        loop {
            self.blanks()?;
            if !self.peek().is_ascii_alphanumeric() {
                return Ok(());
            }
            let high = self.eat().to_digit(16);
            let low = self.eat().to_digit(16);
            match (high, low) {
                (Some(high), Some(low)) => *last = Some((high * 16 + low) as u8),
                _ => return self.refuse(21),
            }
        }
    }

    fn binary_run(&mut self, last: &mut Option<u8>) -> Read<()> {
        loop {
            self.blanks()?;
            if !matches!(self.peek(), '0' | '1') {
                return Ok(());
            }
            let mut byte = 0;
            for _ in 0..8 {
                match self.eat().to_digit(2) {
                    Some(bit) => byte = byte * 2 + bit,
                    None => return self.refuse(21),
                }
            }
            *last = Some(byte as u8);
        }
    }
}

fn plain_escape(ch: char) -> Option<char> {
    match ch {
        '\\' | '\'' | '"' => Some(ch),
        't' => Some('\t'),
        'r' => Some('\r'),
        'n' => Some('\n'),
        '0' => Some('\0'),
        _ => None,
    }
}
