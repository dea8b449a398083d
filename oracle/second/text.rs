//! Characters, blanks, tokens and names, as in lexer.rs.

use crate::records::{Pos, Read, Reader};

/// The 28 words of `is_reserved`.
const RESERVED: [&str; 28] = [
    "true", "false", "nil", "let", "var", "fun", "class", "extends", "if", "else", "loop", "while", "for", "return",
    "break", "continue", "assert", "instanceof", "import", "try", "catch", "finally", "throw", "yield", "do", "in",
    "match", "export",
];

/// A name as it stands in the text: its characters, and its span in one word.
pub struct Name {
    pub word: String,
    pub span: u32,
}

fn opens_name(ch: char) -> bool {
    ch.is_ascii_alphabetic() || ch == '_'
}

fn continues_name(ch: char) -> bool {
    ch.is_ascii_alphanumeric() || ch == '_'
}

impl Reader {
    pub fn pos(&self) -> Pos {
        Pos { offset: self.offsets[self.index], line: self.line, column: self.column }
    }

    /// The span from a character to here: the first offset, and 65,536 times the offset after the last.
    pub fn span_from(&self, index: usize) -> u32 {
        self.offsets[index] + 65_536 * self.offsets[self.index]
    }

    pub fn at_end(&self) -> bool {
        self.index >= self.chars.len()
    }

    /// "Reading past the end yields NUL and still moves the column."
    pub fn peek_by(&self, ahead: usize) -> char {
        self.chars.get(self.index + ahead).copied().unwrap_or('\0')
    }

    pub fn peek(&self) -> char {
        self.peek_by(0)
    }

    pub fn eat(&mut self) -> char {
        let ch = self.peek();
        self.index += 1;
        if ch == '\n' {
            self.line += 1;
            self.column = 1;
        } else {
            self.column += 1;
        }
        ch
    }

    /// Whether the text goes on with these very characters. A NUL past its end is no character.
    pub fn sees(&self, word: &str) -> bool {
        word.chars().enumerate().all(|(at, ch)| self.chars.get(self.index + at) == Some(&ch))
    }

    /// Takes these characters if they come next; blanks aren't skipped.
    pub fn takes(&mut self, word: &str) -> bool {
        let seen = self.sees(word);
        if seen {
            for _ in word.chars() {
                self.eat();
            }
        }
        seen
    }

    pub fn line_comment(&mut self) {
        while !self.at_end() && self.eat() != '\n' {}
    }

    /// Nested; 19 where it isn't closed.
    fn long_comment(&mut self) -> Read<()> {
        let mut depth = 1;
        while depth > 0 {
            if self.at_end() {
                return self.refuse(19);
            }
            if self.takes("/*") {
                depth += 1;
            } else if self.takes("*/") {
                depth -= 1;
            } else {
                self.eat();
            }
        }
        Ok(())
    }

    /// "Blank is space, tab, LF, FF, CR (not VT), `//` to line end, and nested `/* */`."
    pub fn blanks(&mut self) -> Read<()> {
        while !self.at_end() {
            if self.takes("//") {
                self.line_comment();
            } else if self.takes("/*") {
                self.long_comment()?;
            } else if matches!(self.peek(), ' ' | '\t' | '\n' | '\x0c' | '\r') {
                self.eat();
            } else {
                break;
            }
        }
        Ok(())
    }

    /// Skips blanks, and takes the token if it comes next.
    pub fn token(&mut self, word: &str) -> Read<bool> {
        self.blanks()?;
        Ok(self.takes(word))
    }

    /// "A keyword isn't followed by a letter, digit or `_`."
    pub fn keyword(&mut self, word: &str) -> Read<bool> {
        self.blanks()?;
        Ok(!continues_name(self.peek_by(word.len())) && self.takes(word))
    }

    pub fn expect(&mut self, word: &str) -> Read<()> {
        if self.token(word)? {
            Ok(())
        } else {
            self.refuse(10)
        }
    }

    /// A name directly here; 11 where there is none. Reserved words are fine.
    pub fn any_name(&mut self) -> Read<Name> {
        let from = self.index;
        if !self.opens_name() {
            return self.refuse(11);
        }
        while continues_name(self.peek()) {
            self.eat();
        }
        Ok(Name { word: self.chars[from..self.index].iter().collect(), span: self.span_from(from) })
    }

    /// A name that isn't reserved; 12 at its start where it is.
    pub fn free_name(&mut self) -> Read<Name> {
        let pos = self.pos();
        let name = self.any_name()?;
        if RESERVED.contains(&name.word.as_str()) {
            return self.refuse_at(12, pos);
        }
        Ok(name)
    }

    pub fn opens_name(&self) -> bool {
        opens_name(self.peek())
    }
}
