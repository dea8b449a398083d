//! Lists: expressions, dictionaries, parameters. Each item follows its element and refers to the item before it.

use crate::records::{kind, Pos, Read, Reader};

/// A list that was read: its last item or 0, and how many it has.
pub struct List {
    pub last: u32,
    pub count: usize,
}

impl Reader {
    /// Blanks, then 19 at the end of the text, then whether the list is closed.
    pub fn closes(&mut self, end: &str) -> Read<bool> {
        self.blanks()?;
        if self.at_end() {
            return self.refuse(19);
        }
        self.token(end)
    }

    /// After an element: the end, or a comma.
    fn closes_after(&mut self, end: &str) -> Read<bool> {
        if self.token(end)? {
            return Ok(true);
        }
        self.expect(",")?;
        Ok(false)
    }

    pub fn expressions(&mut self, end: &str) -> Read<List> {
        let mut list = List { last: 0, count: 0 };
        while !self.closes(end)? {
            let element = self.expression(false)?;
            list.last = self.item(kind::ITEM, [element, list.last, 0])?;
            list.count += 1;
            if self.closes_after(end)? {
                break;
            }
        }
        Ok(list)
    }

    /// After `{`. "Values compare by decoded characters."
    pub fn dictionary(&mut self, pos: Pos) -> Read<u32> {
        let mut keys: Vec<String> = Vec::new();
        let mut last = 0;
        while !self.closes("}")? {
            let (key, span) = if matches!(self.peek(), '"' | '\'') {
                self.string()?
            } else {
                let name = self.any_name()?;
                (name.word, name.span)
            };
            if self.is_among(&key, &keys)? {
                return self.refuse(30);
            }
            keys.push(key);
            let value = if self.token(":")? {
                self.expression(false)?
            } else {
                self.make(kind::TRUE, pos, [0; 4])?
            };
            last = self.item(kind::PAIR, [value, last, span])?;
            if self.closes_after("}")? {
                break;
            }
        }
        self.make(kind::DICT, pos, [last, 0, 0, 0])
    }

    /// Parameters up to `)` or `|`. 31 after the closing sign.
    pub fn parameters(&mut self, end: &str) -> Read<List> {
        let mut names: Vec<String> = Vec::new();
        let mut last = 0;
        while !self.closes(end)? {
            let name = self.free_name()?;
            if self.is_among(&name.word, &names)? {
                return self.refuse(30);
            }
            names.push(name.word);
            last = self.item(kind::PARAM, [name.span, last, 0])?;
            if self.closes_after(end)? {
                break;
            }
        }
        if names.len() > 255 {
            return self.refuse(31);
        }
        Ok(List { last, count: names.len() })
    }
}
