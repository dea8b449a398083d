//! Records, limits and counts. "Limits, records, counts and refusals 1 to 7 are added here and aren't Plush's."

/// A record: kind, position (byte offset, line, column), four fields. Items have the position 0, 0:0.
pub type Row = [u32; 8];

/// The kinds by number. Those from ITEM on are listed as `item`.
pub mod kind {
    pub const TRUE: u32 = 1;
    pub const FALSE: u32 = 2;
    pub const NIL: u32 = 3;
    pub const INT: u32 = 4;
    pub const FLOAT: u32 = 5;
    pub const STRING: u32 = 6;
    pub const BYTES: u32 = 7;
    pub const ARRAY: u32 = 8;
    pub const DICT: u32 = 9;
    pub const NAME: u32 = 10;
    pub const HOST: u32 = 11;
    pub const CLOSURE: u32 = 12;
    pub const INDEX: u32 = 13;
    pub const MEMBER: u32 = 14;
    pub const INSTANCEOF: u32 = 15;
    pub const UNARY: u32 = 16;
    pub const BINARY: u32 = 17;
    pub const CHOICE: u32 = 18;
    pub const CALL: u32 = 19;
    pub const DO: u32 = 20;
    pub const ASSIGN: u32 = 21;
    pub const RETURN: u32 = 22;
    pub const ASSERT: u32 = 23;
    pub const BREAK: u32 = 24;
    pub const CONTINUE: u32 = 25;
    pub const BLOCK: u32 = 26;
    pub const IF: u32 = 27;
    pub const FOR: u32 = 28;
    pub const LET: u32 = 29;
    pub const CLASSDECL: u32 = 30;
    pub const FUN: u32 = 31;
    pub const CLASS: u32 = 32;
    /// an element of an array, or an argument
    pub const ITEM: u32 = 33;
    pub const PARAM: u32 = 34;
    pub const PAIR: u32 = 35;
    /// a statement of the unit with a global number
    pub const GLOBAL: u32 = 36;
    /// a statement of a block or of the unit
    pub const STATED: u32 = 37;
    pub const METHOD: u32 = 38;
}

#[derive(Clone, Copy)]
pub struct Limits {
    pub records: u32,
    pub nesting: u32,
    pub comparisons: u32,
}

#[derive(Clone, Copy)]
pub struct Pos {
    pub offset: u32,
    pub line: u32,
    pub column: u32,
}

pub const NOWHERE: Pos = Pos { offset: 0, line: 0, column: 0 };

pub struct Refusal {
    pub number: u32,
    pub line: u32,
    pub column: u32,
}

pub type Read<T> = Result<T, Refusal>;

/// The text, how far it is read, and what has been made.
pub struct Reader {
    pub chars: Vec<char>,
    /// The byte offset of each character, and of the end.
    pub offsets: Vec<u32>,
    pub index: usize,
    pub line: u32,
    pub column: u32,
    pub limits: Limits,
    pub level: u32,
    pub rows: Vec<Row>,
    pub comparisons: u32,
    pub ids: u32,
}

impl Reader {
    pub fn new(text: &str, limits: Limits) -> Reader {
        let mut offsets: Vec<u32> = text.char_indices().map(|(at, _)| at as u32).collect();
        offsets.push(text.len() as u32);
        // "The record limit is the number of whole records in the pool, at most 65,535."
        let limits = Limits { records: limits.records.min(65_535), ..limits };
        Reader {
            chars: text.chars().collect(),
            offsets,
            index: 0,
            line: 1,
            column: 1,
            limits,
            level: 0,
            rows: Vec::new(),
            comparisons: 0,
            ids: 0,
        }
    }

    /// A refusal at the place reached.
    pub fn refuse<T>(&self, number: u32) -> Read<T> {
        Err(Refusal { number, line: self.line, column: self.column })
    }

    pub fn refuse_at<T>(&self, number: u32, pos: Pos) -> Read<T> {
        Err(Refusal { number, line: pos.line, column: pos.column })
    }

    /// 6: "one more record would pass its limit". Answers the record's number.
    pub fn make(&mut self, kind: u32, pos: Pos, fields: [u32; 4]) -> Read<u32> {
        if self.rows.len() as u32 == self.limits.records {
            return self.refuse(6);
        }
        let [a, b, c, d] = fields;
        self.rows.push([kind, pos.offset, pos.line, pos.column, a, b, c, d]);
        Ok(self.rows.len() as u32)
    }

    pub fn item(&mut self, kind: u32, fields: [u32; 3]) -> Read<u32> {
        let [a, b, c] = fields;
        self.make(kind, NOWHERE, [a, b, c, 0])
    }

    pub fn kind_of(&self, number: u32) -> u32 {
        self.rows[number as usize - 1][0]
    }

    pub fn pos_of(&self, number: u32) -> Pos {
        let row = &self.rows[number as usize - 1];
        Pos { offset: row[1], line: row[2], column: row[3] }
    }

    /// 5: "one more level would pass its limit". One level higher during `read`.
    pub fn deeper<T>(&mut self, read: impl FnOnce(&mut Reader) -> Read<T>) -> Read<T> {
        if self.level == self.limits.nesting {
            return self.refuse(5);
        }
        self.level += 1;
        let out = read(self)?;
        self.level -= 1;
        Ok(out)
    }

    /// "A new name is compared with the earlier ones of its own kind and list, newest first, up to the first equal."
    /// 7: "one more comparison would pass its limit".
    pub fn is_among(&mut self, name: &str, earlier: &[String]) -> Read<bool> {
        for other in earlier.iter().rev() {
            if self.comparisons == self.limits.comparisons {
                return self.refuse(7);
            }
            self.comparisons += 1;
            if other == name {
                return Ok(true);
            }
        }
        Ok(false)
    }

    /// "FunId and ClassId are kept apart though one counter serves both; 0 means no id."
    pub fn next_id(&mut self) -> u32 {
        self.ids += 1;
        self.ids
    }
}
