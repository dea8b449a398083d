//! The tree listing: the engine's tree as records in 01's order.
//! Children left to right, then their holder; an item after its element.

use crate::ast::*;
use crate::lexer::{Lexer, SrcPos, MAX_COL_NO};
use crate::symbols::Decl;
use std::fmt::Display;
use std::io::Write;

struct Walk<'a>
{
    prog: &'a Program,
    text: &'a str,
    out: &'a mut Vec<u8>,

    // Records written so far
    made: usize,

    // The id before the first one that a unit takes
    base: usize,

    // A clamped column hides what was written
    unclear: bool,
}

/// Write the listing of an accepted unit, or only its last line.
pub fn list(prog: &Program, text: &str, end: SrcPos, brief: bool, out: &mut Vec<u8>)
{
    // Ids start where a fresh program's do
    let first: usize = Program::new().reg_fun(Function::default()).into();

    let start = out.len();
    let mut walk = Walk { prog, text, out, made: 0, base: first - 1, unclear: false };
    walk.fun(prog.main_fn, false);

    let (made, unclear) = (walk.made, walk.unclear);

    if unclear || brief {
        out.truncate(start);
    }

    if unclear {
        out.extend_from_slice(b"unclear\n");
    } else {
        write!(out, "ok {} {}:{}\n", made, end.line_no(), end.col_no()).unwrap();
    }
}

/// The engine's own print of its tree, unchanged: ids, names and positions as
/// it holds them (file:line:column). For looking, not for comparing.
pub fn print_rust(prog: &Program, out: &mut Vec<u8>)
{
    let mut funs: Vec<_> = prog.funs.values().collect();
    funs.sort_by_key(|fun| usize::from(fun.id));
    for fun in funs {
        write!(out, "{:?}\n", fun).unwrap();
    }

    let mut classes: Vec<_> = prog.classes.values().collect();
    classes.sort_by_key(|class| usize::from(class.id));
    for class in classes {
        write!(out, "{:?}\n", class).unwrap();
    }
}

fn sign(op: BinOp) -> &'static str
{
    match op {
        BinOp::BitAnd => "&", BinOp::BitOr => "|", BinOp::BitXor => "^",
        BinOp::LShift => "<<", BinOp::RShift => ">>",
        BinOp::Add => "+", BinOp::Sub => "-", BinOp::Mul => "*", BinOp::Div => "/", BinOp::Mod => "%",
        BinOp::Eq => "==", BinOp::Ne => "!=", BinOp::Lt => "<", BinOp::Le => "<=", BinOp::Gt => ">", BinOp::Ge => ">=",
        BinOp::And => "&&", BinOp::Or => "||",
    }
}

/// A string on one line, so that different strings never print alike.
fn quoted(s: &str) -> String
{
    let mut out = String::from("\"");

    for ch in s.chars() {
        match ch {
            '\\' => out.push_str("\\\\"),
            '"' => out.push_str("\\\""),
            '\n' => out.push_str("\\n"),
            '\r' => out.push_str("\\r"),
            '\t' => out.push_str("\\t"),
            '\0' => out.push_str("\\0"),
            '\x01'..='\x1F' | '\x7F' => out.push_str(&format!("\\x{:02X}", ch as u32)),
            _ => out.push(ch),
        }
    }

    out.push('"');
    out
}

/// The text of the number literal at a place, measured by the engine's lexer.
fn number_at(text: &str, pos: SrcPos) -> &str
{
    if pos.col_no() == MAX_COL_NO {
        return "?";
    }

    let line = text.split('\n').nth(pos.line_no() as usize - 1).unwrap();
    let (start, _) = line.char_indices().nth(pos.col_no() as usize - 1).unwrap();
    let mut input = Lexer::new(&line[start..], "");
    input.read_numeric().unwrap();
    &line[start..start + input.col_no as usize - 1]
}

impl Walk<'_>
{
    /// Write one record and give its number.
    fn record(&mut self, kind: &str, pos: SrcPos, fields: std::fmt::Arguments) -> usize
    {
        self.made += 1;
        write!(self.out, "{} {} {}:{}{}\n", self.made, kind, pos.line_no(), pos.col_no(), fields).unwrap();
        self.made
    }

    fn item(&mut self, element: impl Display, previous: usize, extra: Option<String>) -> usize
    {
        self.made += 1;
        write!(self.out, "{} item {} {}", self.made, element, previous).unwrap();
        if let Some(extra) = extra {
            write!(self.out, " {}", extra).unwrap();
        }
        self.out.push(b'\n');
        self.made
    }

    /// Two positions are those of one place in the text. Past the highest
    /// column this can't be told; then the tree isn't listed.
    fn same_place(&mut self, a: SrcPos, b: SrcPos) -> bool
    {
        if a == b && a.col_no() == MAX_COL_NO {
            self.unclear = true;
        }
        a == b
    }

    fn fun_id(&self, id: FunId) -> usize { usize::from(id) - self.base }
    fn class_id(&self, id: ClassId) -> usize { usize::from(id) - self.base }

    fn exprs(&mut self, exprs: &[ExprBox]) -> usize
    {
        let mut last = 0;
        for expr in exprs {
            let element = self.expr(expr);
            last = self.item(element, last, None);
        }
        last
    }

    fn expr(&mut self, e: &ExprBox) -> usize
    {
        let pos = e.pos;

        match e.expr.as_ref() {
            Expr::True => self.record("true", pos, format_args!("")),
            Expr::False => self.record("false", pos, format_args!("")),
            Expr::Nil => self.record("nil", pos, format_args!("")),
            Expr::Int64(val) => self.record("int", pos, format_args!(" {}", val)),

            Expr::Float64(val) => {
                let span = number_at(self.text, pos);
                let minus = if val.is_sign_negative() { "-" } else { "" };
                self.record("float", pos, format_args!(" {}{} {:016X}", minus, span, val.to_bits()))
            }

            Expr::String(s) => self.record("string", pos, format_args!(" {}", quoted(s))),

            Expr::ByteArray(bytes) => {
                let hex: String = bytes.iter().map(|b| format!(" {:02X}", b)).collect();
                self.record("bytes", pos, format_args!("{}", hex))
            }

            Expr::Array { exprs } => {
                let last = self.exprs(exprs);
                self.record("array", pos, format_args!(" {}", last))
            }

            Expr::Dict { pairs } => {
                let mut last = 0;
                for (key, expr) in pairs {
                    let element = self.expr(expr);
                    last = self.item(element, last, Some(quoted(key)));
                }
                self.record("dict", pos, format_args!(" {}", last))
            }

            Expr::Ident(name) => self.record("name", pos, format_args!(" {}", name)),
            Expr::HostConst(name) => self.record("host", pos, format_args!(" {}", name)),

            // A function of a `fun` statement is met in stmt
            Expr::Fun { fun_id, .. } => {
                let fun = self.fun(*fun_id, false);
                self.record("closure", pos, format_args!(" {}", fun))
            }

            Expr::Index { base, index } => {
                let base = self.expr(base);
                let index = self.expr(index);
                self.record("index", pos, format_args!(" {} {}", base, index))
            }

            Expr::Member { base, field } => {
                let base = self.expr(base);
                self.record("member", pos, format_args!(" {} {}", base, field))
            }

            Expr::InstanceOf { val, class_name, .. } => {
                let val = self.expr(val);
                self.record("instanceof", pos, format_args!(" {} {}", val, class_name))
            }

            Expr::Unary { op, child } => {
                let child = self.expr(child);
                let sign = match op { UnOp::Minus => "-", UnOp::Not => "!" };
                self.record("unary", pos, format_args!(" {} {}", sign, child))
            }

            Expr::Binary { op, lhs, rhs } => {
                let lhs = self.expr(lhs);
                let rhs = self.expr(rhs);
                self.record("binary", pos, format_args!(" {} {} {}", sign(*op), lhs, rhs))
            }

            Expr::Ternary { test_expr, then_expr, else_expr } => {
                let test = self.expr(test_expr);
                let then = self.expr(then_expr);
                let els = self.expr(else_expr);
                self.record("choice", pos, format_args!(" {} {} {}", test, then, els))
            }

            Expr::Call { callee, args } => {
                let callee = self.expr(callee);
                let last = self.exprs(args);
                self.record("call", pos, format_args!(" {} {}", callee, last))
            }

            Expr::HostFn(_) | Expr::Ref { .. } => unreachable!("made after parsing only"),
        }
    }

    /// A statement's record, or 0 for the absent one, which has no place.
    fn stmt(&mut self, s: &StmtBox) -> usize
    {
        let pos = s.pos;

        if pos.line_no() == 0 {
            return 0;
        }

        match s.stmt.as_ref() {
            Stmt::Expr(expr) => {
                let expr = self.expr(expr);
                self.record("do", pos, format_args!(" {}", expr))
            }

            Stmt::Assign { lhs, rhs } => {
                let left = self.expr(lhs);

                // The target of `op=` and `++` is cloned into the value. No
                // written value can stand where the target stands.
                let right = match rhs.expr.as_ref() {
                    Expr::Binary { op, lhs: again, rhs: value } if self.same_place(lhs.pos, again.pos) => {
                        let value = self.expr(value);
                        self.record("binary", rhs.pos, format_args!(" {} {} {}", sign(*op), left, value))
                    }
                    _ => self.expr(rhs),
                };

                self.record("assign", pos, format_args!(" {} {}", left, right))
            }

            Stmt::Return(expr) => {
                let expr = self.expr(expr);
                self.record("return", pos, format_args!(" {}", expr))
            }

            Stmt::Break => self.record("break", pos, format_args!("")),
            Stmt::Continue => self.record("continue", pos, format_args!("")),

            Stmt::Block(stmts) => {
                let last = self.stmts(stmts);
                self.record("block", pos, format_args!(" {}", last))
            }

            Stmt::If { test_expr, then_stmt, else_stmt } => {
                let test = self.expr(test_expr);
                let then = self.stmt(then_stmt);
                let els = match else_stmt {
                    Some(stmt) => self.stmt(stmt),
                    None => 0,
                };
                self.record("if", pos, format_args!(" {} {} {}", test, then, els))
            }

            Stmt::For { init_stmt, test_expr, incr_stmt, body_stmt } => {
                // An implied `true` stands where the loop stands, and its
                // record comes just before the loop's.
                let implied = matches!(test_expr.expr.as_ref(), Expr::True)
                    && self.same_place(test_expr.pos, pos);

                let init = self.stmt(init_stmt);
                let written = if implied { 0 } else { self.expr(test_expr) };
                let incr = self.stmt(incr_stmt);
                let body = self.stmt(body_stmt);
                let test = if implied { self.expr(test_expr) } else { written };
                self.record("for", pos, format_args!(" {} {} {} {}", init, test, incr, body))
            }

            Stmt::Assert { test_expr } => {
                let test = self.expr(test_expr);
                self.record("assert", pos, format_args!(" {}", test))
            }

            Stmt::Let { mutable, var_name, init_expr, .. } => {
                // A `fun` statement's closure stands where the statement
                // stands; a written value doesn't. Lambdas are called
                // `lambda`, and a `fun` statement may bear that name too.
                let value = match init_expr.expr.as_ref() {
                    Expr::Fun { fun_id, .. }
                    if self.prog.funs[fun_id].name != "lambda" || self.same_place(init_expr.pos, pos) => {
                        let fun = self.fun(*fun_id, true);
                        self.record("closure", init_expr.pos, format_args!(" {}", fun))
                    }
                    _ => self.expr(init_expr),
                };
                self.record("let", pos, format_args!(" {} {} {}", *mutable as u32, var_name, value))
            }

            Stmt::ClassDecl { class_id } => {
                let class = self.class(*class_id);
                self.record("classdecl", pos, format_args!(" {}", class))
            }
        }
    }

    fn stmts(&mut self, stmts: &[StmtBox]) -> usize
    {
        let mut last = 0;

        for stmt in stmts {
            let element = self.stmt(stmt);
            let global = match stmt.stmt.as_ref() {
                Stmt::Let { decl: Some(Decl::Global { idx, .. }), .. } => Some(idx.to_string()),
                _ => None,
            };
            last = self.item(element, last, global);
        }

        last
    }

    /// Lambdas and the unit are printed without a name.
    fn fun(&mut self, id: FunId, named: bool) -> usize
    {
        let prog = self.prog;
        let fun = &prog.funs[&id];
        let mut last = 0;

        for param in &fun.params {
            last = self.item(param, last, None);
        }

        let body = self.stmt(&fun.body);
        let name = if named { fun.name.as_str() } else { "-" };
        let id = self.fun_id(id);
        self.record("fun", fun.pos, format_args!(" {} {} {} {}", id, name, last, body))
    }

    fn class(&mut self, id: ClassId) -> usize
    {
        let prog = self.prog;
        let class = &prog.classes[&id];
        let mut last = 0;

        // Ids rise in the order of the text
        let mut methods: Vec<FunId> = class.methods.values().copied().collect();
        methods.sort_by_key(|id| usize::from(*id));

        for method in methods {
            let fun = self.fun(method, true);
            last = self.item(fun, last, None);
        }

        let id = self.class_id(id);
        let parent = class.parent_name.as_deref().unwrap_or("-");
        self.record("class", class.pos, format_args!(" {} {} {} {}", id, class.name, parent, last))
    }
}
