//! From the engine's message to 01's refusal number: the only such table.
//! docs/MESSAGES.md lists the same messages with where they come from.

/// Fixed messages.
const WHOLE: [(&str, u32); 43] = [
    ("expected identifier", 11),
    ("unknown atomic expression", 13),
    ("integer literal outside of int64 range", 14),
    ("hex integer literal outside of int64 range", 14),
    ("binary integer literal outside of int64 range", 14),
    ("integer literal is too large", 15),
    ("expected digit", 16),
    ("only one numeric separator can occur between digits", 17),
    ("expected digits in floating-point exponent", 18),
    ("unexpected end of input inside multi-line comment", 19),
    ("unexpected end of input while parsing string literal", 19),
    ("unexpected end of input in call expression", 19),
    ("unexpected end of input inside dictionary literal", 19),
    ("unexpected end of input inside byte array literal", 19),
    ("unexpected end of input in block statement", 19),
    ("unexpected end of input inside function parameter list", 19),
    ("unexpected end of input inside lambda parameter list", 19),
    ("unexpected end of input inside class declaration", 19),
    ("hexadecimal escape sequence must be in the ASCII range \\x00-\\x7F", 20),
    ("invalid hexadecimal escape sequence", 20),
    ("expected `{` in unicode escape sequence", 20),
    ("unicode escape sequence has more than 6 hex digits", 20),
    ("expected hex digits in unicode escape sequence", 20),
    ("expected `}` in unicode escape sequence", 20),
    ("invalid unicode codepoint in escape sequence", 20),
    ("unknown escape sequence", 20),
    ("spaces cannot immediately precede end of line in ascii sequence", 21),
    ("tabs disallowed inside bytearray ASCII sequences", 21),
    ("unknown ASCII escape sequence", 21),
    ("invalid or incomplete hex byte", 21),
    ("each binary byte must contain exactly 8 bits", 21),
    ("expected control sequence inside bytearray literal", 21),
    ("unknown control sequence in bytearray literal", 21),
    ("increment and decrement are statements and cannot be used as expressions", 23),
    ("unary plus operator applied to non-constant value", 24),
    ("assignment is a statement and cannot be used as an expression", 25),
    ("invalid assignment target", 26),
    ("only calls can be used as expression statements", 27),
    ("declarations in control-flow bodies must be enclosed in curly braces", 28),
    ("extraneous semicolon `;`", 29),
    ("too many arguments in function call", 31),
    ("too many function parameters", 31),
    ("the init method must have a `self` parameter", 32),
];

/// Messages with a variable or long part: how they open, how they end.
const OPEN: [(&str, &str, u32); 9] = [
    ("expected token \"", "\"", 10),
    ("`", "` is a reserved keyword and cannot be used as a name", 12),
    ("the postfix increment operator (i.e. i++) is not supported, ", "", 22),
    ("the postfix decrement operator (i.e. i--) is not supported, ", "", 22),
    ("duplicate field name \"", "\"", 30),
    ("duplicate parameter name \"", "\"", 30),
    ("duplicate class name \"", "\"", 30),
    ("duplicate method name \"", "\"", 30),
    ("duplicate function name \"", "\"", 30),
];

/// None for a message that 01 gives no number.
pub fn number(msg: &str) -> Option<u32>
{
    let whole = WHOLE.iter().find(|(text, _)| *text == msg).map(|(_, no)| *no);

    whole.or_else(|| OPEN.iter()
        .find(|(head, tail, _)| msg.starts_with(head) && msg.ends_with(tail))
        .map(|(_, _, no)| *no))
}
