//! Tokens by their numbers.
//!
//! A token's number is its case's place in the enum's declaration, counted from 0. Functions
//! asked about a number that names no token answer `None` or `false`.

use crate::caught::caught;
use crate::types::Token;
use std::hash::{Hash, Hasher};
use std::mem::discriminant;

/// How many numbers name a token; the last is that of EOF.
pub fn count() -> u32 {
    number(&Token::EOF) + 1
}

/// The name of the token's case, as in the source.
pub fn name(number: u32) -> Option<String> {
    let shown = format!("{:?}", sample(number)?);
    shown.split('(').next().map(String::from)
}

/// The token whose syntax is this text. The numbers of the two unary signs are never answered.
pub fn lookup_symbol_from_syntax(syntax: &str) -> Option<u32> {
    Token::lookup_symbol_from_syntax(syntax).map(|token| number(&token))
}

pub fn literal_syntax(number: u32) -> Option<&'static str> {
    let token = sample(number)?;
    caught(|| token.literal_syntax())
}

pub fn precedence(number: u32) -> Option<u8> {
    Some(sample(number)?.precedence()?.get())
}

pub fn is_bind_right(number: u32) -> bool {
    holds(number, Token::is_bind_right)
}

pub fn is_op_assignment(number: u32) -> bool {
    holds(number, Token::is_op_assignment)
}

pub fn has_op_assignment(number: u32) -> bool {
    holds(number, Token::has_op_assignment)
}

pub fn get_base_op_from_assignment(of: u32) -> Option<u32> {
    Some(number(&sample(of)?.get_base_op_from_assignment()?))
}

pub fn convert_to_op_assignment(of: u32) -> Option<u32> {
    Some(number(&sample(of)?.convert_to_op_assignment()?))
}

pub fn is_literal(number: u32) -> bool {
    holds(number, Token::is_literal)
}

pub fn is_standard_symbol(number: u32) -> bool {
    holds(number, Token::is_standard_symbol)
}

pub fn is_standard_keyword(number: u32) -> bool {
    holds(number, Token::is_standard_keyword)
}

pub fn is_next_unary(number: u32) -> bool {
    holds(number, Token::is_next_unary)
}

fn holds(number: u32, test: fn(&Token) -> bool) -> bool {
    sample(number).iter().any(test)
}

/// The compiler's own count of the enum's cases, which their hash is made of.
pub(crate) fn number(token: &Token) -> u32 {
    struct Case(Option<isize>);

    impl Hasher for Case {
        fn write(&mut self, _: &[u8]) {}

        fn write_isize(&mut self, case: isize) {
            self.0 = Some(case);
        }

        fn finish(&self) -> u64 {
            0
        }
    }

    let mut case = Case(None);
    discriminant(token).hash(&mut case);
    case.0.and_then(|case| case.try_into().ok()).unwrap()
}

/// A token that has this number.
pub(crate) fn sample(wanted: u32) -> Option<Token> {
    let mut samples = samples().into_iter();
    samples.find(|token| number(token) == wanted)
}

/// One token of each case.
fn samples() -> Vec<Token> {
    use Token::*;

    let float = "1.5".parse().map(|value| (value, "1.5".into()));
    vec![
        IntegerConstant(42),
        FloatConstant(Box::new(float.unwrap())),
        Identifier(Box::new("name".into())),
        CharConstant('c'),
        StringConstant(Box::new("text".into())),
        InterpolatedString(Box::new("piece".into())),
        LeftBrace,
        RightBrace,
        LeftParen,
        RightParen,
        LeftBracket,
        RightBracket,
        Unit,
        Plus,
        UnaryPlus,
        Minus,
        UnaryMinus,
        Multiply,
        Divide,
        Modulo,
        PowerOf,
        LeftShift,
        RightShift,
        SemiColon,
        Colon,
        DoubleColon,
        DoubleArrow,
        Underscore,
        Comma,
        Period,
        Elvis,
        DoubleQuestion,
        QuestionBracket,
        ExclusiveRange,
        InclusiveRange,
        MapStart,
        Equals,
        True,
        False,
        Let,
        Const,
        If,
        Else,
        Switch,
        Do,
        While,
        Until,
        Loop,
        For,
        In,
        NotIn,
        LessThan,
        GreaterThan,
        LessThanEqualsTo,
        GreaterThanEqualsTo,
        EqualsTo,
        NotEqualsTo,
        Bang,
        Pipe,
        Or,
        XOr,
        Ampersand,
        And,
        Fn,
        Continue,
        Break,
        Return,
        Throw,
        Try,
        Catch,
        PlusAssign,
        MinusAssign,
        MultiplyAssign,
        DivideAssign,
        LeftShiftAssign,
        RightShiftAssign,
        AndAssign,
        OrAssign,
        XOrAssign,
        ModuloAssign,
        PowerOfAssign,
        Private,
        Import,
        Export,
        As,
        LexError(Box::new(crate::LexError::UnterminatedString)),
        Comment(Box::new("// comment".into())),
        Reserved(Box::new("reserved".into())),
        Custom(Box::new("custom".into())),
        UnprocessedRawChar('c'),
        EOF,
    ]
}
