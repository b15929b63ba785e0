//! The words of a line: separated by spaces, up to a `#`; a name with spaces stands in quotes.

use crate::fault::{Fault, Place, Spot};
use crate::numbers;
use std::path::Path;

/// One word of a line, and its place.
#[derive(Clone, Debug)]
pub struct Token {
    pub text: String,
    pub quoted: bool,
    pub place: Place,
}

impl Token {
    pub fn wrong(&self, expected: &str) -> Fault {
        let text: String = self.text.chars().take(40).collect();
        Fault::bad_at(self.place, format!("{text:?}: expected {expected}"))
    }

    /// Whether it is this name of the script's language, in capitals or small letters.
    pub fn is(&self, name: &str) -> bool {
        !self.quoted && self.text.eq_ignore_ascii_case(name)
    }
}

/// The words of a line that are still to be read.
pub struct Words {
    tokens: std::iter::Peekable<std::vec::IntoIter<Token>>,
    end: Place,
}

impl Words {
    pub fn new(file: &'static Path, line: u64, text: &str) -> Result<Words, Fault> {
        let place = |column: usize| Place { file, spot: Spot::Line { line, column } };
        let mut tokens: Vec<Token> = Vec::new();
        let mut open: Option<Token> = None;
        let mut column = 0;
        for character in text.chars() {
            column += 1;
            match &mut open {
                Some(token) if token.quoted && character == '"' => tokens.extend(open.take()),
                Some(token) if token.quoted => token.text.push(character),
                _ if character == '#' => break,
                Some(_) if character.is_whitespace() => tokens.extend(open.take()),
                Some(token) if character == '"' => {
                    return Err(Fault::bad_at(place(column), format!("{:?} and a quote: expected a space between", token.text)))
                }
                Some(token) => token.text.push(character),
                None if character == '"' => open = Some(Token { text: String::new(), quoted: true, place: place(column) }),
                None if character.is_whitespace() => {}
                None => open = Some(Token { text: character.to_string(), quoted: false, place: place(column) }),
            }
        }
        match open {
            Some(token) if token.quoted => {
                return Err(Fault::bad_at(token.place, "a quote that does not end on its line: expected another"))
            }
            other => tokens.extend(other),
        }
        let code = text.split('#').next().unwrap_or("").trim_end().chars().count();
        Ok(Words { tokens: tokens.into_iter().peekable(), end: place(code + 1) })
    }

    pub fn peek(&mut self) -> Option<&Token> {
        self.tokens.peek()
    }

    pub fn expect(&mut self, expected: &str) -> Result<Token, Fault> {
        self.next().ok_or_else(|| Fault::bad_at(self.end, format!("the line ends: expected {expected}")))
    }

    pub fn number(&mut self, expected: &str) -> Result<u32, Fault> {
        self.up_to(u32::MAX, expected)
    }

    pub fn up_to(&mut self, largest: u32, expected: &str) -> Result<u32, Fault> {
        let token = self.expect(expected)?;
        let number = numbers::parse(&token.text).filter(|number| *number <= largest);
        number.ok_or_else(|| token.wrong(&format!("{expected}, a number up to {largest:X}H ({})", numbers::WRITTEN)))
    }

    pub fn end(&mut self) -> Result<(), Fault> {
        match self.next() {
            None => Ok(()),
            Some(token) => Err(token.wrong("the end of the line")),
        }
    }
}

impl Iterator for Words {
    type Item = Token;

    fn next(&mut self) -> Option<Token> {
        self.tokens.next()
    }
}
