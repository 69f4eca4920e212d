//! Tokens of the contract text: the longest one counts.

#[derive(Clone, Copy, Debug, PartialEq, Eq)]
pub enum Kind {
    Name,
    Numeral,
    Broadcast,
    Chan,
    Process,
    Clock,
    State,
    Init,
    Trans,
    System,
    Guard,
    Sync,
    Assign,
    Comma,
    Semicolon,
    Open,
    Close,
    OpenRound,
    CloseRound,
    Arrow,
    And,
    AtMost,
    AtLeast,
    Equal,
    Less,
    Greater,
    Becomes,
    Question,
    Bang,
    /// A byte that starts no token.
    Stray,
    /// The end of the text.
    End,
}

#[derive(Clone, Copy, Debug)]
pub struct Token {
    pub kind: Kind,
    pub start: usize,
    pub end: usize,
}

/// The text and the place up to which it was read.
pub struct Tokens<'a> {
    text: &'a [u8],
    place: usize,
}

impl<'a> Tokens<'a> {
    pub fn new(text: &'a [u8]) -> Tokens<'a> {
        Tokens { text, place: 0 }
    }

    /// The next token; after the last one, `End` at the length of the text.
    pub fn next(&mut self) -> Token {
        let start = self.place + length_of(&self.text[self.place..], is_space);
        let rest = &self.text[start..];
        let (kind, length) = match rest.first() {
            None => (Kind::End, 0),
            Some(byte) if is_name_start(*byte) => name_or_word(rest),
            Some(byte) if byte.is_ascii_digit() => (Kind::Numeral, length_of(rest, |b| b.is_ascii_digit())),
            Some(byte) => symbol(*byte, rest.get(1).copied()),
        };
        self.place = start + length;
        Token { kind, start, end: self.place }
    }
}

fn is_space(byte: u8) -> bool {
    matches!(byte, b' ' | b'\t' | b'\r' | b'\n')
}

fn is_name_start(byte: u8) -> bool {
    byte.is_ascii_alphabetic() || byte == b'_'
}

fn is_name_part(byte: u8) -> bool {
    byte.is_ascii_alphanumeric() || byte == b'_'
}

/// How many bytes at the front belong to the class.
fn length_of(bytes: &[u8], class: impl Fn(u8) -> bool) -> usize {
    bytes.iter().position(|byte| !class(*byte)).unwrap_or(bytes.len())
}

fn name_or_word(rest: &[u8]) -> (Kind, usize) {
    let length = length_of(rest, is_name_part);
    let kind = match &rest[..length] {
        b"broadcast" => Kind::Broadcast,
        b"chan" => Kind::Chan,
        b"process" => Kind::Process,
        b"clock" => Kind::Clock,
        b"state" => Kind::State,
        b"init" => Kind::Init,
        b"trans" => Kind::Trans,
        b"system" => Kind::System,
        b"guard" => Kind::Guard,
        b"sync" => Kind::Sync,
        b"assign" => Kind::Assign,
        _ => Kind::Name,
    };
    (kind, length)
}

fn symbol(first: u8, second: Option<u8>) -> (Kind, usize) {
    match (first, second) {
        (b'-', Some(b'>')) => (Kind::Arrow, 2),
        (b'&', Some(b'&')) => (Kind::And, 2),
        (b'<', Some(b'=')) => (Kind::AtMost, 2),
        (b'>', Some(b'=')) => (Kind::AtLeast, 2),
        (b'=', Some(b'=')) => (Kind::Equal, 2),
        (b'<', _) => (Kind::Less, 1),
        (b'>', _) => (Kind::Greater, 1),
        (b'=', _) => (Kind::Becomes, 1),
        (b',', _) => (Kind::Comma, 1),
        (b';', _) => (Kind::Semicolon, 1),
        (b'{', _) => (Kind::Open, 1),
        (b'}', _) => (Kind::Close, 1),
        (b'(', _) => (Kind::OpenRound, 1),
        (b')', _) => (Kind::CloseRound, 1),
        (b'?', _) => (Kind::Question, 1),
        (b'!', _) => (Kind::Bang, 1),
        _ => (Kind::Stray, 1),
    }
}
