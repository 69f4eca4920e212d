//! What a refused call returns (SPECIFICATION 13).

use std::error::Error;
use std::fmt;

/// Why a call was refused. The numbers, names and texts are those of `megzhoi.h`.
///
/// [`Code::TwoEdges`] is about two edges that give moves by one channel in one state and lead to different states:
/// another location, or a clock that differs after the assignments. Edges that lead to one state make one move.
///
/// ```
/// use megzhoi::Code;
///
/// let code = Code::try_from(13)?;
/// assert_eq!(code, Code::KeepTooShort);
/// assert_eq!(code.number(), 13);
/// assert_eq!(code.text(), "keep is too short");
/// assert!(Code::try_from(27).is_err());
/// # Ok::<(), megzhoi::NoSuchCode>(())
/// ```
#[derive(Clone, Copy, Debug, PartialEq, Eq, PartialOrd, Ord, Hash)]
#[allow(missing_docs)]
#[non_exhaustive]
pub enum Code {
    TextTooLong = 1,
    Misfit = 2,
    NameTooLong = 3,
    DeclaredBefore = 4,
    UnknownName = 5,
    ConstantTooLarge = 6,
    TooManyItems = 7,
    OtherMark = 8,
    TooManyStates = 9,
    InputWithoutMove = 10,
    TwoEdges = 11,
    UnmatchedChannel = 12,
    KeepTooShort = 13,
    TableTooShort = 14,
    QueueTooShort = 15,
    OtherTable = 16,
    StartNotSafe = 17,
    StartPairNotSet = 18,
    PairNotAllowed = 19,
    RuleBroken = 20,
    RunTooShort = 21,
    OutputBesideTick = 22,
    NeitherPossible = 23,
    TickOutOfRange = 24,
    LimitExceeded = 25,
    OutTooShort = 26,
}

impl Code {
    /// Every code, from 1 on.
    pub const ALL: &[Code] = &[
        Code::TextTooLong,
        Code::Misfit,
        Code::NameTooLong,
        Code::DeclaredBefore,
        Code::UnknownName,
        Code::ConstantTooLarge,
        Code::TooManyItems,
        Code::OtherMark,
        Code::TooManyStates,
        Code::InputWithoutMove,
        Code::TwoEdges,
        Code::UnmatchedChannel,
        Code::KeepTooShort,
        Code::TableTooShort,
        Code::QueueTooShort,
        Code::OtherTable,
        Code::StartNotSafe,
        Code::StartPairNotSet,
        Code::PairNotAllowed,
        Code::RuleBroken,
        Code::RunTooShort,
        Code::OutputBesideTick,
        Code::NeitherPossible,
        Code::TickOutOfRange,
        Code::LimitExceeded,
        Code::OutTooShort,
    ];

    /// The code as C has it, from 1 to 26.
    pub fn number(self) -> usize {
        self as usize
    }

    /// What the code means, in a few words: those of `megzhoi_code_text`.
    pub fn text(self) -> &'static str {
        match self {
            Code::TextTooLong => "the text has more than 32,768 bytes",
            Code::Misfit => "a token does not fit, or the text ends too early",
            Code::NameTooLong => "a name has more than 31 bytes",
            Code::DeclaredBefore => "the name is declared already",
            Code::UnknownName => "the name is not declared, or is of another kind",
            Code::ConstantTooLarge => "a constant is over 1,000 ticks",
            Code::TooManyItems => "there are more items than the limit allows",
            Code::OtherMark => "the channel was used with the other mark before",
            Code::TooManyStates => "the text has more than 4,096 states",
            Code::InputWithoutMove => "an input has no move",
            Code::TwoEdges => "two edges give moves by one channel and lead to different states",
            Code::UnmatchedChannel => "the other text lacks the channel, or uses it in the other direction",
            Code::KeepTooShort => "keep is too short",
            Code::TableTooShort => "the table to write is too short",
            Code::QueueTooShort => "back or line is too short",
            Code::OtherTable => "the table's header or length is not that of these texts",
            Code::StartNotSafe => "the start of the left is not safe",
            Code::StartPairNotSet => "the pair of the starts is not set",
            Code::PairNotAllowed => "the left state is not safe, or the right state's invariant is false",
            Code::RuleBroken => "the pair breaks a rule",
            Code::RunTooShort => "run is too short",
            Code::OutputBesideTick => "an output is possible beside a tick, in a reachable state",
            Code::NeitherPossible => "neither a tick nor an output is possible, in a reachable state",
            Code::TickOutOfRange => "the tick length is not 1 to 60,000",
            Code::LimitExceeded => "the joined text would pass a limit",
            Code::OutTooShort => "out is too short for the joined text",
        }
    }

    /// What `p` and `q` of a refusal with this code are; `None` where the number is always 0.
    pub fn values(self) -> (Option<&'static str>, Option<&'static str>) {
        match self {
            Code::TextTooLong | Code::OtherTable | Code::LimitExceeded => (None, None),
            Code::Misfit
            | Code::NameTooLong
            | Code::DeclaredBefore
            | Code::UnknownName
            | Code::ConstantTooLarge
            | Code::TooManyItems
            | Code::OtherMark => (Some("byte place"), None),
            Code::TooManyStates => (Some("states"), None),
            Code::InputWithoutMove | Code::TwoEdges | Code::OutputBesideTick => (Some("state"), Some("channel")),
            Code::NeitherPossible => (Some("state"), None),
            Code::UnmatchedChannel => (Some("channel"), None),
            Code::KeepTooShort | Code::TableTooShort | Code::OutTooShort => (Some("bytes needed"), None),
            Code::QueueTooShort | Code::RunTooShort => (Some("entries needed"), None),
            Code::StartNotSafe => (Some("left start"), None),
            Code::StartPairNotSet => (Some("left start"), Some("right start")),
            Code::PairNotAllowed => (Some("left state"), Some("right state")),
            Code::RuleBroken => (Some("step"), Some("left state × right states + right state")),
            Code::TickOutOfRange => (Some("tick length"), None),
        }
    }
}

impl fmt::Display for Code {
    fn fmt(&self, f: &mut fmt::Formatter<'_>) -> fmt::Result {
        f.write_str(self.text())
    }
}

impl From<Code> for usize {
    fn from(code: Code) -> usize {
        code.number()
    }
}

impl TryFrom<usize> for Code {
    type Error = NoSuchCode;

    fn try_from(number: usize) -> Result<Code, NoSuchCode> {
        Code::ALL.iter().copied().find(|code| code.number() == number).ok_or(NoSuchCode(number))
    }
}

/// A number that is no code.
#[derive(Clone, Copy, Debug, PartialEq, Eq)]
pub struct NoSuchCode(pub usize);

impl fmt::Display for NoSuchCode {
    fn fmt(&self, f: &mut fmt::Formatter<'_>) -> fmt::Result {
        write!(f, "{} is not the code of a refusal", self.0)
    }
}

impl Error for NoSuchCode {}

/// The text that a refusal is about.
#[derive(Clone, Copy, Debug, PartialEq, Eq, Hash)]
pub enum Side {
    /// The left text, or the only one.
    Left = 1,
    /// The right text.
    Right = 2,
}

impl Side {
    /// The side that a file mark names: 1, 2, or 0 for none.
    pub(crate) fn of_mark(mark: usize) -> Option<Side> {
        [Side::Left, Side::Right].into_iter().find(|side| *side as usize == mark)
    }
}

impl fmt::Display for Side {
    fn fmt(&self, f: &mut fmt::Formatter<'_>) -> fmt::Result {
        f.write_str(match self {
            Side::Left => "left or only text",
            Side::Right => "right text",
        })
    }
}

/// What a refused call returns: why, the text that it is about where it is about one, and two numbers, of which
/// [`Code::values`] says what they are.
///
/// ```
/// use megzhoi::{read, Code, Refusal, Side};
///
/// let refusal = read(1, b"process P() { state A; init B; } system P;").unwrap_err();
/// assert_eq!(refusal, Refusal { code: Code::UnknownName, file: Some(Side::Left), p: 28, q: 0 });
/// assert_eq!(
///     refusal.to_string(),
///     "code 5, left or only text: the name is not declared, or is of another kind (byte place 28)",
/// );
/// ```
#[derive(Clone, Copy, Debug, PartialEq, Eq)]
pub struct Refusal {
    /// Why the call was refused.
    pub code: Code,
    /// The text that it is about; `None` where it is about no single one.
    pub file: Option<Side>,
    /// The first number.
    pub p: usize,
    /// The second number.
    pub q: usize,
}

impl fmt::Display for Refusal {
    fn fmt(&self, f: &mut fmt::Formatter<'_>) -> fmt::Result {
        write!(f, "code {}", self.code.number())?;
        if let Some(file) = self.file {
            write!(f, ", {file}")?;
        }
        write!(f, ": {}", self.code)?;
        match self.code.values() {
            (Some(p), Some(q)) => write!(f, " ({p} {}, {q} {})", self.p, self.q),
            (Some(p), None) => write!(f, " ({p} {})", self.p),
            _ => Ok(()),
        }
    }
}

impl Error for Refusal {}
