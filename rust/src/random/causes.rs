//! What can be wrong with a comma-separated file, or with the line of names, and the number of each.

/// What is wrong with a line of names or with a file.
#[derive(Clone, Copy, Debug, PartialEq, Eq)]
pub enum Cause {
    // The line of names.
    NoName,
    TooManyNames,
    LongName,
    EmptyName,
    NoLetter,
    NameTwice,
    // The file as a whole.
    TooLong,
    NoHeader,
    TooManyRows,
    // Its header.
    ColumnTwice,
    ColumnUnknown,
    // The header or a later record.
    LoneLineFeed,
    LoneReturn,
    QuoteInField,
    AfterQuote,
    ByteOutside,
    ByteInside,
    OpenQuote,
    // A later record.
    FieldMore,
    FieldLess,
    NoValue,
    TooLarge,
}

impl Cause {
    pub const OF_NAMES: [Cause; 6] = [
        Cause::NoName,
        Cause::TooManyNames,
        Cause::LongName,
        Cause::EmptyName,
        Cause::NoLetter,
        Cause::NameTwice,
    ];
    pub const OF_FILE: [Cause; 3] = [Cause::TooLong, Cause::NoHeader, Cause::TooManyRows];
    pub const OF_HEADER: [Cause; 9] = [
        Cause::ColumnTwice,
        Cause::ColumnUnknown,
        Cause::LoneLineFeed,
        Cause::LoneReturn,
        Cause::QuoteInField,
        Cause::AfterQuote,
        Cause::ByteOutside,
        Cause::ByteInside,
        Cause::OpenQuote,
    ];
    pub const OF_RECORD: [Cause; 11] = [
        Cause::LoneLineFeed,
        Cause::LoneReturn,
        Cause::QuoteInField,
        Cause::AfterQuote,
        Cause::ByteOutside,
        Cause::ByteInside,
        Cause::OpenQuote,
        Cause::FieldMore,
        Cause::FieldLess,
        Cause::NoValue,
        Cause::TooLarge,
    ];

    /// The number of the refusal, where nothing else is wrong.
    pub fn number(self) -> u8 {
        match self {
            Cause::NoName | Cause::TooManyNames | Cause::LongName => 15,
            Cause::EmptyName | Cause::NoLetter => 15,
            Cause::NameTwice | Cause::NoHeader => 16,
            Cause::ColumnTwice | Cause::ColumnUnknown => 16,
            Cause::TooLong => 17,
            Cause::TooManyRows => 8,
            Cause::LoneLineFeed | Cause::LoneReturn | Cause::QuoteInField => 18,
            Cause::AfterQuote | Cause::ByteOutside | Cause::ByteInside => 18,
            Cause::OpenQuote | Cause::FieldMore | Cause::FieldLess => 18,
            Cause::NoValue | Cause::TooLarge => 19,
        }
    }
}
