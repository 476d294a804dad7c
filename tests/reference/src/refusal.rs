//! Why a call is turned down.

#[derive(Clone, Copy, PartialEq, Eq, Debug)]
pub enum Refusal {
    CutShort,
    LongNumber,
    Edition,
    TooManySteps,
    UnknownKind,
    OutOfRange,
    NameByte,
    TooManyEdges,
    BadEnd,
    SpareBytes,
    /// Carries the lowest step that lies on a loop of must edges.
    Loop(usize),
    TooManyPoints,
    ShortBuffer,
    NoSuchStep,
    BadFirmness,
    /// More points than a chart that gets x may have.
    LargeChart,
    /// No row above it, no such row, or too many points in it.
    BadRow,
    TooManyTries,
}

impl Refusal {
    pub fn number(self) -> u8 {
        match self {
            Refusal::CutShort => 1,
            Refusal::LongNumber => 2,
            Refusal::Edition => 3,
            Refusal::TooManySteps => 4,
            Refusal::UnknownKind => 5,
            Refusal::OutOfRange => 6,
            Refusal::NameByte => 7,
            Refusal::TooManyEdges => 8,
            Refusal::BadEnd => 9,
            Refusal::SpareBytes => 10,
            Refusal::Loop(_) => 11,
            Refusal::TooManyPoints => 12,
            Refusal::ShortBuffer => 13,
            Refusal::NoSuchStep => 14,
            Refusal::BadFirmness => 15,
            Refusal::LargeChart => 16,
            Refusal::BadRow => 17,
            Refusal::TooManyTries => 18,
        }
    }

    /// What a program prints for it.
    pub fn line(self) -> Vec<u8> {
        let step = if let Refusal::Loop(step) = self { format!(" {step}") } else { String::new() };
        format!("refused {}{step}\n", self.number()).into_bytes()
    }
}
