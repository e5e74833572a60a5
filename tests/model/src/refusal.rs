//! The reasons for which a call is refused ('turned back'), with the documents' numbers.

#[derive(Clone, Copy, Debug, PartialEq, Eq)]
pub enum Refusal {
    Rows = 1,
    BlastDiameter = 2,
    Volume = 3,
    Counters = 4,
    Interval = 5,
    Window = 6,
    Block = 7,
    /// A lent table has not exactly `counters` entries.
    TableLength = 8,
    /// The logical row is not in the bank.
    LogicalRow = 9,
    /// The lent list of picks is shorter than `volume`.
    PicksLength = 10,
    /// A trace line of another form, or without its byte 10, or that needs a tracker, or for the
    /// writer settings before it, and has none.
    Line = 11,
    /// No counter count meets the threshold.
    Threshold = 12,
    /// The lent text is too short for the whole trace.
    TextLength = 13,
    /// A remap in which one of 0 to 15 is missing.
    Remap = 14,
    /// A hold outside 1 to 16.
    Hold = 15,
    /// The tables or the position break a rule.
    State = 21,
    /// An activation whose units would carry the interval past its activations.
    IntervalFull = 22,
}

impl Refusal {
    pub fn number(self) -> i64 {
        self as i64
    }
}
