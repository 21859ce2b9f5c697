//! What the functions give beside the bytes that they write, laid out as in include/kozbrax.h.

/// What a call of the server gives.
#[repr(C)]
#[derive(Clone, Copy, Debug, Default, PartialEq, Eq)]
pub struct Served {
    pub code: u32,
    /// The answer's length, 0 where none is written.
    pub answer: u32,
    /// The store's used length after the call.
    pub used: u64,
}

/// What a start of a user's call gives, or an answer that it takes in.
#[repr(C)]
#[derive(Clone, Copy, Debug, Default, PartialEq, Eq)]
pub struct Asked {
    pub code: u32,
    /// The server's code where `code` is 11, else 0.
    pub refusal: u32,
    /// The server to ask, 0 where the call has ended.
    pub server: u32,
    /// The length of the request in the request buffer, 0 where the call has ended.
    pub length: u32,
    /// 1 where the call has ended, which it has after a refusal too, else 0.
    pub ended: u32,
    /// The author of a Read that has ended with 0, else 0.
    pub author: u32,
    /// The entry's length of a Read that has ended with 0, else 0.
    pub entry: u32,
}

/// Whether an own operation is settled.
#[repr(C)]
#[derive(Clone, Copy, Debug, Default, PartialEq, Eq)]
pub struct SettledAnswer {
    pub code: u32,
    /// 1 or 0; 0 where the code is not 0.
    pub settled: u32,
}

/// What is reported of a firing schedule; minutes and peak are 0 where the code is not.
#[repr(C)]
#[derive(Clone, Copy, Debug, Default, PartialEq, Eq)]
pub struct Firing {
    pub code: u32,
    /// The total of minutes.
    pub minutes: u32,
    /// The highest target in degrees Celsius.
    pub peak: u32,
}

/// What is reported of a firing schedule whose start lies in a range; both totals are 0 where the code is not.
#[repr(C)]
#[derive(Clone, Copy, Debug, Default, PartialEq, Eq)]
pub struct Totals {
    pub code: u32,
    /// The least total of minutes.
    pub least: u32,
    /// The greatest total of minutes.
    pub greatest: u32,
}

/// When a firing may begin; the start is 0 where the code is not.
#[repr(C)]
#[derive(Clone, Copy, Debug, Default, PartialEq, Eq)]
pub struct Start {
    pub code: u32,
    /// A minute of the week from Monday 0:00, counted on past the week's end.
    pub start: u32,
}
