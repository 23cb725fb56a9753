//! The calls of a script. Numbers have the widths of their lines, so that one
//! that is too large for a seat or a time reaches the rules as it was given.

#[derive(Clone, Debug, PartialEq, Eq)]
pub enum Call {
    /// All three carriers become what they were at the start.
    Fresh,
    Put(Part),
    Bytes(BytesCall),
    Lists(ListsCall),
    Table(TableCall),
    Ask(Carrier, Question),
}

/// What is put into the bytes or the lists, without any test.
#[derive(Clone, Debug, PartialEq, Eq)]
pub enum Part {
    Bytes(Vec<u8>),
    Lists { seats: u32, bound: u32, rounds: u32 },
    Losses(Vec<u16>),
    Editors(Vec<u8>),
    Times(Vec<u16>),
    Cells(Vec<u32>),
    Changes(Vec<i16>),
}

#[derive(Clone, Copy, Debug, PartialEq, Eq)]
pub enum BytesCall {
    Check,
    /// The lengths of the five lent lists, in the order of the parts.
    Read([u16; 5]),
}

#[derive(Clone, Copy, Debug, PartialEq, Eq)]
pub enum ListsCall {
    Judge,
    Length,
    Write { room: u16 },
}

#[derive(Clone, Debug, PartialEq, Eq)]
pub enum TableCall {
    Open {
        seats: u32,
        bound: u32,
    },
    Round(Vec<u16>),
    Edit {
        seat: u32,
        cell: u32,
        change: i32,
    },
    Record {
        room: u16,
    },
    Alter {
        field: u8,
        index: u16,
        value: u32,
    },
    /// Asks for the checksum of the table.
    Sum,
}

#[derive(Clone, Copy, Debug, PartialEq, Eq)]
pub enum Carrier {
    Bytes,
    Lists,
    Table,
}

#[derive(Clone, Copy, Debug, PartialEq, Eq)]
pub enum Question {
    Seen { seat: u32, time: u32 },
    Agreed { seat: u32, time: u32 },
    Standing { seat: u32 },
    View { seat: u32, time: u32, room: u16 },
    Core { seat: u32, time: u32, room: u16 },
    Marks { seat: u32, time: u32, room: u16 },
}

impl Call {
    pub fn name(&self) -> String {
        match self {
            Call::Fresh => "fresh".to_string(),
            Call::Put(part) => part.name().to_string(),
            Call::Bytes(call) => format!("bytes-{}", call.name()),
            Call::Lists(call) => format!("lists-{}", call.name()),
            Call::Table(call) => format!("table-{}", call.name()),
            Call::Ask(carrier, question) => format!("{}-{}", carrier.name(), question.name()),
        }
    }
}

impl Part {
    fn name(&self) -> &'static str {
        match self {
            Part::Bytes(_) => "bytes",
            Part::Lists { .. } => "lists",
            Part::Losses(_) => "losses",
            Part::Editors(_) => "editors",
            Part::Times(_) => "times",
            Part::Cells(_) => "cells",
            Part::Changes(_) => "changes",
        }
    }
}

impl BytesCall {
    fn name(&self) -> &'static str {
        match self {
            BytesCall::Check => "check",
            BytesCall::Read(_) => "read",
        }
    }
}

impl ListsCall {
    fn name(&self) -> &'static str {
        match self {
            ListsCall::Judge => "judge",
            ListsCall::Length => "length",
            ListsCall::Write { .. } => "write",
        }
    }
}

impl TableCall {
    fn name(&self) -> &'static str {
        match self {
            TableCall::Open { .. } => "open",
            TableCall::Round(_) => "round",
            TableCall::Edit { .. } => "edit",
            TableCall::Record { .. } => "record",
            TableCall::Alter { .. } => "alter",
            TableCall::Sum => "sum",
        }
    }
}

impl Carrier {
    pub const ALL: [Carrier; 3] = [Carrier::Bytes, Carrier::Lists, Carrier::Table];

    fn name(&self) -> &'static str {
        match self {
            Carrier::Bytes => "bytes",
            Carrier::Lists => "lists",
            Carrier::Table => "table",
        }
    }
}

impl Question {
    fn name(&self) -> &'static str {
        match self {
            Question::Seen { .. } => "seen",
            Question::Agreed { .. } => "agreed",
            Question::Standing { .. } => "standing",
            Question::View { .. } => "view",
            Question::Core { .. } => "core",
            Question::Marks { .. } => "marks",
        }
    }
}
