//! What a processor asks and what it is answered.

#[derive(Clone, Copy, PartialEq, Eq, Debug)]
pub enum Zone {
    Normal,
    Movable,
}

#[derive(Clone, Copy, PartialEq, Eq, Debug)]
pub enum Wish {
    Off,
    Normal,
    Movable,
}

#[derive(Clone, Copy, PartialEq, Eq, Debug)]
pub enum Auto {
    Offline,
    Online,
    OnlineKernel,
    OnlineMovable,
}

#[derive(Clone, Copy, PartialEq, Eq, Debug)]
pub struct Item {
    pub block: u32,
    pub wish: Wish,
}

#[derive(Clone, PartialEq, Eq, Debug)]
pub enum Event {
    KernelAlloc { order: u32 },
    KernelFree { frame: u32 },
    Map { owner: u32, page: u32 },
    Unmap { owner: u32, page: u32 },
    Write { owner: u32, page: u32, index: u32, value: u64 },
    Read { owner: u32, page: u32, index: u32 },
    Drain { cpu: u32 },
    Online { block: u32, zone: Zone },
    Begin { plan: Box<[Item]> },
    DrainFor { op: u64, cpu: u32 },
    Migrate { op: u64 },
    Commit { op: u64 },
    Cancel { op: u64 },
    UndoAfter { serial: u64 },
    Probe { address: u64 },
    Remove { block: u32 },
    SetAuto { auto: Auto },
}

#[derive(Clone, Copy, PartialEq, Eq, Debug)]
pub enum Refusal {
    NoOwner,
    NoPage,
    NoWord,
    AlreadyMapped,
    NotMapped,
    BadOrder,
    NoFrame,
    NoSuchFrame,
    NotKernel,
    NoCpu,
    NoBlock,
    EmptyPlan,
    Twice(u32),
    Busy(u32),
    NotOnline(u32),
    NotOffline(u32),
    Unmovable(u32),
    NoOp,
    NothingToMove,
    NotFree(u32),
    Gone,
    BadAddress,
    NotAbsent(u32),
}

impl Refusal {
    /// Its number, its name, and the number that it carries.
    pub fn parts(self) -> (u32, &'static str, Option<u32>) {
        use Refusal::*;
        match self {
            NoOwner => (1, "NoOwner", None),
            NoPage => (2, "NoPage", None),
            NoWord => (3, "NoWord", None),
            AlreadyMapped => (4, "AlreadyMapped", None),
            NotMapped => (5, "NotMapped", None),
            BadOrder => (6, "BadOrder", None),
            NoFrame => (7, "NoFrame", None),
            NoSuchFrame => (8, "NoSuchFrame", None),
            NotKernel => (9, "NotKernel", None),
            NoCpu => (10, "NoCpu", None),
            NoBlock => (11, "NoBlock", None),
            EmptyPlan => (12, "EmptyPlan", None),
            Twice(b) => (13, "Twice", Some(b)),
            Busy(b) => (14, "Busy", Some(b)),
            NotOnline(b) => (15, "NotOnline", Some(b)),
            NotOffline(b) => (16, "NotOffline", Some(b)),
            Unmovable(f) => (17, "Unmovable", Some(f)),
            NoOp => (18, "NoOp", None),
            NothingToMove => (19, "NothingToMove", None),
            NotFree(f) => (20, "NotFree", Some(f)),
            Gone => (21, "Gone", None),
            BadAddress => (22, "BadAddress", None),
            NotAbsent(b) => (23, "NotAbsent", Some(b)),
        }
    }
}

#[derive(Clone, Copy, PartialEq, Eq, Debug)]
pub enum Reply {
    Done,
    Frame(u32),
    Word(u64),
    Moved { from: u32, to: u32 },
    Opened(u64),
    Restored,
    Released,
    Undone(u64),
    Refused(Refusal),
}

impl Reply {
    /// Two numbers that tell the reply, for checksums: kind 0 Done, 1 Frame,
    /// 2 Word, 3 Moved (from * 2^32 + to), 4 Opened, 5 Restored, 6 Released,
    /// 7 Undone, 100 + n the refusal of number n with its number or 0.
    pub fn code(&self) -> (u64, u64) {
        match *self {
            Reply::Done => (0, 0),
            Reply::Frame(f) => (1, u64::from(f)),
            Reply::Word(v) => (2, v),
            Reply::Moved { from, to } => (3, u64::from(from) << 32 | u64::from(to)),
            Reply::Opened(op) => (4, op),
            Reply::Restored => (5, 0),
            Reply::Released => (6, 0),
            Reply::Undone(n) => (7, n),
            Reply::Refused(r) => {
                let (n, _, x) = r.parts();
                (100 + u64::from(n), u64::from(x.unwrap_or(0)))
            }
        }
    }
}

#[derive(Clone, Copy, PartialEq, Eq, Debug)]
pub enum CallFault {
    HistoryFull,
}

/// One call that was made, kept where it is asked for. Its serial is its place.
#[derive(Clone, PartialEq, Eq, Debug)]
pub struct Record {
    pub cpu: u32,
    pub event: Event,
    pub reply: Reply,
}
