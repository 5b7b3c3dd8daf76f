//! Tsendrivaty from Rust: the seven C functions of crate `seam` behind a safe `Handler`. `core` only, no dependencies, Rust 1.82 or later.
//!
//! Take it in with `mod tsendrivaty;` and link the archive: `-L native=crates/seam/out -l static=seam`. docs/SEAM.md is the guide.
//!
//! `unsafe` stands in the seven calls alone. They are sound for every value of `Handler`: it holds numbers only, and the C functions take any
//! bit pattern of it, any slice and any number, and return. `&mut self` gives them what else they ask: one call at a time, and no overlap.
//! The reports that a delivery and a burst fill are the calls' own.
//!
//! What is left to you: lend the same file, unchanged, from an accepted put until `is_idle`; once the timer has run out, say `expired` at
//! every step and burst until an event starts a timer; send `Step::pdu` before the next step, and all of a `Burst` before the next burst.

use core::fmt;
use core::iter::FusedIterator;
use core::mem::{align_of, offset_of, size_of};

// ---- Numbers

/// A width in bytes (1, 2, 4 or 8) and a value that fits it. A sequence number can't stand where an id is due.
#[repr(C)]
#[derive(Clone, Copy, Debug, PartialEq, Eq)]
pub struct EntityId {
    pub width: u8,
    pub value: u64,
}

#[repr(C)]
#[derive(Clone, Copy, Debug, PartialEq, Eq)]
pub struct SequenceNumber {
    pub width: u8,
    pub value: u64,
}

// ---- Configuration: yours

/// What is known of a remote entity. Here and below a flag is a byte: 0 is clear, any other is set.
#[repr(C)]
#[derive(Clone, Copy, Debug, PartialEq, Eq)]
pub struct Remote {
    /// Compared with a put's destination by value alone.
    pub id: EntityId,
    /// Longest PDU, at most 4,096. With an `out` of this length no step is refused for room.
    pub maxpacket: u64,
    /// Most file bytes in a PDU, at least 1; `u64::MAX` for no limit of its own.
    pub maxsegment: u64,
    /// 0 modular, 2 CRC-32C, 3 CRC-32, 15 null.
    pub checksum: u8,
    /// Flag: a CRC-16 closes each PDU.
    pub crc: u8,
    /// Flag: the mode, where the put doesn't say.
    pub unacknowledged: u8,
    /// Flag: closure requested, where the put doesn't say.
    pub closure: u8,
    /// How many expiries of the ack timer are a fault; 0 acts as 1.
    pub limit: u8,
}

impl Remote {
    pub const NONE: Remote = Remote {
        id: EntityId { width: 0, value: 0 },
        maxpacket: 0,
        maxsegment: 0,
        checksum: 0,
        crc: 0,
        unacknowledged: 0,
        closure: 0,
        limit: 0,
    };
}

/// Read by `put` alone; what a transaction needs of it is copied. No call changes it.
#[repr(C)]
#[derive(Clone, Copy, Debug, PartialEq, Eq)]
pub struct Config {
    /// Your own.
    pub id: EntityId,
    /// The first with the destination's id value is used.
    pub remotes: [Remote; 8],
    /// How many of them are looked at; above 8 acts as 8.
    pub count: usize,
    /// By condition code: 1 cancel, 3 ignore, 4 abandon. All sixteen are judged.
    pub actions: [u8; 16],
    /// Flag: steps tell of each EOF that leaves.
    pub eofsent: u8,
    /// Flag: steps tell of the transaction's end.
    pub finished: u8,
}

impl Config {
    /// One remote entity, every fault cancels, all events told.
    pub fn to(id: EntityId, remote: Remote) -> Config {
        let mut remotes = [Remote::NONE; 8];
        remotes[0] = remote;
        Config { id, remotes, count: 1, actions: [1; 16], eofsent: 1, finished: 1 }
    }
}

// ---- State: the calls'

#[repr(C)]
#[derive(Clone, Copy, Debug, PartialEq, Eq)]
struct Transaction {
    source: EntityId,
    number: SequenceNumber,
    destination: EntityId,
    segment: u64,
    size: u64,
    actions: [u8; 16],
    unacknowledged: u8,
    crc: u8,
    large: u8,
    closure: u8,
    checksum: u8,
    limit: u8,
    eofsent: u8,
    finished: u8,
}

#[repr(C)]
#[derive(Clone, Copy, Debug, PartialEq, Eq)]
struct Names {
    source: [u8; 255],
    sourcelen: u8,
    destination: [u8; 255],
    destinationlen: u8,
}

#[repr(C)]
#[derive(Clone, Copy, Debug, PartialEq, Eq)]
struct FileParams {
    progress: u64,
    sum: u32,
}

#[repr(C)]
#[derive(Clone, Copy, Debug, PartialEq, Eq)]
struct Request {
    start: u64,
    end: u64,
}

#[repr(C)]
#[derive(Clone, Copy, Debug, PartialEq, Eq)]
struct Queue {
    places: [Request; 64],
    count: usize,
}

#[repr(C)]
#[derive(Clone, Copy, Debug, PartialEq, Eq)]
struct Marks {
    cancelled: u8,
    owed: u8,
    condition: u8,
    count: u8,
    finished: Finished,
    anomalies: u8,
}

#[repr(C)]
#[derive(Clone, Copy, Debug, PartialEq, Eq)]
struct Report {
    length: u64,
    progress: u64,
    source: EntityId,
    number: SequenceNumber,
    transaction: u8,
    eofsent: u8,
    fault: u8,
    action: u8,
    condition: u8,
    finished: u8,
    values: Finished,
    timer: u8,
}

#[repr(C)]
struct DeliverReport {
    length: u64,
}

#[repr(C)]
#[derive(Clone, Copy, Debug, PartialEq, Eq)]
struct BurstReport {
    count: u64,
    steps: [Report; 16],
}

/// The handler: 2,112 bytes with nothing behind them. Copy it to save it.
#[repr(C)]
#[derive(Clone, Copy, Debug, PartialEq, Eq)]
pub struct Handler {
    pub config: Config,
    number: SequenceNumber,
    step: u8,
    transaction: Transaction,
    names: Names,
    file: FileParams,
    queue: Queue,
    marks: Marks,
    report: Report,
}

// The layout that the archive was built with.
const _: () = assert!(size_of::<Handler>() == 2112 && align_of::<Handler>() == 8 && size_of::<usize>() == 8);
const _: () = assert!(offset_of!(Handler, number) == 368 && offset_of!(Handler, step) == 384 && offset_of!(Handler, transaction) == 392);
const _: () = assert!(offset_of!(Handler, names) == 480 && offset_of!(Handler, file) == 992 && offset_of!(Handler, queue) == 1008);
const _: () = assert!(offset_of!(Handler, marks) == 2040 && offset_of!(Handler, report) == 2048);
const _: () = assert!(size_of::<Remote>() == 40 && offset_of!(Remote, checksum) == 32 && offset_of!(Config, count) == 336);
const _: () = assert!(offset_of!(Transaction, segment) == 48 && offset_of!(Transaction, unacknowledged) == 80);
const _: () = assert!(offset_of!(FileParams, sum) == 8 && bytes_of(&EMPTY.file.sum) == 4);
const _: () = assert!(offset_of!(Report, transaction) == 48 && offset_of!(Report, values) == 54 && offset_of!(Report, timer) == 57);
const _: () = assert!(size_of::<DeliverReport>() == 8 && align_of::<DeliverReport>() == 8);
const _: () = assert!(size_of::<BurstReport>() == 1032 && align_of::<BurstReport>() == 8 && offset_of!(BurstReport, steps) == 8);

const fn bytes_of<T>(_: &T) -> usize {
    size_of::<T>()
}

// ---- What a step says

/// Where a transaction stands.
#[derive(Clone, Copy, Debug, PartialEq, Eq)]
pub enum At {
    Idle,
    SendingMetadata,
    SendingFileData,
    SendingEof,
    WaitingForEofAck,
    WaitingForFinished,
    Closing,
}

/// A fault that was declared: action 1 cancel, 3 ignore, 4 abandon; condition 1 ack limit, 10 check limit; progress at that time.
#[derive(Clone, Copy, Debug, PartialEq, Eq)]
pub struct Fault {
    pub action: u8,
    pub condition: u8,
    pub progress: u64,
}

/// The values of the finished event: condition 0 no error; delivery 0 complete; status 0 discarded, 1 rejected, 2 retained, 3 unreported.
#[repr(C)]
#[derive(Clone, Copy, Debug, PartialEq, Eq)]
pub struct Finished {
    pub condition: u8,
    pub delivery: u8,
    pub status: u8,
}

/// Start it now, running or not.
#[derive(Clone, Copy, Debug, PartialEq, Eq)]
pub enum Timer {
    Ack,
    Check,
}

/// The events of one step. They occurred in the order of the fields. `source` and `number` are the transaction's, and mean nothing without an event.
#[derive(Clone, Copy, Debug, PartialEq, Eq)]
pub struct Events {
    pub source: EntityId,
    pub number: SequenceNumber,
    pub transaction: bool,
    pub eof_sent: bool,
    pub fault: Option<Fault>,
    pub finished: Option<Finished>,
    pub timer: Option<Timer>,
}

impl Events {
    fn of(r: &Report) -> Events {
        Events {
            source: r.source,
            number: r.number,
            transaction: r.transaction != 0,
            eof_sent: r.eofsent != 0,
            fault: (r.fault != 0).then_some(Fault { action: r.action, condition: r.condition, progress: r.progress }),
            finished: (r.finished != 0).then_some(r.values),
            timer: match r.timer {
                1 => Some(Timer::Ack),
                2 => Some(Timer::Check),
                _ => None,
            },
        }
    }

    /// No event at all.
    pub fn none(&self) -> bool {
        !self.transaction && !self.eof_sent && self.fault.is_none() && self.finished.is_none() && self.timer.is_none()
    }
}

/// An accepted step: the PDU to send, in front of the lent buffer (empty: none was emitted), and the events.
#[derive(Debug)]
pub struct Step<'a> {
    pub pdu: &'a [u8],
    pub events: Events,
}

/// An accepted burst: the steps that were made, in order, 0 to 16 of them. Each is what `Handler::step` gives, with its PDU where it stands in
/// the lent buffer; only the last may be without one.
#[derive(Clone, Debug)]
pub struct Burst<'a> {
    report: BurstReport,
    next: usize,
    rest: &'a [u8],
}

impl<'a> Burst<'a> {
    /// All PDUs that have not been taken yet, end to end: of a fresh burst what one frame carries.
    pub fn pdus(&self) -> &'a [u8] {
        &self.rest[..self.left().iter().map(|r| r.length as usize).sum()]
    }

    fn left(&self) -> &[Report] {
        &self.report.steps[self.next..self.report.count as usize]
    }
}

impl<'a> Iterator for Burst<'a> {
    type Item = Step<'a>;

    fn next(&mut self) -> Option<Step<'a>> {
        let report = *self.left().first()?;
        let (pdu, rest) = self.rest.split_at(report.length as usize);
        (self.next, self.rest) = (self.next + 1, rest);
        Some(Step { pdu, events: Events::of(&report) })
    }

    fn size_hint(&self) -> (usize, Option<usize>) {
        (self.left().len(), Some(self.left().len()))
    }
}

impl ExactSizeIterator for Burst<'_> {}

// ---- What a delivery says

/// What the handler answered to a delivery, and how many of the delivered bytes are the PDU's, refused or not: the bytes from there on are fill, or
/// the next PDU. 0 if it was `Malformed`.
#[must_use]
#[derive(Clone, Copy, Debug, PartialEq, Eq)]
pub struct Delivery {
    pub answer: Result<(), Refusal>,
    pub length: usize,
}

/// One PDU of a frame, as it stands there, and what the handler answered. Never `Malformed`.
#[derive(Clone, Copy, Debug, PartialEq, Eq)]
pub struct Received<'f> {
    pub pdu: &'f [u8],
    pub answer: Result<(), Refusal>,
}

/// The PDUs of a received frame, from the front: each `next` delivers one, and gives it with its answer; a refused one does not end the frame. It ends
/// where nothing is left, or at the first `Malformed`, which is not given: what is left is then fill or a damaged PDU, and nothing says where a PDU behind
/// that would start. A frame of fill alone gives nothing.
#[must_use = "nothing is delivered before it is asked for"]
#[derive(Debug)]
pub struct Frame<'h, 'f> {
    handler: &'h mut Handler,
    rest: &'f [u8],
}

impl<'f> Frame<'_, 'f> {
    /// The bytes behind the PDUs that were given. After the end, if it is not the fill that you know, something was damaged.
    pub fn rest(&self) -> &'f [u8] {
        self.rest
    }
}

impl<'f> Iterator for Frame<'_, 'f> {
    type Item = Received<'f>;

    fn next(&mut self) -> Option<Received<'f>> {
        let Delivery { answer, length } = self.handler.deliver(self.rest);
        if length == 0 {
            return None;
        }
        let (pdu, rest) = self.rest.split_at(length);
        self.rest = rest;
        Some(Received { pdu, answer })
    }
}

/// Whether bytes are `Malformed` rests on them alone, so the end stays the end.
impl FusedIterator for Frame<'_, '_> {}

// ---- Refusals

/// Document 01's refusals, by its numbers. A refused call changes nothing. docs/REFUSALS.md says what to do.
#[derive(Clone, Copy, Debug, PartialEq, Eq)]
#[repr(u32)]
pub enum Refusal {
    AlreadyBusy = 1,
    BadIdWidth = 2,
    NoRemoteCfgFound = 3,
    BadConfig = 4,
    BadNameLength = 5,
    SourceFileNotValidUtf8 = 6,
    DestFileNotValidUtf8 = 7,
    PacketLimit = 8,
    Malformed = 20,
    CantProcessPacketType = 21,
    UnexpectedPdu = 22,
    OtherTransaction = 23,
    InvalidNakPdu = 24,
    RetransmitFull = 25,
    FileChanged = 30,
    OutTooSmall = 31,
    BurstTooLong = 32,
}

impl Refusal {
    pub fn number(self) -> u32 {
        self as u32
    }
}

impl fmt::Display for Refusal {
    fn fmt(&self, f: &mut fmt::Formatter<'_>) -> fmt::Result {
        write!(f, "{} ({:?})", self.number(), self)
    }
}

impl core::error::Error for Refusal {}

/// The C functions are proved to return no other number; a panic here means that something else was linked.
fn answer(code: u32) -> Result<(), Refusal> {
    use Refusal::*;
    Err(match code {
        0 => return Ok(()),
        1 => AlreadyBusy,
        2 => BadIdWidth,
        3 => NoRemoteCfgFound,
        4 => BadConfig,
        5 => BadNameLength,
        6 => SourceFileNotValidUtf8,
        7 => DestFileNotValidUtf8,
        8 => PacketLimit,
        20 => Malformed,
        21 => CantProcessPacketType,
        22 => UnexpectedPdu,
        23 => OtherTransaction,
        24 => InvalidNakPdu,
        25 => RetransmitFull,
        30 => FileChanged,
        31 => OutTooSmall,
        32 => BurstTooLong,
        _ => unreachable!("not one of document 01's numbers"),
    })
}

// ---- The calls

mod c {
    use super::{BurstReport, DeliverReport, Handler};

    unsafe extern "C" {
        pub fn tsendrivaty_new(handler: *mut Handler, width: u8, number: u64) -> u32;
        pub fn tsendrivaty_put(
            handler: *mut Handler,
            width: u8,
            destination: u64,
            unacknowledged: u8,
            closure: u8,
            source_name: *const u8,
            source_name_length: usize,
            destination_name: *const u8,
            destination_name_length: usize,
            size: u64,
        ) -> u32;
        pub fn tsendrivaty_deliver(handler: *mut Handler, bytes: *const u8, length: usize, report: *mut DeliverReport) -> u32;
        pub fn tsendrivaty_step(
            handler: *mut Handler,
            file: *const u8,
            file_length: usize,
            expired: u8,
            out: *mut u8,
            out_length: usize,
        ) -> u32;
        pub fn tsendrivaty_burst(
            handler: *mut Handler,
            file: *const u8,
            file_length: usize,
            expired: u8,
            count: usize,
            out: *mut u8,
            out_length: usize,
            report: *mut BurstReport,
        ) -> u32;
        pub fn tsendrivaty_cancel(handler: *mut Handler, source_width: u8, source: u64, number_width: u8, number: u64) -> u32;
        pub fn tsendrivaty_reset(handler: *mut Handler) -> u32;
    }
}

/// A put's own words; `None` is the table entry's.
#[derive(Clone, Copy, Debug)]
pub struct Put<'a> {
    pub destination: EntityId,
    pub unacknowledged: Option<bool>,
    pub closure: Option<bool>,
    /// The file's name here and there: 1 to 255 bytes of UTF-8 each.
    pub source_name: &'a [u8],
    pub destination_name: &'a [u8],
    /// The file's length.
    pub size: u64,
}

fn choice(given: Option<bool>) -> u8 {
    given.map_or(2, u8::from)
}

impl Handler {
    /// A handler whose first put takes this number.
    pub fn new(config: Config, number: SequenceNumber) -> Handler {
        let mut h = Handler { config, ..EMPTY };
        // SAFETY: see the head of this file; the same holds of the six calls below.
        unsafe { c::tsendrivaty_new(&mut h, number.width, number.value) };
        h
    }

    /// Puts a file: refusals 1 to 8, or `SendingMetadata`. No byte of the file is read.
    pub fn put(&mut self, p: &Put) -> Result<(), Refusal> {
        let (s, d) = (p.source_name, p.destination_name);
        let (mode, closure) = (choice(p.unacknowledged), choice(p.closure));
        let (width, to) = (p.destination.width, p.destination.value);
        answer(unsafe { c::tsendrivaty_put(self, width, to, mode, closure, s.as_ptr(), s.len(), d.as_ptr(), d.len(), p.size) })
    }

    /// Takes the PDU in front of `bytes`, nothing before it: refusals 20 to 25. What stands behind it is not looked at. Emits nothing.
    pub fn deliver(&mut self, bytes: &[u8]) -> Delivery {
        let mut report = DeliverReport { length: 0 };
        let answer = answer(unsafe { c::tsendrivaty_deliver(self, bytes.as_ptr(), bytes.len(), &mut report) });
        Delivery { answer, length: report.length as usize }
    }

    /// Takes the PDUs of a received frame, one behind the other, up to the fill: an iterator, which delivers each as it is asked for it.
    pub fn deliver_frame<'h, 'f>(&'h mut self, frame: &'f [u8]) -> Frame<'h, 'f> {
        Frame { handler: self, rest: frame }
    }

    /// One step over the lent file: refusals 30 and 31, or at most one PDU in front of `out`, and the events.
    pub fn step<'a>(&mut self, file: &[u8], expired: bool, out: &'a mut [u8]) -> Result<Step<'a>, Refusal> {
        let (f, n) = (file.as_ptr(), file.len());
        answer(unsafe { c::tsendrivaty_step(self, f, n, expired.into(), out.as_mut_ptr(), out.len()) })?;
        Ok(Step { pdu: &out[..self.report.length as usize], events: Events::of(&self.report) })
    }

    /// Up to `count` steps in one call, 0 to 16, their PDUs end to end in `out`; the first step has `expired`, the others not. Handler, bytes
    /// and events are those of the same steps made one by one. A step that emits nothing is made and ends the burst; a later one whose PDU does
    /// not fit the rest of `out` is not made. Refusals: 32 for a count above 16, tested first, then 30 and 31 of the first step. A count of 0
    /// makes no step and tests nothing. 65,536 bytes of `out` are enough for any burst.
    pub fn burst<'a>(&mut self, file: &[u8], expired: bool, count: usize, out: &'a mut [u8]) -> Result<Burst<'a>, Refusal> {
        let mut report = BurstReport { count: 0, steps: [EMPTY.report; 16] };
        let (f, n) = (file.as_ptr(), file.len());
        answer(unsafe { c::tsendrivaty_burst(self, f, n, expired.into(), count, out.as_mut_ptr(), out.len(), &mut report) })?;
        Ok(Burst { report, next: 0, rest: out })
    }

    /// The user's cancel: true, and the EOF leaves with the next step; or false, and nothing changed.
    pub fn cancel(&mut self, source: EntityId, number: SequenceNumber) -> bool {
        unsafe { c::tsendrivaty_cancel(self, source.width, source.value, number.width, number.value) == 1 }
    }

    /// Idle at once; the next put's number and the configuration stay.
    pub fn reset(&mut self) {
        unsafe { c::tsendrivaty_reset(self) };
    }

    pub fn at(&self) -> At {
        match self.step {
            1 => At::SendingMetadata,
            2 => At::SendingFileData,
            3 => At::SendingEof,
            4 => At::WaitingForEofAck,
            5 => At::WaitingForFinished,
            6 => At::Closing,
            _ => At::Idle,
        }
    }

    pub fn is_idle(&self) -> bool {
        self.at() == At::Idle
    }

    /// The number that the next accepted put takes.
    pub fn next_number(&self) -> SequenceNumber {
        self.number
    }

    /// First-pass bytes of the file that have left.
    pub fn progress(&self) -> u64 {
        self.file.progress
    }

    /// Their checksum, the number that an EOF would carry now; 0 when none have left.
    pub fn sum(&self) -> u32 {
        self.file.sum
    }

    /// Requests of accepted NAKs that are not wholly served.
    pub fn pending(&self) -> usize {
        self.queue.count
    }
}

const NO_ID: EntityId = EntityId { width: 0, value: 0 };
const NO_NUMBER: SequenceNumber = SequenceNumber { width: 0, value: 0 };
const NO_VALUES: Finished = Finished { condition: 0, delivery: 0, status: 0 };
const EMPTY: Handler = Handler {
    config: Config { id: NO_ID, remotes: [Remote::NONE; 8], count: 0, actions: [0; 16], eofsent: 0, finished: 0 },
    number: NO_NUMBER,
    step: 0,
    transaction: Transaction {
        source: NO_ID,
        number: NO_NUMBER,
        destination: NO_ID,
        segment: 0,
        size: 0,
        actions: [0; 16],
        unacknowledged: 0,
        crc: 0,
        large: 0,
        closure: 0,
        checksum: 0,
        limit: 0,
        eofsent: 0,
        finished: 0,
    },
    names: Names { source: [0; 255], sourcelen: 0, destination: [0; 255], destinationlen: 0 },
    file: FileParams { progress: 0, sum: 0 },
    queue: Queue { places: [Request { start: 0, end: 0 }; 64], count: 0 },
    marks: Marks { cancelled: 0, owed: 0, condition: 0, count: 0, finished: NO_VALUES, anomalies: 0 },
    report: Report {
        length: 0,
        progress: 0,
        source: NO_ID,
        number: NO_NUMBER,
        transaction: 0,
        eofsent: 0,
        fault: 0,
        action: 0,
        condition: 0,
        finished: 0,
        values: NO_VALUES,
        timer: 0,
    },
};
