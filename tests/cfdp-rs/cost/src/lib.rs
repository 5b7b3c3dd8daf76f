//! The handler of source.rs (unchanged, over the stand-ins) making N calls of its state machine over a file in memory, for tests/cost.py to count instructions:
//! `cost N CRC`. As tests/seam/cost.c: file of 64,000 bytes, packet maximum 4,096, ids and number of one byte, acknowledged, null checksum. The first call sends
//! the metadata and the first data PDU, each further one a data PDU. `cost N CRC SIZE` makes a whole pass over a file of SIZE bytes, unacknowledged, without closure,
//! in at most N calls; with N = 0 it makes no put. The file store copies from memory, the sender drops the PDU: no system call is counted or left out.
//!
//! An archive with C's `main`, because an ordinary one makes std read /proc/self/maps, which not every emulator bears.
use cfdp::{
    FaultInfo, GenericSendError, IndicationConfig, LocalEntityConfig, PduSender, RemoteConfigList, RemoteEntityConfig, State, TimerContext,
    TimerCreator, TransactionId, UserFaultHook,
    filestore::{FilestoreError, VirtualFilestore},
    request::ReadablePutRequest,
    source::SourceHandler,
    time::Countdown,
    user::{CfdpUser, TransactionFinishedParams},
};
use spacepackets::{
    cfdp::{ChecksumType, PduType, TransmissionMode, pdu::FileDirectiveType},
    seq_count::*,
    util::UnsignedByteField,
};
use std::{cell::Cell, hint::black_box};

#[macro_use]
#[path = "../../uncalled.rs"]
mod uncalled;

const SIZE: usize = 64000;

thread_local! {
    static SENT: Cell<(usize, usize)> = const { Cell::new((0, 0)) };
}

struct Sender;
impl PduSender for Sender {
    fn send_pdu(&self, _: PduType, _: Option<FileDirectiveType>, raw: &[u8]) -> Result<(), GenericSendError> {
        black_box(raw);
        SENT.set((SENT.get().0 + 1, raw.len()));
        Ok(())
    }
}

#[derive(Debug)]
struct Timer;
impl Countdown for Timer {
    fn has_expired(&self) -> bool {
        false
    }
    fn reset(&mut self) {}
}
struct Timers;
impl TimerCreator for Timers {
    type Countdown = Timer;
    fn create_countdown(&self, _: TimerContext) -> Timer {
        Timer
    }
}

struct User;
impl CfdpUser for User {
    fn transaction_indication(&mut self, _: &TransactionId) {}
    fn eof_sent_indication(&mut self, _: &TransactionId) {}
    fn transaction_finished_indication(&mut self, _: &TransactionFinishedParams) {}
}
struct Hook;
impl UserFaultHook for Hook {
    fn notice_of_suspension_cb(&mut self, _: FaultInfo) {}
    fn notice_of_cancellation_cb(&mut self, _: FaultInfo) {}
    fn abandoned_cb(&mut self, _: FaultInfo) {}
    fn ignore_cb(&mut self, _: FaultInfo) {}
}

/// One file in memory.
struct Store(Vec<u8>);
impl VirtualFilestore for Store {
    uncalled!();
    fn read_data(&self, _: &str, offset: u64, n: u64, buf: &mut [u8]) -> Result<(), FilestoreError> {
        let (from, n) = (offset as usize, n as usize);
        buf[..n].copy_from_slice(&self.0[from..from + n]);
        Ok(())
    }
    fn is_file(&self, _: &str) -> Result<bool, FilestoreError> {
        Ok(true)
    }
    fn exists(&self, _: &str) -> Result<bool, FilestoreError> {
        Ok(true)
    }
    fn file_size(&self, _: &str) -> Result<u64, FilestoreError> {
        Ok(self.0.len() as u64)
    }
    fn calculate_checksum(&self, _: &str, _: ChecksumType, _: u64, _: &mut [u8]) -> Result<u32, FilestoreError> {
        Ok(0)
    }
}

struct Put;
impl ReadablePutRequest for Put {
    fn destination_id(&self) -> UnsignedByteField {
        UnsignedByteField::new(1, 2)
    }
    fn source_file(&self) -> Option<&[u8]> {
        Some(b"a")
    }
    fn dest_file(&self) -> Option<&[u8]> {
        Some(b"b")
    }
    fn trans_mode(&self) -> Option<TransmissionMode> {
        None
    }
    fn closure_requested(&self) -> Option<bool> {
        None
    }
}

#[unsafe(no_mangle)]
pub extern "C" fn main(_: i32, _: *const *const u8) -> i32 {
    let words: Vec<usize> = std::env::args().skip(1).map(|w| w.parse().unwrap()).collect();
    let whole = words.get(2).copied();
    let mode = if whole.is_some() { TransmissionMode::Unacknowledged } else { TransmissionMode::Acknowledged };
    let events = IndicationConfig { eof_sent: true, transaction_finished: true, ..Default::default() };
    let cfg = LocalEntityConfig::new(UnsignedByteField::new(1, 1), events, Hook);
    let mut table = RemoteConfigList::default();
    let remote = RemoteEntityConfig::new_with_default_values(
        UnsignedByteField::new(1, 2),
        4096,
        false,
        words[1] != 0,
        mode,
        ChecksumType::try_from(15).unwrap(),
    );
    table.0.push(remote);
    let file = (0..whole.unwrap_or(SIZE)).map(|k| (k * 7) as u8).collect();
    let mut h = SourceHandler::new(cfg, Sender, Store(file), table, Timers, CounterU8::starting_at(7));
    if words[0] == 0 {
        return 0;
    }
    h.put_request(&Put).unwrap();
    let mut calls = 0;
    while calls < words[0] && (whole.is_none() || h.state() == State::Busy) {
        h.state_machine_no_packet(&mut User).unwrap();
        calls += 1;
    }
    if let Some(size) = whole {
        // metadata, data, EOF
        return (h.state() == State::Busy || SENT.get().0 != size.div_ceil(4085 - 2 * words[1]) + 2) as i32;
    }
    // each call but the first sends one PDU of the whole maximum
    (SENT.get() != (words[0] + 1, 4096)) as i32
}
