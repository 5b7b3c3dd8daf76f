//! Runs calls on a fresh SourceHandler (cfdp-rs 0.3.0's source.rs, unchanged) and prints what each gives; and, in the same
//! process, lists of calls on our handler, by the C function of crate `host_c` (docs/HOST.md), whose archive is linked in.
//!
//! Standard input, a line at a time:
//!   ours CALLS FILE  our handler: a list of calls over a file, both in hex; it prints the answers in hex, one line
//!   case k=v ..      a fresh handler of the Rust; the keys are all given (see `case`)
//!   entry k=v ..     one more entry of the remote table, before the first call
//!   file HEX | size N   what the file holds; N > 2^24 makes a sparse file of zeros
//!   put [nosrc] | step | deliver HEX | cancel NUMBER | expire | reset     the calls
//! `expire` shows every live timer as expired until it is restarted (a level).
//!
//! Standard output for `file`, `size` and each call: `P HEX` a PDU, `E ..` an event, in the order of the handler's own
//! calls, `= ..` the call's result, and last `. STATE STEP`. After a panic: `! MESSAGE`, and nothing more until the next
//! case.
//!
//! An archive with C's `main`, because an ordinary program makes std read /proc/self/maps, which not every emulator
//! bears.
use cfdp::{
    FaultInfo, GenericSendError, IndicationConfig, LocalEntityConfig, PduRawWithInfo, PduSender,
    RemoteConfigList, RemoteEntityConfig, TimerContext, TimerCreator, TransactionId, UserFaultHook,
    filestore::{FilestoreError, NativeFilestore, VirtualFilestore},
    request::ReadablePutRequest,
    source::SourceHandler,
    time::Countdown,
    user::{CfdpUser, TransactionFinishedParams},
};
use spacepackets::{
    cfdp::{
        ChecksumType, ConditionCode, FaultHandlerCode, PduType, TransmissionMode, pdu::FileDirectiveType,
    },
    seq_count::*,
    util::{UnsignedByteField, UnsignedEnum},
};
use std::{
    cell::Cell,
    collections::HashMap,
    io::{BufRead, StdinLock},
    panic::{AssertUnwindSafe, catch_unwind},
};

#[macro_use]
#[path = "../../uncalled.rs"]
mod uncalled;

thread_local! {
    /// Rises with each `expire`: a timer that was started before it is expired.
    static CLOCK: Cell<u64> = const { Cell::new(0) };
}
fn hex(b: &[u8]) -> String {
    let digits = b.iter().flat_map(|x| [x >> 4, x & 15]);
    digits.map(|d| b"0123456789ABCDEF"[d as usize] as char).collect()
}
fn unhex(s: &str) -> Vec<u8> {
    let digits: Vec<u32> = s.chars().map(|c| c.to_digit(16).unwrap()).collect();
    digits.chunks(2).map(|d| (d[0] << 4 | d[1]) as u8).collect()
}

struct Sender;
impl PduSender for Sender {
    fn send_pdu(
        &self,
        _: PduType,
        _: Option<FileDirectiveType>,
        raw: &[u8],
    ) -> Result<(), GenericSendError> {
        println!("P {}", hex(raw));
        Ok(())
    }
}
#[derive(Debug)]
struct Timer(u64);
impl Countdown for Timer {
    fn has_expired(&self) -> bool {
        CLOCK.get() > self.0
    }
    /// source.rs restarts the ack timer alone.
    fn reset(&mut self) {
        println!("E timer ack");
        self.0 = CLOCK.get();
    }
}
struct Timers;
impl TimerCreator for Timers {
    type Countdown = Timer;
    fn create_countdown(&self, c: TimerContext) -> Timer {
        println!(
            "E timer {}",
            match c {
                TimerContext::CheckLimit { .. } => "check",
                TimerContext::NakActivity { .. } => "nak",
                TimerContext::PositiveAck { .. } => "ack",
            }
        );
        Timer(CLOCK.get())
    }
}
fn named(id: &TransactionId) -> String {
    format!("{} {}", id.source_id().value(), id.seq_num().value())
}
struct User;
impl CfdpUser for User {
    fn transaction_indication(&mut self, id: &TransactionId) {
        println!("E transaction {}", named(id));
    }
    fn eof_sent_indication(&mut self, id: &TransactionId) {
        println!("E eof {}", named(id));
    }
    fn transaction_finished_indication(&mut self, p: &TransactionFinishedParams) {
        println!(
            "E finished {} {} {} {}",
            named(&p.id),
            p.condition_code as u8,
            p.delivery_code as u8,
            p.file_status as u8
        );
    }
}
struct Hook;
impl Hook {
    fn told(&self, action: u8, f: FaultInfo) {
        println!(
            "E fault {} {action} {} {}",
            named(&f.transaction_id()),
            f.condition_code() as u8,
            f.progress()
        );
    }
}
impl UserFaultHook for Hook {
    fn notice_of_suspension_cb(&mut self, f: FaultInfo) {
        self.told(2, f)
    }
    fn notice_of_cancellation_cb(&mut self, f: FaultInfo) {
        self.told(1, f)
    }
    fn abandoned_cb(&mut self, f: FaultInfo) {
        self.told(4, f)
    }
    fn ignore_cb(&mut self, f: FaultInfo) {
        self.told(3, f)
    }
}
/// Every name is the one temporary file, so that any name can be put; the work is filestore.rs's NativeFilestore.
struct OneFile {
    path: String,
    native: NativeFilestore,
}
impl VirtualFilestore for OneFile {
    uncalled!();
    fn read_data(&self, _: &str, o: u64, n: u64, buf: &mut [u8]) -> Result<(), FilestoreError> {
        self.native.read_data(&self.path, o, n, buf)
    }
    fn is_file(&self, _: &str) -> Result<bool, FilestoreError> {
        self.native.is_file(&self.path)
    }
    fn exists(&self, _: &str) -> Result<bool, FilestoreError> {
        self.native.exists(&self.path)
    }
    fn file_size(&self, _: &str) -> Result<u64, FilestoreError> {
        self.native.file_size(&self.path)
    }
    fn calculate_checksum(
        &self,
        _: &str,
        t: ChecksumType,
        n: u64,
        buf: &mut [u8],
    ) -> Result<u32, FilestoreError> {
        self.native.calculate_checksum(&self.path, t, n, buf)
    }
}
struct Put {
    dest: UnsignedByteField,
    src: Option<Vec<u8>>,
    dst: Vec<u8>,
    mode: Option<TransmissionMode>,
    closure: Option<bool>,
}
impl ReadablePutRequest for Put {
    fn destination_id(&self) -> UnsignedByteField {
        self.dest
    }
    fn source_file(&self) -> Option<&[u8]> {
        self.src.as_deref()
    }
    fn dest_file(&self) -> Option<&[u8]> {
        Some(&self.dst)
    }
    fn trans_mode(&self) -> Option<TransmissionMode> {
        self.mode
    }
    fn closure_requested(&self) -> Option<bool> {
        self.closure
    }
}

struct Keys(HashMap<String, String>);
impl Keys {
    fn of(line: &str) -> Self {
        let pairs = line.split(' ').filter_map(|w| w.split_once('='));
        Keys(pairs.map(|(a, b)| (a.into(), b.into())).collect())
    }
    fn word(&self, key: &str) -> &str {
        self.0.get(key).unwrap_or_else(|| panic!("no key {key}"))
    }
    fn num(&self, key: &str) -> u64 {
        self.word(key).parse().unwrap()
    }
    fn id(&self, width: &str, value: &str) -> UnsignedByteField {
        UnsignedByteField::new(self.num(width) as usize, self.num(value))
    }
    /// `-` is none.
    fn mode(&self, key: &str) -> Option<TransmissionMode> {
        match self.word(key) {
            "ack" => Some(TransmissionMode::Acknowledged),
            "un" => Some(TransmissionMode::Unacknowledged),
            _ => None,
        }
    }
    fn flag(&self, key: &str) -> Option<bool> {
        match self.word(key) {
            "-" => None,
            v => Some(v == "1"),
        }
    }
    fn action(&self, key: &str) -> FaultHandlerCode {
        match self.num(key) {
            1 => FaultHandlerCode::NoticeOfCancellation,
            3 => FaultHandlerCode::IgnoreError,
            _ => FaultHandlerCode::AbandonTransaction,
        }
    }
    /// The keys of an `entry` line: ew, id, max, seg (- for none), crc, mode, closure, ck, limit.
    fn entry(&self) -> RemoteEntityConfig {
        let mut remote = RemoteEntityConfig::new_with_default_values(
            self.id("ew", "id"),
            self.num("max") as usize,
            self.flag("closure").unwrap(),
            self.flag("crc").unwrap(),
            self.mode("mode").unwrap(),
            ChecksumType::try_from(self.num("ck") as u8).unwrap(),
        );
        remote.max_file_segment_len = match self.word("seg") {
            "-" => None,
            n => Some(n.parse().unwrap()),
        };
        remote.positive_ack_timer_expiration_limit = self.num("limit") as u32;
        remote
    }
}

unsafe extern "C" {
    /// include/tsendrivaty_host.h
    fn tsendrivaty_run(
        calls: *const u8,
        calls_length: usize,
        file: *const u8,
        file_length: usize,
        answers: *mut u8,
        answers_length: usize,
    ) -> u64;
}
/// What our handler answers to a list of calls, in front of the lent room.
fn ours<'a>(calls: &[u8], file: &[u8], room: &'a mut [u8]) -> &'a [u8] {
    let (to, length) = (room.as_mut_ptr(), room.len());
    // SAFETY: three slices that don't overlap; none of the pointers is null, also for length 0.
    let n = unsafe { tsendrivaty_run(calls.as_ptr(), calls.len(), file.as_ptr(), file.len(), to, length) };
    &room[..n as usize]
}

/// The next line without its end, or none.
fn next_line(input: &mut StdinLock) -> Option<String> {
    let mut line = String::new();
    let n = input.read_line(&mut line).unwrap();
    (n > 0).then(|| line.trim_end().to_string())
}
/// Whether a line ends the case before it.
fn begins(line: &str) -> bool {
    line.starts_with("case ") || line.starts_with("ours ")
}

/// The keys of a `case` line: w, src, dw, dst (ids), sw, seq, mode, closure (the put's), events (1 EOF-sent, 2
/// finished), fault1, fault10 (actions), name, dname (hex). Gives the line that ends the case, or none.
fn case<C: SequenceCounter>(k: &Keys, counter: C, input: &mut StdinLock) -> Option<String> {
    CLOCK.set(0);
    let path = std::env::temp_dir().join(format!("cfdp-harness-{}", std::process::id()));
    let path = path.to_str().unwrap().to_string();
    std::fs::write(&path, []).unwrap();
    let local = k.id("w", "src");
    let events = IndicationConfig {
        eof_sent: k.num("events") & 1 != 0,
        transaction_finished: k.num("events") & 2 != 0,
        ..Default::default()
    };
    let mut cfg = LocalEntityConfig::new(local, events, Hook);
    cfg.fault_handler.set_fault_handler(ConditionCode::PositiveAckLimitReached, k.action("fault1"));
    cfg.fault_handler.set_fault_handler(ConditionCode::CheckLimitReached, k.action("fault10"));
    let mut table = RemoteConfigList::default();
    let mut line = next_line(input);
    while let Some(l) = line.as_ref().filter(|l| l.starts_with("entry ")) {
        table.0.push(Keys::of(l).entry());
        line = next_line(input);
    }
    let vfs = OneFile { path: path.clone(), native: NativeFilestore::default() };
    let mut h = SourceHandler::new(cfg, Sender, vfs, table, Timers, counter);
    let mut put = Put {
        dest: k.id("dw", "dst"),
        src: None,
        dst: unhex(k.word("dname")),
        mode: k.mode("mode"),
        closure: k.flag("closure"),
    };
    let mut dead = false;
    while let Some(l) = line.as_ref().filter(|l| !begins(l)) {
        let (verb, rest) = l.split_once(' ').unwrap_or((l, ""));
        let call = AssertUnwindSafe(|| match verb {
            "file" => std::fs::write(&path, unhex(rest)).unwrap(),
            "size" => sized(&path, rest.parse().unwrap()),
            "put" => {
                put.src = (rest != "nosrc").then(|| unhex(k.word("name")));
                println!("= {:?}", h.put_request(&put))
            }
            "step" => println!("= {:?}", h.state_machine_no_packet(&mut User)),
            "deliver" => match PduRawWithInfo::new(&unhex(rest)) {
                Ok(p) => println!("= {:?}", h.state_machine(&mut User, Some(&p))),
                Err(e) => println!("= header {e:?}"),
            },
            "cancel" => {
                let number = UnsignedByteField::new(C::MAX_BIT_WIDTH / 8, rest.parse().unwrap());
                println!("= {:?}", h.cancel_request(&mut User, &TransactionId::new(local, number)))
            }
            "expire" => CLOCK.set(CLOCK.get() + 1),
            "reset" => h.reset(),
            w => panic!("no call {w}"),
        });
        if !dead {
            match catch_unwind(call) {
                Ok(()) => println!(". {:?} {:?}", h.state(), h.step()),
                Err(e) => {
                    let text = e.downcast_ref::<String>().map(|s| s.as_str());
                    println!("! {}", text.or(e.downcast_ref::<&str>().copied()).unwrap_or(""));
                    dead = true;
                }
            }
        }
        line = next_line(input);
    }
    std::fs::remove_file(&path).unwrap();
    line
}
fn sized(path: &str, n: u64) {
    let f = std::fs::File::create(path).unwrap();
    if n > 1 << 24 {
        f.set_len(n).unwrap();
    } else {
        std::fs::write(path, vec![0; n as usize]).unwrap();
    }
}

/// A `case` line and what belongs to it.
fn sized_case(line: &str, input: &mut StdinLock) -> Option<String> {
    let k = Keys::of(line);
    let seq = k.num("seq");
    match k.num("sw") {
        1 => case(&k, CounterU8::starting_at(seq as u8), input),
        2 => case(&k, CounterU16::starting_at(seq as u16), input),
        4 => case(&k, CounterU32::starting_at(seq as u32), input),
        _ => case(&k, CounterU64::starting_at(seq), input),
    }
}

#[unsafe(no_mangle)]
pub extern "C" fn main(_: i32, _: *const *const u8) -> i32 {
    std::panic::set_hook(Box::new(|_| ()));
    let mut input = std::io::stdin().lock();
    let mut room = vec![0; 1 << 20]; // a list whose answers are longer ends with a status that tests/compare refuses
    let mut line = next_line(&mut input);
    while let Some(l) = line {
        line = match l.strip_prefix("ours ") {
            Some(list) => {
                let (calls, file) = list.split_once(' ').unwrap_or((list, ""));
                println!("{}", hex(ours(&unhex(calls), &unhex(file), &mut room)));
                next_line(&mut input)
            }
            None => sized_case(&l, &mut input),
        };
    }
    0
}
