//! The test host in Rust: host.c's runs through wrapper/tsendrivaty.rs, the same lines, the same watching.
//!
//! `main` is C's, because an ordinary one makes std read /proc/self/maps, which not every emulator bears.
#![no_main]

#[path = "../../wrapper/tsendrivaty.rs"]
mod tsendrivaty;

use core::mem::{size_of, transmute};
use tsendrivaty::{At, Burst, Config, Delivery, EntityId, Events, Handler, Put, Received, Refusal, Remote, SequenceNumber, Timer};

const ROOM: usize = 4608;
/// Enough for any burst.
const FRAME: usize = 65536;
/// A file, and behind it another.
const FILES: &[u8] = b"ABCDEFGHIJKLMNOPQRSTabcdefghijklmnopqrst";
const LENGTH: usize = FILES.len() / 2;
const EDGE: [u8; 64] = [0xA5; 64];

/// What a call may touch, with what lies around it; of `out` the last 64 bytes are never lent.
#[derive(Clone)]
struct Memory {
    around: Around,
    out: Vec<u8>,
}

#[derive(Clone, Copy)]
#[repr(C)]
struct Around {
    before: [u8; 64],
    h: Handler,
    behind: [u8; 64],
}

impl Memory {
    fn of(h: Handler, room: usize) -> Memory {
        Memory { around: Around { before: EDGE, h, behind: EDGE }, out: vec![0xA5; room + EDGE.len()] }
    }

    fn room(&self) -> usize {
        self.out.len() - EDGE.len()
    }

    /// Whether the call from `was` to here changed no more than it may; `length` bytes of `out` may be new.
    fn kept(&self, was: &Memory, refused: bool, length: usize) -> bool {
        let (now, then) = (&self.around, &was.around);
        (now.before, now.behind) == (then.before, then.behind)
            && now.h.config == then.h.config
            && self.out[length..] == was.out[length..]
            && (!refused || length == 0 && now.h == then.h)
    }
}

struct Host {
    m: Memory,
    files: Vec<u8>,
    /// Where in `files` that begins which is lent, and how much of it is.
    place: usize,
    lent: usize,
    wrong: bool,
}

fn number(r: Result<(), Refusal>) -> u32 {
    r.map_or_else(Refusal::number, |()| 0)
}

fn told(e: &Events) -> String {
    let mut s = String::new();
    if e.transaction {
        s += " transaction";
    }
    if e.eof_sent {
        s += " eof-sent";
    }
    if let Some(f) = e.fault {
        s += &format!(" fault {} {} {}", f.action, f.condition, f.progress);
    }
    if let Some(f) = e.finished {
        s += &format!(" finished {} {} {}", f.condition, f.delivery, f.status);
    }
    match e.timer {
        Some(Timer::Ack) => s += " ack-timer",
        Some(Timer::Check) => s += " check-timer",
        None => (),
    }
    if !e.none() {
        s += &format!(" of {}:{} {}:{}", e.source.width, e.source.value, e.number.width, e.number.value);
    }
    s
}

fn digits(bytes: &[u8]) -> String {
    bytes.iter().map(|b| format!("{b:02x}")).collect()
}

/// A PDU's bytes; of a long one the first sixteen, its length, and a sum over all (FNV-1a).
fn hex(pdu: &[u8]) -> String {
    match pdu.len() {
        0 => "-".into(),
        1..=64 => digits(pdu),
        n => {
            let sum = pdu.iter().fold(2166136261u32, |sum, b| (sum ^ *b as u32).wrapping_mul(16777619));
            format!("{}..{n}:{sum:08x}", digits(&pdu[..16]))
        }
    }
}

// ---- a burst beside the same steps one by one

type Made = Vec<(Vec<u8>, Events)>;

/// The steps of a burst; what it says of itself must agree.
fn made(b: Burst) -> Made {
    let (count, pdus) = (b.len(), b.pdus());
    let made: Made = b.map(|s| (s.pdu.to_vec(), s.events)).collect();
    assert!(count == made.len() && pdus == made.iter().flat_map(|(pdu, _)| pdu.clone()).collect::<Vec<u8>>());
    made
}

/// What a burst must give, and the memory that it must leave.
fn one_by_one(m: &mut Memory, file: &[u8], expired: bool, count: usize, space: usize) -> Result<Made, Refusal> {
    let (mut made, mut at) = (Made::new(), 0);
    if count > 16 {
        return Err(Refusal::BurstTooLong);
    }
    while made.len() < count {
        let s = match m.around.h.step(file, expired && made.is_empty(), &mut m.out[at..space]) {
            Ok(s) => s,
            Err(r) if made.is_empty() => return Err(r),
            Err(_) => break,
        };
        let n = s.pdu.len();
        made.push((s.pdu.to_vec(), s.events));
        at += n;
        if n == 0 {
            break;
        }
    }
    Ok(made)
}

/// A burst, and whether it gave and left what it must.
fn burst_on(m: &mut Memory, file: &[u8], expired: bool, count: usize, space: usize) -> (Result<Made, Refusal>, bool) {
    let (was, mut one) = (m.clone(), m.clone());
    let got = m.around.h.burst(file, expired, count, &mut m.out[..space]).map(made);
    let want = one_by_one(&mut one, file, expired, count, space);
    let good = match &got {
        Ok(made) => {
            let n = made.iter().map(|(pdu, _)| pdu.len()).sum();
            m.kept(&was, false, n) && m.around.h == one.around.h && m.out == one.out
        }
        Err(_) => m.kept(&was, true, 0),
    };
    let good = good && got == want;
    (got, good)
}

// ---- calls, each a line

impl Host {
    fn fresh(&mut self, label: &str, width: u8, value: u64, lent: usize) {
        println!("== {label}");
        let remote = Remote { id: EntityId { width: 1, value: 2 }, maxpacket: 17, maxsegment: 4, limit: 2, ..Remote::NONE };
        let config = Config::to(EntityId { width: 1, value: 1 }, remote);
        self.m = Memory::of(Handler::new(config, SequenceNumber { width, value }), self.m.room());
        (self.place, self.lent) = (0, lent);
    }

    /// From here on what is lent begins at this place.
    fn lend(&mut self, place: usize) {
        self.place = place;
        println!("lend {place}");
    }

    /// What the record holds.
    fn look(&self) {
        println!("look {} {:08x}", self.m.around.h.progress(), self.m.around.h.sum());
    }

    fn line(&mut self, was: &Memory, said: String, refused: bool, length: usize) {
        print!("{said}");
        self.ended(self.m.kept(was, refused, length));
    }

    /// The end of a call's line.
    fn ended(&mut self, good: bool) {
        self.wrong |= !good;
        println!("{}", if good { "" } else { " CHANGED" });
    }

    fn put_to(&mut self, to: (u8, u64), unacknowledged: Option<bool>, closure: Option<bool>, source: &[u8], destination: &[u8]) {
        let was = self.m.clone();
        let destination_id = EntityId { width: to.0, value: to.1 };
        let p = Put {
            destination: destination_id,
            unacknowledged,
            closure,
            source_name: source,
            destination_name: destination,
            size: self.lent as u64,
        };
        let r = number(self.m.around.h.put(&p));
        self.line(&was, format!("put {r}"), r != 0, 0);
    }

    fn put(&mut self, unacknowledged: bool, closure: Option<bool>) {
        self.put_to((1, 2), Some(unacknowledged), closure, b"a", b"b");
    }

    fn deliver(&mut self, bytes: &[u8]) {
        let was = self.m.clone();
        let d = self.m.around.h.deliver(bytes);
        self.line(&was, format!("deliver {} {}", number(d.answer), d.length), d.answer.is_err(), 0);
    }

    /// The first PDU of a frame; what stands behind it is fill.
    fn first_of_frame(&mut self, parts: &[&[u8]]) {
        self.deliver(&parts.concat());
    }

    /// A received frame: PDU after PDU, and how much is left; beside it the same deliveries, one by one, on a copy of the handler.
    fn all_of_frame(&mut self, parts: &[&[u8]]) {
        let (bytes, mut one, mut good) = (parts.concat(), self.m.clone(), true);
        let (mut left, mut frame) = (&bytes[..], self.m.around.h.deliver_frame(&bytes));
        while let Some(Received { pdu, answer }) = frame.next() {
            println!("deliver {} {}", number(answer), pdu.len());
            good &= one.around.h.deliver(left) == Delivery { answer, length: pdu.len() } && left.starts_with(pdu);
            left = &left[pdu.len()..];
            good &= frame.rest() == left;
        }
        good &= one.around.h.deliver(left) == Delivery { answer: Err(Refusal::Malformed), length: 0 };
        good &= frame.next().is_none() && frame.rest() == left;
        print!("rest {}", left.len());
        self.ended(good && self.m.kept(&one, true, 0));
    }

    fn step_in(&mut self, length: usize, expired: bool, room: usize) {
        let was = self.m.clone();
        let (said, refused, n) = match self.m.around.h.step(&self.files[self.place..][..length], expired, &mut self.m.out[..room]) {
            Ok(s) => (format!("step 0 {}{}", hex(s.pdu), told(&s.events)), false, s.pdu.len()),
            Err(r) => (format!("step {} -", r.number()), true, 0),
        };
        self.line(&was, said, refused, n);
    }

    fn steps(&mut self, n: usize, expired: bool) {
        for _ in 0..n {
            self.step_in(self.lent, expired, self.m.room());
        }
    }

    fn burst_in(&mut self, length: usize, expired: bool, count: usize, room: usize) {
        let (got, good) = burst_on(&mut self.m, &self.files[self.place..][..length], expired, count, room);
        match got {
            Ok(made) => {
                print!("burst 0 {}", made.len());
                for (pdu, events) in made {
                    print!("\n    {}{}", hex(&pdu), told(&events));
                }
            }
            Err(r) => print!("burst {} 0", r.number()),
        }
        self.ended(good);
    }

    fn burst(&mut self, count: usize, expired: bool) {
        self.burst_in(self.lent, expired, count, self.m.room());
    }

    fn cancel(&mut self, source: u64, number: u64) {
        let was = self.m.clone();
        let yes = self.m.around.h.cancel(EntityId { width: 1, value: source }, SequenceNumber { width: 1, value: number });
        self.line(&was, format!("cancel {}", if yes { "yes" } else { "no" }), !yes, 0);
    }

    fn reset(&mut self) {
        let was = self.m.clone();
        self.m.around.h.reset();
        self.line(&was, "reset".into(), false, 0);
    }

    fn directive(&mut self, number: u8, body: &[u8]) {
        self.deliver(&framed(number, body));
    }

    fn nak(&mut self, number: u8, pairs: &[(u32, u32)]) {
        self.deliver(&nak(number, pairs));
    }

    fn ack_of_eof(&mut self, number: u8) {
        self.directive(number, &[6, 0x40, 1]);
    }

    fn finished(&mut self, number: u8, values: u8) {
        self.directive(number, &[5, values]);
    }
}

/// A delivery of the transaction 1, `number`, 2 without CRC.
fn framed(number: u8, body: &[u8]) -> Vec<u8> {
    let n = body.len();
    [&[0x28, (n >> 8) as u8, n as u8, 0, 1, number, 2], body].concat()
}

fn ack(number: u8) -> Vec<u8> {
    framed(number, &[6, 0x40, 1])
}

fn nak(number: u8, pairs: &[(u32, u32)]) -> Vec<u8> {
    let mut body = vec![8, 0, 0, 0, 0, 0, 0, 0, 0];
    for (start, end) in pairs {
        body.extend([start.to_be_bytes(), end.to_be_bytes()].concat());
    }
    framed(number, &body)
}

// ---- runs; make_expected.py has the same

impl Host {
    fn byte_cases(&mut self) {
        self.fresh("M1 to M4", 1, 7, 5);
        self.put(true, Some(false));
        self.steps(4, false);
        self.wrong |= !self.m.around.h.is_idle();
        self.steps(1, false);
    }

    fn acknowledged(&mut self) {
        self.fresh("acknowledged, with repairs longer than L", 1, 7, 20);
        self.put(false, None);
        self.steps(3, false);
        self.nak(7, &[(0, 7), (0, 0), (3, 3), (1, 8)]);
        self.wrong |= (self.m.around.h.progress(), self.m.around.h.pending(), self.m.around.h.at()) != (8, 3, At::SendingFileData);
        self.steps(6, true);
        self.nak(7, &[(0, 12)]);
        self.steps(6, false);
        self.steps(1, true);
        self.nak(7, &[(0, 20), (19, 20)]);
        self.ack_of_eof(7);
        self.steps(7, true);
        self.finished(7, 0x02);
        self.wrong |= self.m.around.h.at() != At::Closing;
        self.steps(2, false);
    }

    fn refusals(&mut self) {
        let f = Some(false);
        self.fresh("every refusal", 1, 7, 5);
        self.put_to((3, 2), f, f, b"a", b"b");
        self.put_to((1, 3), f, f, b"a", b"b");
        self.m.around.h.config.actions[3] = 2;
        self.put(false, f);
        self.m.around.h.config.actions[3] = 1;
        self.put_to((1, 2), f, f, b"", b"b");
        self.put_to((1, 2), f, f, b"\xC0\x80", b"b");
        self.put_to((1, 2), f, f, b"a", b"\xED\xA0\x80");
        self.m.around.h.config.remotes[0].maxpacket = 16;
        self.put(false, f);
        self.m.around.h.config.remotes[0].maxpacket = 17;
        self.put(false, f);
        self.put(false, f);
        self.step_in(4, false, ROOM);
        self.step_in(5, false, 16);
        self.step_in(5, false, 17);
        self.steps(1, false);
        self.deliver(b"");
        self.directive(7, &[6, 0x40]);
        self.directive(7, &[4, 0]);
        self.ack_of_eof(8);
        self.ack_of_eof(7);
        self.nak(7, &[(0, 4), (0, 5)]);
        self.nak(7, &[(0, 0); 65]);
        self.nak(7, &[(0, 0); 64]);
        self.nak(7, &[(0, 0)]);
        self.steps(1, false);
        self.nak(7, &[(0, 0)]);
        self.step_in(6, true, ROOM);
        self.step_in(5, true, 3);
    }

    /// What stands behind a PDU matters to no answer; each delivery says how many bytes are the PDU's.
    fn fills(&mut self) {
        let finished = framed(7, &[5, 2]);
        self.fresh("fill behind deliveries, and what looks like more of the PDU", 1, 7, 5);
        self.first_of_frame(&[&ack(7), &[0x55]]);
        self.put(false, None);
        self.steps(3, false);
        self.first_of_frame(&[&nak(7, &[(0, 4), (0, 0)]), &[0; 8]]); // no third pair
        self.steps(3, false);
        self.first_of_frame(&[&nak(7, &[(0, 5)]), &[0; 300]]);
        self.steps(3, false);
        self.first_of_frame(&[&framed(7, &[6, 0x40]), &[1]]); // not the ACK's third byte
        self.first_of_frame(&[&framed(7, &[4, 0]), &[0x55; 300]]);
        self.first_of_frame(&[&ack(8), &[0x55; 3]]);
        self.first_of_frame(&[&finished, &[0x55; 3]]);
        self.first_of_frame(&[&nak(7, &[(0, 6)]), &[0x55; 3]]);
        for n in 0..10 {
            self.deliver(&ack(7)[..n]); // cut in each place
        }
        self.first_of_frame(&[&ack(7), &[0x55; 2]]);
        self.first_of_frame(&[&finished, &[6]]);
        self.steps(2, false);
        // the longest there is: file data with numbers of eight bytes and a data field of 65,535
        let mut long = vec![1; 70000];
        long[..4].copy_from_slice(&[0x38, 0xFF, 0xFF, 0x77]);
        self.deliver(&long[..65563]);
        self.deliver(&long[..65562]);
        self.deliver(&long);
    }

    fn frames(&mut self) {
        let (finished, keep_alive) = (framed(7, &[5, 2]), framed(7, &[12, 0, 0, 0, 0]));
        self.fresh("frames: several PDUs, fill behind, refused ones between, a damaged one", 1, 7, 5);
        self.all_of_frame(&[&[0x55; 5]]);
        self.all_of_frame(&[]);
        self.put(false, None);
        self.steps(4, false);
        self.all_of_frame(&[&nak(7, &[(0, 5)]), &ack(7), &[0x55; 5]]);
        self.steps(3, false);
        self.all_of_frame(&[&[0; 300]]);
        self.all_of_frame(&[&ack(7), &nak(7, &[(0, 0)]), &ack(8), &nak(7, &[(0, 6)]), &framed(7, &[4]), &keep_alive]);
        self.steps(2, false);
        let mut damaged = ack(7); // its version: the Finished behind it is not found
        damaged[0] ^= 0x40;
        self.all_of_frame(&[&keep_alive, &damaged, &finished]);
        self.steps(1, false);
        self.all_of_frame(&[&finished, &ack(7), &[0xFF; 9]]);
        self.steps(2, false);
    }

    fn cancels(&mut self) {
        self.fresh("cancel, reset, second put", 1, 255, 5);
        self.cancel(1, 255);
        self.put(false, Some(false));
        self.steps(2, false);
        self.cancel(1, 7);
        self.cancel(2, 255);
        self.cancel(1, 255);
        self.cancel(1, 255);
        self.nak(255, &[(0, 4)]);
        self.steps(1, false);
        self.ack_of_eof(255);
        self.finished(255, 0xF5);
        self.cancel(1, 255);
        self.steps(2, false);
        self.wrong |= self.m.around.h.next_number() != SequenceNumber { width: 1, value: 0 };
        self.put(true, Some(false));
        self.steps(2, false);
        self.reset();
        self.steps(1, false);
        self.put(true, Some(true));
        self.steps(5, false);
        self.steps(2, true);
    }

    fn wide(&mut self) {
        self.fresh("wide numbers, CRCs, faults", 8, u64::MAX, 20);
        let c = &mut self.m.around.h.config;
        c.id = EntityId { width: 2, value: 0x1234 };
        c.count = 9;
        c.remotes[7] = Remote {
            id: EntityId { width: 8, value: 0x89AB_CDEF },
            maxpacket: 4096,
            maxsegment: 7,
            checksum: 2,
            crc: 255,
            limit: 1,
            ..Remote::NONE
        };
        c.actions[1] = 3;
        let put = |host: &mut Host| host.put_to((4, 0x89AB_CDEF), None, None, "é".as_bytes(), "😀".as_bytes());
        put(self);
        self.steps(5, false);
        self.steps(2, true);
        self.reset();
        self.m.around.h.config.actions[1] = 1;
        self.m.around.h.config.remotes[7].checksum = 3;
        put(self);
        self.steps(5, false);
        self.steps(2, true);
        put(self);
        let keep_alive = b"\x2A\x00\x07\x37\x00\x00\x12\x34\x00\x00\x00\x00\x00\x00\x00\x01\x89\xAB\xCD\xEF\x0C\x00\x00\x00\x00\xAA\xB6";
        self.deliver(keep_alive);
        self.first_of_frame(&[keep_alive, b"\xAA\xB6"]);
        self.steps(1, true);
    }

    fn bursts(&mut self) {
        self.fresh("M1 to M4 in one burst", 1, 7, 5);
        self.put(true, Some(false));
        self.burst(16, false);
        self.burst(16, false);
        self.fresh("M1 to M4 in a buffer of 60 bytes", 1, 7, 5);
        self.put(true, Some(false));
        self.burst_in(5, false, 16, 60);
        self.burst_in(5, false, 16, 60);
    }

    fn short_bursts(&mut self) {
        self.fresh("bursts that are refused, bursts that end early", 1, 7, 5);
        self.burst(17, false);
        self.burst(usize::MAX, true);
        self.burst_in(0, false, 17, 0);
        self.burst(0, false);
        self.burst_in(4, true, 16, 0);
        self.put(false, None);
        self.burst(17, false);
        self.burst_in(4, true, 17, 0);
        self.burst_in(4, true, 0, 0);
        self.burst_in(4, false, 16, ROOM);
        self.burst_in(5, false, 16, 16);
        self.burst_in(5, false, 1, 0);
        self.burst_in(5, false, 16, 17);
        self.burst_in(4, true, 0, ROOM);
        self.burst_in(5, false, 16, 26);
        self.nak(7, &[(0, 4), (0, 0), (1, 4)]);
        self.burst(2, true);
        self.burst_in(5, false, 16, 13);
        self.burst(3, false);
        self.burst_in(5, true, 16, 16);
        self.burst_in(5, true, 16, 17);
    }

    fn bursts_with_expiry(&mut self) {
        self.fresh("the expiry of a burst is its first step's", 1, 7, 5);
        self.put(false, None);
        self.burst(3, true);
        self.burst(16, true);
        self.burst(16, true);
        self.nak(7, &[(0, 5)]);
        self.burst(16, true);
        self.burst(16, false);
        self.burst(16, true);
        self.burst(1, true);
        self.burst(16, true);
        self.put(false, None);
        self.burst(16, false);
        self.nak(8, &[(0, 5), (0, 0)]);
        self.ack_of_eof(8);
        self.burst(2, false);
        self.finished(8, 0x02);
        self.burst(16, false);
        self.burst(0, false);
        self.put(true, Some(true));
        self.burst(4, false);
        self.cancel(1, 9);
        self.burst(1, true);
        self.burst(16, true);
    }

    fn long_bursts(&mut self) {
        self.files = (0..69400).map(|i| (i * 7 + i / 256) as u8).collect();
        self.m = Memory::of(self.m.around.h, FRAME);
        self.fresh("sixteen data PDUs of 4,096 bytes in 65,536 bytes", 1, 7, 65400);
        let entry = &mut self.m.around.h.config.remotes[0];
        (entry.maxpacket, entry.maxsegment, entry.checksum) = (4096, 4096, 3);
        self.put(false, None);
        self.burst(1, false);
        self.burst(16, false);
        self.burst(16, false);
        self.nak(7, &[(40, 65400)]);
        self.burst_in(self.lent, true, 16, FRAME - 1);
        self.burst(16, true);
        self.burst(16, true);
        self.fresh("the same, another file lent for some", 1, 7, 65400);
        let entry = &mut self.m.around.h.config.remotes[0];
        (entry.maxpacket, entry.maxsegment, entry.checksum) = (4096, 4096, 2);
        self.put(false, None);
        self.burst(8, false);
        self.lend(3999);
        self.burst(5, false);
        self.look();
        self.nak(7, &[(40, 49000)]);
        self.burst(14, false);
        self.look();
        self.lend(0);
        self.burst(1, false);
        self.lend(3999);
        self.burst(16, false);
        self.look();
        self.lend(0);
        self.burst(16, true);
        self.files = FILES.to_vec();
        self.m = Memory::of(self.m.around.h, ROOM);
    }
}

// ---- another file of the same length: each data PDU has the bytes of the file lent with it, the EOF the checksum of those that left

impl Host {
    fn changed_files(&mut self) {
        self.fresh("D28 of docs/DIFFERENCES.md: an EOF, a cancel's, a fault's", 1, 7, 5);
        self.put(true, Some(false));
        self.steps(2, false);
        self.lend(20);
        self.steps(2, false);
        self.lend(0);
        self.m.around.h.config.remotes[0].checksum = 3;
        self.put(true, Some(false));
        self.steps(2, false);
        self.cancel(1, 8);
        self.lend(20);
        self.steps(2, false);
        self.lend(0);
        self.m.around.h.config.remotes[0].checksum = 0;
        self.put(false, Some(false));
        self.steps(4, false);
        self.lend(20);
        self.steps(2, true);
    }

    /// Pieces of three bytes, so that progress is no multiple of four.
    fn changed_with(&mut self, label: &str, checksum: u8) {
        self.fresh(label, 1, 7, 10);
        let entry = &mut self.m.around.h.config.remotes[0];
        (entry.maxsegment, entry.checksum) = (3, checksum);
        self.look();
        self.put(false, None);
        self.look();
        self.steps(2, false);
        self.look();
        self.lend(20);
        self.steps(1, false);
        self.look();
        self.nak(7, &[(0, 5), (0, 0)]); // repairs: other bytes than those that left first, and nothing moves
        self.look();
        self.step_in(9, false, ROOM);
        self.step_in(10, false, 3);
        self.look();
        self.steps(2, false);
        self.look();
        self.burst(2, false); // the metadata, and a piece
        self.look();
        self.lend(0);
        self.step_in(10, false, 3); // refused: the piece that leaves is the next file's
        self.look();
        self.lend(20);
        self.burst(1, false);
        self.look();
        self.lend(0);
        self.steps(1, false);
        self.look();
        self.lend(20);
        self.steps(1, true);
        self.lend(0);
        self.steps(1, true); // the fault cancels
        self.look();
        self.lend(20);
        self.steps(1, true);
        self.ack_of_eof(7);
        self.finished(7, 0x12);
        self.look();
        self.steps(1, false);
        self.look();
        self.put(false, None);
        self.look();
        self.burst(3, false);
        self.look();
        self.lend(0);
        self.cancel(1, 8);
        self.look();
        self.steps(1, false);
        self.lend(20);
        self.burst(16, true);
        self.look();
        self.steps(1, true); // abandoned
        self.look();
        self.lend(0);
        self.put(false, None);
        self.burst(2, false);
        self.reset();
        self.look();
        self.lend(20);
        self.put(true, Some(true));
        self.look();
        self.burst(3, false);
        self.lend(0);
        self.burst(16, false);
        self.look();
        self.lend(20);
        self.steps(1, true); // no Finished in time: the fault cancels
        self.look();
    }
}

// ---- memory that holds anything at all: every call returns, and is watched as above

struct Random(u64);

impl Random {
    fn next(&mut self) -> u64 {
        self.0 ^= self.0 << 13;
        self.0 ^= self.0 >> 7;
        self.0 ^= self.0 << 17;
        self.0
    }

    fn below(&mut self, n: u64) -> u64 {
        self.next() % n
    }

    /// Most often small.
    fn size(&mut self) -> u64 {
        if self.below(4) > 0 {
            self.below(22)
        } else {
            self.next()
        }
    }
}

#[derive(Clone, Copy, PartialEq)]
enum Way {
    Ones,
    Random,
    NearAState,
}

// places in the handler (include/tsendrivaty.h)
const STEP: usize = 384;
const SEGMENT: usize = 440;
const SIZE: usize = 448;
const PROGRESS: usize = 992;
const PLACES: usize = 1008;
const COUNT: usize = 2032;
const SOURCE: usize = 392;
const NUMBER: usize = 408;
const DESTINATION: usize = 424;

fn filled(r: &mut Random, way: Way) -> [u8; size_of::<Handler>()] {
    let mut b = [0xFF; size_of::<Handler>()];
    if way != Way::Ones {
        b.fill_with(|| r.next() as u8);
    }
    if way == Way::NearAState {
        let mut word = |at: usize, v: u64| b[at..at + 8].copy_from_slice(&v.to_le_bytes());
        word(SIZE, LENGTH as u64);
        word(SEGMENT, r.size());
        word(PROGRESS, r.size());
        word(COUNT, if r.below(4) > 0 { r.below(66) } else { r.next() });
        for k in 0..128 {
            word(PLACES + 8 * k, r.size());
        }
        b[STEP] = r.below(8) as u8;
    }
    b
}

fn word(b: &[u8], at: usize) -> u64 {
    u64::from_le_bytes(b[at..at + 8].try_into().unwrap())
}

/// A PDU for the transaction that the memory was filled with, now and then with a wrong byte.
fn some_pdu(r: &mut Random, b: &[u8]) -> Vec<u8> {
    let mut body = match r.below(4) {
        0 => vec![6, 0x40, 1],
        1 => vec![5, 2],
        2 => [vec![8; 1], vec![0; 8]].concat(),
        _ => vec![12, 0, 0, 0, 0],
    };
    if body[0] == 8 {
        for _ in 0..2 * r.below(70) {
            body.extend([0, 0, 0, r.below(22) as u8]);
        }
    }
    let n = body.len();
    let mut pdu = vec![0x28, (n >> 8) as u8, n as u8, 0x77];
    for at in [SOURCE, NUMBER, DESTINATION] {
        pdu.extend(word(b, at).to_be_bytes());
    }
    pdu.extend(body);
    if r.below(4) == 0 {
        let at = r.below(pdu.len() as u64) as usize;
        pdu[at] = r.next() as u8;
    }
    if r.below(2) > 0 {
        let fill = r.below(100);
        pdu.extend((0..fill).map(|_| r.next() as u8));
    }
    pdu
}

fn one_call(r: &mut Random, m: &mut Memory, b: &[u8], call: u64) -> bool {
    let was = m.clone();
    let (mut length, mut refused) = (0, false);
    match call {
        0 => {
            let room = if r.below(4) > 0 { ROOM } else { r.below(40) as usize };
            let lent = if r.below(9) > 0 { LENGTH } else { r.below(21) as usize };
            match m.around.h.step(&FILES[..lent], r.below(2) == 0, &mut m.out[..room]) {
                Ok(s) => length = s.pdu.len(),
                Err(_) => refused = true,
            }
        }
        1 => {
            let bytes = some_pdu(r, b);
            let d = m.around.h.deliver(&bytes);
            if (d.length == 0) != (d.answer == Err(Refusal::Malformed)) || d.length > bytes.len() {
                return false;
            }
            refused = d.answer.is_err();
        }
        2 => {
            let name: Vec<u8> = (0..r.below(300)).map(|_| r.below(128) as u8).collect();
            let destination = EntityId { width: 1 << r.below(5), value: m.around.h.config.remotes[r.below(8) as usize].id.value };
            let p =
                Put { destination, unacknowledged: None, closure: Some(true), source_name: &name, destination_name: b"b", size: r.next() };
            refused = m.around.h.put(&p).is_err();
        }
        3 => {
            let (source, number) = (word(b, SOURCE), word(b, NUMBER));
            let id = EntityId { width: r.next() as u8, value: source };
            refused = !m.around.h.cancel(id, SequenceNumber { width: r.next() as u8, value: number });
        }
        4 => m.around.h.reset(),
        6 => {
            let room = if r.below(4) > 0 { ROOM } else { r.below(150) as usize };
            let lent = if r.below(9) > 0 { LENGTH } else { r.below(21) as usize };
            let count = if r.below(16) > 0 { r.below(18) } else { r.next() } as usize;
            return burst_on(m, &FILES[..lent], r.below(2) == 0, count, room).1;
        }
        _ => m.around.h = Handler::new(m.around.h.config, SequenceNumber { width: r.next() as u8, value: r.next() }),
    }
    m.kept(&was, refused, length)
}

fn garbage(way: Way, label: &str, rounds: usize) -> bool {
    let (mut r, mut calls, mut good) = (Random(0x9E37_79B9_7F4A_7C15), 0, 0);
    for i in 0..rounds as u64 {
        let bytes = filled(&mut r, way);
        // SAFETY: a Handler holds numbers only, so any bytes are one.
        let mut m = Memory::of(unsafe { transmute::<[u8; size_of::<Handler>()], Handler>(bytes) }, ROOM);
        for k in 0..14 {
            let call = if k < 7 { (k + i) % 7 } else { r.below(7) }; // each in its turn is the first
            good += one_call(&mut r, &mut m, &bytes, call) as usize;
            calls += 1;
        }
    }
    println!("garbage, {label}: {good} of {calls} calls returned as they must");
    good == calls
}

// ---- random passes on a handler that began as a new one, over the one file or the other: every burst is what the same steps are, one by one

/// The number of the transaction under way.
fn current(h: &Handler) -> u8 {
    h.next_number().value.wrapping_sub(1) as u8
}

/// A NAK of bytes that have left, an ACK of the EOF or a Finished; the two last most often at their time.
fn random_delivery(r: &mut Random, h: &mut Handler) {
    let (kind, top) = (r.below(8), h.progress() + 1);
    let body = match h.at() {
        At::WaitingForEofAck if kind < 4 => vec![6, 0x40, 1],
        At::WaitingForFinished if kind < 4 => vec![5, 2],
        _ if kind == 0 => vec![6, 0x40, 1],
        _ if kind == 1 => vec![5, 2],
        _ => {
            let mut nak = vec![8, 0, 0, 0, 0, 0, 0, 0, 0];
            for _ in 0..1 + r.below(6) {
                let start = r.below(top);
                nak.extend([0, 0, 0, start as u8, 0, 0, 0, (start + r.below(top - start)) as u8]);
            }
            nak
        }
    };
    let fill = vec![0x28; r.below(50) as usize];
    let _ = h.deliver(&[framed(current(h), &body), fill].concat());
}

fn random_put(r: &mut Random, h: &mut Handler) -> usize {
    let lent = r.below(21) as usize;
    let entry = &mut h.config.remotes[0];
    (entry.maxpacket, entry.maxsegment, entry.limit) = (24 + r.below(30), 1 + r.below(4), r.below(4) as u8);
    (entry.checksum, entry.crc) = ([0, 2, 3, 15][r.below(4) as usize], r.below(2) as u8);
    h.config.actions.fill_with(|| [1, 3, 4][r.below(3) as usize]);
    (h.config.eofsent, h.config.finished) = (r.below(4) as u8, r.below(4) as u8);
    let destination = EntityId { width: 1, value: 2 };
    let (unacknowledged, closure) = (Some(r.below(3) == 0), Some(r.below(2) == 0));
    let _ = h.put(&Put { destination, unacknowledged, closure, source_name: b"a", destination_name: b"b", size: lent as u64 });
    lent
}

fn random_bursts(rounds: usize) -> bool {
    let (mut r, mut lent, mut good, mut steps) = (Random(0xD1B5_4A32_D192_ED03), 0, 0, 0);
    let config = Config::to(EntityId { width: 1, value: 1 }, Remote { id: EntityId { width: 1, value: 2 }, ..Remote::NONE });
    let mut m = Memory::of(Handler::new(config, SequenceNumber { width: 1, value: 7 }), ROOM);
    for _ in 0..rounds {
        let (h, dice) = (&mut m.around.h, r.below(64));
        if h.is_idle() && dice % 8 > 0 {
            lent = random_put(&mut r, h);
        }
        match dice {
            1 => h.reset(),
            2 => _ = h.cancel(EntityId { width: 1, value: 1 }, SequenceNumber { width: 1, value: current(h).into() }),
            16.. => random_delivery(&mut r, h),
            _ => (),
        }
        let room = if r.below(2) > 0 { ROOM } else { r.below(250) as usize };
        let length = if r.below(16) > 0 { lent } else { r.below(21) as usize };
        let count = if r.below(8) > 0 { 1 + r.below(16) } else { r.below(20) } as usize;
        let place = if r.below(4) > 0 { 0 } else { LENGTH };
        m.out[r.below(250) as usize] = r.next() as u8;
        let (got, right) = burst_on(&mut m, &FILES[place..][..length], r.below(3) == 0, count, room);
        steps += got.map_or(0, |made| made.len());
        good += right as usize;
    }
    println!("one by one: {good} of {rounds} bursts as their steps");
    good == rounds && steps >= rounds
}

#[no_mangle]
pub extern "C" fn main(_: i32, _: *const *const u8) -> i32 {
    let config = Config::to(EntityId { width: 1, value: 1 }, Remote::NONE);
    let m = Memory::of(Handler::new(config, SequenceNumber { width: 1, value: 0 }), ROOM);
    let mut host = Host { m, files: FILES.to_vec(), place: 0, lent: 0, wrong: false };
    host.byte_cases();
    host.acknowledged();
    host.refusals();
    host.fills();
    host.frames();
    host.cancels();
    host.wide();
    host.bursts();
    host.short_bursts();
    host.bursts_with_expiry();
    host.long_bursts();
    host.changed_files();
    host.changed_with("another file of the same length, modular", 0);
    host.changed_with("another file of the same length, CRC-32C", 2);
    host.changed_with("another file of the same length, CRC-32", 3);
    host.changed_with("another file of the same length, no checksum", 15);
    host.wrong |= !garbage(Way::Ones, "every byte 255", 4);
    host.wrong |= !garbage(Way::Random, "random", 200);
    host.wrong |= !garbage(Way::NearAState, "random, near a state", 1000);
    host.wrong |= !random_bursts(8000);
    host.wrong as i32
}
