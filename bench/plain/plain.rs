//! What a Rust programmer would write by hand for one stream, to measure beside `rtpbin`.
//!
//! usage: plain dump CAPTURE | plain replay CAPTURE LATENCY
//!
//! It reads a little-endian pcap file of Ethernet frames with RTP over UDP and IPv4. `dump` writes the lines
//! of `rtpbin dump`; `replay` those of `rtpbin replay` for the script of bench/packets.py: one session
//! and one source without RTCP, `mode none`, `probation 0`, `rtx off`, a latency in milliseconds.
use std::collections::{BTreeMap, VecDeque};
use std::env;
use std::error::Error;
use std::fs::File;
use std::io::{self, BufReader, BufWriter, Read, Write};

const RATE: i64 = 90_000;
const DROPOUT: u64 = 3_000;
const WINDOW: u64 = 8_192;

struct Capture {
    file: BufReader<File>,
    frame: Vec<u8>,
    first: Option<u64>,
    time: u64,
}

impl Capture {
    fn open(path: &str) -> io::Result<Capture> {
        let mut file = BufReader::with_capacity(262_144, File::open(path)?);
        file.read_exact(&mut [0; 24])?;
        Ok(Capture { file, frame: Vec::new(), first: None, time: 0 })
    }

    /// Reads the next record into `frame` and steps `time`; false at the end.
    fn next(&mut self) -> io::Result<bool> {
        let mut head = [0; 16];
        match self.file.read_exact(&mut head) {
            Err(e) if e.kind() == io::ErrorKind::UnexpectedEof => return Ok(false),
            other => other?,
        }
        let field = |at: usize| u32::from_le_bytes(head[at..at + 4].try_into().unwrap());
        let stamp = u64::from(field(0)) * 1_000_000_000 + u64::from(field(4)) * 1_000;
        let first = *self.first.get_or_insert(stamp);
        self.time = self.time.max(stamp.saturating_sub(first));
        self.frame.resize(field(8) as usize, 0);
        self.file.read_exact(&mut self.frame)?;
        Ok(true)
    }
}

struct Rtp<'a> {
    ports: (u16, u16),
    marker: bool,
    pt: u8,
    seq: u16,
    timestamp: u32,
    ssrc: u32,
    csrcs: usize,
    words: usize,
    padding: usize,
    payload: &'a [u8],
}

fn short(bytes: &[u8], at: usize) -> Option<u16> {
    Some(u16::from_be_bytes(bytes.get(at..at + 2)?.try_into().ok()?))
}

fn long(bytes: &[u8], at: usize) -> Option<u32> {
    Some(u32::from_be_bytes(bytes.get(at..at + 4)?.try_into().ok()?))
}

fn rtp_of(frame: &[u8]) -> Option<Rtp<'_>> {
    if short(frame, 12)? != 0x0800 {
        return None;
    }
    let ip = &frame[14..];
    let (header, total) = (usize::from(ip.first()? & 15) * 4, usize::from(short(ip, 2)?));
    let udp = ip.get(header..total)?;
    let ports = (short(udp, 0)?, short(udp, 2)?);
    let rtp = udp.get(8..usize::from(short(udp, 4)?))?;
    let (flags, kind) = (*rtp.first()?, *rtp.get(1)?);
    if flags >> 6 != 2 {
        return None;
    }
    let csrcs = usize::from(flags & 15);
    let mut begin = 12 + 4 * csrcs;
    let mut words = 0;
    if flags & 16 != 0 {
        words = usize::from(short(rtp, begin + 2)?);
        begin += 4 + 4 * words;
    }
    let padding = if flags & 32 != 0 { usize::from(*rtp.last()?) } else { 0 };
    Some(Rtp {
        ports,
        marker: kind & 128 != 0,
        pt: kind & 127,
        seq: short(rtp, 2)?,
        timestamp: long(rtp, 4)?,
        ssrc: long(rtp, 8)?,
        csrcs,
        words,
        padding,
        payload: rtp.get(begin..rtp.len().checked_sub(padding)?)?,
    })
}

fn dump(mut capture: Capture, out: &mut impl Write) -> Result<(), Box<dyn Error>> {
    let mut count = 0;
    while capture.next()? {
        count += 1;
        let rtp = rtp_of(&capture.frame).ok_or("a record holds no RTP")?;
        writeln!(
            out,
            "{count} {} rtp {} {} {} {} {} {:08x} {} {} {} {} {}",
            capture.time,
            rtp.ports.0,
            rtp.ports.1,
            rtp.pt,
            rtp.seq,
            rtp.timestamp,
            rtp.ssrc,
            u8::from(rtp.marker),
            rtp.csrcs,
            rtp.words,
            rtp.padding,
            rtp.payload.len()
        )?;
    }
    writeln!(out, "done {count}")?;
    Ok(())
}

struct Packet {
    pts: u64,
    pt: u8,
    marker: bool,
    payload: Vec<u8>,
}

/// A buffer for one stream whose timestamps are taken as they are.
struct Buffer {
    latency: u64,
    held: BTreeMap<u64, Packet>,
    /// The numbers that came in order and their times; the one at or below the next number stays.
    heights: VecDeque<(u64, u64)>,
    base: u64,
    first_timestamp: i64,
    last_timestamp: i64,
    start: u64,
    next: Option<u64>,
    out: u64,
    lost: u64,
    refused: u64,
}

impl Buffer {
    fn new(latency: u64) -> Buffer {
        Buffer {
            latency,
            held: BTreeMap::new(),
            heights: VecDeque::new(),
            base: 0,
            first_timestamp: 0,
            last_timestamp: 0,
            start: 0,
            next: None,
            out: 0,
            lost: 0,
            refused: 0,
        }
    }

    fn push(&mut self, now: u64, rtp: &Rtp, text: &mut impl Write) -> Result<(), Box<dyn Error>> {
        let number = match self.heights.back() {
            None => {
                self.base = now;
                self.first_timestamp = (1 << 32) + i64::from(rtp.timestamp);
                self.last_timestamp = self.first_timestamp;
                65536 + u64::from(rtp.seq)
            }
            Some(&(top, _)) => top.wrapping_add_signed(i64::from(rtp.seq.wrapping_sub(top as u16) as i16)),
        };
        let top = self.heights.back().map_or(0, |it| it.0);
        if top != 0 && number > top + DROPOUT {
            return Err("a far packet".into());
        }
        let low = self.next.or(self.held.keys().next().copied()).unwrap_or(number);
        let why = if self.next.is_some_and(|next| number < next) {
            Some("late")
        } else if self.held.contains_key(&number) {
            Some("duplicate")
        } else if number >= low + WINDOW {
            Some("full")
        } else {
            None
        };
        if let Some(word) = why {
            self.refused += 1;
            writeln!(text, "{now} refuse 0 {} o {word}", rtp.seq)?;
            return Ok(());
        }
        let moved = i64::from(rtp.timestamp.wrapping_sub(self.last_timestamp as u32) as i32);
        let timestamp = self.last_timestamp + moved;
        let sent = (timestamp - self.first_timestamp) * 1_000_000_000 / RATE;
        let pts = (self.base as i64 + sent).max(0) as u64;
        if number > top {
            self.last_timestamp = timestamp;
            self.heights.push_back((number, pts));
        }
        if self.held.is_empty() && self.next.is_none() {
            self.start = pts + self.latency;
        }
        let payload = rtp.payload.to_vec();
        self.held.insert(number, Packet { pts, pt: rtp.pt, marker: rtp.marker, payload });
        Ok(())
    }

    /// The time at which a number is expected, which lies between two heights.
    fn expected(&self, number: u64) -> u64 {
        let after = self.heights.partition_point(|it| it.0 < number);
        match (after.checked_sub(1).map(|it| self.heights[it]), self.heights.get(after)) {
            (_, Some(&(there, time))) if there == number => time,
            (Some((from, before)), Some(&(to, then))) => {
                before + (then as i64 - before as i64) as u64 * (number - from) / (to - from)
            }
            (None, Some(&(_, time))) | (Some((_, time)), None) => time,
            (None, None) => 0,
        }
    }

    /// When the next thing is due, if anything is.
    fn due(&self) -> Option<u64> {
        match self.next {
            None => self.held.first_key_value().map(|_| self.start),
            Some(next) if self.held.contains_key(&next) => Some(0),
            Some(next) => self.held.first_key_value().map(|_| self.expected(next) + self.latency),
        }
    }

    /// Does what is due at a time.
    fn turn(&mut self, now: u64, text: &mut impl Write) -> io::Result<()> {
        while self.due().is_some_and(|due| due <= now) {
            let Some((&number, _)) = self.held.first_key_value() else { break };
            match self.next {
                Some(next) if next < number => self.lose(now, next, number, text)?,
                _ => self.give(now, number, text)?,
            }
        }
        Ok(())
    }

    fn give(&mut self, now: u64, number: u64, text: &mut impl Write) -> io::Result<()> {
        if let Some(packet) = self.held.remove(&number) {
            let Packet { pts, pt, marker, payload } = packet;
            writeln!(text, "{now} out 0 {number} {pts} {pt} {} {}", u8::from(marker), payload.len())?;
            self.out += 1;
        }
        self.go_on(number + 1);
        Ok(())
    }

    fn lose(&mut self, now: u64, next: u64, held: u64, text: &mut impl Write) -> io::Result<()> {
        let mut end = next + 1;
        while end < held && self.expected(end) + self.latency <= now {
            end += 1;
        }
        let (from, to) = (self.expected(next), self.expected(end));
        writeln!(text, "{now} lost 0 {next} {} {from} {}", end - next, to.saturating_sub(from))?;
        self.lost += end - next;
        self.go_on(end);
        Ok(())
    }

    fn go_on(&mut self, next: u64) {
        self.next = Some(next);
        while self.heights.len() > 1 && self.heights[1].0 <= next {
            self.heights.pop_front();
        }
    }
}

fn replay(mut capture: Capture, latency: u64, out: &mut impl Write) -> Result<(), Box<dyn Error>> {
    let mut buffer = Buffer::new(latency);
    let mut count = 0;
    while capture.next()? {
        let now = capture.time;
        while let Some(due) = buffer.due().filter(|due| *due <= now) {
            buffer.turn(due.max(1), out)?;
        }
        let rtp = rtp_of(&capture.frame).ok_or("a record holds no RTP")?;
        if count == 0 {
            writeln!(out, "{now} pt 0 {} {RATE}\n{now} lane 0 0 {:08x}", rtp.pt, rtp.ssrc)?;
        }
        count += 1;
        buffer.push(now, &rtp, out)?;
        buffer.turn(now, out)?;
    }
    let mut now = capture.time;
    while let Some(due) = buffer.due() {
        now = now.max(due);
        buffer.turn(now, out)?;
    }
    let lanes = u64::from(count > 0);
    if lanes == 1 {
        writeln!(out, "{now} end 0")?;
    }
    writeln!(out, "done {count} {lanes} {} {} {}", buffer.out, buffer.lost, buffer.refused)?;
    Ok(())
}

fn main() -> Result<(), Box<dyn Error>> {
    let words: Vec<String> = env::args().skip(1).collect();
    let words: Vec<&str> = words.iter().map(String::as_str).collect();
    let mut out = BufWriter::with_capacity(65_536, io::stdout().lock());
    match words[..] {
        ["dump", capture] => dump(Capture::open(capture)?, &mut out)?,
        ["replay", capture, latency] => {
            replay(Capture::open(capture)?, latency.parse::<u64>()? * 1_000_000, &mut out)?
        }
        _ => return Err("usage: plain dump CAPTURE | plain replay CAPTURE LATENCY".into()),
    }
    out.flush()?;
    Ok(())
}
