//! The part of `bac replay` that answers Who-Is, in plain Rust: no proofs, no allocation for a line,
//! the checks that a careful program makes. bench/replay.sh measures both in one run.
use std::io::{self, BufWriter, Read, Write};
use std::process::ExitCode;

/// The longest script and the longest datagram, in octets.
const SCRIPT: usize = 1 << 20;
const DATAGRAM: usize = 1501;

struct Device {
    instance: u32,
    vendor: u16,
    reply: u16,
}

fn number(word: &[u8]) -> Option<u32> {
    if word.is_empty() || 10 < word.len() || !word.iter().all(u8::is_ascii_digit) {
        return None;
    }
    let sum = word.iter().fold(0u64, |n, c| 10 * n + u64::from(c - b'0'));
    u32::try_from(sum).ok()
}

fn device(rest: &[u8]) -> Option<Device> {
    let mut words = rest.split(|c| *c == b' ');
    let instance = number(words.next()?)?;
    let _name = words.next()?;
    let vendor = u16::try_from(number(words.next()?)?).ok()?;
    let reply = u16::try_from(number(words.next()?)?).ok()?;
    let _stamp = words.next()?;
    if words.next().is_some() || instance > 4_194_302 || !(50..=1476).contains(&reply) {
        return None;
    }
    Some(Device { instance, vendor, reply })
}

fn digit(c: u8) -> Option<u8> {
    match c {
        b'0'..=b'9' => Some(c - b'0'),
        b'a'..=b'f' => Some(c - b'a' + 10),
        b'A'..=b'F' => Some(c - b'A' + 10),
        _ => None,
    }
}

fn octets<'a>(word: &[u8], room: &'a mut [u8; DATAGRAM]) -> Option<&'a [u8]> {
    if word.is_empty() || word.len() % 2 != 0 || 2 * DATAGRAM < word.len() {
        return None;
    }
    for (place, pair) in room.iter_mut().zip(word.chunks_exact(2)) {
        *place = digit(pair[0])? << 4 | digit(pair[1])?;
    }
    Some(&room[..word.len() / 2])
}

/// The value behind a context tag of this number, and what follows.
fn limit(bytes: &[u8], tag: u8) -> Option<(u64, &[u8])> {
    let (head, rest) = bytes.split_first()?;
    let length = usize::from(head & 7);
    if head >> 4 != tag || head & 8 == 0 || !(1..=4).contains(&length) || rest.len() < length {
        return None;
    }
    let (contents, rest) = rest.split_at(length);
    Some((contents.iter().fold(0, |n, b| n << 8 | u64::from(*b)), rest))
}

/// Whether a datagram is a Who-Is that asks for the instance (functions 0A and 0B, no source).
fn asks(bytes: &[u8], instance: u32) -> bool {
    let [0x81, 0x0a | 0x0b, high, low, npdu @ ..] = bytes else {
        return false;
    };
    if usize::from(u16::from_be_bytes([*high, *low])) != bytes.len() {
        return false;
    }
    let apdu = match npdu {
        [1, 0x00, rest @ ..] => rest,
        [1, 0x20, 0xff, 0xff, 0, _hops, rest @ ..] => rest,
        _ => return false,
    };
    let [0x10, 0x08, rest @ ..] = apdu else {
        return false;
    };
    if rest.is_empty() {
        return true;
    }
    let Some((low, rest)) = limit(rest, 0) else {
        return false;
    };
    let Some((high, rest)) = limit(rest, 1) else {
        return false;
    };
    rest.is_empty() && low <= u64::from(instance) && u64::from(instance) <= high
}

fn unsigned(out: &mut Vec<u8>, tag: u8, value: u16) {
    if value < 256 {
        out.extend_from_slice(&[tag << 4 | 1, value as u8]);
    } else {
        out.extend_from_slice(&[tag << 4 | 2, (value >> 8) as u8, value as u8]);
    }
}

fn i_am(device: &Device, out: &mut Vec<u8>) {
    out.clear();
    out.extend_from_slice(&[0x81, 0x0a, 0, 0, 1, 0, 0x10, 0x00, 0xc4]);
    out.extend_from_slice(&(8 << 22 | device.instance).to_be_bytes());
    unsigned(out, 2, device.reply.min(1476));
    out.extend_from_slice(&[0x91, 0x03]);
    unsigned(out, 2, device.vendor);
    let length = out.len() as u16;
    out[2..4].copy_from_slice(&length.to_be_bytes());
}

fn print(octets: &[u8], line: &mut Vec<u8>) {
    const DIGITS: &[u8; 16] = b"0123456789abcdef";
    line.clear();
    line.extend_from_slice(b"tx ");
    for octet in octets {
        line.push(DIGITS[usize::from(octet >> 4)]);
        line.push(DIGITS[usize::from(octet & 15)]);
    }
    line.push(b'\n');
}

fn play(script: &[u8], out: &mut impl Write) -> io::Result<bool> {
    let mut held: Option<Device> = None;
    let mut room = [0; DATAGRAM];
    let (mut answer, mut line) = (Vec::new(), Vec::new());
    let script = script.strip_suffix(b"\n").unwrap_or(script);
    for text in script.split(|c| *c == b'\n') {
        let text = text.strip_suffix(b"\r").unwrap_or(text);
        if text.is_empty() || text[0] == b'#' {
            continue;
        }
        if let (None, Some(rest)) = (&held, text.strip_prefix(b"device ")) {
            held = device(rest);
            if held.is_none() {
                return Ok(false);
            }
            continue;
        }
        let (Some(device), Some(word)) = (&held, text.strip_prefix(b"rx ")) else {
            return Ok(false);
        };
        let Some(bytes) = octets(word, &mut room) else {
            return Ok(false);
        };
        if asks(bytes, device.instance) {
            i_am(device, &mut answer);
            print(&answer, &mut line);
            out.write_all(&line)?;
        } else {
            out.write_all(b"none\n")?;
        }
    }
    Ok(true)
}

fn main() -> ExitCode {
    let mut script = Vec::new();
    let read = io::stdin().take(SCRIPT as u64 + 1).read_to_end(&mut script);
    if read.is_err() || SCRIPT < script.len() {
        return ExitCode::from(2);
    }
    let mut out = BufWriter::new(io::stdout().lock());
    match play(&script, &mut out).and_then(|good| out.flush().map(|()| good)) {
        Ok(true) => ExitCode::SUCCESS,
        Ok(false) => ExitCode::from(1),
        Err(_) => ExitCode::from(2),
    }
}
