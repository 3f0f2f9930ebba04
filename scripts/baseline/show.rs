//! A plain Rust program that prints what `rtmfp show` prints: the bar for its speed.
use std::io::{self, BufRead, Write};

type Cut = usize;

fn vlu(b: &[u8], at: usize) -> Result<(u64, usize), Cut> {
    let mut value: u128 = 0;
    for (i, x) in b[at..].iter().take(10).enumerate() {
        value = value << 7 | u128::from(x & 0x7f);
        if *x < 0x80 {
            return u64::try_from(value).map(|v| (v, at + i + 1)).map_err(|_| at);
        }
    }
    Err(at)
}

fn counted(b: &[u8], at: usize) -> Result<(&[u8], usize), Cut> {
    let (len, at) = vlu(b, at)?;
    if len > (b.len() - at) as u64 {
        return Err(at);
    }
    let end = at + len as usize;
    Ok((&b[at..end], end))
}

fn word(b: &[u8], at: usize) -> Result<(u32, usize), Cut> {
    let bytes = b.get(at..at + 4).ok_or(at)?;
    Ok((u32::from_be_bytes(bytes.try_into().unwrap()), at + 4))
}

fn hex(out: &mut Vec<u8>, b: &[u8]) {
    const DIGITS: &[u8; 16] = b"0123456789abcdef";
    if b.is_empty() {
        out.push(b'-');
    }
    for x in b {
        out.push(DIGITS[usize::from(x >> 4)]);
        out.push(DIGITS[usize::from(x & 15)]);
    }
}

fn field(out: &mut Vec<u8>, name: &str, b: &[u8]) {
    out.extend_from_slice(name.as_bytes());
    hex(out, b);
}

fn number(out: &mut Vec<u8>, name: &str, n: u64) {
    write!(out, "{name}{n}").unwrap();
}

fn address(b: &[u8], at: usize, out: &mut Vec<u8>) -> Result<usize, Cut> {
    let flags = *b.get(at).ok_or(at)?;
    let host = if flags & 0x80 != 0 { 16 } else { 4 };
    let rest = b.get(at + 1..at + 3 + host).ok_or(at)?;
    let port = u16::from_be_bytes([rest[host], rest[host + 1]]);
    if host == 4 {
        write!(out, "{}.{}.{}.{}:{port}", rest[0], rest[1], rest[2], rest[3]).unwrap();
    } else {
        out.push(b'[');
        hex(out, &rest[..16]);
        write!(out, "]:{port}").unwrap();
    }
    Ok(at + 3 + host)
}

fn options(b: &[u8], start: usize, out: &mut Vec<u8>) -> Result<usize, Cut> {
    let mut at = start;
    let mut first = true;
    loop {
        let (size, after) = vlu(b, at).map_err(|_| start)?;
        if size == 0 {
            if first {
                out.push(b'-');
            }
            return Ok(after);
        }
        if size > (b.len() - after) as u64 {
            return Err(start);
        }
        let end = after + size as usize;
        let (kind, value) = vlu(&b[..end], after).map_err(|_| start)?;
        number(out, if first { "" } else { "," }, kind);
        field(out, ":", &b[value..end]);
        first = false;
        at = end;
    }
}

#[derive(Clone, Copy)]
struct Last {
    flow: u64,
    seq: u64,
    forward: u64,
}

fn name(kind: u8) -> Option<&'static str> {
    Some(match kind {
        0x30 => "ihello",
        0x0f => "fihello",
        0x70 => "rhello",
        0x71 => "redirect",
        0x79 => "cookiechange",
        0x38 => "iikeying",
        0x78 => "rikeying",
        0x01 => "ping",
        0x41 => "pingreply",
        0x10 => "data",
        0x11 => "next",
        0x18 => "probe",
        0x50 => "ackbits",
        0x51 => "ackranges",
        0x5e => "exception",
        0x0c => "close",
        0x4c => "closeack",
        0x7f => "fragment",
        _ => return None,
    })
}

fn user_data(kind: u8, b: &[u8], last: &mut Option<Last>, out: &mut Vec<u8>) -> Result<(), Cut> {
    let before = last.take();
    let before = match (kind, before) {
        (0x11, None) => return Err(0),
        (0x11, Some(l)) if l.seq == u64::MAX => return Err(0),
        (_, l) => l,
    };
    let flags = *b.first().ok_or(0usize)?;
    let (mut at, now) = if kind == 0x11 {
        let l = before.unwrap();
        (1, Last { seq: l.seq + 1, ..l })
    } else {
        let (flow, at) = vlu(b, 1)?;
        let (seq, place) = vlu(b, at)?;
        let (offset, at) = vlu(b, place)?;
        if offset > seq || offset == 0 && flags & 2 == 0 {
            return Err(place);
        }
        (at, Last { flow, seq, forward: seq - offset })
    };
    let part = ["whole", "begin", "end", "middle"][usize::from(flags >> 4 & 3)];
    write!(out, " part={part} abandon={} final={}", flags >> 1 & 1, flags & 1).unwrap();
    write!(out, " flow={} seq={} forward={} opts=", now.flow, now.seq, now.forward).unwrap();
    if flags & 0x80 != 0 {
        at = options(b, at, out)?;
    } else {
        out.push(b'-');
    }
    field(out, " bytes=", &b[at..]);
    *last = Some(now);
    Ok(())
}

fn ack(kind: u8, b: &[u8], out: &mut Vec<u8>) -> Result<(), Cut> {
    let (flow, at) = vlu(b, 0)?;
    let (blocks, at) = vlu(b, at)?;
    let (upto, mut at) = vlu(b, at)?;
    write!(out, " flow={flow} blocks={blocks} upto={upto} also=").unwrap();
    let mut first = true;
    let mut separate = |out: &mut Vec<u8>| {
        if !first {
            out.push(b',');
        }
        first = false;
    };
    if kind == 0x50 {
        for (i, byte) in b[at..].iter().enumerate() {
            for j in 0..8 {
                if byte >> j & 1 == 1 {
                    let n = u128::from(upto) + 2 + 8 * i as u128 + j;
                    let n = u64::try_from(n).map_err(|_| at + i)?;
                    separate(out);
                    number(out, "", n);
                }
            }
        }
    } else {
        let mut last = u128::from(upto);
        while at < b.len() {
            let (holes, middle) = vlu(b, at)?;
            let (received, end) = vlu(b, middle)?;
            let from = last + u128::from(holes) + 2;
            last = from + u128::from(received);
            if last > u128::from(u64::MAX) {
                return Err(at);
            }
            separate(out);
            write!(out, "{from}-{last}").unwrap();
            at = end;
        }
    }
    if first {
        out.push(b'-');
    }
    Ok(())
}

fn chunk(kind: u8, b: &[u8], last: &mut Option<Last>, out: &mut Vec<u8>) -> Result<(), Cut> {
    if kind == 0x10 || kind == 0x11 {
        return user_data(kind, b, last, out);
    }
    *last = None;
    match kind {
        0x30 => {
            let (epd, at) = counted(b, 0)?;
            field(out, " epd=", epd);
            field(out, " tag=", &b[at..]);
        }
        0x0f => {
            let (epd, at) = counted(b, 0)?;
            field(out, " epd=", epd);
            out.extend_from_slice(b" reply=");
            let at = address(b, at, out)?;
            field(out, " tag=", &b[at..]);
        }
        0x70 => {
            let (tag, at) = counted(b, 0)?;
            let (cookie, at) = counted(b, at)?;
            field(out, " tag=", tag);
            field(out, " cookie=", cookie);
            field(out, " cert=", &b[at..]);
        }
        0x71 => {
            let (tag, mut at) = counted(b, 0)?;
            field(out, " tag=", tag);
            out.extend_from_slice(b" to=");
            if at == b.len() {
                out.push(b'-');
            }
            while at < b.len() {
                at = address(b, at, out)?;
                if at < b.len() {
                    out.push(b',');
                }
            }
        }
        0x79 => {
            let (old, at) = counted(b, 0)?;
            field(out, " old=", old);
            field(out, " new=", &b[at..]);
        }
        0x38 => {
            let (near, at) = word(b, 0)?;
            let (cookie, at) = counted(b, at)?;
            let (cert, at) = counted(b, at)?;
            let (part, at) = counted(b, at)?;
            number(out, " near=", u64::from(near));
            field(out, " cookie=", cookie);
            field(out, " cert=", cert);
            field(out, " part=", part);
            field(out, " sign=", &b[at..]);
        }
        0x78 => {
            let (near, at) = word(b, 0)?;
            let (part, at) = counted(b, at)?;
            number(out, " near=", u64::from(near));
            field(out, " part=", part);
            field(out, " sign=", &b[at..]);
        }
        0x01 | 0x41 => field(out, " bytes=", b),
        0x18 => number(out, " flow=", vlu(b, 0)?.0),
        0x50 | 0x51 => ack(kind, b, out)?,
        0x5e => {
            let (flow, at) = vlu(b, 0)?;
            let (code, _) = vlu(b, at)?;
            number(out, " flow=", flow);
            number(out, " code=", code);
        }
        0x7f => {
            let flags = *b.first().ok_or(0usize)?;
            let (id, at) = vlu(b, 1)?;
            let (fragment, at) = vlu(b, at)?;
            number(out, " more=", u64::from(flags >> 7));
            number(out, " id=", id);
            number(out, " number=", fragment);
            field(out, " bytes=", &b[at..]);
        }
        _ => {}
    }
    Ok(())
}

fn stamp(b: &[u8], at: &mut usize) -> Option<u16> {
    let bytes = b.get(*at..*at + 2)?;
    *at += 2;
    Some(u16::from_be_bytes([bytes[0], bytes[1]]))
}

fn show(b: &[u8], out: &mut Vec<u8>) {
    let Some(flags) = b.first() else {
        out.extend_from_slice(b"bad empty\n");
        return;
    };
    if flags & 3 == 0 {
        out.extend_from_slice(b"bad mode-zero\n");
        return;
    }
    let mut at = 1;
    let mut stamps = [None, None];
    for (i, bit) in [0x08, 0x04].into_iter().enumerate() {
        if flags & bit != 0 {
            stamps[i] = stamp(b, &mut at);
            if stamps[i].is_none() {
                out.extend_from_slice(b"bad short-stamp\n");
                return;
            }
        }
    }
    write!(out, "packet mode={} critical={} reverse={}", flags & 3, flags >> 7, flags >> 6 & 1).unwrap();
    for (name, stamp) in [" stamp=", " echo="].into_iter().zip(stamps) {
        match stamp {
            Some(stamp) => number(out, name, u64::from(stamp)),
            None => field(out, name, b""),
        }
    }
    out.push(b'\n');
    let mut last = None;
    while b.len() - at >= 3 {
        let len = usize::from(u16::from_be_bytes([b[at + 1], b[at + 2]]));
        if b.len() - at - 3 < len {
            break;
        }
        let (kind, payload) = (b[at], &b[at + 3..at + 3 + len]);
        if kind != 0 && kind != 0xff {
            line(at, kind, payload, &mut last, out);
        }
        at += 3 + len;
    }
    writeln!(out, "padding {}", b.len() - at).unwrap();
}

fn line(at: usize, kind: u8, payload: &[u8], last: &mut Option<Last>, out: &mut Vec<u8>) {
    number(out, "", at as u64);
    let Some(name) = name(kind) else {
        *last = None;
        writeln!(out, " unknown {kind:02x}").unwrap();
        return;
    };
    let start = out.len();
    write!(out, " {name}").unwrap();
    if let Err(offset) = chunk(kind, payload, last, out) {
        out.truncate(start);
        write!(out, " malformed {name} {offset}").unwrap();
    }
    out.push(b'\n');
}

fn digit(c: u8) -> Option<u8> {
    (c as char).to_digit(16).map(|d| d as u8)
}

fn main() -> io::Result<()> {
    let mut input = io::stdin().lock();
    let mut output = io::BufWriter::new(io::stdout().lock());
    let (mut line, mut packet, mut text) = (Vec::new(), Vec::new(), Vec::new());
    for count in 1.. {
        line.clear();
        if input.read_until(b'\n', &mut line)? == 0 {
            break;
        }
        if line.last() == Some(&b'\n') {
            line.pop();
        }
        packet.clear();
        let bad = line.len() > 4096 || line.len() % 2 == 1 || count > 1_000_000;
        for pair in line.chunks_exact(2) {
            match (digit(pair[0]), digit(pair[1])) {
                (Some(high), Some(low)) if !bad => packet.push(high << 4 | low),
                _ => {
                    output.flush()?;
                    eprintln!("bad line {count}");
                    std::process::exit(3);
                }
            }
        }
        text.clear();
        show(&packet, &mut text);
        output.write_all(&text)?;
    }
    output.flush()
}
