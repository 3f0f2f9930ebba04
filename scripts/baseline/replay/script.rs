//! Scripts that are read, line by line.
use crate::flow::Options;
use crate::places::Rule;
use crate::wire::{Address, Host};
use crate::{Step, World};

/// The step of a line, or `None` where it says none. A line that isn't understood gives an error.
pub fn read_line(world: &World, line: &str) -> Result<Option<Step>, ()> {
    if line.is_empty() || line.starts_with('#') {
        return Ok(None);
    }
    let (word, rest) = line.split_once(' ').ok_or(())?;
    step(world, word, rest).map(Some).ok_or(())
}

fn step(world: &World, word: &str, rest: &str) -> Option<Step> {
    let end = |name: Option<&str>| world.end_named(name?);
    if word == "end" {
        let mut words = rest.splitn(4, ' ');
        let name = name(words.next()?)?;
        let (max_peers, max_sessions) = (number(words.next()?)?, number(words.next()?)?);
        return Some(Step::End { name, max_peers, max_sessions, cert: words.next()?.to_owned() });
    }
    let mut words = rest.split(' ');
    let step = match word {
        "at" => Step::At { moment: number(words.next()?)? },
        "open" => {
            let (end, peer) = (end(words.next())?, end(words.next())?);
            Step::Open { end, peer, list: addresses(&mut words)? }
        }
        "seek" => {
            let (end, name) = (end(words.next())?, bytes(words.next()?).filter(|name| is_service(name))?);
            Step::Seek { end, name, list: addresses(&mut words)? }
        }
        "unseek" => Step::Unseek { end: end(words.next())?, near: number(words.next()?)? },
        "cancel" => Step::Cancel { end: end(words.next())?, n: number(words.next()?)? },
        "close" => Step::Close { end: end(words.next())?, near: number(words.next()?)? },
        "deliver" => {
            let number = number(words.next()?).filter(|number| world.was_numbered(*number))?;
            Step::Deliver { number, end: end(words.next())?, from: address(words.next()?)? }
        }
        "bent" => {
            let number = number(words.next()?).filter(|number| world.was_numbered(*number))?;
            let place = crate::script::number(words.next()?)?;
            Step::Bent { number, place, end: end(words.next())?, from: address(words.next()?)? }
        }
        "inject" => Step::Inject { end: end(words.next())?, from: address(words.next()?)?, bytes: bytes(words.next()?)? },
        "forge" => Step::Forge { end: end(words.next())?, from: address(words.next()?)?, plain: bytes(words.next()?)? },
        "tick" => Step::Tick { end: end(words.next())? },
        "introduce" => Step::Introduce { end: end(words.next())? },
        "narrow" => Step::Narrow { end: end(words.next())?, limit: usize::from(number::<u16>(words.next()?)?) },
        "learn" => Step::Learn { end: end(words.next())? },
        "advance" => Step::Advance { end: end(words.next())? },
        "redirect" => {
            let (end, peer) = (end(words.next())?, end(words.next())?);
            let list: Vec<Address> = words.by_ref().map(address).collect::<Option<_>>()?;
            (1..=16).contains(&list.len()).then_some(Step::Redirect { end, peer, list })?
        }
        "translator" => {
            let (name, mapping, filter) = (name(words.next()?)?, rule(words.next()?)?, rule(words.next()?)?);
            Step::Translator { name, mapping, filter, host: host(words.next()?)?, first: number(words.next()?)? }
        }
        "place" => {
            let (end, at) = (end(words.next())?, address(words.next()?)?);
            let behind = words.next().map_or(Some(None), |name| world.places.translator_named(name).map(Some))?;
            Step::Place { end, at, behind }
        }
        "carry" => Step::Carry { number: number(words.next()?).filter(|number| world.was_numbered(*number))? },
        "flow" => {
            let (end, near) = (end(words.next())?, number(words.next()?)?);
            let (priority, metadata) = (number(words.next()?)?, bytes(words.next()?)?);
            let answers = words.next().map(number).map_or(Some(None), |flow| flow.map(Some))?;
            Step::Flow { end, near, priority, metadata, answers }
        }
        "queue" => {
            let (end, near, flow) = (end(words.next())?, number(words.next()?)?, number(words.next()?)?);
            let options = Options { deadline: limit(words.next()?)?, resends: limit(words.next()?)? };
            Step::Queue { end, near, flow, options, message: message(words.next()?)? }
        }
        "abandon" => {
            let (end, near, flow) = (end(words.next())?, number(words.next()?)?, number(words.next()?)?);
            Step::Abandon { end, near, flow, seq: number(words.next()?)? }
        }
        "finish" => {
            let (end, near, flow) = (end(words.next())?, number(words.next()?)?, number(words.next()?)?);
            Step::Finish { end, near, flow }
        }
        _ => return None,
    };
    words.next().is_none().then_some(step)
}

fn rule(word: &str) -> Option<Rule> {
    match word {
        "independent" => Some(Rule::Independent),
        "dependent" => Some(Rule::Dependent),
        _ => None,
    }
}

fn host(text: &str) -> Option<[u8; 4]> {
    let mut bytes = [0; 4];
    let mut parts = text.split('.');
    for byte in &mut bytes {
        *byte = number(parts.next()?)?;
    }
    parts.next().is_none().then_some(bytes)
}

fn name(word: &str) -> Option<String> {
    let is_name = (1..=16).contains(&word.len()) && word.bytes().all(|x| x.is_ascii_lowercase() || x.is_ascii_digit());
    is_name.then(|| word.to_owned())
}

/// At most 32 addresses.
fn addresses<'a>(words: &mut impl Iterator<Item = &'a str>) -> Option<Vec<Address>> {
    words.map(address).collect::<Option<Vec<_>>>().filter(|list| list.len() <= 32)
}

/// The name of a service.
fn is_service(name: &[u8]) -> bool {
    (1..=64).contains(&name.len()) && name.is_ascii()
}

/// A number without leading zeros.
fn number<T: std::str::FromStr>(word: &str) -> Option<T> {
    let is_number = word.bytes().all(|x| x.is_ascii_digit()) && (word.len() == 1 || !word.starts_with('0'));
    word.parse().ok().filter(|_| is_number)
}

/// A number, or none for a hyphen.
fn limit<T: std::str::FromStr>(word: &str) -> Option<Option<T>> {
    if word == "-" {
        return Some(None);
    }
    number(word).map(Some)
}

fn bytes(word: &str) -> Option<Vec<u8>> {
    if word == "-" {
        return Some(Vec::new());
    }
    let digit = |x: u8| match x {
        b'0'..=b'9' => Some(x - b'0'),
        b'a'..=b'f' => Some(x - b'a' + 10),
        _ => None,
    };
    let pairs = word.as_bytes().chunks(2);
    pairs.map(|pair| Some(digit(pair[0])? << 4 | digit(*pair.get(1)?)?)).collect()
}

/// Bytes in hexadecimal, or so many bytes.
fn message(word: &str) -> Option<Vec<u8>> {
    match word.strip_prefix('*') {
        None => bytes(word),
        Some(length) => {
            let length = number(length).filter(|length| *length <= 2_000_000)?;
            Some((0..length).map(|i: u32| (i % 251) as u8).collect())
        }
    }
}

fn address(text: &str) -> Option<Address> {
    let (front, port) = text.rsplit_once(':')?;
    let host = match front.strip_prefix('[') {
        Some(digits) => Host::V6(u128::from_str_radix(digits.strip_suffix(']')?, 16).ok()?.to_be_bytes()),
        None => Host::V4(host(front)?),
    };
    Some(Address { host, port: number(port)? })
}
