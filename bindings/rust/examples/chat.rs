//! A chat over UDP: `chat SECRET NAME PLACE [PEER AT]`, which `bindings/python/chat.py`
//! understands.
//!
//! SECRET is a file with the 32 bytes that all who chat have, and PLACE an address of this machine
//! with a port. It looks for an end with the name PEER at the address AT. Lines of standard input
//! go to all with whom there is a session, and wait until there was one. Behind the last line it
//! goes on for a second.
use rtmfp::*;
use std::collections::HashMap;
use std::net::{ToSocketAddrs, UdpSocket};
use std::sync::mpsc::{Receiver, TryRecvError, channel};
use std::time::Duration;
use std::{env, error::Error, fs, io, thread};

/// The flow in which lines go, of each session.
type Flows = HashMap<SessionId, FlowId>;

/// The lines of standard input.
fn typed() -> Receiver<String> {
    let (there, here) = channel();
    thread::spawn(move || {
        for line in io::stdin().lines().map_while(Result::ok) {
            there.send(line).ok();
        }
        thread::sleep(Duration::from_secs(1));
    });
    here
}

/// Takes a datagram, if one comes in time.
fn take(end: &mut Endpoint, socket: &UdpSocket, clock: &Clock) -> Result<(), Box<dyn Error>> {
    let mut room = [0; MAX_DATAGRAM + 1];
    if let Ok((len, from)) = socket.recv_from(&mut room) {
        match end.receive(from.into(), &mut room[..len], clock.context()?) {
            Ok(()) | Err(Refusal::TooLong) => {}
            Err(refusal) => return Err(refusal.into()),
        }
    }
    Ok(())
}

/// Does what the entries say. A datagram that can't be sent counts as a lost one.
fn heed(end: &mut Endpoint, socket: &UdpSocket, flows: &mut Flows) -> Result<(), Refusal> {
    let mut begun = Vec::new();
    for entry in end.entries() {
        match entry {
            Entry::Out { to, datagram } => drop(socket.send_to(datagram, to.socket_address())),
            Entry::Handed(it) => println!("{}", String::from_utf8_lossy(it.bytes)),
            Entry::Opened(it) => begun.push(it.session),
            Entry::Confirmed { session, .. } => begun.push(session),
            Entry::Ended { session, .. } => drop(flows.remove(&session)),
            _ => {}
        }
    }
    end.clear();
    for it in begun {
        flows.insert(it, end.open_flow(it, &FlowOptions::default())?);
    }
    Ok(())
}

fn main() -> Result<(), Box<dyn Error>> {
    let words: Vec<String> = env::args().skip(1).collect();
    let [secret, name, place, rest @ ..] = &words[..] else {
        return Err("chat SECRET NAME PLACE [PEER AT]".into());
    };
    let secret = fs::read(secret)?.try_into().map_err(|_| "the secret hasn't 32 bytes")?;
    let (certificate, group) =
        (Certificate::new(random_bytes()?, name)?, Group::new(Secret::new(secret)));
    let mut end = Endpoint::new(&Config::default(), &certificate, &group, &Secret::fresh()?)?;
    let (socket, clock) = (UdpSocket::bind(place)?, Clock::start());
    socket.set_read_timeout(Some(Duration::from_millis(20)))?;
    if let [peer, at] = rest {
        let at: Vec<Address> = at.to_socket_addrs()?.map(Address::from).collect();
        end.seek(peer, &at, clock.context()?)?;
    }
    let (lines, mut flows, mut began) = (typed(), Flows::new(), false);
    loop {
        take(&mut end, &socket, &clock)?;
        began |= !flows.is_empty();
        match if began { lines.try_recv() } else { Err(TryRecvError::Empty) } {
            Ok(line) => {
                for (session, flow) in &flows {
                    end.queue(*session, *flow, line.as_bytes(), MessageOptions::default())?;
                }
            }
            Err(TryRecvError::Empty) => {}
            Err(TryRecvError::Disconnected) => break,
        }
        end.tick(clock.context()?)?;
        heed(&mut end, &socket, &mut flows)?;
    }
    for session in flows.keys() {
        end.close(*session, clock.now())?;
    }
    Ok(heed(&mut end, &socket, &mut flows)?)
}
