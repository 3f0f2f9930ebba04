//! Transport addresses.

use crate::sys::rtmfp_address;
use std::fmt;
use std::net::{IpAddr, Ipv4Addr, Ipv6Addr, SocketAddr};

/// How an address is known.
#[derive(Clone, Copy, Debug, Default, PartialEq, Eq, Hash)]
pub enum Origin {
    /// Nothing is said of it.
    #[default]
    Unknown,
    /// An end's own address, as the end knows it.
    Local,
    /// The address from which an end's datagrams came.
    Observed,
    /// The address of a relay.
    Relay,
}

impl Origin {
    fn of(number: u8) -> Origin {
        match number {
            1 => Origin::Local,
            2 => Origin::Observed,
            3 => Origin::Relay,
            _ => Origin::Unknown,
        }
    }

    fn number(self) -> u8 {
        match self {
            Origin::Unknown => 0,
            Origin::Local => 1,
            Origin::Observed => 2,
            Origin::Relay => 3,
        }
    }
}

/// A transport address, and how it is known.
#[derive(Clone, Copy, Debug, PartialEq, Eq, Hash)]
pub struct Address {
    /// The host.
    pub host: IpAddr,
    /// The UDP port.
    pub port: u16,
    /// How it is known.
    pub origin: Origin,
}

impl Address {
    /// An address of unknown origin.
    pub fn new(host: IpAddr, port: u16) -> Address {
        Address { host, port, origin: Origin::Unknown }
    }

    /// Where a socket sends to it.
    pub fn socket_address(self) -> SocketAddr {
        SocketAddr::new(self.host, self.port)
    }

    pub(crate) fn to_c(self) -> rtmfp_address {
        let mut host = [0; 16];
        let family = match self.host {
            IpAddr::V4(it) => {
                host[..4].copy_from_slice(&it.octets());
                4
            }
            IpAddr::V6(it) => {
                host = it.octets();
                6
            }
        };
        rtmfp_address { family, origin: self.origin.number(), port: self.port, host }
    }

    /// What an entry has: an address of family 4 or 6.
    pub(crate) fn of_c(it: &rtmfp_address) -> Address {
        let [a, b, c, d, ..] = it.host;
        let host = match it.family {
            4 => IpAddr::V4(Ipv4Addr::new(a, b, c, d)),
            _ => IpAddr::V6(Ipv6Addr::from(it.host)),
        };
        Address { host, port: it.port, origin: Origin::of(it.origin) }
    }
}

/// Of unknown origin. An IPv6 address loses its flow information and its scope, which the protocol
/// doesn't have.
impl From<SocketAddr> for Address {
    fn from(it: SocketAddr) -> Address {
        Address::new(it.ip(), it.port())
    }
}

impl fmt::Display for Address {
    fn fmt(&self, f: &mut fmt::Formatter<'_>) -> fmt::Result {
        self.socket_address().fmt(f)
    }
}

#[cfg(test)]
mod tests {
    use super::*;

    #[test]
    fn an_address_is_itself_behind_c() {
        for text in ["10.0.0.1:1", "[2001:db8::2]:65535"] {
            for origin in [Origin::Unknown, Origin::Local, Origin::Observed, Origin::Relay] {
                let place: SocketAddr = text.parse().unwrap();
                let address = Address { origin, ..Address::from(place) };
                assert_eq!(Address::of_c(&address.to_c()), address);
                assert_eq!(address.to_string(), text);
            }
        }
    }
}
