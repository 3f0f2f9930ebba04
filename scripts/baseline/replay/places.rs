//! Where ends stand, behind address translators or without one, and where a datagram goes that one of them sent.
use crate::wire::{Address, Host};
use std::collections::{BTreeMap, HashMap, HashSet};

const TRANSLATORS: usize = 256;

#[derive(Clone, Copy, PartialEq, Eq, Debug)]
pub enum Rule {
    Independent,
    Dependent,
}

#[derive(Clone, Copy, PartialEq, Eq, Debug)]
pub enum Lost {
    Family,
    PortsFull,
    Unmapped,
    Filtered,
    Nobody,
}

/// Where a datagram arrives, and from where it seems to come.
pub struct Arrival {
    pub end: usize,
    pub from: Address,
}

struct Mapping {
    inner: Address,
    towards: HashSet<Host>,
}

pub struct Translator {
    pub name: String,
    mapping: Rule,
    filter: Rule,
    host: [u8; 4],
    first: u16,
    mappings: Vec<Mapping>,
    /// The mapping of an inner place, where mappings are dependent that of it and the other host.
    by_use: HashMap<(Address, Option<Host>), usize>,
}

impl Translator {
    fn outward(&mut self, inner: Address, to: Address) -> Result<Address, Lost> {
        if matches!(inner.host, Host::V6(_)) || matches!(to.host, Host::V6(_)) {
            return Err(Lost::Family);
        }
        let key = (inner, (self.mapping == Rule::Dependent).then_some(to.host));
        let next = self.mappings.len();
        let place = *self.by_use.get(&key).unwrap_or(&next);
        let port = u16::try_from(usize::from(self.first) + place).map_err(|_| Lost::PortsFull)?;
        if place == next {
            self.by_use.insert(key, next);
            self.mappings.push(Mapping { inner, towards: HashSet::new() });
        }
        self.mappings[place].towards.insert(to.host);
        Ok(Address { host: Host::V4(self.host), port })
    }

    fn inward(&self, to: Address, from: Address) -> Result<Address, Lost> {
        let place = to.port.checked_sub(self.first).map(usize::from);
        let mapping = place.and_then(|place| self.mappings.get(place)).ok_or(Lost::Unmapped)?;
        if self.filter == Rule::Dependent && !mapping.towards.contains(&from.host) {
            return Err(Lost::Filtered);
        }
        Ok(mapping.inner)
    }
}

/// An end's place, and the translator that it is behind.
type Standing = (Address, Option<usize>);

#[derive(Default)]
pub struct Places {
    pub translators: Vec<Translator>,
    ends: BTreeMap<usize, Standing>,
}

impl Places {
    pub fn translator_named(&self, name: &str) -> Option<usize> {
        self.translators.iter().position(|translator| translator.name == name)
    }

    fn with_host(&self, host: Host) -> Option<usize> {
        self.translators.iter().position(|translator| Host::V4(translator.host) == host)
    }

    fn end_at(&self, standing: Standing) -> Option<usize> {
        self.ends.iter().find(|(_, it)| **it == standing).map(|(end, _)| *end)
    }

    /// A new translator; `None` where it can't be.
    pub fn add(&mut self, name: &str, mapping: Rule, filter: Rule, host: [u8; 4], first: u16) -> Option<()> {
        let is_taken = self.ends.values().any(|(at, behind)| behind.is_none() && at.host == Host::V4(host));
        let is_there = self.translator_named(name).is_some() || self.with_host(Host::V4(host)).is_some();
        if is_there || is_taken || first == 0 || self.translators.len() >= TRANSLATORS {
            return None;
        }
        let name = name.to_owned();
        self.translators.push(Translator { name, mapping, filter, host, first, mappings: Vec::new(), by_use: HashMap::new() });
        Some(())
    }

    /// An end stands there from now on; `None` where it can't.
    pub fn place(&mut self, end: usize, at: Address, behind: Option<usize>) -> Option<()> {
        let is_taken = self.end_at((at, behind)).is_some_and(|other| other != end);
        if is_taken || behind.is_none() && self.with_host(at.host).is_some() {
            return None;
        }
        self.ends.insert(end, (at, behind));
        Some(())
    }

    /// Takes a datagram on its way; `None` where its sender stands nowhere.
    pub fn carry(&mut self, by: usize, to: Address) -> Option<Result<Arrival, Lost>> {
        let (at, behind) = *self.ends.get(&by)?;
        let from = match behind {
            None => Ok(at),
            Some(translator) => self.translators[translator].outward(at, to),
        };
        Some(from.and_then(|from| self.arrive(to, from)))
    }

    fn arrive(&self, to: Address, from: Address) -> Result<Arrival, Lost> {
        let standing = match self.with_host(to.host) {
            None => (to, None),
            Some(translator) => (self.translators[translator].inward(to, from)?, Some(translator)),
        };
        self.end_at(standing).map(|end| Arrival { end, from }).ok_or(Lost::Nobody)
    }
}
