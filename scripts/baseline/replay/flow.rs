//! One flow, at its sender and at its receiver. What is in flight is kept in rows above the forward number, fragments
//! that fit are joined, and all is gone through where that serves: what is lost, what is overdue, and what an ack counts
//! against.
use std::collections::{BTreeMap, VecDeque};

const FRAGMENT: usize = 1_000;
const LONGEST: usize = 1_048_576;
const BUFFER: u64 = 2_097_152;
const LARGE_BUFFER: u64 = 3_145_728;
const NUMBERS: u64 = 65_536;

#[derive(Clone, Copy, PartialEq)]
enum State {
    Unsent,
    Flying,
    Lost,
    Acknowledged,
    Abandoned,
}

impl State {
    fn is_settled(self) -> bool {
        matches!(self, State::Acknowledged | State::Abandoned)
    }
}

struct Row {
    begins: bool,
    ends: bool,
    last: bool,
    bytes: Vec<u8>,
    state: State,
    moment: u64,
    ordinal: u64,
    resends: u32,
    acks: u8,
}

impl Row {
    fn new(begins: bool, ends: bool, last: bool, bytes: Vec<u8>) -> Row {
        Row { begins, ends, last, bytes, state: State::Unsent, moment: 0, ordinal: 0, resends: 0, acks: 0 }
    }
}

#[derive(Clone, Copy, Default)]
pub struct Options {
    pub deadline: Option<u64>,
    pub resends: Option<u32>,
}

#[derive(Clone, Copy)]
struct Waiting {
    number: u64,
    count: u64,
    size: u64,
    options: Options,
}

#[derive(Clone, Copy, Debug)]
pub enum QueueRefusal {
    Finished,
    TooLong,
    /// With the bytes that wait.
    Backlog(u64),
    SequenceSpent,
}

#[derive(Clone, Copy)]
pub enum Pick {
    Row(usize),
    Notice,
}

/// What a data or next chunk says.
pub struct Chunk<'a> {
    pub begins: bool,
    pub ends: bool,
    pub abandon: bool,
    pub last: bool,
    pub seq: u64,
    pub forward: u64,
    pub bytes: &'a [u8],
}

pub struct Sender {
    forward: u64,
    rows: VecDeque<Row>,
    waiting: VecDeque<Waiting>,
    held: u64,
    fragments: u64,
    pub flight: u64,
    flying: usize,
    lost: usize,
    soonest: u64,
    limited: bool,
    sent: u64,
    upto: u64,
    finish: Option<u64>,
    notice: Option<u64>,
    order: u64,
    told: Option<u64>,
}

impl Sender {
    pub fn new() -> Sender {
        Sender {
            forward: 0,
            rows: VecDeque::new(),
            waiting: VecDeque::new(),
            held: 0,
            fragments: 0,
            flight: 0,
            flying: 0,
            lost: 0,
            soonest: u64::MAX,
            limited: false,
            sent: 0,
            upto: 0,
            finish: None,
            notice: None,
            order: 0,
            told: None,
        }
    }

    fn next_number(&self) -> u64 {
        self.forward + 1 + self.rows.len() as u64
    }

    pub fn queue(&mut self, message: &[u8], options: Options) -> Result<u64, QueueRefusal> {
        let count = message.len().div_ceil(FRAGMENT).max(1) as u64;
        let size = message.len() as u64;
        if self.finish.is_some() {
            return Err(QueueRefusal::Finished);
        }
        if message.len() > LONGEST {
            return Err(QueueRefusal::TooLong);
        }
        if self.held + size > BUFFER || self.fragments + count > NUMBERS {
            return Err(QueueRefusal::Backlog(self.held));
        }
        let number = self.next_number();
        if number.checked_add(count).is_none() {
            return Err(QueueRefusal::SequenceSpent);
        }
        if self.waiting.is_empty() {
            self.soonest = u64::MAX;
            self.limited = false;
        }
        self.soonest = self.soonest.min(options.deadline.unwrap_or(u64::MAX));
        self.limited |= options.resends.is_some();
        self.waiting.push_back(Waiting { number, count, size, options });
        self.held += size;
        self.fragments += count;
        for at in 0..count as usize {
            let end = message.len().min((at + 1) * FRAGMENT);
            let bytes = message[at * FRAGMENT..end].to_vec();
            self.rows.push_back(Row::new(at == 0, at as u64 + 1 == count, false, bytes));
        }
        Ok(number)
    }

    /// The number of the end, unless it was taken before.
    pub fn finish(&mut self) -> Option<u64> {
        if self.finish.is_some() {
            return None;
        }
        self.finish = Some(self.next_number());
        self.rows.push_back(Row::new(true, true, true, Vec::new()));
        self.finish
    }

    fn sent_rows(&self) -> usize {
        self.sent.saturating_sub(self.forward) as usize
    }

    /// Whether a number is lost whose resend time has passed.
    pub fn find_lost(&mut self, moment: u64, resend_after: u64) -> bool {
        let (sent, before) = (self.sent_rows(), self.lost);
        for row in self.rows.iter_mut().take(sent) {
            if row.state == State::Flying && row.moment + resend_after <= moment {
                row.state = State::Lost;
                self.flight -= row.bytes.len() as u64;
                self.flying -= 1;
                self.lost += 1;
            }
        }
        self.lost > before
    }

    /// How many messages wait.
    #[allow(dead_code)]
    pub fn waiting(&self) -> usize {
        self.waiting.len()
    }

    /// Whether an ack was heard.
    pub fn was_heard(&self) -> bool {
        self.told.is_some()
    }

    /// Abandons a message that waits.
    pub fn abandon(&mut self, number: u64) -> bool {
        let at = self.waiting.iter().position(|message| message.number == number);
        at.map(|at| self.give_up(at)).is_some()
    }

    fn rows_of(&self, message: &Waiting) -> std::ops::Range<usize> {
        let from = message.number.max(self.forward + 1) - self.forward - 1;
        from as usize..(message.number + message.count - self.forward - 1) as usize
    }

    /// Abandons the first message whose deadline or limit of resends is passed.
    pub fn overdue(&mut self, moment: u64) -> Option<u64> {
        if moment <= self.soonest && !(self.limited && self.lost > 0) {
            return None;
        }
        let at = self.waiting.iter().position(|message| {
            message.options.deadline.is_some_and(|deadline| deadline < moment)
                || message.options.resends.is_some_and(|limit| {
                    self.rows.range(self.rows_of(message)).any(|row| row.state == State::Lost && row.resends >= limit)
                })
        })?;
        Some(self.give_up(at))
    }

    fn give_up(&mut self, at: usize) -> u64 {
        let message = self.waiting[at];
        for index in self.rows_of(&message) {
            if self.rows[index].state != State::Acknowledged {
                self.let_go(index, State::Abandoned);
            }
        }
        self.waiting.remove(at);
        self.held -= message.size;
        self.fragments -= message.count;
        self.settle();
        message.number
    }

    fn let_go(&mut self, index: usize, state: State) {
        let row = &mut self.rows[index];
        match row.state {
            State::Flying => {
                self.flight -= row.bytes.len() as u64;
                self.flying -= 1;
            }
            State::Lost => self.lost -= 1,
            _ => {}
        }
        row.state = state;
        row.bytes = Vec::new();
    }

    fn pick(&self, moment: u64, resend_after: u64) -> Option<Pick> {
        if self.lost > 0 {
            return self.rows.iter().position(|row| row.state == State::Lost).map(Pick::Row);
        }
        let unsent = self.rows.iter().skip(self.sent_rows()).position(|row| row.state == State::Unsent);
        if let Some(more) = unsent {
            return Some(Pick::Row(self.sent_rows() + more));
        }
        let quiet = self.notice.is_none_or(|last| last + resend_after <= moment);
        (self.upto < self.forward && quiet).then_some(Pick::Notice)
    }

    /// What is to be sent next, where the flow's own limit allows it.
    pub fn offers(&self, moment: u64, resend_after: u64) -> Option<Pick> {
        let pick = self.pick(moment, resend_after)?;
        let limit = self.told.map_or(65_536, |blocks| blocks.saturating_mul(1024));
        let fits = self.flying == 0 || self.flight + self.chunk(pick).bytes.len() as u64 <= limit;
        fits.then_some(pick)
    }

    pub fn send(&mut self, pick: Pick, moment: u64) {
        self.order += 1;
        let Pick::Row(at) = pick else {
            self.notice = Some(moment);
            self.sent = self.sent.max(self.forward);
            return;
        };
        let row = &mut self.rows[at];
        if row.state == State::Lost {
            self.lost -= 1;
            row.resends = row.resends.saturating_add(1);
        }
        row.state = State::Flying;
        row.moment = moment;
        row.ordinal = self.order;
        row.acks = 0;
        self.flight += row.bytes.len() as u64;
        self.flying += 1;
        self.sent = self.sent.max(self.forward + 1 + at as u64);
    }

    pub fn chunk(&self, pick: Pick) -> Chunk<'_> {
        let forward = self.forward;
        let Pick::Row(at) = pick else {
            return Chunk { begins: true, ends: true, abandon: true, last: false, seq: forward, forward, bytes: &[] };
        };
        let row = &self.rows[at];
        let seq = forward + 1 + at as u64;
        Chunk { begins: row.begins, ends: row.ends, abandon: row.last, last: row.last, seq, forward, bytes: &row.bytes }
    }

    /// The newest ordinal and the bytes of what is acknowledged anew; abandoned numbers add none.
    fn acknowledge(&mut self, first: u64, last: u64) -> (u64, u64) {
        let (mut newest, mut bytes) = (0, 0);
        for number in first.max(self.forward + 1)..=last {
            let index = (number - self.forward - 1) as usize;
            let row = &self.rows[index];
            if row.state != State::Acknowledged {
                newest = newest.max(row.ordinal);
                bytes += row.bytes.len() as u64;
                self.let_go(index, State::Acknowledged);
            }
        }
        (newest, bytes)
    }

    /// Takes an ack, unless it speaks of a number that was never sent. Tells how many bytes it acknowledges, and whether
    /// it makes a number lost.
    pub fn take_ack(&mut self, ack: &Ack<'_>) -> Result<(u64, bool), u64> {
        let greatest = ack.spans().last().map_or(ack.upto, |(_, last)| last);
        if greatest > self.sent {
            return Err(greatest);
        }
        let (mut newest, mut bytes) = self.acknowledge(0, ack.upto);
        for (first, last) in ack.spans() {
            let (order, more) = self.acknowledge(first, last);
            newest = newest.max(order);
            bytes += more;
        }
        let (sent, before) = (self.sent_rows(), self.lost);
        for row in self.rows.iter_mut().take(sent) {
            if row.state == State::Flying && row.ordinal < newest {
                row.acks += 1;
                if row.acks == 3 {
                    row.state = State::Lost;
                    self.flight -= row.bytes.len() as u64;
                    self.flying -= 1;
                    self.lost += 1;
                }
            }
        }
        let is_loss = self.lost > before;
        self.drop_done(greatest);
        self.settle();
        self.upto = ack.upto;
        self.told = Some(ack.blocks);
        Ok((bytes, is_loss))
    }

    fn drop_done(&mut self, greatest: u64) {
        let mut kept = VecDeque::new();
        while let Some(message) = self.waiting.front().copied() {
            if message.number > greatest {
                break;
            }
            self.waiting.pop_front();
            if self.rows.range(self.rows_of(&message)).all(|row| row.state.is_settled()) {
                self.held -= message.size;
                self.fragments -= message.count;
            } else {
                kept.push_front(message);
            }
        }
        for message in kept {
            self.waiting.push_front(message);
        }
    }

    fn settle(&mut self) {
        while self.rows.front().is_some_and(|row| row.state.is_settled()) {
            self.rows.pop_front();
            self.forward += 1;
        }
    }
}

/// An ack as it was read: pairs of numbers that walk upward.
pub struct Ack<'a> {
    pub blocks: u64,
    pub upto: u64,
    pub pairs: &'a [u8],
}

impl<'a> Ack<'a> {
    fn spans(&self) -> impl Iterator<Item = (u64, u64)> + 'a {
        let (mut last, mut left) = (self.upto, self.pairs);
        std::iter::from_fn(move || {
            let (holes, after) = read_vlu(left)?;
            let (received, after) = read_vlu(after)?;
            let first = last + holes + 2;
            last = first + received;
            left = after;
            Some((first, last))
        })
    }
}

/// Fragments that fit, joined.
struct Run {
    last: u64,
    begins: bool,
    ends: bool,
    bytes: Vec<u8>,
}

impl Run {
    fn is_whole(&self) -> bool {
        self.begins && self.ends
    }
}

pub enum Refusal {
    /// With the last number, or the highest one.
    AfterFinal(u64),
    /// With the bytes held.
    BeyondBuffer(u64),
}

/// Spans of known numbers above the first one, and runs, each by its first number.
pub struct Receiver {
    arriving: bool,
    through: u64,
    above: BTreeMap<u64, u64>,
    runs: BTreeMap<u64, Run>,
    open: usize,
    held: u64,
    last: Option<u64>,
    highest: u64,
}

impl Receiver {
    pub fn new(arriving: bool) -> Receiver {
        Receiver {
            arriving,
            through: 0,
            above: BTreeMap::new(),
            runs: BTreeMap::new(),
            open: 0,
            held: 0,
            last: None,
            highest: 0,
        }
    }

    fn knows(&self, number: u64) -> bool {
        number <= self.through || self.above.range(..=number).next_back().is_some_and(|(_, last)| number <= *last)
    }

    pub fn take(&mut self, chunk: &Chunk<'_>) -> Result<(), Refusal> {
        if self.is_after_last(chunk) {
            return Err(Refusal::AfterFinal(self.last.unwrap_or(self.highest)));
        }
        let missing = !self.knows(chunk.seq);
        if missing && chunk.forward < chunk.seq {
            if let Some(held) = self.beyond_buffer(chunk) {
                return Err(Refusal::BeyondBuffer(held));
            }
        }
        let before = self.through;
        self.raise(chunk.forward);
        if missing {
            self.mark(chunk.seq);
            if !chunk.abandon {
                self.hold(chunk);
            }
        }
        if before < chunk.forward {
            self.drop_dead(before + 1, chunk.forward);
        }
        self.drop_dead(chunk.seq, chunk.seq);
        if chunk.last {
            self.last = Some(chunk.seq);
        }
        self.highest = self.highest.max(chunk.seq);
        Ok(())
    }

    fn is_after_last(&self, chunk: &Chunk<'_>) -> bool {
        match self.last {
            Some(last) => last < chunk.seq || chunk.last && chunk.seq < last,
            None => chunk.last && chunk.seq < self.highest,
        }
    }

    /// The bytes held where the chunk passes the buffer, which is tested as if the forward number were taken.
    fn beyond_buffer(&self, chunk: &Chunk<'_>) -> Option<u64> {
        let through = self.through.max(chunk.forward);
        let raised = self.above.range(..=through + 1).next_back().map_or(through, |(_, last)| through.max(*last));
        let counted = if chunk.abandon { 0 } else { chunk.bytes.len() as u64 };
        let passes = |held: u64| match chunk.seq == raised + 1 {
            true => held + counted > LARGE_BUFFER,
            false => held + counted > BUFFER || chunk.seq > raised + 1 + NUMBERS,
        };
        if !passes(self.held) {
            return None;
        }
        let known = |number: u64| number <= through || self.knows(number);
        let dying = self.runs.iter().filter(|(first, run)| {
            !run.begins && known(*first - 1) || !run.ends && known(run.last + 1)
        });
        let held = self.held - dying.map(|(_, run)| run.bytes.len() as u64).sum::<u64>();
        passes(held).then_some(held)
    }

    /// Nothing through a number is missing any more.
    fn raise(&mut self, to: u64) {
        self.through = self.through.max(to);
        while let Some(first) = self.above.first_entry() {
            if *first.key() > self.through + 1 {
                break;
            }
            self.through = self.through.max(first.remove());
        }
    }

    fn hold(&mut self, chunk: &Chunk<'_>) {
        self.held += chunk.bytes.len() as u64;
        let before = self.runs.range_mut(..chunk.seq).next_back();
        let fits = |run: &Run| run.last + 1 == chunk.seq && !run.ends && !chunk.begins;
        let first = match before {
            Some((first, run)) if fits(run) => {
                let open = !run.is_whole();
                run.bytes.extend_from_slice(chunk.bytes);
                run.last = chunk.seq;
                run.ends = chunk.ends;
                self.open -= usize::from(open && run.is_whole());
                *first
            }
            _ => {
                let bytes = chunk.bytes.to_vec();
                self.open += usize::from(!(chunk.begins && chunk.ends));
                self.runs.insert(chunk.seq, Run { last: chunk.seq, begins: chunk.begins, ends: chunk.ends, bytes });
                chunk.seq
            }
        };
        if !chunk.ends && self.runs.get(&(chunk.seq + 1)).is_some_and(|run| !run.begins) {
            if let Some(later) = self.runs.remove(&(chunk.seq + 1)) {
                if let Some(run) = self.runs.get_mut(&first) {
                    run.bytes.extend_from_slice(&later.bytes);
                    run.last = later.last;
                    run.ends = later.ends;
                    self.open -= 1 + usize::from(run.is_whole());
                }
            }
        }
    }

    fn mark(&mut self, number: u64) {
        if number <= self.through + 1 {
            self.raise(number);
            return;
        }
        let end = self.above.remove(&(number + 1)).unwrap_or(number);
        match self.above.range_mut(..number).next_back() {
            Some((_, last)) if *last + 1 == number => *last = end,
            _ => {
                self.above.insert(number, end);
            }
        }
    }

    /// Drops the runs beside some numbers that can't become messages any more.
    fn drop_dead(&mut self, low: u64, high: u64) {
        if self.open == 0 {
            return;
        }
        let mut next = self.runs.range(..low).next_back().map_or(low, |(first, _)| *first);
        while let Some((first, run)) = self.runs.range(next..).next() {
            let first = *first;
            if first > high.saturating_add(1) {
                break;
            }
            if !run.begins && self.knows(first - 1) || !run.ends && self.knows(run.last + 1) {
                self.held -= run.bytes.len() as u64;
                self.open -= 1;
                self.runs.remove(&first);
            }
            next = first + 1;
        }
    }

    pub fn next_message(&mut self) -> Option<(u64, Vec<u8>)> {
        let first = match self.arriving {
            true => *self.runs.iter().find(|(_, run)| run.is_whole())?.0,
            false => {
                let (first, run) = self.runs.first_key_value()?;
                if !run.is_whole() || *first > self.through {
                    return None;
                }
                *first
            }
        };
        let run = self.runs.remove(&first)?;
        self.held -= run.bytes.len() as u64;
        Some((first, run.bytes))
    }

    /// Adds an ack with as many pairs as fit into so many bytes; nothing where its head doesn't fit.
    pub fn ack(&self, flow: u64, room: usize, out: &mut Vec<u8>) -> bool {
        let blocks = BUFFER.saturating_sub(self.held) / 1024;
        let mut left = room as i64 - (vlu_len(flow) + vlu_len(blocks) + vlu_len(self.through)) as i64;
        if left < 0 {
            return false;
        }
        put_vlu(flow, out);
        put_vlu(blocks, out);
        put_vlu(self.through, out);
        let mut after = self.through;
        for (first, last) in &self.above {
            left -= (vlu_len(first - after - 2) + vlu_len(last - first)) as i64;
            if left < 0 {
                break;
            }
            put_vlu(first - after - 2, out);
            put_vlu(last - first, out);
            after = *last;
        }
        true
    }
}

pub fn vlu_len(value: u64) -> usize {
    (value.max(1).ilog2() / 7 + 1) as usize
}

pub fn put_vlu(value: u64, out: &mut Vec<u8>) {
    for group in (0..vlu_len(value)).rev() {
        let more = if group > 0 { 0x80 } else { 0 };
        out.push((value >> (7 * group)) as u8 & 0x7f | more);
    }
}

pub fn read_vlu(bytes: &[u8]) -> Option<(u64, &[u8])> {
    let mut value = 0u64;
    for (at, byte) in bytes.iter().enumerate() {
        if at == 9 && (*byte >= 0x80 || value > u64::MAX >> 7) {
            return None;
        }
        value = value << 7 | u64::from(byte & 0x7f);
        if *byte < 0x80 {
            return Some((value, &bytes[at + 1..]));
        }
    }
    None
}
