//! The engine record, its rules, and the calls on it (01, "Engine, desks, queue").
use crate::batch::Bounds;
use crate::drawing;
use crate::engine::{Completion, Numbers, Progress, Refusal};
use crate::registers::{SRC_OVER, UNBLENDED};
use crate::ring;
use crate::surface::{run, shares, Run};

const PLACES: usize = 4;
pub const SLOTS: usize = 8;

#[derive(Clone, Copy, Debug, Default, PartialEq)]
pub struct Client {
    pub start: u32,
    pub length: u32,
    pub pending: u32,
    /// What a place holds that is not open is free.
    pub open: bool,
}

#[derive(Clone, Copy, Debug, PartialEq)]
pub struct Ready {
    pub client: u32,
    pub ticket: u32,
    pub offset: u64,
    pub length: u64,
}

/// The unfinished batch (02, 6).
#[derive(Clone, Copy, Debug, PartialEq)]
pub struct Unfinished {
    pub client: u32,
    pub slot: u64,
    pub total: u64,
    pub so_far: u64,
}

#[derive(Clone, Debug, PartialEq)]
pub struct Record {
    pub numbers: Numbers,
    /// The reset rule's own number.
    pub reset: u32,
    pub clients: [Client; PLACES],
    pub slots: [Option<Ready>; SLOTS],
    pub read: u64,
    pub next: u32,
    pub unfinished: Option<Unfinished>,
}

/// The record of an accepted set up.
pub fn set_up(numbers: Numbers, reset: u32) -> Result<Record, Refusal> {
    if let Some(number) = numbers.refusal() {
        return Err(number);
    }
    let clients = [Client::default(); PLACES];
    let reset = if reset == UNBLENDED { UNBLENDED } else { SRC_OVER };
    Ok(Record { numbers, reset, clients, slots: [None; SLOTS], read: 0, next: 0, unfinished: None })
}

/// 6.
fn bad_length(numbers: Numbers, length: u64) -> bool {
    length == 0 || length % 4 != 0 || length > numbers.ring
}

impl Record {
    fn window(&self, client: usize) -> Run {
        run(self.clients[client].start, self.clients[client].length)
    }

    fn is_open(&self, client: u32) -> bool {
        self.clients.get(client as usize).map_or(false, |client| client.open)
    }

    fn open_clients(&self) -> impl Iterator<Item = usize> + '_ {
        (0..PLACES).filter(|client| self.clients[*client].open)
    }

    /// 4, beside the windows of the open clients below `before`.
    fn bad_window(&self, window: Run, before: usize) -> bool {
        window.is_empty()
            || window.end > self.numbers.memory
            || shares(&window, &(0..self.numbers.common))
            || self.open_clients().any(|client| client < before && shares(&window, &self.window(client)))
    }

    /// The ready batches from the oldest, as the tickets below the next one number them; none if some ticket is missing or
    /// out of line.
    fn waiting(&self) -> Option<Vec<Ready>> {
        let count = self.slots.iter().flatten().count() as u32;
        (0..count)
            .map(|i| {
                let ticket = self.next.wrapping_sub(count - i);
                self.slots.iter().flatten().find(|ready| ready.ticket == ticket).copied()
            })
            .collect()
    }

    /// Whether ready batches lie end to end from the read offset, with allowed lengths, in total at most the ring.
    fn lies_end_to_end(&self, waiting: &[Ready]) -> bool {
        let mut place = self.read;
        let mut room = self.numbers.ring;
        for ready in waiting {
            if bad_length(self.numbers, ready.length) || ready.offset != place || ready.length > room {
                return false;
            }
            place = (place + ready.length) % self.numbers.ring;
            room -= ready.length;
        }
        true
    }

    fn count_of(&self, client: u32) -> u32 {
        self.slots.iter().flatten().filter(|ready| ready.client == client).count() as u32
    }

    /// Ring bytes of the ready batches.
    fn ready_bytes(&self) -> u64 {
        self.slots.iter().flatten().map(|ready| ready.length).sum()
    }

    /// The rules of the unfinished batch, in a record whose ready batches keep theirs.
    fn unfinished_is_valid(&self) -> bool {
        self.unfinished.map_or(true, |one| {
            let held = usize::try_from(one.slot).ok().and_then(|slot| self.slots.get(slot));
            self.is_open(one.client)
                && !bad_length(self.numbers, one.total)
                && one.total <= self.numbers.ring - self.ready_bytes()
                && one.so_far < one.total
                && held == Some(&None)
        })
    }

    /// The record rules.
    fn is_valid(&self) -> bool {
        if self.numbers.refusal().is_some() {
            return false;
        }
        let windows = self.open_clients().all(|client| !self.bad_window(self.window(client), client));
        let read = self.read % 4 == 0 && self.read < self.numbers.ring;
        let Some(waiting) = self.waiting() else { return false };
        let owned = waiting.iter().all(|ready| self.is_open(ready.client));
        let counted = self.open_clients().all(|client| self.clients[client].pending == self.count_of(client as u32));
        windows && read && owned && counted && self.lies_end_to_end(&waiting) && self.unfinished_is_valid()
    }

    /// The client's id.
    pub fn open(&mut self, start: u32, length: u32) -> Result<u32, Refusal> {
        if !self.is_valid() {
            return Err(11);
        }
        let client = self.clients.iter().position(|client| !client.open).ok_or(3u32)?;
        if self.bad_window(run(start, length), PLACES) {
            return Err(4);
        }
        self.clients[client] = Client { start, length, pending: 0, open: true };
        Ok(client as u32)
    }

    /// The window's bytes become zeros; the place holds zeros too.
    pub fn close(&mut self, memory: &mut [u8], client: u32) -> Result<(), Refusal> {
        if !self.is_valid() {
            return Err(11);
        }
        if memory.len() as u64 != self.numbers.memory {
            return Err(10);
        }
        if !self.is_open(client) {
            return Err(5);
        }
        if self.count_of(client) > 0 || self.unfinished.map_or(false, |one| one.client == client) {
            return Err(18);
        }
        let window = self.window(client as usize);
        memory[window.start as usize..window.end as usize].fill(0);
        self.clients[client as usize] = Client::default();
        Ok(())
    }

    /// What submit and begin ask of a batch; the slot that it gets.
    fn admitted(&self, lent: &[u8], client: u32, length: u64) -> Result<usize, Refusal> {
        if !self.is_valid() {
            return Err(11);
        }
        if lent.len() as u64 != self.numbers.ring {
            return Err(10);
        }
        if !self.is_open(client) {
            return Err(5);
        }
        if self.unfinished.is_some() {
            return Err(13);
        }
        if bad_length(self.numbers, length) {
            return Err(6);
        }
        let slot = self.slots.iter().position(Option::is_none).ok_or(7u32)?;
        if self.numbers.ring - self.ready_bytes() < length {
            return Err(8);
        }
        Ok(slot)
    }

    /// Where the next batch goes, ready or unfinished.
    fn write_offset(&self) -> u64 {
        (self.read + self.ready_bytes()) % self.numbers.ring
    }

    /// A batch of that length is ready in the slot; its ticket.
    fn accept(&mut self, slot: usize, client: u32, length: u64) -> u32 {
        let ticket = self.next;
        self.slots[slot] = Some(Ready { client, ticket, offset: self.write_offset(), length });
        self.next = ticket.wrapping_add(1);
        self.clients[client as usize].pending += 1;
        ticket
    }

    /// The ticket. The batch is copied into the ring after the newest one.
    pub fn submit(&mut self, lent: &mut Vec<u8>, client: u32, batch: &[u8]) -> Result<u32, Refusal> {
        let length = batch.len() as u64;
        let slot = self.admitted(lent, client, length)?;
        *lent = ring::copied(lent, self.write_offset(), batch).expect("a batch in the ring");
        Ok(self.accept(slot, client, length))
    }

    pub fn begin(&mut self, lent: &[u8], client: u32, total: u64) -> Result<(), Refusal> {
        let slot = self.admitted(lent, client, total)? as u64;
        self.unfinished = Some(Unfinished { client, slot, total, so_far: 0 });
        Ok(())
    }

    /// The client's own unfinished batch: 5, 14.
    fn own(&self, client: u32) -> Result<Unfinished, Refusal> {
        if !self.is_open(client) {
            return Err(5);
        }
        self.unfinished.filter(|one| one.client == client).ok_or(14)
    }

    pub fn piece(&mut self, lent: &mut Vec<u8>, client: u32, piece: &[u8]) -> Result<Progress, Refusal> {
        if !self.is_valid() {
            return Err(11);
        }
        if lent.len() as u64 != self.numbers.ring {
            return Err(10);
        }
        let one = self.own(client)?;
        let so_far = one.so_far + piece.len() as u64;
        let left = one.total.checked_sub(so_far).ok_or(14u32)?;
        let offset = (self.write_offset() + one.so_far) % self.numbers.ring;
        *lent = ring::copied(lent, offset, piece).expect("a piece in the ring");
        if left > 0 {
            self.unfinished = Some(Unfinished { so_far, ..one });
            return Ok(Progress::Missing(left as u32));
        }
        self.unfinished = None;
        Ok(Progress::Accepted(self.accept(one.slot as usize, client, one.total)))
    }

    pub fn cancel(&mut self, client: u32) -> Result<(), Refusal> {
        if !self.is_valid() {
            return Err(11);
        }
        self.own(client)?;
        self.unfinished = None;
        Ok(())
    }

    pub fn pending(&self, client: u32) -> Result<u32, Refusal> {
        if !self.is_valid() {
            return Err(11);
        }
        if !self.is_open(client) {
            return Err(5);
        }
        Ok(self.clients[client as usize].pending)
    }

    /// The oldest batch is judged, drawn and taken out.
    pub fn run(&mut self, lent: &[u8], memory: &mut Vec<u8>) -> Result<Completion, Refusal> {
        if !self.is_valid() {
            return Err(11);
        }
        if lent.len() as u64 != self.numbers.ring || memory.len() as u64 != self.numbers.memory {
            return Err(10);
        }
        let Ready { client, ticket, offset, length } = self.take_oldest().ok_or(9u32)?;
        let bounds = Bounds { window: self.window(client as usize), common: self.numbers.common };
        let words = ring::words(lent, offset, length);
        let ([status, fault, place], after) = drawing::drawn_batch(&words, &bounds, self.reset, memory);
        *memory = after;
        Ok(Completion { client, ticket, status, fault, place })
    }

    /// Takes the oldest batch out of a valid record.
    fn take_oldest(&mut self) -> Option<Ready> {
        let oldest = *self.waiting()?.first()?;
        let slot = self.slots.iter().position(|slot| *slot == Some(oldest))?;
        self.slots[slot] = None;
        self.clients[oldest.client as usize].pending -= 1;
        self.read = (self.read + oldest.length) % self.numbers.ring;
        Some(oldest)
    }
}

#[cfg(test)]
mod tests {
    use super::*;

    fn record() -> Record {
        let mut record = set_up(Numbers { ring: 128, memory: 1024, common: 256 }, SRC_OVER).unwrap();
        assert_eq!(record.open(256, 256), Ok(0));
        assert_eq!(record.open(512, 512), Ok(1));
        record
    }

    #[test]
    fn windows() {
        let mut record = record();
        assert_eq!(record.open(255, 1), Err(4));
        assert_eq!(record.open(1024, 1), Err(4));
        assert_eq!(record.open(1000, 0), Err(4));
        assert_eq!(set_up(Numbers { ring: 100, memory: 0, common: 1 }, SRC_OVER), Err(1));
        assert_eq!(set_up(Numbers { ring: 128, memory: 0, common: 1 }, SRC_OVER), Err(2));
    }

    /// Any cutting gives record, ring and ticket of a whole submit.
    #[test]
    fn cuttings() {
        let batch: Vec<u8> = (0..24).collect();
        let mut whole = record();
        whole.read = 120;
        let mut by_pieces = whole.clone();
        let (mut one, mut other) = (vec![7; 128], vec![7; 128]);
        assert_eq!(whole.submit(&mut one, 1, &batch), Ok(0));
        assert_eq!(by_pieces.begin(&other, 1, 24), Ok(()));
        assert_eq!(by_pieces.piece(&mut other, 1, &batch[..5]), Ok(Progress::Missing(19)));
        assert_eq!(by_pieces.piece(&mut other, 1, &[]), Ok(Progress::Missing(19)));
        assert_eq!((by_pieces.piece(&mut other, 0, &[]), by_pieces.cancel(0)), (Err(14), Err(14)));
        assert_eq!(by_pieces.piece(&mut other, 1, &batch[5..]), Ok(Progress::Accepted(0)));
        assert_eq!((whole, one), (by_pieces, other));
    }

    /// A gap in the ids, what the closed place holds, and the place that is taken next.
    #[test]
    fn gaps() {
        let mut record = record();
        let mut memory = vec![7; 1024];
        assert_eq!(record.submit(&mut vec![0; 128], 1, &[0; 4]), Ok(0));
        assert_eq!(
            [record.close(&mut memory, 1), record.close(&mut memory, 2), record.close(&mut [], 0)],
            [Err(18), Err(5), Err(10)]
        );
        assert_eq!(record.close(&mut memory, 0), Ok(()));
        assert_eq!((memory[255], memory[256], memory[511], memory[512]), (7, 0, 0, 7));
        assert_eq!((record.pending(0), record.pending(1)), (Err(5), Ok(1)));
        record.clients[0] = Client { start: 0, length: 9999, pending: 3, open: false };
        assert!(record.is_valid());
        assert_eq!(
            (record.open(300, 100), record.open(400, 112), record.open(256, 44), record.open(0, 1)),
            (Ok(0), Ok(2), Ok(3), Err(3))
        );
    }

    #[test]
    fn tickets_wrap() {
        let mut record = record();
        let mut ring = vec![0; 128];
        record.next = u32::MAX;
        record.read = 120;
        assert_eq!(record.submit(&mut ring, 1, &[7; 24]), Ok(u32::MAX));
        assert_eq!(record.submit(&mut ring, 0, &[8; 104]), Ok(0));
        assert_eq!(record.submit(&mut ring, 0, &[9; 4]), Err(8));
        assert!(record.is_valid());
        assert_eq!(record.pending(0), Ok(1));
        assert_eq!((ring[120], ring[15], ring[16], ring[119]), (7, 7, 8, 8));
        assert_eq!(record.take_oldest().map(|ready| ready.ticket), Some(u32::MAX));
        assert!(record.is_valid() && record.read == 16);
    }
}
