//! What is lent to a call. Each call is made three times: by the proved library through the C interface, by the safe
//! wrapper over it, and by the reference. Number, answer, state and all bytes of all buffers must agree after each call.
//! The three have buffers of their own, which stay equal from call to call, so that nothing is copied between calls.

use crate::by_reference::{holds_state, layout_in, numbers_in, put_state};
use crate::by_reference::{PHASE, RECOVERING, SECOND};
use crate::{by_reference, by_wrapper};
use gaffreel::ffi;
use gaffreel::volume::{ANSWER_LENGTH, LAYOUT_LENGTH, SECTOR_LENGTH, STATE_LENGTH};
use random::{count_compared, Lent, Random};
use reference::volume::{Layout, State};
use volumes::kinds::stores_to_replay;

/// The number of a phase, and in writing back and recovering which of its entry's stores comes next: 0 for its data, 1 for its
/// tag, 2 for what of the tag lies in the next sector.
pub type Place = (u64, u64);

/// The number of a call that was carried out.
pub const DONE: u32 = 0;

/// The buffers of one of the three.
#[derive(Clone)]
pub struct Buffers {
    pub state: Lent,
    pub volume: Lent,
    pub staging: Lent,
    /// A sector's bytes.
    pub bytes: Lent,
    pub layout: Lent,
    pub answer: Lent,
    pub key: Lent,
}

#[derive(Clone)]
pub struct Loans {
    /// Whether format, open, write, read and verify are the calls with a key.
    keyed: bool,
    proved: Buffers,
    wrapped: Buffers,
    expected: Buffers,
}

/// Makes a call by the three, and compares.
macro_rules! same {
    ($loans:ident, $lent:ident, $call:ident($($argument:expr),*)) => {
        $loans.same(
            stringify!($call),
            |$lent| ffi::$call($($argument),*),
            |$lent| by_reference::$call($($argument),*),
            |$lent| by_wrapper::$call($($argument),*),
        )
    };
}

impl Buffers {
    /// The numbers in the answer's buffer.
    pub fn answer(&self) -> Vec<u64> {
        numbers_in(self.answer.bytes())
    }

    /// The place of the state; none where there is no state, or none of its store.
    pub fn place(&self) -> Option<Place> {
        let numbers = numbers_in(self.state.bytes());
        if !holds_state(self.state.bytes()) {
            return None;
        }
        match numbers[PHASE..=SECOND] {
            [RECOVERING, store, _] => Some((RECOVERING, self.replayed(&numbers, store)?)),
            [phase, _, second] => Some((phase, second)),
            _ => None,
        }
    }

    /// Which of its entry's stores a store of the replay is, if there is such a one.
    fn replayed(&self, numbers: &[u64], store: u64) -> Option<u64> {
        let geometry = layout_in(numbers).geometry()?;
        let volume = self.volume.bytes();
        let stores = match volume.len() < geometry.sectors * SECTOR_LENGTH {
            true => vec![],
            false => stores_to_replay(volume, &geometry),
        };
        stores.get(usize::try_from(store).ok()?).copied()
    }

    /// The sector that a step which answered this number names, if it names one.
    pub fn named(&self, number: u32) -> Option<usize> {
        match self.answer()[..] {
            [1, sector, ..] if number == DONE => Some(sector as usize),
            _ => None,
        }
    }

    /// All bytes of all buffers are the expected ones, the bytes around them included.
    pub fn assert_same(&self, expected: &Buffers, maker: &str, call: &str) {
        let numbers = |lent: &Buffers| [&lent.answer, &lent.state].map(|b| numbers_in(b.bytes()));
        for (name, buffer, expected_buffer) in [
            ("answer", &self.answer, &expected.answer),
            ("state", &self.state, &expected.state),
            ("layout", &self.layout, &expected.layout),
            ("volume", &self.volume, &expected.volume),
            ("staging", &self.staging, &expected.staging),
            ("sector", &self.bytes, &expected.bytes),
            ("key", &self.key, &expected.key),
        ] {
            // A buffer that differs may be too long to print.
            assert!(
                buffer == expected_buffer,
                "{maker} {call}: the {name}'s buffer differs; answer and state are {:?}, not {:?}",
                numbers(self),
                numbers(expected)
            );
        }
    }
}

impl Loans {
    /// A volume and staging of these bytes; the other buffers have the right lengths and any bytes.
    pub fn new(random: &mut Random, volume: &[u8], staging: &[u8]) -> Loans {
        let lent = Buffers {
            state: Lent::new(random, STATE_LENGTH),
            volume: Lent::of(random, volume),
            staging: Lent::of(random, staging),
            bytes: Lent::new(random, SECTOR_LENGTH),
            layout: Lent::new(random, LAYOUT_LENGTH),
            answer: Lent::new(random, ANSWER_LENGTH),
            // Of numbers of its own: calls without a key have the cases that they would have if there were no keys.
            key: Lent::new(&mut Random::from_seed(1), 0),
        };
        Loans {
            keyed: false,
            proved: lent.clone(),
            wrapped: lent.clone(),
            expected: lent,
        }
    }

    /// The buffers, which are the same for the three.
    pub fn lent(&self) -> &Buffers {
        &self.proved
    }

    /// Lends another buffer in the place of one.
    pub fn lend(&mut self, which: impl Fn(&mut Buffers) -> &mut Lent, lent: &Lent) {
        for buffers in self.each() {
            which(buffers).clone_from(lent);
        }
    }

    /// Replaces the bytes of a buffer from a place on.
    pub fn put(&mut self, which: impl Fn(&mut Buffers) -> &mut Lent, place: usize, bytes: &[u8]) {
        for buffers in self.each() {
            which(buffers).buffer()[place..][..bytes.len()].copy_from_slice(bytes);
        }
    }

    /// Has a buffer hold any bytes.
    pub fn fill(&mut self, random: &mut Random, which: impl Fn(&mut Buffers) -> &mut Lent) {
        let length = which(&mut self.proved).bytes().len();
        self.put(which, 0, &random.bytes(length));
    }

    /// Has the state's buffer hold a state.
    pub fn put_state(&mut self, state: &State) {
        for buffers in self.each() {
            put_state(buffers.state.buffer(), state);
        }
    }

    /// Has format, open, write, read and verify be those with this key; with none, those without one.
    pub fn put_key(&mut self, random: &mut Random, key: Option<&[u8]>) {
        self.keyed = key.is_some();
        if let Some(key) = key {
            self.lend(|lent| &mut lent.key, &Lent::of(random, key));
        }
    }

    /// Power is lost: state and staging hold any bytes.
    pub fn cut(&mut self, random: &mut Random) {
        self.fill(random, |lent| &mut lent.state);
        self.fill(random, |lent| &mut lent.staging);
    }

    fn each(&mut self) -> [&mut Buffers; 3] {
        [&mut self.proved, &mut self.wrapped, &mut self.expected]
    }

    /// The numbers in the answer's buffer.
    pub fn answer(&self) -> Vec<u64> {
        self.proved.answer()
    }

    pub fn format(&mut self, layout: &Layout) -> u32 {
        let reserved = layout.reserved as usize;
        let shift = layout.log2_run as usize;
        let width = layout.tag_size as usize;
        let sections = layout.sections as usize;
        let provided = layout.provided as usize;
        if self.keyed {
            return same!(
                self,
                lent,
                volume_format_keyed(
                    lent.volume.buffer(),
                    reserved,
                    shift,
                    width,
                    sections,
                    provided,
                    lent.key.bytes(),
                    lent.answer.buffer()
                )
            );
        }
        same!(
            self,
            lent,
            volume_format(
                lent.volume.buffer(),
                reserved,
                shift,
                width,
                sections,
                provided,
                lent.answer.buffer()
            )
        )
    }

    pub fn query(&mut self, reserved: u64) -> u32 {
        same!(
            self,
            lent,
            volume_query(
                lent.volume.bytes(),
                reserved as usize,
                lent.layout.buffer(),
                lent.answer.buffer()
            )
        )
    }

    pub fn open(&mut self, reserved: u64) -> u32 {
        if self.keyed {
            return same!(
                self,
                lent,
                volume_open_keyed(
                    lent.volume.bytes(),
                    lent.staging.buffer(),
                    reserved as usize,
                    lent.key.bytes(),
                    lent.state.buffer(),
                    lent.answer.buffer()
                )
            );
        }
        same!(
            self,
            lent,
            volume_open(
                lent.volume.bytes(),
                lent.staging.buffer(),
                reserved as usize,
                lent.state.buffer(),
                lent.answer.buffer()
            )
        )
    }

    pub fn write(&mut self, sector: u64) -> u32 {
        if self.keyed {
            return same!(
                self,
                lent,
                volume_write_keyed(
                    lent.state.buffer(),
                    lent.staging.buffer(),
                    sector as usize,
                    lent.bytes.bytes(),
                    lent.key.bytes(),
                    lent.answer.buffer()
                )
            );
        }
        same!(
            self,
            lent,
            volume_write(
                lent.state.buffer(),
                lent.staging.buffer(),
                sector as usize,
                lent.bytes.bytes(),
                lent.answer.buffer()
            )
        )
    }

    pub fn flush(&mut self) -> u32 {
        same!(
            self,
            lent,
            volume_flush(lent.state.buffer(), lent.answer.buffer())
        )
    }

    pub fn step(&mut self) -> u32 {
        same!(
            self,
            lent,
            volume_step(
                lent.state.buffer(),
                lent.volume.buffer(),
                lent.staging.buffer(),
                lent.answer.buffer()
            )
        )
    }

    pub fn next_store(&mut self) -> u32 {
        same!(
            self,
            lent,
            volume_next_store(
                lent.state.buffer(),
                lent.volume.bytes(),
                lent.staging.buffer(),
                lent.bytes.buffer(),
                lent.answer.buffer()
            )
        )
    }

    /// A step of which the store is told, and then made.
    pub fn told_step(&mut self) -> u32 {
        let number = self.next_store();
        if let Some(sector) = self.proved.named(number) {
            let content = self.proved.bytes.bytes().to_vec();
            self.put(|lent| &mut lent.volume, sector * SECTOR_LENGTH, &content);
        }
        number
    }

    pub fn advance(&mut self, steps: u64) -> u32 {
        same!(
            self,
            lent,
            volume_advance(
                lent.state.buffer(),
                lent.volume.buffer(),
                lent.staging.buffer(),
                steps as usize,
                lent.answer.buffer()
            )
        )
    }

    pub fn read(&mut self, sector: u64) -> u32 {
        if self.keyed {
            return same!(
                self,
                lent,
                volume_read_keyed(
                    lent.state.bytes(),
                    lent.volume.bytes(),
                    lent.staging.bytes(),
                    sector as usize,
                    lent.bytes.buffer(),
                    lent.key.bytes(),
                    lent.answer.buffer()
                )
            );
        }
        same!(
            self,
            lent,
            volume_read(
                lent.state.bytes(),
                lent.volume.bytes(),
                lent.staging.bytes(),
                sector as usize,
                lent.bytes.buffer(),
                lent.answer.buffer()
            )
        )
    }

    pub fn verify(&mut self, first: u64, count: u64) -> u32 {
        if self.keyed {
            return same!(
                self,
                lent,
                volume_verify_keyed(
                    lent.state.bytes(),
                    lent.volume.bytes(),
                    first as usize,
                    count as usize,
                    lent.key.bytes(),
                    lent.answer.buffer()
                )
            );
        }
        same!(
            self,
            lent,
            volume_verify(
                lent.state.bytes(),
                lent.volume.bytes(),
                first as usize,
                count as usize,
                lent.answer.buffer()
            )
        )
    }

    fn same(
        &mut self,
        call: &str,
        proved: impl FnOnce(&mut Buffers) -> u32,
        reference: impl FnOnce(&mut Buffers) -> u32,
        wrapper: impl FnOnce(&mut Buffers) -> Option<u32>,
    ) -> u32 {
        let expected_number = reference(&mut self.expected);
        let number = proved(&mut self.proved);
        assert_eq!(number, expected_number, "{call}");
        self.proved
            .assert_same(&self.expected, "the C interface's", call);
        match wrapper(&mut self.wrapped) {
            Some(number) => assert_eq!(number, expected_number, "the wrapper's {call}"),
            // It cannot be given such buffers. The call changed nothing but the answer.
            None => self.wrapped.answer.clone_from(&self.expected.answer),
        }
        self.wrapped
            .assert_same(&self.expected, "the wrapper's", call);
        count_compared();
        number
    }
}
