//! A volume that is worked by calls and cuts, and the ledger beside it. Each call's answer is checked against the
//! ledger; whenever an open reports no store to come or a step says filling, so is the whole volume.

use crate::calls;
use random::Random;
use reference::volume::ledger::{Event, Ledger, Record};
use reference::volume::{check, verify, Flushed, Geometry, Layout, Phase, Refusal};
use reference::volume::{Said, State, Stepped, TagRule};
use volumes::kinds::stores_to_replay;

#[derive(Clone)]
pub struct World {
    /// The key of every call, if there is one.
    key: Option<Vec<u8>>,
    pub layout: Layout,
    pub geometry: Geometry,
    /// The volume as format left it.
    formatted: Vec<u8>,
    pub volume: Vec<u8>,
    /// State and staging; none before an open is taken.
    pub live: Option<(State, Vec<u8>)>,
    pub transcript: Vec<Record>,
    pub ledger: Ledger,
    /// How many steps a recovery still takes.
    stores_to_come: u64,
}

/// Where a tag is stored in part.
#[derive(Clone, Copy, Debug, PartialEq, Eq, PartialOrd, Ord)]
pub enum InATag {
    WritingBack,
    Recovering,
}

/// The rule of a key, or of none.
pub fn rule(key: &Option<Vec<u8>>) -> TagRule<'_> {
    match key {
        Some(key) => TagRule::Hmac(key),
        None => TagRule::Digest,
    }
}

impl World {
    pub fn new(layout: Layout, behind: usize) -> World {
        World::under(None, layout, behind)
    }

    pub fn under(key: Option<Vec<u8>>, layout: Layout, behind: usize) -> World {
        let volume = volumes::formatted_by(rule(&key), &layout, behind);
        World {
            key,
            layout,
            geometry: volumes::geometry(&layout),
            formatted: volume.clone(),
            volume,
            live: None,
            transcript: vec![],
            ledger: Ledger::new(&layout).expect("the layout is in range"),
            stores_to_come: 0,
        }
    }

    pub fn phase(&self) -> Option<Phase> {
        self.live.as_ref().map(|(state, _)| state.phase)
    }

    /// Where a tag is stored in part, if one is: its other part comes next.
    pub fn in_a_tag(&self) -> Option<InATag> {
        match self.phase()? {
            Phase::WritingBack { store: 2, .. } => Some(InATag::WritingBack),
            Phase::Recovering { store } => {
                let stores = stores_to_replay(&self.volume, &self.geometry);
                (stores[store as usize] == 2).then_some(InATag::Recovering)
            }
            _ => None,
        }
    }

    fn record(&mut self, event: Event, refused: bool) {
        let record = Record { event, refused };
        self.ledger.add(&record);
        self.transcript.push(record);
    }

    pub fn cut(&mut self) {
        self.live = None;
        self.record(Event::Cut, false);
    }

    /// An open with staging of any content and the right length: it is taken.
    pub fn open(&mut self, random: &mut Random) -> u64 {
        assert!(self.live.is_none());
        let mut staging = random.bytes(self.geometry.staging_length());
        let rule = rule(&self.key);
        let opened =
            calls::open_by(rule, &self.volume, self.layout.reserved, &mut staging).unwrap();
        assert_eq!(opened.state.layout, self.layout);
        assert_eq!(opened.state.count, 0);
        assert!(staging == volumes::empty_staging(&self.geometry));
        self.record(Event::Open, false);
        self.live = Some((opened.state, staging));
        self.stores_to_come = opened.stores_to_come;
        match opened.stores_to_come {
            0 => {
                assert_eq!(opened.state.phase, Phase::Filling);
                self.check();
            }
            _ => assert_eq!(opened.state.phase, Phase::Recovering { store: 0 }),
        }
        opened.stores_to_come
    }

    /// An open with staging of a wrong length: it is refused.
    pub fn open_with_wrong_staging(&mut self, random: &mut Random) {
        assert!(self.live.is_none());
        let right = self.geometry.staging_length();
        let length = random.pick(&[0, 1, right - 512, right - 1, right + 1, right + 512]);
        let mut staging = random.bytes(length);
        let rule = rule(&self.key);
        let answer = calls::open_by(rule, &self.volume, self.layout.reserved, &mut staging);
        assert_eq!(answer, Err(Refusal::LengthOrState));
        self.record(Event::Open, true);
    }

    /// An open under a key that no call takes: it is refused.
    pub fn open_with_a_refused_key(&mut self, random: &mut Random, length: usize) {
        assert!(self.live.is_none());
        let key = vec![7; length];
        let mut staging = random.bytes(self.geometry.staging_length());
        let refused_key = TagRule::Hmac(&key);
        let reserved = self.layout.reserved;
        let answer = calls::open_by(refused_key, &self.volume, reserved, &mut staging);
        assert_eq!(answer, Err(Refusal::Parameter));
        self.record(Event::Open, true);
    }

    pub fn write(&mut self, sector: u64, bytes: &[u8]) -> Result<(), Refusal> {
        let (state, staging) = self.live.as_mut().unwrap();
        let expected = if bytes.len() != 512 {
            Err(Refusal::LengthOrState)
        } else if state.phase != Phase::Filling {
            Err(Refusal::NotNow)
        } else if sector >= self.layout.provided {
            Err(Refusal::Sector)
        } else if self.ledger.batch.len() == self.geometry.entries {
            Err(Refusal::BatchFull)
        } else {
            Ok(())
        };
        let answer = calls::write_by(rule(&self.key), state, staging, sector, bytes);
        assert_eq!(answer, expected);
        let bytes = bytes.to_vec();
        self.record(Event::Write { sector, bytes }, answer.is_err());
        answer
    }

    /// A write and a read under a key that no call takes. They are refused, for the key unless state or bytes are, and change nothing.
    pub fn calls_with_a_refused_key(&mut self, sector: u64, bytes: &[u8], length: usize) {
        let key = vec![7; length];
        let refused_key = TagRule::Hmac(&key);
        let (state, staging) = self.live.as_mut().unwrap();
        let expected = match bytes.len() {
            512 => Err(Refusal::Parameter),
            _ => Err(Refusal::LengthOrState),
        };
        let answer = calls::write_by(refused_key, state, staging, sector, bytes);
        assert_eq!(answer, expected);
        let (volume, mut out) = (&self.volume, bytes.to_vec());
        let answer = calls::read_by(refused_key, state, volume, staging, sector, &mut out);
        assert_eq!(answer, expected);
        let bytes = bytes.to_vec();
        self.record(Event::Write { sector, bytes }, true);
        self.record(Event::Read, true);
    }

    pub fn flush(&mut self) -> Result<Flushed, Refusal> {
        let (state, _) = self.live.as_mut().unwrap();
        let expected = if state.phase != Phase::Filling {
            Err(Refusal::NotNow)
        } else if self.ledger.batch.is_empty() {
            Ok(Flushed::Acknowledged)
        } else {
            Ok(Flushed::Committing)
        };
        let answer = calls::flush(state);
        assert_eq!(answer, expected);
        self.record(Event::Flush, answer.is_err());
        answer
    }

    /// A step: it is taken, and says acknowledged exactly when the ledger enters a batch.
    pub fn step(&mut self) -> Stepped {
        let (state, staging) = self.live.as_mut().unwrap();
        let before = state.phase;
        let stepped = calls::step(state, &mut self.volume, staging).unwrap();
        let after = state.phase;
        let entered = self.ledger.entered;
        self.record(Event::Step, false);
        assert_eq!(
            stepped.said == Said::Acknowledged,
            self.ledger.entered > entered
        );
        assert_eq!(stepped.said == Said::Filling, after == Phase::Filling);
        if matches!(before, Phase::Recovering { .. }) {
            self.stores_to_come -= 1;
            assert_eq!(self.stores_to_come == 0, after == Phase::Filling);
        }
        if after == Phase::Filling {
            self.check();
        }
        stepped
    }

    /// Steps until the volume is filling, at least one, and gives the sectors stored.
    pub fn step_to_filling(&mut self) -> Vec<u64> {
        let mut stored = vec![];
        loop {
            let stepped = self.step();
            stored.extend(stepped.stored);
            if stepped.said == Said::Filling {
                return stored;
            }
        }
    }

    /// Opens and finishes the recovery.
    pub fn open_and_recover(&mut self, random: &mut Random) {
        if self.open(random) > 0 {
            self.step_to_filling();
        }
    }

    /// A read: outside a recovery it answers the newest bytes, also while committing and writing back.
    pub fn read(&mut self, sector: u64) {
        let answer = self.read_of(sector);
        let expected = match self.ledger.newest(sector) {
            _ if matches!(self.phase(), Some(Phase::Recovering { .. })) => Err(Refusal::NotNow),
            Some(bytes) => Ok(bytes.clone()),
            None => Err(Refusal::Sector),
        };
        assert!(answer == expected, "read of {sector}");
        self.record(Event::Read, answer.is_err());
    }

    /// All tags tested at once: outside filling not now, and in it each fits.
    pub fn verify(&self) {
        let (state, _) = self.live.as_ref().unwrap();
        let expected = match state.phase {
            Phase::Filling => Ok(()),
            _ => Err(Refusal::NotNow),
        };
        let answer = verify(
            state,
            &self.volume,
            0,
            self.layout.provided,
            rule(&self.key),
        );
        assert_eq!(answer, expected);
    }

    fn read_of(&self, sector: u64) -> Result<Vec<u8>, Refusal> {
        let (state, staging) = self.live.as_ref().unwrap();
        let mut out = vec![0x5a; 512];
        let rule = rule(&self.key);
        calls::read_by(rule, state, &self.volume, staging, sector, &mut out)?;
        Ok(out)
    }

    /// What demand 3 says of the volume, clause by clause.
    fn check(&self) {
        for (sector, content) in (0..).zip(&self.ledger.contents) {
            let home = self.geometry.home(sector).unwrap();
            let (data, tag) = (self.data(home.data), self.tag(home.tag));
            assert!(data == content, "sector {sector} is not its content");
            let whole = rule(&self.key).of_sector(sector, data.try_into().unwrap());
            assert!(whole.unwrap().starts_with(tag), "tag of sector {sector}");
            let newest = self.ledger.newest(sector).unwrap();
            assert!(
                self.read_of(sector).as_ref() == Ok(newest),
                "read of {sector}"
            );
        }
        self.verify();
        self.check_unchanged();
    }

    fn data(&self, sector: usize) -> &[u8] {
        &self.volume[sector * 512..(sector + 1) * 512]
    }

    fn tag(&self, place: usize) -> &[u8] {
        &self.volume[place..place + self.geometry.tag_size]
    }

    /// All is as format left it but the journal, the data and the tags: the reserved sectors, the superblock, the tags'
    /// padding and the sectors behind the last run.
    fn check_unchanged(&self) {
        let mut rest = self.volume.clone();
        let mut put_back = |start: usize, length: usize| {
            let bytes = start..start + length;
            rest[bytes.clone()].copy_from_slice(&self.formatted[bytes]);
        };
        let journal = self.geometry.journal() * 512;
        put_back(journal, self.geometry.base * 512 - journal);
        for sector in 0..self.layout.provided {
            let home = self.geometry.home(sector).unwrap();
            put_back(home.data * 512, 512);
            put_back(home.tag, self.geometry.tag_size);
        }
        assert!(
            rest == self.formatted,
            "a byte outside journal, data and tags"
        );
    }

    /// A check of the whole volume, at any time, finds no bad sector and leaves as many stores as an open reports.
    pub fn check_whole(&self) {
        let checked = check(&self.volume, self.layout.reserved, rule(&self.key)).unwrap();
        assert_eq!(checked.layout, self.layout);
        assert_eq!(checked.bad, []);
    }
}
