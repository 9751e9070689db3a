//! The two stores, journal and redo store: entries of a kind and a body that holds what was before, or what was after.

use crate::bytes::{all_zero, hex, Reader, Writer};
use crate::record::*;

pub const STORE_LENGTH: usize = 2048;

/// The kind of a cleared log, which alone a watch-only session may have.
pub const CLEAR: u8 = 0x01;

pub fn body_length(kind: u8) -> Option<usize> {
    match kind {
        CLEAR => Some(3),
        0x02 => Some(1),
        0x03 => Some(2),
        0x04 => Some(7),
        0x05 => Some(2),
        0x06 => Some(10),
        0x07 => Some(163),
        0x08 => Some(2),
        0x09 => Some(4),
        0x0A => Some(9),
        0x0B => Some(24),
        0x0C => Some(9),
        _ => None,
    }
}

#[derive(Clone, Copy, Debug)]
pub struct Entry<'a> {
    pub offset: usize,
    pub kind: u8,
    pub body: &'a [u8],
}

/// The entries, one after the other; at last, if so, the offset of one that has an unknown kind or a cut body.
pub struct Entries<'a> {
    offset: usize,
    rest: &'a [u8],
}

pub fn entries(bytes: &[u8]) -> Entries<'_> {
    Entries { offset: 0, rest: bytes }
}

impl<'a> Iterator for Entries<'a> {
    type Item = Result<Entry<'a>, usize>;

    fn next(&mut self) -> Option<Self::Item> {
        let (kind, after) = self.rest.split_first()?;
        let offset = self.offset;
        let Some((body, rest)) = body_length(*kind).and_then(|length| after.split_at_checked(length)) else {
            self.rest = &[]; // nothing can be read behind it
            return Some(Err(offset));
        };
        self.offset += 1 + body.len();
        self.rest = rest;
        Some(Ok(Entry { offset, kind: *kind, body }))
    }
}

/// A mark stands at every 32nd entry, the first counting as marked.
pub const MARKED: usize = 32;
pub const MARKS: usize = 32;

/// The offset in the journal of each marked entry; 0 where there is none, and for the first one.
pub type Marks = [u16; MARKS];

/// The newest entry of a journal, found from a mark on: its offset behind the mark, and how many entries were passed to get there.
#[derive(Clone, Copy, PartialEq, Eq, Debug)]
pub struct Newest {
    pub offset: usize,
    pub passed: usize,
}

/// Sees the used journal from the last mark on and nothing before it; counts each entry as it passes it. `None` where none can be read.
pub fn newest_from_mark(part: &[u8]) -> Option<Newest> {
    let mut newest = None;
    for entry in entries(part).map_while(Result::ok) {
        let passed = newest.map_or(0, |before: Newest| before.passed + 1);
        newest = Some(Newest { offset: entry.offset, passed });
    }
    newest
}

/// The lister: judges kinds and lengths, not values.
pub fn list(bytes: &[u8]) -> String {
    if bytes.len() > STORE_LENGTH {
        return "too long\n".to_string();
    }
    match entries(bytes).collect::<Result<Vec<Entry>, usize>>() {
        Err(offset) => format!("damaged at {offset}\n"),
        Ok(found) => {
            let mut text = format!("journal {}\n", found.len());
            for entry in found {
                text.push_str(&format!("{:02X} {}\n", entry.kind, hex(entry.body)));
            }
            text
        }
    }
}

/// The bytes of a store: the session's own, or a part of an image that was lent.
pub trait Bytes: AsRef<[u8]> + AsMut<[u8]> {}
impl<T: AsRef<[u8]> + AsMut<[u8]>> Bytes for T {}

/// Entries at the front, zeros behind them.
#[derive(Clone, PartialEq, Eq, Debug)]
pub struct Store<B = [u8; STORE_LENGTH]> {
    pub used: u16,
    pub bytes: B,
}

/// What the bodies of a store hold: the journal's what was before a change, the redo store's what was after it.
#[derive(Clone, Copy, PartialEq, Eq, Debug)]
pub enum Holding {
    Before,
    After,
}

/// What one pass over a store finds.
#[derive(Default)]
pub struct Survey {
    pub used: u16,
    /// The used length is over the store's.
    pub too_long: bool,
    pub damaged: bool,
    pub wrong_body: bool,
    pub rest_not_zero: bool,
    /// The offset of the newest entry.
    pub newest: Option<usize>,
    /// How many entries there are, and the marks that they ask for.
    pub entries: usize,
    pub marks: Marks,
    /// No entry is of another kind.
    pub clears_only: bool,
}

impl Survey {
    fn count(&mut self, entry: &Entry) {
        if self.entries.is_multiple_of(MARKED) {
            if let Some(mark) = self.marks.get_mut(self.entries / MARKED) {
                *mark = entry.offset as u16;
            }
        }
        self.entries += 1;
        self.newest = Some(entry.offset);
        self.clears_only &= entry.kind == CLEAR;
    }

    pub fn reads(&self) -> bool {
        !self.too_long && !self.damaged
    }

    /// How many marks its entries use.
    pub fn used_marks(&self) -> usize {
        self.entries.div_ceil(MARKED)
    }
}

impl Store {
    pub fn empty() -> Self {
        Store { used: 0, bytes: [0; STORE_LENGTH] }
    }
}

impl<B: Bytes> Store<B> {
    /// `None` if the used length is over the store's.
    pub fn used_bytes(&self) -> Option<&[u8]> {
        self.bytes.as_ref().get(..usize::from(self.used))
    }

    fn unused_bytes(&self) -> &[u8] {
        self.bytes.as_ref().get(usize::from(self.used)..).unwrap_or(&[])
    }

    pub fn room(&self) -> usize {
        self.unused_bytes().len()
    }

    pub fn survey(&self, holding: Holding) -> Survey {
        let mut found = Survey { used: self.used, clears_only: true, ..Survey::default() };
        let Some(used) = self.used_bytes() else {
            found.too_long = true;
            return found;
        };
        found.rest_not_zero = !all_zero(self.unused_bytes());
        for entry in entries(used) {
            match entry {
                Ok(entry) => {
                    found.wrong_body |= !body_fits(entry.kind, entry.body, holding);
                    found.count(&entry);
                }
                Err(_) => found.damaged = true,
            }
        }
        found
    }

    /// The entry that stands there.
    pub fn read(&self, offset: usize, holding: Holding) -> Option<Change> {
        let (kind, body) = self.used_bytes()?.get(offset..)?.split_first()?;
        Change::read(*kind, body, holding)
    }

    pub fn newest(&self, holding: Holding) -> Option<Change> {
        self.read(self.survey(holding).newest?, holding)
    }

    /// The room for an entry of that length, behind the others; it counts as used from now on. `None` if there isn't any.
    fn room_for(&mut self, length: usize) -> Option<&mut [u8]> {
        let start = usize::from(self.used);
        let place = self.bytes.as_mut().get_mut(start..start + length)?;
        self.used += length as u16;
        Some(place)
    }

    /// Adds an entry, if there is room.
    pub fn push(&mut self, change: &Change) -> bool {
        let place = self.room_for(1 + change.body_length());
        place.map(|place| change.write(&mut Writer::new(place))).is_some()
    }

    /// Adds bytes, whatever they are, if there is room.
    pub fn push_bytes(&mut self, bytes: &[u8]) -> bool {
        self.room_for(bytes.len()).map(|place| place.copy_from_slice(bytes)).is_some()
    }

    /// Moves what is used from there on to the front, and zeroes what that frees.
    pub fn drop_front(&mut self, offset: usize) {
        let used = usize::from(self.used);
        if let Some(bytes) = self.bytes.as_mut().get_mut(..used).filter(|_| offset <= used) {
            bytes.copy_within(offset.., 0);
            bytes[used - offset..].fill(0);
            self.used -= offset as u16;
        }
    }

    /// Zeroes what is used from there on.
    pub fn cut(&mut self, offset: usize) {
        let used = usize::from(self.used);
        if let Some(entry) = self.bytes.as_mut().get_mut(offset..used) {
            entry.fill(0);
            self.used = offset as u16;
        }
    }
}

/// What stood before a change or after it, as an entry's body tells it.
#[derive(Clone, Copy, PartialEq, Eq, Debug)]
pub enum Change {
    /// A log was cleared from that place.
    Clear {
        place: u8,
        log: Log,
    },
    /// In the redo store: it is to be cleared again.
    ClearAgain {
        place: u8,
        log: Log,
    },
    State(u8),
    Role {
        received: u8,
        role: u8,
    },
    Caps {
        received: u8,
        caps: Caps,
    },
    UserCap(u16),
    Thermal {
        received: u8,
        thermal: [u8; 9],
    },
    Throttles {
        received: u8,
        throttles: Throttles,
    },
    Reset {
        state: u8,
        log_made: u8,
    },
    /// In the redo store: the log that the reset had made, zero without one.
    ResetAgain(Log),
    Mask(u32),
    Deadman {
        running: u8,
        time: u64,
    },
    Areas {
        ffdc: Area,
        pass: Area,
    },
    Timer(Timer),
}

fn read_log(body: &mut Reader) -> Option<Log> {
    Some(Log { id: body.u8()?, reason: body.u8()? })
}

pub fn read_caps(body: &mut Reader) -> Option<Caps> {
    Some(Caps { minimum: body.u16()?, maximum: body.u16()?, oversubscription: body.u16()? })
}

pub fn read_sets(body: &mut Reader) -> Option<[ThrottleSet; PAIRS]> {
    let mut sets = [[0; 10]; PAIRS];
    sets.as_flattened_mut().copy_from_slice(&body.array::<{ 10 * PAIRS }>()?);
    Some(sets)
}

pub fn read_area(body: &mut Reader) -> Option<Area> {
    Some(Area { address: body.u64()?, size: body.u32()? })
}

pub fn read_timer(body: &mut Reader) -> Option<Timer> {
    Some(Timer { running: body.u8()?, left: body.u64()? })
}

pub fn write_caps(bytes: &mut Writer, caps: &Caps) {
    for value in [caps.minimum, caps.maximum, caps.oversubscription] {
        bytes.put(&value.to_be_bytes());
    }
}

pub fn write_throttles(bytes: &mut Writer, throttles: &Throttles) {
    bytes.put(&throttles.presence.to_be_bytes());
    bytes.put(throttles.sets.as_flattened());
}

pub fn write_area(bytes: &mut Writer, area: &Area) {
    bytes.put(&area.address.to_be_bytes());
    bytes.put(&area.size.to_be_bytes());
}

pub fn write_timer(bytes: &mut Writer, timer: &Timer) {
    bytes.put(&[timer.running]);
    bytes.put(&timer.left.to_be_bytes());
}

/// A body of the kind's length has values that a well-formed record could hold.
fn body_fits(kind: u8, body: &[u8], holding: Holding) -> bool {
    match (kind, body) {
        (0x02, [state]) => state_fits(*state), // the shortest, and so the most at a time
        _ => Change::read(kind, body, holding).is_some_and(|change| change.fits()),
    }
}

impl Change {
    /// `None` if the kind is unknown or the body is shorter than the kind's.
    pub fn read(kind: u8, body: &[u8], holding: Holding) -> Option<Change> {
        let mut body = Reader::new(body);
        Some(match kind {
            0x01 if holding == Holding::After => {
                Change::ClearAgain { place: body.u8()?, log: read_log(&mut body)? }
            }
            0x01 => Change::Clear { place: body.u8()?, log: read_log(&mut body)? },
            0x02 => Change::State(body.u8()?),
            0x03 => Change::Role { received: body.u8()?, role: body.u8()? },
            0x04 => Change::Caps { received: body.u8()?, caps: read_caps(&mut body)? },
            0x05 => Change::UserCap(body.u16()?),
            0x06 => Change::Thermal { received: body.u8()?, thermal: body.array()? },
            0x07 => {
                let received = body.u8()?;
                let throttles = Throttles { presence: body.u16()?, sets: read_sets(&mut body)? };
                Change::Throttles { received, throttles }
            }
            0x08 if holding == Holding::After => Change::ResetAgain(read_log(&mut body)?),
            0x08 => Change::Reset { state: body.u8()?, log_made: body.u8()? },
            0x09 => Change::Mask(body.u32()?),
            0x0A => Change::Deadman { running: body.u8()?, time: body.u64()? },
            0x0B => Change::Areas { ffdc: read_area(&mut body)?, pass: read_area(&mut body)? },
            0x0C => Change::Timer(read_timer(&mut body)?),
            _ => return None,
        })
    }

    pub fn kind(&self) -> u8 {
        match self {
            Change::Clear { .. } | Change::ClearAgain { .. } => 0x01,
            Change::State(_) => 0x02,
            Change::Role { .. } => 0x03,
            Change::Caps { .. } => 0x04,
            Change::UserCap(_) => 0x05,
            Change::Thermal { .. } => 0x06,
            Change::Throttles { .. } => 0x07,
            Change::Reset { .. } | Change::ResetAgain(_) => 0x08,
            Change::Mask(_) => 0x09,
            Change::Deadman { .. } => 0x0A,
            Change::Areas { .. } => 0x0B,
            Change::Timer(_) => 0x0C,
        }
    }

    fn body_length(&self) -> usize {
        body_length(self.kind()).unwrap_or(0)
    }

    /// Writes the whole entry: kind, then body.
    fn write(&self, entry: &mut Writer) {
        entry.put(&[self.kind()]);
        match self {
            Change::Clear { place, log } | Change::ClearAgain { place, log } => {
                entry.put(&[*place, log.id, log.reason])
            }
            Change::State(state) => entry.put(&[*state]),
            Change::Role { received, role } => entry.put(&[*received, *role]),
            Change::Caps { received, caps } => {
                entry.put(&[*received]);
                write_caps(entry, caps);
            }
            Change::UserCap(cap) => entry.put(&cap.to_be_bytes()),
            Change::Thermal { received, thermal } => {
                entry.put(&[*received]);
                entry.put(thermal);
            }
            Change::Throttles { received, throttles } => {
                entry.put(&[*received]);
                write_throttles(entry, throttles);
            }
            Change::Reset { state, log_made } => entry.put(&[*state, *log_made]),
            Change::ResetAgain(log) => entry.put(&[log.id, log.reason]),
            Change::Mask(mask) => entry.put(&mask.to_be_bytes()),
            Change::Deadman { running, time } => {
                entry.put(&[*running]);
                entry.put(&time.to_be_bytes());
            }
            Change::Areas { ffdc, pass } => {
                write_area(entry, ffdc);
                write_area(entry, pass);
            }
            Change::Timer(timer) => write_timer(entry, timer),
        }
    }

    /// Values that a well-formed record could hold.
    fn fits(&self) -> bool {
        match self {
            Change::Clear { place, log } | Change::ClearAgain { place, log } => {
                usize::from(*place) < LOG_PLACES && log_fits(log)
            }
            Change::State(state) => state_fits(*state),
            Change::Role { received, role } => role_fits(*received, *role),
            Change::Caps { received, caps } => caps_fit(*received, caps),
            Change::UserCap(_) | Change::Mask(_) => true,
            Change::Thermal { received, thermal } => thermal_fits(*received, thermal),
            Change::Throttles { received, throttles } => throttles_fit(*received, throttles),
            Change::Reset { state, log_made } => state_fits(*state) && flag_fits(*log_made),
            Change::ResetAgain(log) => *log == Log::default() || log_fits(log),
            Change::Deadman { running, time } => deadman_fits(*running, *time),
            Change::Areas { ffdc, pass } => area_fits(ffdc) && area_fits(pass),
            Change::Timer(timer) => timer_fits(timer),
        }
    }

    /// The timer with these values put in: no other change touches it.
    pub fn set(&self, now: Timer) -> Timer {
        match self {
            Change::Timer(timer) => *timer,
            _ => now,
        }
    }

    /// The record with these values put in; `None` if a log can't go to its place or isn't there to go.
    pub fn put(&self, now: &Record) -> Option<Record> {
        let mut record = *now;
        match *self {
            Change::Clear { place, log } => insert(&mut record, usize::from(place), log)?,
            Change::ClearAgain { place, log } => {
                let place = usize::from(place);
                record.logs.get(place).filter(|there| **there == log)?;
                record.remove_log(place);
            }
            Change::State(state) => record.state = state,
            Change::Role { received, role } => {
                (record.role_received, record.role) = (received, role);
            }
            Change::Caps { received, caps } => {
                (record.caps_received, record.caps) = (received, caps);
            }
            Change::UserCap(cap) => record.user_cap = cap,
            Change::Thermal { received, thermal } => {
                (record.thermal_received, record.thermal) = (received, thermal);
            }
            Change::Throttles { received, throttles } => {
                (record.throttles_received, record.throttles) = (received, throttles);
            }
            Change::Reset { state, log_made } => {
                record.state = state;
                if log_made != 0 {
                    record.remove_log(record.pending().checked_sub(1)?);
                }
            }
            Change::ResetAgain(log) => {
                record.state = STANDBY;
                if log != Log::default() {
                    let behind = record.pending();
                    insert(&mut record, behind, log)?;
                }
            }
            Change::Mask(mask) => record.mask = mask,
            Change::Deadman { running, time } => (record.running, record.time) = (running, time),
            Change::Areas { ffdc, pass } => (record.ffdc, record.pass) = (ffdc, pass),
            Change::Timer(_) => {}
        }
        Some(record)
    }

    /// What the other store gets when this is put into the record: the values now in force, and of logs what takes it back.
    pub fn opposite(&self, now: &Record, timer: Timer) -> Change {
        match *self {
            Change::Clear { place, log } => Change::ClearAgain { place, log },
            Change::ClearAgain { place, log } => Change::Clear { place, log },
            Change::State(_) => Change::State(now.state),
            Change::Role { .. } => Change::Role { received: now.role_received, role: now.role },
            Change::Caps { .. } => Change::Caps { received: now.caps_received, caps: now.caps },
            Change::UserCap(_) => Change::UserCap(now.user_cap),
            Change::Thermal { .. } => {
                Change::Thermal { received: now.thermal_received, thermal: now.thermal }
            }
            Change::Throttles { .. } => {
                Change::Throttles { received: now.throttles_received, throttles: now.throttles }
            }
            Change::Reset { log_made: 0, .. } => Change::ResetAgain(Log::default()),
            Change::Reset { .. } => Change::ResetAgain(now.newest_log()),
            Change::ResetAgain(log) => {
                Change::Reset { state: now.state, log_made: u8::from(log != Log::default()) }
            }
            Change::Mask(_) => Change::Mask(now.mask),
            Change::Deadman { .. } => Change::Deadman { running: now.running, time: now.time },
            Change::Areas { .. } => Change::Areas { ffdc: now.ffdc, pass: now.pass },
            Change::Timer(_) => Change::Timer(timer),
        }
    }
}

fn insert(record: &mut Record, place: usize, log: Log) -> Option<()> {
    record.insert_log(place, log).then_some(())
}
