//! The record, the values worked out from it, and the rules a well-formed record obeys.

pub const LOG_PLACES: usize = 4;
pub const PAIRS: usize = 16;
pub const STANDBY: u8 = 1;
pub const OBSERVATION: u8 = 2;
pub const ACTIVE: u8 = 3;
pub const SLAVE: u8 = 0;
pub const MASTER: u8 = 1;
pub const FORMAT_ROLE: u8 = 0x03;
pub const FORMAT_CAPS: u8 = 0x07;
pub const FORMAT_THROTTLES: u8 = 0x12;
pub const FORMAT_THERMAL: u8 = 0x13;
const NOT_RECEIVED: u8 = 0;
const RECEIVED: u8 = 1;

/// Ten bytes of a throttle set, as sent after hub and MBA.
pub type ThrottleSet = [u8; 10];

#[derive(Clone, Copy, PartialEq, Eq, Debug, Default)]
pub struct Caps {
    pub minimum: u16,
    pub maximum: u16,
    pub oversubscription: u16,
}

#[derive(Clone, Copy, PartialEq, Eq, Debug, Default)]
pub struct Log {
    pub id: u8,
    pub reason: u8,
}

#[derive(Clone, Copy, PartialEq, Eq, Debug, Default)]
pub struct Area {
    pub address: u64,
    pub size: u32,
}

/// Presence is one number: a present pair adds 2^(2*hub+MBA); sets stand in that order.
#[derive(Clone, Copy, PartialEq, Eq, Debug, Default)]
pub struct Throttles {
    pub presence: u16,
    pub sets: [ThrottleSet; PAIRS],
}

/// The SBE's one timer, microseconds left. It stands beside the record: time passes without a command.
#[derive(Clone, Copy, PartialEq, Eq, Debug, Default)]
pub struct Timer {
    pub running: u8,
    pub left: u64,
}

/// Plain bytes and numbers, so that a damaged record can be held and judged.
#[derive(Clone, Copy, PartialEq, Eq, Debug)]
pub struct Record {
    pub state: u8,
    pub role: u8,
    pub caps: Caps,
    pub throttles: Throttles,
    pub user_cap: u16,
    pub thermal: [u8; 9],
    pub role_received: u8,
    pub caps_received: u8,
    pub throttles_received: u8,
    pub thermal_received: u8,
    pub logs: [Log; LOG_PLACES],
    pub mask: u32,
    pub running: u8,
    pub time: u64,
    pub ffdc: Area,
    pub pass: Area,
}

#[derive(Clone, Copy, PartialEq, Eq, Debug)]
pub struct WorkedOut {
    pub limit: u16,
    pub observation: u8,
    pub active: u8,
    pub wanted: u8,
}

pub const FRESH_THERMAL: [u8; 9] = [UNSET; 9];

impl Record {
    pub fn fresh() -> Self {
        Record {
            state: STANDBY,
            role: SLAVE,
            caps: Caps::default(),
            throttles: Throttles::default(),
            user_cap: 0,
            thermal: FRESH_THERMAL,
            role_received: NOT_RECEIVED,
            caps_received: NOT_RECEIVED,
            throttles_received: NOT_RECEIVED,
            thermal_received: NOT_RECEIVED,
            logs: [Log::default(); LOG_PLACES],
            mask: 0,
            running: 0,
            time: 0,
            ffdc: Area::default(),
            pass: Area::default(),
        }
    }

    pub fn is_master(&self) -> bool {
        self.role == MASTER
    }

    pub fn has_caps(&self) -> bool {
        self.caps_received == RECEIVED
    }

    fn limit(&self) -> u16 {
        if !self.is_master() || !self.has_caps() {
            0
        } else if self.user_cap == 0 {
            self.caps.maximum
        } else {
            self.user_cap.max(self.caps.minimum).min(self.caps.maximum)
        }
    }

    fn wanted(&self) -> u8 {
        if self.role_received != RECEIVED {
            FORMAT_ROLE
        } else if self.thermal_received != RECEIVED {
            FORMAT_THERMAL
        } else if self.is_master() && !self.has_caps() {
            FORMAT_CAPS
        } else if self.throttles_received != RECEIVED {
            FORMAT_THROTTLES
        } else {
            0x00
        }
    }

    pub fn work_out(&self) -> WorkedOut {
        let base = self.role_received == RECEIVED && self.thermal_received == RECEIVED;
        let observation = base && (!self.is_master() || self.has_caps());
        let active = observation && self.throttles_received == RECEIVED;
        WorkedOut {
            limit: self.limit(),
            observation: u8::from(observation),
            active: u8::from(active),
            wanted: self.wanted(),
        }
    }

    /// Used places come first; a place is used if its id isn't 0.
    pub fn pending(&self) -> usize {
        self.logs.iter().take_while(|log| log.id != 0).count()
    }

    /// The last that pends, zero without one.
    pub fn newest_log(&self) -> Log {
        self.logs.iter().take(self.pending()).next_back().copied().unwrap_or_default()
    }

    /// `None` for an id that isn't pending; 0 never is.
    pub fn place_of(&self, id: u8) -> Option<usize> {
        self.logs.iter().position(|log| log.id != 0 && log.id == id)
    }

    /// False, and nothing done, if the place is above the number pending or all are taken.
    pub fn insert_log(&mut self, place: usize, log: Log) -> bool {
        let pending = self.pending();
        if place > pending || pending >= LOG_PLACES {
            return false;
        }
        if let Some(from_place) = self.logs.get_mut(place..) {
            from_place.rotate_right(1);
            from_place[0] = log;
        }
        true
    }

    pub fn remove_log(&mut self, place: usize) {
        if let Some(from_place) = self.logs.get_mut(place..) {
            if let Some(first) = from_place.first_mut() {
                *first = Log::default();
                from_place.rotate_left(1);
            }
        }
    }
}

// The rules below judge the record and, likewise, the bodies of journal entries.

pub fn flag_fits(flag: u8) -> bool {
    flag <= 1
}

pub fn state_fits(state: u8) -> bool {
    (STANDBY..=ACTIVE).contains(&state)
}

pub fn role_fits(received: u8, role: u8) -> bool {
    flag_fits(received) && role <= MASTER && (received == RECEIVED || role == SLAVE)
}

pub fn caps_fit(received: u8, caps: &Caps) -> bool {
    flag_fits(received) && caps.minimum <= caps.maximum && (received == RECEIVED || *caps == Caps::default())
}

pub fn throttles_fit(received: u8, throttles: &Throttles) -> bool {
    let absent_zero = (0..PAIRS)
        .zip(&throttles.sets)
        .all(|(pair, set)| throttles.presence >> pair & 1 == 1 || *set == [0; 10]);
    flag_fits(received) && absent_zero && (received == RECEIVED || throttles.presence == 0)
}

/// 0xFF: not defined.
const UNSET: u8 = 0xFF;

/// DVFS at most ERROR where both are defined.
pub fn thresholds_fit(dvfs: u8, error: u8) -> bool {
    dvfs == UNSET || error == UNSET || dvfs <= error
}

/// For each FRU.
fn thermal_rule(thermal: &[u8; 9]) -> bool {
    thermal.chunks_exact(3).all(|fru| thresholds_fit(fru[0], fru[1]))
}

pub fn thermal_fits(received: u8, thermal: &[u8; 9]) -> bool {
    flag_fits(received) && thermal_rule(thermal) && (received == RECEIVED || *thermal == FRESH_THERMAL)
}

pub fn deadman_fits(running: u8, time: u64) -> bool {
    flag_fits(running) && (running == 1 || time == 0)
}

pub fn timer_fits(timer: &Timer) -> bool {
    flag_fits(timer.running) && (timer.running == 1 || timer.left == 0)
}

/// What D7 04 says of an area whose size isn't 0.
#[derive(Clone, Copy, PartialEq, Eq, Debug)]
pub enum AreaFault {
    Address,
    Size,
}

pub fn area_fault(area: &Area) -> Option<AreaFault> {
    let end = u128::from(area.address) + u128::from(area.size);
    if !area.address.is_multiple_of(128) || end > 1 << 64 {
        Some(AreaFault::Address)
    } else if !area.size.is_multiple_of(128) {
        Some(AreaFault::Size)
    } else {
        None
    }
}

pub fn area_fits(area: &Area) -> bool {
    *area == Area::default() || (area.size != 0 && area_fault(area).is_none())
}

pub fn log_fits(log: &Log) -> bool {
    log.id >= 1 && (log.reason == 1 || log.reason == 2)
}

pub fn unused_logs_zero(record: &Record) -> bool {
    record.logs.iter().skip(record.pending()).all(|log| *log == Log::default())
}

pub fn logs_rising(record: &Record) -> bool {
    let used = &record.logs[..record.pending().min(LOG_PLACES)];
    used.windows(2).all(|two| two[0].id < two[1].id)
}

pub fn log_reasons_fit(record: &Record) -> bool {
    record.logs.iter().take(record.pending()).all(log_fits)
}

pub fn logs_below(record: &Record, next_id: u16) -> bool {
    record.logs.iter().take(record.pending()).all(|log| u16::from(log.id) < next_id)
}

/// All that is asked of a record, with the next id its logs stand below.
pub fn record_fits(record: &Record, next_id: u16) -> bool {
    state_fits(record.state)
        && role_fits(record.role_received, record.role)
        && caps_fit(record.caps_received, &record.caps)
        && throttles_fit(record.throttles_received, &record.throttles)
        && thermal_fits(record.thermal_received, &record.thermal)
        && deadman_fits(record.running, record.time)
        && area_fits(&record.ffdc)
        && area_fits(&record.pass)
        && unused_logs_zero(record)
        && logs_rising(record)
        && log_reasons_fit(record)
        && logs_below(record, next_id)
}
