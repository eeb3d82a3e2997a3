//! The table, its calls and the sharing of the supply (document 01).
//! A call that refuses answers the refusal's number and leaves the table alone.

use crate::port::{
    control_reserved, moved, Move, Port, State, ALTERNATIVE_A, ALTERNATIVE_B, DENIED,
};
use crate::reading::{Sample, BUDGETS, RESERVED_FLAGS, SAMPLE_BYTES};
use crate::tlv::HIGHEST_VALUE;

pub const PLACES: usize = 48;

/// "supply figure over 60,000" is refused with 4.
pub const HIGHEST_SUPPLY: u64 = 60_000;

#[derive(Clone, PartialEq, Eq, Debug)]
pub struct Table {
    pub count: u16,
    pub supply: u16,
    pub ports: [Port; PLACES],
}

/// How one port left a tick, for `reference count`.
#[derive(Clone, Copy, PartialEq, Eq, Debug)]
pub struct Exit {
    pub from: State,
    pub to: State,
    pub rule: &'static str,
    pub latched: u8,
}

/// What an accepted tick answers.
#[derive(Clone, PartialEq, Eq, Debug)]
pub struct Ticked {
    pub mask_a: u64,
    pub mask_b: u64,
    pub closed: u32,
    pub exits: Vec<Exit>,
}

/// A claim on the supply: its place in the ranking is the order of the tuple
/// (group, priority rank, port).
#[derive(Clone, Copy, PartialEq, Eq, PartialOrd, Ord, Debug)]
pub struct Claim {
    pub group: u8,
    pub priority: u8,
    pub port: usize,
    pub demand: u16,
}

impl Table {
    /// What is held before the first cold start: all zeros.
    pub fn zero() -> Table {
        Table { count: 0, supply: 0, ports: [Port::ZERO; PLACES] }
    }

    /// "a cold start asked for 0 or over 48 ports": 2. "Places at or past the
    /// port count are filled alike".
    pub fn cold(count: u64) -> Result<Table, u8> {
        if count == 0 || count > PLACES as u64 {
            return Err(2);
        }
        Ok(Table { count: count as u16, supply: 0, ports: [Port::COLD; PLACES] })
    }

    /// 13: "port count 0 or over 48; a stored supply over 60,000; or, in a port
    /// below the count, [..]".
    pub fn ill_made(&self) -> bool {
        let count = usize::from(self.count);
        count == 0
            || count > PLACES
            || u64::from(self.supply) > HIGHEST_SUPPLY
            || self.ports[..count].iter().any(Port::ill_made)
    }

    fn well_made(&self) -> Result<(), u8> {
        if self.ill_made() {
            Err(13)
        } else {
            Ok(())
        }
    }

    /// "port number not below the port count": 2.
    fn place(&self, port: u64) -> Result<usize, u8> {
        if port < u64::from(self.count) {
            Ok(port as usize)
        } else {
            Err(2)
        }
    }

    /// "Control word: 2, 3, 5." "A write that changes the alternative of a port
    /// not in DISABLED is refused with 5."
    pub fn control(&mut self, port: u64, word: u64) -> Result<(), u8> {
        self.well_made()?;
        let p = self.place(port)?;
        if control_reserved(word) {
            return Err(3);
        }
        let new = Port { control: word as u16, ..self.ports[p] };
        let old = &self.ports[p];
        if old.state != State::Disabled && old.alternative() != new.alternative() {
            return Err(5);
        }
        self.ports[p] = new;
        Ok(())
    }

    /// "Reading the status returns the word and clears that port's six latches,
    /// no more."; request [7]: "both clear on a status read with the other six".
    pub fn status(&mut self, port: u64) -> Result<u16, u8> {
        self.well_made()?;
        let p = self.place(port)?;
        let word = self.ports[p].status_word();
        self.ports[p].latches = 0;
        Ok(word)
    }

    /// "Request: 2, 10, 5, 11, 12."
    pub fn request(&mut self, port: u64, value: u64) -> Result<(), u8> {
        self.well_made()?;
        let p = self.place(port)?;
        // Request [4]: "A request gives 10 for 0 or above 999, and 11 for 256 to
        // 999, after the state check as before."
        if value == 0 || value > HIGHEST_VALUE {
            return Err(10);
        }
        let old = self.ports[p];
        if old.state != State::PowerOn {
            return Err(5);
        }
        let demand = requested_demand(value).ok_or(11)?;
        // "Over the class budget: 11."
        if demand > BUDGETS[usize::from(old.class)] {
            return Err(11);
        }
        // "A demand not above the present one is accepted; a higher one exactly
        // if all closed ports' demands with the change are at most the stored
        // supply, else 12."
        if demand > old.demand {
            let all = self.closed_demands() - u32::from(old.demand) + u32::from(demand);
            if all > u32::from(self.supply) {
                return Err(12);
            }
        }
        self.ports[p].demand = demand;
        Ok(())
    }

    /// The sum of the demands of the closed ports below the count.
    pub fn closed_demands(&self) -> u32 {
        let ports = &self.ports[..usize::from(self.count)];
        ports.iter().filter(|p| p.state.closed()).map(|p| u32::from(p.demand)).sum()
    }

    /// "Tick: 1, 4, 3", after 13.
    pub fn tick_refusal(&self, figure: u64, block: &[u8]) -> Result<(), u8> {
        self.well_made()?;
        let count = usize::from(self.count);
        // "a sample block isn't 14 bytes per port".
        if block.len() != count * SAMPLE_BYTES {
            return Err(1);
        }
        if figure > HIGHEST_SUPPLY {
            return Err(4);
        }
        // "reserved bits [..] in sample flags".
        if (0..count).any(|p| Sample::of_port(block, p).flags & RESERVED_FLAGS != 0) {
            return Err(3);
        }
        Ok(())
    }

    /// Every port's own move, in port order.
    pub fn moves(&self, block: &[u8]) -> Vec<Move> {
        let one = |p: usize| moved(self.ports[p], &Sample::of_port(block, p));
        (0..usize::from(self.count)).map(one).collect()
    }

    /// "claims are ranked: ports closed before the tick and still in POWER_UP,
    /// POWER_ON or TEST_MODE come first, then those asking. Within each:
    /// critical, high, then low and unknown alike; then lower port number."
    pub fn ranking(&self, moves: &[Move]) -> Vec<Claim> {
        let mut claims = Vec::new();
        for (port, m) in moves.iter().enumerate() {
            let still_closed = self.ports[port].state.closed() && m.port.state.closed();
            if still_closed || m.asks.is_some() {
                let group = if still_closed { 0 } else { 1 };
                let (priority, demand) = (m.port.priority_rank(), m.port.demand);
                claims.push(Claim { group, priority, port, demand });
            }
        }
        claims.sort();
        claims
    }

    pub fn tick(&mut self, figure: u64, block: &[u8]) -> Result<Ticked, u8> {
        self.tick_refusal(figure, block)?;
        let moves = self.moves(block);
        let shed = shed_ports(&self.ranking(&moves), figure);
        let mut exits = Vec::with_capacity(moves.len());
        for (p, m) in moves.iter().enumerate() {
            let from = self.ports[p].state;
            let (port, exit) = settled(from, m, shed[p]);
            self.ports[p] = port;
            exits.push(exit);
        }
        // "The figure is then stored."
        self.supply = figure as u16;
        let (mask_a, mask_b) = (self.mask(ALTERNATIVE_A), self.mask(ALTERNATIVE_B));
        // "a number of closed ports equal to the ones in the two masks."
        let closed = mask_a.count_ones() + mask_b.count_ones();
        Ok(Ticked { mask_a, mask_b, closed, exits })
    }

    /// "bit p set exactly if port p is closed and its control word names that
    /// alternative".
    pub fn mask(&self, alternative: u16) -> u64 {
        let named = |p: &usize| {
            self.ports[*p].state.closed() && self.ports[*p].alternative() == alternative
        };
        (0..usize::from(self.count)).filter(named).map(|p| 1u64 << p).sum()
    }
}

/// "value 1..38 means demand 40, ..64 means 70, ..129 means 154, ..255 means
/// 300." No other value means a demand.
pub fn requested_demand(value: u64) -> Option<u16> {
    match value {
        1..=38 => Some(40),
        39..=64 => Some(70),
        65..=129 => Some(154),
        130..=255 => Some(300),
        _ => None,
    }
}

/// "Going down the ranking, claims are kept while the sum of demands is at most
/// the supply. The first that doesn't fit and all after it are shed, smaller
/// ones too."
fn shed_ports(ranking: &[Claim], figure: u64) -> [bool; PLACES] {
    let mut shed = [false; PLACES];
    let mut sum = 0u64;
    let mut full = false;
    for claim in ranking {
        sum += u64::from(claim.demand);
        full = full || sum > figure;
        shed[claim.port] = full;
    }
    shed
}

/// "An asker kept enters its state; one shed goes to IDLE. A closed port shed
/// goes to IDLE, or from TEST_MODE to TEST_ERROR. Each shed port latches 12."
fn settled(from: State, m: &Move, shed: bool) -> (Port, Exit) {
    let (mut port, rule) = match (m.asks, shed) {
        (Some(state), false) => (m.port.entering(state), "asks and is kept"),
        (Some(_), true) => (m.port.entering(State::Idle), "asks and is shed"),
        (None, false) => (m.port, m.rule),
        (None, true) if from == State::TestMode => (m.port.entering(State::TestError), "shed"),
        (None, true) => (m.port.entering(State::Idle), "shed"),
    };
    let mut latched = m.latched;
    if shed {
        port.latches |= DENIED;
        latched |= DENIED;
    }
    (port, Exit { from, to: port.state, rule, latched })
}
