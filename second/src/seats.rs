//! The sixteen seats, and sets of seats.

use crate::packet::is_identity;
use crate::refusal::Refusal;

pub const SEATS: usize = 16;

/// One who takes part in the call.
#[derive(Clone, Debug, PartialEq, Eq)]
pub struct Seat {
    pub identity: Vec<u8>,
    pub ssrc: u32,
    /// The highest priority that it is heard with.
    pub highest: u8,
    /// Whether it negotiated queueing.
    pub queueing: bool,
    pub receive_only: bool,
}

/// A set of seats: bit 0 is seat 0.
#[derive(Clone, Copy, Debug, Default, PartialEq, Eq)]
pub struct SeatSet(u16);

impl SeatSet {
    pub const NONE: SeatSet = SeatSet(0);

    pub fn only(seat: usize) -> SeatSet {
        SeatSet::NONE.and(seat)
    }

    pub fn and(self, seat: usize) -> SeatSet {
        SeatSet(self.0 | SeatSet::bit(seat))
    }

    pub fn without(self, seat: usize) -> SeatSet {
        SeatSet(self.0 & !SeatSet::bit(seat))
    }

    pub fn mask(self) -> u16 {
        self.0
    }

    fn bit(seat: usize) -> u16 {
        if seat < SEATS {
            1 << seat
        } else {
            0
        }
    }
}

impl FromIterator<usize> for SeatSet {
    fn from_iter<Numbers: IntoIterator<Item = usize>>(seats: Numbers) -> SeatSet {
        seats.into_iter().fold(SeatSet::NONE, SeatSet::and)
    }
}

#[derive(Clone, Debug, Default, PartialEq, Eq)]
pub struct Seats {
    places: [Option<Seat>; SEATS],
}

impl Seats {
    pub fn get(&self, number: usize) -> Option<&Seat> {
        self.places.get(number)?.as_ref()
    }

    /// The taken seats with their numbers, in seat order.
    pub fn taken(&self) -> impl Iterator<Item = (usize, &Seat)> {
        let numbered = self.places.iter().enumerate();
        numbered.filter_map(|(number, place)| Some((number, place.as_ref()?)))
    }

    pub fn everyone(&self) -> SeatSet {
        self.taken().map(|(number, _)| number).collect()
    }

    pub fn with_ssrc(&self, ssrc: u32) -> Option<usize> {
        let mut taken = self.taken();
        taken.find_map(|(number, seat)| (seat.ssrc == ssrc).then_some(number))
    }

    /// Gives a newcomer the lowest free seat. That all are taken is told last, after
    /// whatever is wrong with the newcomer.
    pub fn admit(&mut self, newcomer: Seat, desk_ssrc: u32) -> Result<(), Refusal> {
        if !is_identity(&newcomer.identity) {
            return Err(Refusal::IdentityOutOfSize);
        }
        if self
            .taken()
            .any(|(_, seat)| seat.identity == newcomer.identity)
        {
            return Err(Refusal::IdentityInUse);
        }
        if newcomer.ssrc == desk_ssrc || self.with_ssrc(newcomer.ssrc).is_some() {
            return Err(Refusal::SsrcInUse);
        }
        let free = self.places.iter_mut().find(|place| place.is_none());
        *free.ok_or(Refusal::NoFreeSeat)? = Some(newcomer);
        Ok(())
    }

    /// Makes a taken seat free again.
    pub fn dismiss(&mut self, number: usize) -> Result<(), Refusal> {
        let seat = self.places.get_mut(number).and_then(Option::take);
        seat.map(drop).ok_or(Refusal::NobodyThere)
    }
}
