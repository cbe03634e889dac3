//! The sheet: seats and settings, saved and loaded (document 01, "The sheet"; document 02,
//! #101).

use crate::desk::Desk;
use crate::packet::LONGEST_IDENTITY;
use crate::refusal::Refusal;
use crate::seats::{Seat, Seats, SEATS};
use crate::settings::{Settings, Wishes};
use crate::slices;

/// The octets of a seat that stand before its identity.
const BEFORE_IDENTITY: usize = 7;
const SETTINGS: usize = 12;
const ENDING: usize = 8;
/// The sheet of sixteen seats with the longest identities.
pub const LONGEST_SHEET: usize = SEATS * (BEFORE_IDENTITY + LONGEST_IDENTITY) + SETTINGS + ENDING;
const THIS_FORM: u8 = 1;
const FS: [u8; 2] = *b"FS";
const QUEUEING: u8 = 1;
const RECEIVE_ONLY: u8 = 2;
/// The normal level of every desk that a sheet of this form stands for: it has no place for it.
const NORMAL_LEVEL: u8 = 0;

/// The sheet of a desk, whatever its phase.
pub fn save(desk: &Desk) -> Result<Vec<u8>, Refusal> {
    if desk.settings().normal_level() != NORMAL_LEVEL {
        return Err(Refusal::NoSheetHoldsIt);
    }
    let mut sheet = Vec::new();
    for (_, seat) in desk.seats().taken() {
        lay_out_seat(&mut sheet, seat);
    }
    // Sixteen seats take 1,104 octets at the most, so both numbers fit.
    let offset = u16::try_from(sheet.len()).unwrap_or(u16::MAX);
    let count = u8::try_from(desk.seats().taken().count()).unwrap_or(u8::MAX);
    lay_out_settings(&mut sheet, desk.settings());
    sheet.extend(offset.to_be_bytes());
    sheet.extend([0, 0, count, THIS_FORM]);
    sheet.extend(FS);
    Ok(sheet)
}

/// Saves to the front of the lent room and says how long the sheet is. A desk that has no sheet
/// is told so first, whatever the room.
pub fn save_in(desk: &Desk, room: &mut [u8]) -> Result<usize, Refusal> {
    let sheet = save(desk)?;
    let front = room.get_mut(..sheet.len());
    let front = front.ok_or(Refusal::RoomTooShort)?;
    front.copy_from_slice(&sheet);
    Ok(sheet.len())
}

fn lay_out_seat(sheet: &mut Vec<u8>, seat: &Seat) {
    let queueing = if seat.queueing { QUEUEING } else { 0 };
    let receive_only = if seat.receive_only { RECEIVE_ONLY } else { 0 };
    sheet.extend([queueing | receive_only, seat.highest]);
    sheet.extend(seat.ssrc.to_be_bytes());
    sheet.push(u8::try_from(seat.identity.len()).unwrap_or(u8::MAX));
    sheet.extend(&seat.identity);
}

fn lay_out_settings(sheet: &mut Vec<u8>, settings: &Settings) {
    sheet.extend(settings.ssrc().to_be_bytes());
    sheet.extend([settings.level(), settings.line_limit()]);
    sheet.extend([settings.c7_limit(), settings.c20_limit()]);
    sheet.extend(settings.duration().to_be_bytes());
    sheet.extend([0, 0]);
}

/// A fresh desk with the seats and settings of a sheet.
pub fn load(sheet: &[u8]) -> Result<Desk, Refusal> {
    let (front, ending) = slices::trailing(sheet).ok_or(Refusal::SheetEnding)?;
    let (seats, settings) = slices::trailing(front).ok_or(Refusal::SheetEnding)?;
    let count = check_ending(ending, seats.len())?;
    let settings = parse_settings(settings)?;
    let seats = parse_seats(seats, count, settings.ssrc()).ok_or(Refusal::SheetSeats)?;
    Ok(Desk::fresh(settings, seats))
}

/// Refusals 41 to 43; answers the count of seats.
fn check_ending(ending: &[u8; ENDING], settings_at: usize) -> Result<u8, Refusal> {
    let [high, low, seats_high, seats_low, count, form, letters @ ..] = *ending;
    if letters != FS {
        return Err(Refusal::SheetEnding);
    }
    if form != THIS_FORM {
        return Err(Refusal::SheetForm);
    }
    let points_back = usize::from(u16::from_be_bytes([high, low])) == settings_at;
    if usize::from(count) > SEATS || !points_back || [seats_high, seats_low] != [0, 0] {
        return Err(Refusal::SheetOffsets);
    }
    Ok(count)
}

fn parse_settings(octets: &[u8; SETTINGS]) -> Result<Settings, Refusal> {
    let [a, b, c, d, level, line_limit, c7_limit, c20_limit, high, low, zeros @ ..] = *octets;
    if zeros != [0, 0] {
        return Err(Refusal::SheetSettings);
    }
    let wishes = Wishes {
        ssrc: u32::from_be_bytes([a, b, c, d]),
        level: level.into(),
        line_limit: line_limit.into(),
        c7_limit: c7_limit.into(),
        c20_limit: c20_limit.into(),
        duration: u16::from_be_bytes([high, low]).into(),
        normal_level: NORMAL_LEVEL.into(),
    };
    Settings::weigh(wishes).map_err(|_| Refusal::SheetSettings)
}

/// All seats, which must fill their part of the sheet and could all have joined.
fn parse_seats(mut octets: &[u8], count: u8, desk_ssrc: u32) -> Option<Seats> {
    let mut seats = Seats::default();
    for _ in 0..count {
        let (seat, rest) = parse_seat(octets)?;
        seats.admit(seat, desk_ssrc).ok()?;
        octets = rest;
    }
    octets.is_empty().then_some(seats)
}

fn parse_seat(octets: &[u8]) -> Option<(Seat, &[u8])> {
    let (&[flags, highest, a, b, c, d, length], rest) = slices::leading(octets)?;
    if flags & !(QUEUEING | RECEIVE_ONLY) != 0 {
        return None;
    }
    let (identity, rest) = slices::parted(rest, usize::from(length))?;
    let seat = Seat {
        identity: identity.to_vec(),
        ssrc: u32::from_be_bytes([a, b, c, d]),
        highest,
        queueing: flags & QUEUEING != 0,
        receive_only: flags & RECEIVE_ONLY != 0,
    };
    Some((seat, rest))
}
