//! The settings of a desk (document 01, "The desk"; document 02, #101).

use crate::refusal::Refusal;

/// Settings that are within their ranges.
#[derive(Clone, Copy, Debug, PartialEq, Eq)]
pub struct Settings {
    ssrc: u32,
    level: u8,
    line_limit: u8,
    c7_limit: u8,
    c20_limit: u8,
    duration: u16,
    normal_level: u8,
}

/// Settings as somebody asks for them, not yet judged.
#[derive(Clone, Copy, Debug, PartialEq, Eq)]
pub struct Wishes {
    pub ssrc: u32,
    pub level: u32,
    pub line_limit: u32,
    pub c7_limit: u32,
    pub c20_limit: u32,
    pub duration: u32,
    pub normal_level: u32,
}

impl Settings {
    pub fn weigh(wishes: Wishes) -> Result<Settings, Refusal> {
        Ok(Settings {
            ssrc: wishes.ssrc,
            level: narrowed(wishes.level, 1, 255)?,
            line_limit: narrowed(wishes.line_limit, 0, 15)?,
            c7_limit: narrowed(wishes.c7_limit, 1, 255)?,
            c20_limit: narrowed(wishes.c20_limit, 1, 255)?,
            duration: narrowed(wishes.duration, 1, 65_535)?,
            normal_level: narrowed(wishes.normal_level, 0, 255)?,
        })
    }

    pub fn ssrc(&self) -> u32 {
        self.ssrc
    }

    /// The pre-emptive level.
    pub fn level(&self) -> u8 {
        self.level
    }

    pub fn line_limit(&self) -> u8 {
        self.line_limit
    }

    pub fn c7_limit(&self) -> u8 {
        self.c7_limit
    }

    pub fn c20_limit(&self) -> u8 {
        self.c20_limit
    }

    pub fn duration(&self) -> u16 {
        self.duration
    }

    /// What a request counts as that names no priority. It may be at the pre-emptive level or
    /// above it.
    pub fn normal_level(&self) -> u8 {
        self.normal_level
    }
}

fn narrowed<Number: TryFrom<u32>>(wish: u32, least: u32, most: u32) -> Result<Number, Refusal> {
    if !(least..=most).contains(&wish) {
        return Err(Refusal::SettingOutOfRange);
    }
    Number::try_from(wish).map_err(|_| Refusal::SettingOutOfRange)
}
