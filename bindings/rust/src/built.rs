//! A built projection.

use crate::area::Area;
use crate::outcome::{Outcome, unknown};
use crate::raw::{self, Numbers, Way};
use crate::refusal::{Answer, Refusal, UnequalLengths};
use crate::ring::RingArea;
use crate::settings::Settings;
use std::fmt;

/// What a projection was built of, and the numbers that the archive made of it.
#[derive(Clone, Copy)]
pub(crate) struct Built {
    settings: Settings,
    numbers: Numbers,
}

impl Built {
    pub(crate) fn new(settings: Settings) -> Result<Self, Refusal> {
        let area = settings.area.map(|area| area.ordered());
        let (outcome, numbers) = raw::build(settings.kind as u8, &settings.ordered(), area);
        outcome.result().map(|()| Self { settings, numbers })
    }

    pub(crate) fn with_area(self, area: Area) -> Result<Self, Refusal> {
        Self::new(Settings {
            area: Some(area),
            ..self.settings
        })
    }

    pub(crate) fn without_area(self) -> Self {
        let settings = Settings {
            area: None,
            ..self.settings
        };
        Self::new(settings).expect("the other settings were built before")
    }

    pub(crate) const fn settings(&self) -> &Settings {
        &self.settings
    }

    pub(crate) fn point(&self, way: Way, u: f64, v: f64) -> Answer {
        let (outcome, p, q) = raw::point(way, &self.numbers, u, v);
        outcome.result().map(|()| (p, q))
    }

    pub(crate) fn column(
        &self,
        way: Way,
        inputs: [&[f64]; 2],
        results: [&mut [f64]; 2],
        outcomes: &mut [Outcome],
    ) -> Result<(), UnequalLengths> {
        match raw::column(way, &self.numbers, inputs, results, outcomes) {
            0 => Ok(()),
            UnequalLengths::NUMBER => Err(UnequalLengths),
            number => unknown(number),
        }
    }

    pub(crate) fn ring_area(
        &self,
        corners: [&[f64]; 2],
        buffers: [&mut [f64]; 2],
    ) -> Result<RingArea, Refusal> {
        let (outcome, area, points) = raw::ring_area(&self.numbers, corners, buffers);
        outcome.result().map(|()| RingArea { area, points })
    }
}

/// The numbers follow from the settings.
impl PartialEq for Built {
    fn eq(&self, other: &Self) -> bool {
        self.settings == other.settings
    }
}

impl fmt::Debug for Built {
    fn fmt(&self, f: &mut fmt::Formatter<'_>) -> fmt::Result {
        self.settings.fmt(f)
    }
}
