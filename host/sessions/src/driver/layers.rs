//! Arrivals and turns of both, from a fresh layer on.

use super::check::Check;
use super::{Driver, Effort, Failed};
use crate::asked::{Asked, ENOUGH};
use crate::engine::held_layer;
use crate::held_layer::LAYER_BYTES;
use crate::layer_generator::{corrupt_layer, LayerGenerator};
use crate::profile::Profile;
use reference::{Layer, MOST_MESSAGE};

/// Calls of a layer's session.
const CALLS: usize = 240;

type Checked = Result<(), Failed>;

/// A layer's session and the numbers that are drawn for it.
struct Session<'a, 'b> {
    driver: &'a mut Driver<'b>,
    effort: Effort,
    generator: LayerGenerator,
    layer: Vec<u8>,
    /// The calls made so far, as a script.
    script: String,
}

/// Drives random arrivals and turns from a fresh layer on, with calls beside them. A
/// difference has the calls before it as a script.
pub fn drive_layer(driver: &mut Driver, profile: Profile, seed: u64, effort: Effort) -> Checked {
    let mut session = Session {
        driver,
        effort,
        generator: LayerGenerator::new(profile, seed),
        layer: Vec::new(),
        script: String::new(),
    };
    let driven = session.drive_all();
    driven.map_err(|(check, what)| {
        let script = session.script.trim_end();
        (check, format!("{what}\nafter the calls\n{script}"))
    })
}

impl Session<'_, '_> {
    fn drive_all(&mut self) -> Checked {
        self.fresh()?;
        let beside = if self.effort.few { 8 } else { 12 };
        for _ in 0..CALLS {
            if self.generator.random().chance(beside) {
                self.beside()?;
            }
            let held = held_layer(&self.layer).unwrap_or_else(Layer::fresh);
            let asked = self.generator.next(&held);
            let check = match asked {
                Asked::Arrive { .. } => Check::Arrive,
                Asked::Turn { room: ENOUGH } => Check::Turn,
                Asked::Turn { .. } => Check::TurnShort,
            };
            (self.layer, _) = self.driver.ask(check, &asked, (&self.layer, None), true)?;
            self.script += &format!("{asked}\n");
        }
        Ok(())
    }

    /// The first layer; memory of another length holds none.
    fn fresh(&mut self) -> Checked {
        for length in self.lengths() {
            self.driver.layer_fresh(length)?;
        }
        self.layer = self.driver.layer_fresh(LAYER_BYTES)?;
        Ok(())
    }

    /// Lengths that no layer has.
    fn lengths(&mut self) -> [usize; 6] {
        let odd = self.generator.random().below(LAYER_BYTES as u64) as usize;
        [0, 1, odd, LAYER_BYTES - 1, LAYER_BYTES + 1, 2 * LAYER_BYTES]
    }

    /// A call beside the session, upon its layer or another. Tells the bytes written.
    fn ask(&mut self, check: Check, asked: &Asked, given: Option<&[u8]>) -> Result<usize, Failed> {
        let layer = (&self.layer[..], given);
        let (_, written) = self.driver.ask(check, asked, layer, false)?;
        Ok(written)
    }

    /// Calls that leave the session as it is.
    fn beside(&mut self) -> Checked {
        match self.generator.random().below(6) {
            0 => self.short_turns(),
            1 => self.odd_arrivals(),
            2 => self.other_lengths(),
            _ => self.changed_layers(),
        }
    }

    /// Report memory of every short length.
    fn short_turns(&mut self) -> Checked {
        let whole = Asked::Turn { room: ENOUGH };
        let written = self.ask(Check::TurnShort, &whole, None)?;
        for room in 0..=written as u32 + 2 {
            self.ask(Check::TurnShort, &Asked::Turn { room }, None)?;
        }
        Ok(())
    }

    /// Every venue and some that are not there, messages of every length that fits and
    /// of some that do not.
    fn odd_arrivals(&mut self) -> Checked {
        let long = [
            MOST_MESSAGE + 1,
            MOST_MESSAGE + 2,
            255,
            256,
            256 + 4,
            65_536,
        ];
        let step = if self.effort.few { MOST_MESSAGE } else { 8 };
        let venues = [0, 1, 2, 3, 4, 5, 255, 256, 1 << 16, 1 << 31, u32::MAX];
        for venue in venues
            .into_iter()
            .step_by(1 + 2 * usize::from(self.effort.few))
        {
            for length in (0..=MOST_MESSAGE).step_by(step).chain(long) {
                let message = vec![0x81; length];
                self.ask(Check::Arrive, &Asked::Arrive { venue, message }, None)?;
            }
        }
        Ok(())
    }

    fn other_lengths(&mut self) -> Checked {
        let doubled = [&self.layer[..], &self.layer].concat();
        for length in self.lengths() {
            let layer = Some(&doubled[..length]);
            let arrival = self.generator.arrival();
            self.ask(Check::ArriveLength, &arrival, layer)?;
            let turn = self.generator.turn();
            self.ask(Check::TurnLength, &turn, layer)?;
        }
        Ok(())
    }

    /// Layers with a figure, a venue or any byte changed; many are unsound, which is told
    /// before that a message cannot wait.
    fn changed_layers(&mut self) -> Checked {
        let Ok(held) = <[u8; LAYER_BYTES]>::try_from(&self.layer[..]) else {
            return Ok(());
        };
        for _ in 0..6 {
            let mut changed = corrupt_layer(&held, self.generator.random());
            if self.generator.random().chance(30) {
                changed = corrupt_layer(&changed, self.generator.random());
            }
            let arrival = self.generator.arrival();
            let too_long = Asked::Arrive {
                venue: 4,
                message: vec![0; MOST_MESSAGE + 1],
            };
            for arrival in [arrival, too_long] {
                self.ask(Check::ArriveChanged, &arrival, Some(&changed))?;
            }
            let turn = Asked::Turn { room: ENOUGH };
            self.ask(Check::TurnChanged, &turn, Some(&changed))?;
        }
        Ok(())
    }
}
