//! One line.

use super::cursor;
use super::entry::Entry;
use super::formats::{self, Normal};
use super::gamma::Gamma;
use super::maps::Maps;
use super::overlay;
use super::runs::{self, Run, MOST_RUNS};
use crate::model::chip::{Refusal, State};
use crate::model::line::Lent;
use crate::model::screen::Screen;

/// From so many pixels on it is quicker to correct palettes than to correct what was drawn under an overlay.
const PALETTES_PAY: usize = 1024;

/// Draws line y into the first words of the output, or refuses it and draws nothing.
pub fn line(state: &State, y: u32, lent: Lent, output: &mut [u32]) -> Result<(), Refusal> {
    let screen = state.screen_for(y, lent, output.len())?;
    let maps = Maps::new(lent.store).ok_or((5, 1))?;
    let entry = |id: usize| Entry::new(maps.windows[id], screen.depth);
    let output = &mut output[..screen.width as usize];
    if screen.ids_on {
        let mut room = [Run::NONE; MOST_RUNS];
        let runs = runs::find(&mut room, lent.table, y, screen.width, entry)?;
        draw(&screen, lent, &maps, runs, output);
    } else {
        let entry = entry(0).ok_or((9, 0))?;
        draw(&screen, lent, &maps, &[Run { past: screen.width as u16, entry }], output);
    }
    if let Some(cursor) = screen.cursor {
        cursor::draw(cursor, y, &maps, output);
    }
    Ok(())
}

/// Draws the runs of a line, without the cursor.
fn draw(screen: &Screen, lent: Lent, maps: &Maps, runs: &[Run], output: &mut [u32]) {
    let gamma = Gamma::new(maps.gamma);
    let pixel_bytes = screen.depth as usize / 8;
    let mut first = 0;
    for run in runs {
        let past = usize::from(run.past);
        let bytes = &lent.normal[pixel_bytes * first..pixel_bytes * past];
        let normal = Normal { bytes, depth: screen.depth, entry: run.entry };
        let output = &mut output[first..past];
        let gamma = (!run.entry.bypass()).then_some(&gamma);
        if screen.overlay_on && run.entry.overlay() {
            under_overlay(normal, &lent.overlay[first..past], maps, gamma, output);
        } else {
            formats::draw(normal, maps, gamma, output);
        }
        first = past;
    }
}

/// Draws a run that overlay counts in.
fn under_overlay(normal: Normal, overlay: &[u8], maps: &Maps, gamma: Option<&Gamma>, output: &mut [u32]) {
    match gamma {
        Some(gamma) if output.len() >= PALETTES_PAY => {
            formats::draw(normal, maps, Some(gamma), output);
            overlay::lay(overlay, &gamma.palette(maps.overlay_bank()), output);
        }
        _ => {
            formats::draw(normal, maps, None, output);
            overlay::lay(overlay, maps.overlay_bank(), output);
            if let Some(gamma) = gamma {
                gamma.correct(output);
            }
        }
    }
}
