//! The inks of the sheet. Chosen so that a grey print keeps them apart: what differs in colour differs in lightness or in shape too.

use super::older::State;
use super::Drawing;

pub const INK: &str = "#22313a";
pub const PAPER: &str = "#fff";
pub const EDGES: &str = "#4a616e";
pub const SIX: &str = "#b3261e";
pub const ALARM: &str = "#b00020";
pub const NEW_FILL: &str = "#ffd28a";
pub const NEW_INK: &str = "#a14a00";
pub const OLDER: &str = "#bfcdd5";
pub const FAINT: &str = "#9aa9b2";
pub const OUTLINES: &str = "#6a1b9a";

/// Shades of one hue, darker level by level, over the levels that there are.
pub fn shade(drawing: &Drawing, level: u8) -> String {
    let deepest = drawing.layers.iter().map(|layer| layer.level).max().unwrap_or(0).max(3);
    let between = |light: f64, dark: f64| (light + (dark - light) * f64::from(level) / f64::from(deepest)).round() as u8;
    format!("#{:02x}{:02x}{:02x}", between(246.0, 168.0), between(249.0, 194.0), between(251.0, 210.0))
}

/// What a mark of a degree is filled and outlined with. Open is degree 5, which would else pass for 6, and the rim; over an older plan a
/// mark is open where its star changed, filled where it is new, and grey where it is as it was.
pub fn ink(degree: u8, state: State) -> (&'static str, &'static str) {
    let line = match (state, degree) {
        (State::Same, _) => FAINT,
        (State::New, _) => NEW_INK,
        (_, 6) => SIX,
        _ => INK,
    };
    let open = match state {
        State::Alone => degree == 5 || degree == 0,
        State::Changed => true,
        State::Same => degree == 0,
        State::New => false,
    };
    (if open { PAPER } else { line }, line)
}
