//! What a box's file stands for, in lines.

use crate::numbers::{BoxNumber, YardSize};
use crate::signal_box::{Damage, SignalBox};
use crate::yard::{engine_line, section_lines};

/// The box's part of `show`, and how much of a last record would be cut away; or where damage lies.
pub fn replay_lines(number: BoxNumber, size: YardSize, file: &[u8]) -> Result<Vec<String>, String> {
    let opened = SignalBox::open(number, size, file);
    let opened = opened.map_err(|Damage { at }| format!("damage at byte {at}"))?;
    let mut lines = section_lines(&opened.signal_box);
    lines.extend(size.engines().filter_map(|engine| engine_line(&opened.signal_box, engine)));
    if opened.whole < file.len() {
        lines.push(format!("cut away {}", file.len() - opened.whole));
    }
    Ok(lines)
}
