//! A run over a recording, with its argument checks.

use crate::machine::{step, Image, State, RECORD_BYTES};
use crate::map::Map;

/// What a run answers.
#[derive(Clone, Copy, PartialEq, Eq, Debug)]
pub enum RunAnswer {
    /// The number of the first check that failed; nothing was changed.
    Refused(u8),
    /// The count of trace records and the stop number or 0.
    Ran { count: usize, stop: u8 },
}

/// The checks 11, 12, 14, 15, 16 in this order.
fn check<'a>(
    image: &'a [u8],
    map: &'a [u8],
    state: &[u8],
    recording: &[u8],
    trace: &[u8],
) -> Result<(Image<'a>, Map<'a>, State), u8> {
    let image = Image::new(image)?;
    let map = Map::new(map)?;
    let state = State::from_bytes(state).ok_or(14)?;
    if recording.len() % 2 != 0 {
        return Err(15);
    }
    if trace.len() != 4 * recording.len() {
        return Err(16);
    }
    Ok((image, map, state))
}

/// Runs the image over the recording. The state's bytes become those of the
/// last state; each step writes its record to the trace.
pub fn run(
    image: &[u8],
    map: &[u8],
    state: &mut [u8],
    recording: &[u8],
    trace: &mut [u8],
) -> RunAnswer {
    let (image, map, mut machine) = match check(image, map, state, recording, trace) {
        Ok(checked) => checked,
        Err(number) => return RunAnswer::Refused(number),
    };
    let mut count = 0;
    for (bytes, record) in recording.chunks(2).zip(trace.chunks_mut(RECORD_BYTES)) {
        match step(&image, &map, &mut machine, [bytes[0], bytes[1]]) {
            Some(written) => record.copy_from_slice(&written),
            None => break,
        }
        count += 1;
    }
    state.copy_from_slice(&machine.to_bytes());
    RunAnswer::Ran { count, stop: machine.stop }
}
