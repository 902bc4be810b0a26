//! "Sixteen traces at once, and runs that go on", after the words of examples/callers/deltawobble.h: bit k
//! of every number is trace k. Here each trace is run by itself, bit by bit, as L4 says.

use crate::lent::leave;
use crate::refusal::{need, word, Refusal};
use crate::run::{runnable, Circuit, Trace};

/// "one in each bit of a number"
pub const LANES: usize = 16;

/// What sixteen traces are lent, one trace a bit.
#[derive(Clone, Copy, Debug)]
pub struct Traces<'a> {
    pub ticks: u16,
    /// The input pins' numbers, in pin order, tick after tick.
    pub inputs: &'a [u16],
    /// A number for each register by rising terminal: the bits that it shows at tick 0.
    pub state: &'a [u16],
}

/// What sixteen traces leave.
#[derive(Clone, Debug, PartialEq, Eq)]
pub struct Left {
    /// The output pins' numbers, in pin order, tick after tick.
    pub out: Vec<u16>,
    /// The bits that the registers would show at the next tick.
    pub state: Vec<u16>,
}

/// The call: the answer's value is the count of numbers written.
pub fn call(
    sheet: &[u8],
    inputs: &[u16],
    state: &mut [u16],
    output: &mut [u16],
    memory: &mut [u16],
    ticks: u16,
) -> u64 {
    let result = left(sheet, Traces { ticks, inputs, state }, output.len(), memory.len());
    if let Ok(left) = &result {
        state.copy_from_slice(&left.state);
    }
    word(leave(result.map(|left| left.out), output, memory))
}

/// "Refusals as of run, and every 16-bit number will do": 1, 2 to 16, 19, 20 and 17, in this order.
pub fn left(sheet: &[u8], traces: Traces, room: usize, memory: usize) -> Result<Left, Refusal> {
    let circuit = runnable(sheet, memory)?;
    let (inputs, registers, outputs) = circuit.counts();
    let ticks = usize::from(traces.ticks);
    need(traces.inputs.len() == ticks * inputs && traces.state.len() == registers, 20, 0)?;
    need(ticks * outputs <= room, 17, ticks * outputs)?;
    let mut left = Left { out: vec![0; ticks * outputs], state: vec![0; registers] };
    for lane in 0..LANES {
        run_lane(&circuit, traces, lane, &mut left);
    }
    Ok(left)
}

fn run_lane(circuit: &Circuit, traces: Traces, lane: usize, left: &mut Left) {
    let (inputs, starts) = (lane_of(traces.inputs, lane), lane_of(traces.state, lane));
    let went = circuit.run(Trace { ticks: traces.ticks, inputs: &inputs, starts: &starts });
    put_lane(&mut left.out, lane, &went.shown);
    put_lane(&mut left.state, lane, &went.held);
}

/// Bit `lane` of each number, one byte a bit.
pub fn lane_of(numbers: &[u16], lane: usize) -> Vec<u8> {
    numbers.iter().map(|number| (number >> lane & 1) as u8).collect()
}

/// Bits into numbers that have 0 there.
fn put_lane(numbers: &mut [u16], lane: usize, bits: &[u8]) {
    for (number, &bit) in numbers.iter_mut().zip(bits) {
        *number |= u16::from(bit) << lane;
    }
}
