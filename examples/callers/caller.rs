//! Calls the proved translator from Rust: prints P3's full and lean netlist in hex, or the refusal; then two windows of sixteen traces
//! through a register, with the state that each leaves.

extern "C" {
    fn deltawobble_translate(
        sheet: *const u8,
        sheet_len: usize,
        out: *mut u8,
        out_len: usize,
        work: *mut u16,
        work_len: usize,
        lean: bool,
        plain: bool,
        card: bool,
    ) -> u64;
    fn deltawobble_lanes(
        sheet: *const u8,
        sheet_len: usize,
        inputs: *const u16,
        inputs_len: usize,
        state: *mut u16,
        state_len: usize,
        out: *mut u16,
        out_len: usize,
        work: *mut u16,
        work_len: usize,
        ticks: u16,
    ) -> u64;
}

/// A refusal's number and place.
struct Refusal(u32, u32);

/// The bytes of a sheet's netlist in plain kinds. 41,344 bytes of output always do.
fn translate(sheet: &[u8], lean: bool) -> Result<Vec<u8>, Refusal> {
    let mut out = vec![0u8; 41_344];
    let mut work = vec![0u16; 32_768];
    let (room, memory) = (out.len(), work.len());
    // the pointers and lengths are those of slices that live through the call
    let answer = unsafe {
        deltawobble_translate(
            sheet.as_ptr(),
            sheet.len(),
            out.as_mut_ptr(),
            room,
            work.as_mut_ptr(),
            memory,
            lean,
            true,
            false,
        )
    };
    match ((answer >> 32 & 255) as u32, answer as u32) {
        (0, length) => {
            out.truncate(length as usize);
            Ok(out)
        }
        (number, place) => Err(Refusal(number, place)),
    }
}

/// Sixteen traces through a circuit of one input pin and one output pin: a number a tick in, and a number a tick out. The state is lent, and
/// left for the next window.
fn lanes(sheet: &[u8], inputs: &[u16], state: &mut [u16]) -> Result<Vec<u16>, Refusal> {
    let mut out = vec![0u16; inputs.len()];
    let mut work = vec![0u16; 32_768];
    let (room, memory) = (out.len(), work.len());
    // the pointers and lengths are those of slices that live through the call
    let answer = unsafe {
        deltawobble_lanes(
            sheet.as_ptr(),
            sheet.len(),
            inputs.as_ptr(),
            inputs.len(),
            state.as_mut_ptr(),
            state.len(),
            out.as_mut_ptr(),
            room,
            work.as_mut_ptr(),
            memory,
            inputs.len() as u16,
        )
    };
    match ((answer >> 32 & 255) as u32, answer as u32) {
        (0, _) => Ok(out),
        (number, place) => Err(Refusal(number, place)),
    }
}

fn main() {
    let sheet = [
        0x01, 0x03, 0x00, 0x00, 0x04, 0x01, 0x00, 0x16, 0x15, 0x02, 0x14, 0x12, 0x00, 0x1A, 0x00,
        0x00, 0x1A, 0x01, 0x01,
    ];
    for (name, lean) in [("full", false), ("lean", true)] {
        match translate(&sheet, lean) {
            Ok(netlist) => {
                let hex: Vec<String> = netlist.iter().map(|byte| format!(" {byte:02x}")).collect();
                println!("{name}{}", hex.concat());
            }
            Err(Refusal(number, place)) => println!("{name} refused {number} {place}"),
        }
    }
    let register = [0x01, 0x03, 0x00, 0x00, 0x1A, 0x01, 0x01];
    let mut state = [0x00FF];
    for inputs in [[0xAAAA, 0x5555].as_slice(), &[0x1234]] {
        match lanes(&register, inputs, &mut state) {
            Ok(shown) => {
                let hex: Vec<String> =
                    shown.iter().map(|number| format!(" {number:04x}")).collect();
                println!("lanes{} state {:04x}", hex.concat(), state[0]);
            }
            Err(Refusal(number, place)) => println!("lanes refused {number} {place}"),
        }
    }
}
