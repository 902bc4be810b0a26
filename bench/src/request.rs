//! One call as it is tried: the slices that it is lent, as they are before it and must be after it,
//! and the answer that it must give, all by the second program.

use crate::boundary::Call;
use crate::fences::Fences;
use crate::tally::Key;
use second::random::Random;

/// Something to try: small, until it is asked for its request.
pub trait Case {
    /// How many bytes it is about: what is slow is left out of slow runs.
    #[cfg_attr(not(linked), allow(dead_code))]
    fn size(&self) -> usize;
    fn request(&self, random: &mut Random) -> Request;
}

pub type Cases = Vec<Box<dyn Case>>;

pub struct Request {
    pub call: Call,
    pub slices: Vec<Slice>,
    /// The node, the ticks, the pin, or the wishes.
    pub last: u64,
    pub wanted: u64,
    /// What is counted once both programs agree.
    pub keys: Vec<Key>,
}

impl Request {
    /// Whether each slice has room within fences.
    pub fn fits(&self) -> bool {
        self.slices.iter().all(|slice| Fences::fits(slice.before.len()))
    }
}

pub struct Slice {
    pub name: &'static str,
    /// Of an element.
    pub size: usize,
    pub before: Vec<u8>,
    /// None where the call only reads it.
    pub after: Option<Vec<u8>>,
}

impl Slice {
    /// A slice that a call only reads.
    pub fn given<T: Copy>(name: &'static str, elements: &[T]) -> Slice {
        Slice { name, size: size_of::<T>(), before: bytes_of(elements), after: None }
    }

    /// A slice that a call may write to.
    pub fn lent<T: Copy>(name: &'static str, before: &[T], after: &[T]) -> Slice {
        Slice { after: Some(bytes_of(after)), ..Slice::given(name, before) }
    }

    pub fn count(&self) -> usize {
        self.before.len() / self.size
    }

    pub fn after(&self) -> &[u8] {
        self.after.as_ref().unwrap_or(&self.before)
    }
}

/// What every call that writes is lent: painted, to be changed by the second program.
pub struct Storage {
    before: (Vec<u8>, Vec<u16>),
    pub out: Vec<u8>,
    pub work: Vec<u16>,
}

impl Storage {
    pub fn new(random: &mut Random, room: usize, memory: usize) -> Storage {
        let salt = random.draw();
        let mut before = (vec![0; room], painted(random, memory));
        paint(&mut before.0, salt as u8);
        Storage { out: before.0.clone(), work: before.1.clone(), before }
    }

    pub fn out(&self) -> Slice {
        Slice::lent("output", &self.before.0, &self.out)
    }

    pub fn work(&self) -> Slice {
        Slice::lent("memory", &self.before.1, &self.work)
    }
}

pub fn paint(bytes: &mut [u8], salt: u8) {
    for (index, byte) in bytes.iter_mut().enumerate() {
        *byte = (index as u8).wrapping_mul(31).wrapping_add(salt);
    }
}

/// So many numbers, of which none is like its neighbours.
pub fn painted(random: &mut Random, count: usize) -> Vec<u16> {
    let salt = random.draw() as u16;
    (0..count).map(|index| (index as u16).wrapping_mul(40_503).wrapping_add(salt)).collect()
}

/// Numbers as they lie in memory.
fn bytes_of<T: Copy>(numbers: &[T]) -> Vec<u8> {
    let bytes = numbers.as_ptr().cast();
    unsafe { std::slice::from_raw_parts(bytes, size_of_val(numbers)) }.to_vec()
}

/// The slices that are only read in hex, the others by their lengths.
pub fn told(request: &Request) -> String {
    let mut told = format!("{} with {}", request.call.name(), request.last);
    for slice in &request.slices {
        let hex = |_| slice.before.iter().map(|byte| format!("{byte:02x}")).collect::<String>();
        let held = slice.after.is_none().then_some(()).map(hex).unwrap_or_default();
        told += &format!("\n{}: {} of {} bytes {held}", slice.name, slice.count(), slice.size);
    }
    told
}
