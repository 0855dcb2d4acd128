//! Commits made by hand, for lines of one byte, and what is wrong with them.

use reference::machine::{Bytes, Step};
use reference::order::{Made, Trouble};

pub fn load(place: u32, core: u32, line: u32, ts: u32, data: u8) -> Made {
    Made { place, ts, call: Step::Load { core, line }, loaded: Some(Bytes::new(&[data])) }
}

pub fn store(place: u32, core: u32, line: u32, ts: u32, data: u8) -> Made {
    Made { place, ts, call: Step::Store { core, line, data: Bytes::new(&[data]) }, loaded: None }
}

pub fn fence(place: u32, core: u32, ts: u32) -> Made {
    Made { place, ts, call: Step::Fence { core }, loaded: None }
}

pub fn out_of_order(earlier: u32, later: u32) -> Result<(), Trouble> {
    Err(Trouble::OutOfOrder { earlier, later })
}

pub fn wrong_bytes(load: u32, store: Option<u32>) -> Result<(), Trouble> {
    Err(Trouble::WrongBytes { load, store })
}
