//! The port's block calls as the driver asks them.
use crate::rules::Call;
use crate::Answer;

/// 0 or the refusal's number.
pub fn open(image: &[u8]) -> u32 {
    hitchsnow::open(image, true).err().unwrap_or(0)
}

pub fn call(image: &mut [u8], writable: bool, call: Call, cut: Option<u64>) -> Answer {
    let done = match call {
        Call::Alloc(size) => hitchsnow::blk_alloc(image, writable, size, cut),
        Call::Free(address, size) => hitchsnow::blk_free(image, writable, address, size, cut).map(|made| (0, 0, made)),
    };
    match done {
        Ok((address, size, made)) => Answer { number: 0, address, size, made },
        Err(number) => Answer { number, address: 0, size: 0, made: 0 },
    }
}

/// The number, nbfree and nffree.
pub fn recount(image: &mut [u8]) -> (u32, u64, u64) {
    hitchsnow::recount(image, true).map_or_else(|number| (number, 0, 0), |(nbfree, nffree)| (0, nbfree, nffree))
}
