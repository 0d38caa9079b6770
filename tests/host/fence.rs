//! Memory between two stretches that can't be touched: a byte read or written past either end
//! of what is lent ends the run by a fault.

extern "C" {
    fn mmap(at: *mut u8, length: usize, access: i32, flags: i32, file: i32, offset: i64) -> *mut u8;
    fn mprotect(at: *mut u8, length: usize, access: i32) -> i32;
}

/// As large as any page, and larger than any buffer here.
const STRETCH: usize = 65536;
const NONE: i32 = 0;
const READ_AND_WRITE: i32 = 3;
const PRIVATE_AND_FRESH: i32 = 0x22;

pub struct Fence {
    first: *mut u8,
}

/// Where the lent bytes stand: right behind the lower fence or right before the upper one.
#[derive(Clone, Copy)]
pub enum Side {
    Lower,
    Upper,
}

impl Fence {
    pub fn new() -> Fence {
        // SAFETY: fresh memory of four stretches holds three whole ones at a multiple of
        // STRETCH; the middle one becomes readable and writable.
        unsafe {
            let at = mmap(std::ptr::null_mut(), 4 * STRETCH, NONE, PRIVATE_AND_FRESH, -1, 0);
            assert!(at as isize != -1, "no memory for a fence");
            let first = at.add(STRETCH - at as usize % STRETCH).add(STRETCH);
            assert_eq!(mprotect(first, STRETCH, READ_AND_WRITE), 0, "no fence");
            Fence { first }
        }
    }

    fn place(&self, side: Side, length: usize) -> *mut u8 {
        assert!(length <= STRETCH);
        match side {
            Side::Lower => self.first,
            // SAFETY: within the middle stretch.
            Side::Upper => unsafe { self.first.add(STRETCH - length) },
        }
    }

    /// A copy of the bytes beside a fence. The borrow of `self` keeps it the only one.
    pub fn lend(&mut self, side: Side, bytes: &[u8]) -> &mut [u8] {
        let place = self.place(side, bytes.len());
        // SAFETY: the bytes at `place` are in the middle stretch, which nothing else uses.
        unsafe {
            std::ptr::copy_nonoverlapping(bytes.as_ptr(), place, bytes.len());
            std::slice::from_raw_parts_mut(place, bytes.len())
        }
    }

    /// What stands there now, read again from memory.
    pub fn holds(&self, side: Side, length: usize) -> Vec<u8> {
        let place = self.place(side, length);
        // SAFETY: as above; no borrow of the bytes is alive.
        (0..length).map(|k| unsafe { std::ptr::read_volatile(place.add(k)) }).collect()
    }
}
