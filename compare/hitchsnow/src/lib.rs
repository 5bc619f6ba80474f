//! The port's calls, in its static libraries. A slice crosses as its address and its length.
//! Each answers what it gives, or the refusal's number.
mod c {
    #[link(name = "boundary", kind = "static")]
    extern "C" {
        pub fn hitchsnow_open(img: *const u8, len: usize, writable: bool) -> u32;
        pub fn hitchsnow_blk_alloc(img: *mut u8, len: usize, writable: bool, size: u64, address: &mut u64, given: &mut u64, made: &mut u64) -> u32;
        pub fn hitchsnow_blk_alloc_cut(img: *mut u8, len: usize, writable: bool, size: u64, k: u64, address: &mut u64, given: &mut u64, made: &mut u64) -> u32;
        pub fn hitchsnow_blk_free(img: *mut u8, len: usize, writable: bool, address: u64, size: u64, made: &mut u64) -> u32;
        pub fn hitchsnow_blk_free_cut(img: *mut u8, len: usize, writable: bool, address: u64, size: u64, k: u64, made: &mut u64) -> u32;
        pub fn hitchsnow_recount(img: *mut u8, len: usize, writable: bool, nbfree: &mut u64, nffree: &mut u64) -> u32;
    }
    #[link(name = "boundary_inode", kind = "static")]
    extern "C" {
        pub fn hitchsnow_inode_attr(img: *const u8, len: usize, inr: u32, words: &mut [u64; 21]) -> u32;
        pub fn hitchsnow_inode_get_block_size(img: *const u8, len: usize, inr: u32, i: u64, size: &mut u64) -> u32;
        pub fn hitchsnow_inode_resolve_block(img: *const u8, len: usize, inr: u32, i: u64, address: &mut u64) -> u32;
        pub fn hitchsnow_inode_read(img: *const u8, len: usize, inr: u32, off: u64, buf: *mut u8, room: usize, count: &mut u64) -> u32;
    }
    #[link(name = "boundary_file", kind = "static")]
    extern "C" {
        pub fn hitchsnow_inode_modify(img: *mut u8, len: usize, writable: bool, inr: u32, perm: u16, uid: u32, gid: u32, flags: u32, times: &[u64; 8], words: &mut [u64; 21]) -> u32;
        pub fn hitchsnow_inode_truncate(img: *mut u8, len: usize, writable: bool, inr: u32, size: u64) -> u32;
        pub fn hitchsnow_inode_write(img: *mut u8, len: usize, writable: bool, inr: u32, off: u64, bytes: *const u8, n: usize, count: &mut u64) -> u32;
        pub fn hitchsnow_xattr_list_len(img: *const u8, len: usize, inr: u32, n: &mut u64) -> u32;
        pub fn hitchsnow_xattr_len(img: *const u8, len: usize, inr: u32, name: *const u8, name_len: usize, n: &mut u64) -> u32;
        pub fn hitchsnow_xattr_list(img: *const u8, len: usize, inr: u32, out: *mut u8, room: usize, n: &mut u64) -> u32;
        pub fn hitchsnow_xattr_read(img: *const u8, len: usize, inr: u32, name: *const u8, name_len: usize, buf: *mut u8, room: usize, begin: &mut u64, end: &mut u64) -> u32;
    }
    #[link(name = "boundary_dir", kind = "static")]
    extern "C" {
        pub fn hitchsnow_dir_lookup(img: *const u8, len: usize, inr: u32, name: *const u8, name_len: usize, found: &mut u64) -> u32;
        pub fn hitchsnow_dir_next(img: *const u8, len: usize, inr: u32, cur: u64, buf: *mut u8, room: usize, words: &mut [u64; 5]) -> u32;
    }
    #[link(name = "boundary_name", kind = "static")]
    extern "C" {
        pub fn hitchsnow_mknod(img: *mut u8, len: usize, writable: bool, dinr: u32, name: *const u8, name_len: usize, mode: u16, perm: u16, uid: u32, gid: u32, sec: u64, nsec: u32, words: &mut [u64; 21]) -> u32;
        pub fn hitchsnow_mkdir(img: *mut u8, len: usize, writable: bool, dinr: u32, name: *const u8, name_len: usize, perm: u16, uid: u32, gid: u32, sec: u64, nsec: u32, words: &mut [u64; 21]) -> u32;
        pub fn hitchsnow_unlink(img: *mut u8, len: usize, writable: bool, dinr: u32, name: *const u8, name_len: usize) -> u32;
        pub fn hitchsnow_rmdir(img: *mut u8, len: usize, writable: bool, dinr: u32, name: *const u8, name_len: usize) -> u32;
        pub fn hitchsnow_rename(img: *mut u8, len: usize, writable: bool, ddinr: u32, dname: *const u8, dname_len: usize, sdinr: u32, sname: *const u8, sname_len: usize, replace: bool, inr: &mut u64) -> u32;
    }
}

fn answer<T>(number: u32, given: T) -> Result<T, u32> {
    if number == 0 { Ok(given) } else { Err(number) }
}

pub fn open(image: &[u8], writable: bool) -> Result<(), u32> {
    answer(unsafe { c::hitchsnow_open(image.as_ptr(), image.len(), writable) }, ())
}

/// The address, the size, and the stores made; cut after some of them where it is asked.
pub fn blk_alloc(image: &mut [u8], writable: bool, size: u64, cut: Option<u64>) -> Result<(u64, u64, u64), u32> {
    let (img, len) = (image.as_mut_ptr(), image.len());
    let (mut address, mut given, mut made) = (0, 0, 0);
    let number = unsafe {
        match cut {
            None => c::hitchsnow_blk_alloc(img, len, writable, size, &mut address, &mut given, &mut made),
            Some(k) => c::hitchsnow_blk_alloc_cut(img, len, writable, size, k, &mut address, &mut given, &mut made),
        }
    };
    answer(number, (address, given, made))
}

/// The stores made.
pub fn blk_free(image: &mut [u8], writable: bool, address: u64, size: u64, cut: Option<u64>) -> Result<u64, u32> {
    let (img, len) = (image.as_mut_ptr(), image.len());
    let mut made = 0;
    let number = unsafe {
        match cut {
            None => c::hitchsnow_blk_free(img, len, writable, address, size, &mut made),
            Some(k) => c::hitchsnow_blk_free_cut(img, len, writable, address, size, k, &mut made),
        }
    };
    answer(number, made)
}

/// The totals nbfree and nffree.
pub fn recount(image: &mut [u8], writable: bool) -> Result<(u64, u64), u32> {
    let (mut nbfree, mut nffree) = (0, 0);
    let number = unsafe { c::hitchsnow_recount(image.as_mut_ptr(), image.len(), writable, &mut nbfree, &mut nffree) };
    answer(number, (nbfree, nffree))
}

/// inr, kind, perm, size, blocks, four times as seconds and nanoseconds (atime, mtime, ctime, btime), nlink, uid, gid,
/// generation, blksize, flags, kernflags, extsize.
pub fn inode_attr(image: &[u8], inr: u32) -> Result<[u64; 21], u32> {
    let mut words = [0; 21];
    let number = unsafe { c::hitchsnow_inode_attr(image.as_ptr(), image.len(), inr, &mut words) };
    answer(number, words)
}

pub fn inode_get_block_size(image: &[u8], inr: u32, i: u64) -> Result<u64, u32> {
    let mut size = 0;
    let number = unsafe { c::hitchsnow_inode_get_block_size(image.as_ptr(), image.len(), inr, i, &mut size) };
    answer(number, size)
}

/// The address, 0 for a hole.
pub fn inode_resolve_block(image: &[u8], inr: u32, i: u64) -> Result<u64, u32> {
    let mut address = 0;
    let number = unsafe { c::hitchsnow_inode_resolve_block(image.as_ptr(), image.len(), inr, i, &mut address) };
    answer(number, address)
}

/// How many bytes were read.
pub fn inode_read(image: &[u8], inr: u32, off: u64, buf: &mut [u8]) -> Result<u64, u32> {
    let mut count = 0;
    let number = unsafe { c::hitchsnow_inode_read(image.as_ptr(), image.len(), inr, off, buf.as_mut_ptr(), buf.len(), &mut count) };
    answer(number, count)
}

/// What is wanted of an inode: the times as in `inode_attr`'s words. Answers the words that `inode_attr` would.
pub struct Wanted {
    pub perm: u16,
    pub uid: u32,
    pub gid: u32,
    pub flags: u32,
    pub times: [u64; 8],
}

pub fn inode_modify(image: &mut [u8], writable: bool, inr: u32, w: &Wanted) -> Result<[u64; 21], u32> {
    let mut words = [0; 21];
    let number = unsafe { c::hitchsnow_inode_modify(image.as_mut_ptr(), image.len(), writable, inr, w.perm, w.uid, w.gid, w.flags, &w.times, &mut words) };
    answer(number, words)
}

pub fn inode_truncate(image: &mut [u8], writable: bool, inr: u32, size: u64) -> Result<(), u32> {
    answer(unsafe { c::hitchsnow_inode_truncate(image.as_mut_ptr(), image.len(), writable, inr, size) }, ())
}

/// How many bytes were written.
pub fn inode_write(image: &mut [u8], writable: bool, inr: u32, off: u64, bytes: &[u8]) -> Result<u64, u32> {
    let mut count = 0;
    let number = unsafe { c::hitchsnow_inode_write(image.as_mut_ptr(), image.len(), writable, inr, off, bytes.as_ptr(), bytes.len(), &mut count) };
    answer(number, count)
}

pub fn xattr_list_len(image: &[u8], inr: u32) -> Result<u64, u32> {
    let mut n = 0;
    let number = unsafe { c::hitchsnow_xattr_list_len(image.as_ptr(), image.len(), inr, &mut n) };
    answer(number, n)
}

pub fn xattr_len(image: &[u8], inr: u32, name: &[u8]) -> Result<u64, u32> {
    let mut n = 0;
    let number = unsafe { c::hitchsnow_xattr_len(image.as_ptr(), image.len(), inr, name.as_ptr(), name.len(), &mut n) };
    answer(number, n)
}

/// How many bytes of text stand in `out`.
pub fn xattr_list(image: &[u8], inr: u32, out: &mut [u8]) -> Result<u64, u32> {
    let mut n = 0;
    let number = unsafe { c::hitchsnow_xattr_list(image.as_ptr(), image.len(), inr, out.as_mut_ptr(), out.len(), &mut n) };
    answer(number, n)
}

/// Where in `buf` the value begins and ends.
pub fn xattr_read(image: &[u8], inr: u32, name: &[u8], buf: &mut [u8]) -> Result<(u64, u64), u32> {
    let (mut begin, mut end) = (0, 0);
    let number = unsafe { c::hitchsnow_xattr_read(image.as_ptr(), image.len(), inr, name.as_ptr(), name.len(), buf.as_mut_ptr(), buf.len(), &mut begin, &mut end) };
    answer(number, (begin, end))
}

pub fn dir_lookup(image: &[u8], inr: u32, name: &[u8]) -> Result<u64, u32> {
    let mut found = 0;
    let number = unsafe { c::hitchsnow_dir_lookup(image.as_ptr(), image.len(), inr, name.as_ptr(), name.len(), &mut found) };
    answer(number, found)
}

/// Inode, kind, where the name lies in `buf`, its length, and the cursor behind; the kind is 0 at the end.
pub fn dir_next(image: &[u8], inr: u32, cur: u64, buf: &mut [u8]) -> Result<[u64; 5], u32> {
    let mut words = [0; 5];
    let number = unsafe { c::hitchsnow_dir_next(image.as_ptr(), image.len(), inr, cur, buf.as_mut_ptr(), buf.len(), &mut words) };
    answer(number, words)
}

/// What a new inode is to hold; the kind is its number in a mode, and the time is for all four.
pub struct New {
    pub kind: u16,
    pub perm: u16,
    pub uid: u32,
    pub gid: u32,
    pub sec: u64,
    pub nsec: u32,
}

mod naming {
    use super::{answer, c, New};

    pub fn mknod(image: &mut [u8], writable: bool, dinr: u32, name: &[u8], new: &New) -> Result<[u64; 21], u32> {
        let mut words = [0; 21];
        let number = unsafe { c::hitchsnow_mknod(image.as_mut_ptr(), image.len(), writable, dinr, name.as_ptr(), name.len(), new.kind << 12, new.perm, new.uid, new.gid, new.sec, new.nsec, &mut words) };
        answer(number, words)
    }

    pub fn mkdir(image: &mut [u8], writable: bool, dinr: u32, name: &[u8], new: &New) -> Result<[u64; 21], u32> {
        let mut words = [0; 21];
        let number = unsafe { c::hitchsnow_mkdir(image.as_mut_ptr(), image.len(), writable, dinr, name.as_ptr(), name.len(), new.perm, new.uid, new.gid, new.sec, new.nsec, &mut words) };
        answer(number, words)
    }

    pub fn unlink(image: &mut [u8], writable: bool, dinr: u32, name: &[u8]) -> Result<(), u32> {
        answer(unsafe { c::hitchsnow_unlink(image.as_mut_ptr(), image.len(), writable, dinr, name.as_ptr(), name.len()) }, ())
    }

    pub fn rmdir(image: &mut [u8], writable: bool, dinr: u32, name: &[u8]) -> Result<(), u32> {
        answer(unsafe { c::hitchsnow_rmdir(image.as_mut_ptr(), image.len(), writable, dinr, name.as_ptr(), name.len()) }, ())
    }

    /// The inode that was renamed.
    pub fn rename(image: &mut [u8], writable: bool, to: (u32, &[u8]), from: (u32, &[u8]), replace: bool) -> Result<u64, u32> {
        let mut inr = 0;
        let number = unsafe { c::hitchsnow_rename(image.as_mut_ptr(), image.len(), writable, to.0, to.1.as_ptr(), to.1.len(), from.0, from.1.as_ptr(), from.1.len(), replace, &mut inr) };
        answer(number, inr)
    }
}
pub use naming::{mkdir, mknod, rename, rmdir, unlink};
