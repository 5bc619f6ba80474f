//! Stands in for symlink.rs, which is not given. As a child of `ufs` it reaches the calls of that module and hands them out.
use super::*;

impl<R: Backend> Ufs<R> {
    pub fn reach_blk_alloc(&mut self, size: u64) -> IoResult<(u64, u64)> {
        self.blk_alloc(size).map(|(address, given)| (address.get(), given))
    }
    pub fn reach_blk_free(&mut self, address: u64, size: u64) -> IoResult<()> {
        self.blk_free(address, size)
    }
    pub fn reach_inode_get_block_size(&mut self, inr: InodeNum, i: u64) -> IoResult<u64> {
        let ino = self.read_inode(inr)?;
        Ok(self.inode_get_block_size(&ino, i) as u64)
    }
    /// inode_resolve_block is private to its file; here the one that calls it. The disk sees what was sought.
    pub fn reach_inode_read_block(&mut self, inr: InodeNum, i: u64) -> IoResult<()> {
        let ino = self.read_inode(inr)?;
        let mut block = vec![0; self.superblock.bsize as usize];
        self.inode_read_block(inr, &ino, i, &mut block).map(|_| ())
    }
    /// The volume in the other order of bytes: superblock and copies, groups and inodes. It has no lists.
    pub fn reach_big_endian(&mut self, image: Vec<u8>) -> IoResult<Vec<u8>> {
        let mut to = Decoder::new(Cursor::new(image), Config::big());
        let (ncg, ipg) = (self.superblock.ncg, self.superblock.ipg);
        for g in 0..ncg.into() {
            let copy = (g * self.superblock.fpg as u64 + self.superblock.sblkno as u64) * self.superblock.fsize as u64;
            to.encode_at(copy, &self.file.decode_at::<Superblock>(copy)?)?;
            to.encode_at(self.cg_addr(g), &self.file.decode_at::<CylGroup>(self.cg_addr(g))?)?;
        }
        to.encode_at(SBLOCK_UFS2 as u64, &self.superblock)?;
        for inr in 0..ncg * ipg {
            let at = self.superblock.ino_to_fso(unsafe { InodeNum::new(inr) });
            to.encode_at(at, &self.file.decode_at::<Inode>(at)?)?;
        }
        Ok(to.inner().get_ref().clone())
    }
}
