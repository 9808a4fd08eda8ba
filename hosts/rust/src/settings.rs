//! What a heap for one thread is made of, and what it counts.

use std::mem::size_of;

use kogyulen_sys as raw;

/// What a heap is made of. [`Settings::new`] has settings that mostly do, and each method changes one of them.
///
/// ```
/// use kogyulen::{Heap, Pace, Settings};
///
/// # fn main() -> Result<(), kogyulen::Error> {
/// let heap = Heap::open(&Settings::new(64).body_blocks(4).pace(Pace::Bytes(1 << 18)).registers(64))?;
/// assert_eq!(heap.registers().count(), 64);
/// # Ok(())
/// # }
/// ```
#[derive(Clone, Debug, PartialEq, Eq, Hash)]
#[non_exhaustive]
pub struct Settings {
    /// Blocks of 32 KB for objects, 1 to 65,536.
    pub blocks: u32,
    /// Blocks of 32 KB for the bodies of large objects, 1 to 65,536.
    pub body_blocks: u32,
    /// When plain pauses come by themselves.
    pub pace: Pace,
    /// Registers, 16 to 256; 0 for 16.
    pub registers: u32,
    /// Blocks in use before a pause that is due collects, up to `blocks`; 0 for all.
    pub room: u32,
    /// Hundredths more than what lives to which each collecting pause sets the room, up to 10,000; 0 for never.
    pub grow: u32,
    /// Units of what waits for the next plain pause that are done by itself for each 64 bytes of new objects, up to 1,000,000; 0 for none.
    pub work: u32,
}

impl Settings {
    /// So many blocks for objects, one for bodies, plain pauses by the room there is, sixteen registers, and room for all of the blocks, until
    /// a collecting pause sets it to twice what lives. What waits for a plain pause is done before it, in slices.
    pub const fn new(blocks: u32) -> Settings {
        Settings { blocks, body_blocks: 1, pace: Pace::Room, registers: raw::LXR_REGISTERS, room: 0, grow: raw::LXR_GROW, work: raw::LXR_WORK }
    }

    /// So many blocks for bodies.
    pub const fn body_blocks(mut self, body_blocks: u32) -> Settings {
        self.body_blocks = body_blocks;
        self
    }

    /// Such a pace.
    pub const fn pace(mut self, pace: Pace) -> Settings {
        self.pace = pace;
        self
    }

    /// So many registers.
    pub const fn registers(mut self, registers: u32) -> Settings {
        self.registers = registers;
        self
    }

    /// Such room.
    pub const fn room(mut self, blocks: u32) -> Settings {
        self.room = blocks;
        self
    }

    /// So much growth of the room.
    pub const fn grow(mut self, hundredths: u32) -> Settings {
        self.grow = hundredths;
        self
    }

    /// So many units of what waits for the next plain pause, for each 64 bytes of new objects.
    pub const fn work(mut self, units: u32) -> Settings {
        self.work = units;
        self
    }

    pub(crate) fn raw(&self) -> raw::Settings {
        let &Settings { blocks, body_blocks, pace, registers, room, grow, work } = self;
        let size = size_of::<raw::Settings>() as u64;
        raw::Settings { size, blocks, body_blocks, pace: pace.bytes(), registers, unused: 0, room, grow, work, reserved: 0 }
    }
}

/// When plain pauses come by themselves, where objects are made.
#[derive(Clone, Copy, Debug, PartialEq, Eq, Hash)]
#[non_exhaustive]
pub enum Pace {
    /// Never: pauses come where they are asked for or needed.
    Never,
    /// Once so many bytes of objects were made since the last pause; 0 is never. Mutators that share a heap share them too.
    Bytes(u64),
    /// Once these are half of what the last pause left in wholly free blocks, but at least 64 KB and at most 1 MB. Of a heap that threads
    /// share it is half of all its blocks.
    Room,
}

impl Pace {
    /// The number by which the library knows it: the greatest is that of [`Pace::Room`].
    pub(crate) const fn bytes(self) -> u64 {
        match self {
            Pace::Never => raw::LXR_PACE_NEVER,
            Pace::Bytes(bytes) if bytes == raw::LXR_PACE_ROOM => bytes - 1,
            Pace::Bytes(bytes) => bytes,
            Pace::Room => raw::LXR_PACE_ROOM,
        }
    }
}

/// What a heap counts.
#[derive(Clone, Copy, Debug, PartialEq, Eq, Hash)]
#[non_exhaustive]
#[repr(u32)]
pub enum Count {
    /// Pauses so far.
    Pauses = raw::LXR_COUNT_PAUSES,
    /// By the last pause: objects made since the pause before that were kept.
    Promoted = raw::LXR_COUNT_PROMOTED,
    /// By the last pause: objects that counts reclaimed.
    Dead = raw::LXR_COUNT_DEAD,
    /// By the last pause: objects whose count has reached fifteen, where it stands from now on.
    Stuck = raw::LXR_COUNT_STUCK,
    /// By the last pause: objects that only a collecting pause reclaims.
    Swept = raw::LXR_COUNT_SWEPT,
    /// Objects that the last pause left, and those made since; without the world.
    Live = raw::LXR_COUNT_LIVE,
    /// Wholly free blocks for objects.
    FreeBlocks = raw::LXR_COUNT_FREE_BLOCKS,
    /// Bytes of the free blocks for bodies.
    FreeBodyBytes = raw::LXR_COUNT_FREE_BODY_BYTES,
    /// Blocks of the room, as it was set last.
    Room = raw::LXR_COUNT_ROOM,
    /// Counts that wait to be lowered by [`Heap::work`](crate::Heap::work) or the next pause.
    Waiting = raw::LXR_COUNT_WAITING,
}
