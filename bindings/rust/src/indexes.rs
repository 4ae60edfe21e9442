//! The indexes of a path: as handles keep them, and in places that are lent to the library.

use std::{array, fmt, mem::MaybeUninit, ops::Deref, slice};

/// As many indexes as a handle has room for.
const FEW: usize = 7;

/// A place for the indexes of a path.
pub(crate) type Place = [u32; 64];

/// The indexes of a path. A handle is made and moved at every step, so the few that most paths have stand in it; more are in a box.
#[derive(Clone)]
pub(crate) enum Indexes {
    Few(u8, [u32; FEW]),
    Many(Box<[u32]>),
}

impl Indexes {
    /// The path of a root.
    pub const NONE: Indexes = Indexes::Few(0, [0; FEW]);

    #[inline]
    pub fn new(indexes: &[u32]) -> Indexes {
        if indexes.len() > FEW {
            return Indexes::Many(indexes.into());
        }
        // One by one, as the library has just written them: a wider read would have to wait for its writes.
        Indexes::Few(indexes.len() as u8, array::from_fn(|i| indexes.get(i).copied().unwrap_or(0)))
    }

    /// A place that has them first.
    pub fn to_place(&self) -> Place {
        let mut place = [0; 64];
        place[..self.len()].copy_from_slice(self);
        place
    }
}

impl Deref for Indexes {
    type Target = [u32];

    #[inline]
    fn deref(&self) -> &[u32] {
        match self {
            Indexes::Few(depth, few) => &few[..usize::from(*depth)],
            Indexes::Many(many) => many,
        }
    }
}

impl fmt::Debug for Indexes {
    fn fmt(&self, f: &mut fmt::Formatter<'_>) -> fmt::Result {
        f.debug_list().entries(self.iter()).finish()
    }
}

/// A place that is lent for one question. The path's indexes are set before it, the answer's by it, and no others ever.
pub(crate) struct Lent([MaybeUninit<u32>; 64]);

impl Lent {
    #[inline]
    pub fn new() -> Lent {
        Lent([MaybeUninit::uninit(); 64])
    }

    /// Sets the indexes of a path.
    #[inline]
    pub fn set(&mut self, path: &Indexes) {
        match path {
            Indexes::Few(depth, few) => {
                for (i, index) in few.iter().enumerate() {
                    if i < usize::from(*depth) {
                        self.0[i].write(*index);
                    }
                }
            }
            Indexes::Many(many) => {
                for (to, from) in self.0.iter_mut().zip(many) {
                    to.write(*from);
                }
            }
        }
    }

    #[inline]
    pub fn as_mut_ptr(&mut self) -> *mut u32 {
        self.0.as_mut_ptr().cast()
    }

    /// The first `depth` indexes.
    ///
    /// # Safety
    ///
    /// They are set, and at most 64.
    #[inline]
    pub unsafe fn first(&self, depth: usize) -> Indexes {
        // SAFETY: so the caller says.
        Indexes::new(unsafe { slice::from_raw_parts(self.0.as_ptr().cast(), depth) })
    }
}
