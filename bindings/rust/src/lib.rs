//! An ordered map of byte strings to 64-bit numbers, on an adaptive radix tree that is proved
//! correct.
//!
//! No stored key is a prefix of another, so [`ArtMap::prefix_get`] finds the one stored key that is
//! a prefix of a query. This crate calls the C library; its unsafe code is in this file alone.
//!
//! ```
//! use art_map::ArtMap;
//!
//! let mut routes = ArtMap::new()?;
//! assert_eq!(routes.insert(b"/api/", 1)?, None);
//! assert_eq!(routes.insert(b"/static/", 2)?, None);
//! assert_eq!(routes.prefix_get(b"/api/users"), Some((5, 1)));
//! assert!(routes.insert(b"/api/v1/", 3).is_err());
//! let keys: Vec<Vec<u8>> = routes.prefix(b"/s").map(|(key, _)| key).collect();
//! assert_eq!(keys, [b"/static/"]);
//! # Ok::<(), art_map::Error>(())
//! ```

use std::fmt;
use std::ops::Bound;
use std::ptr::NonNull;

#[repr(C)]
struct Handle {
    _private: [u8; 0],
}

extern "C" {
    fn art_new(out: *mut *mut Handle) -> u32;
    fn art_free(map: *mut Handle);
    fn art_len(map: *mut Handle) -> usize;
    fn art_clear(map: *mut Handle);
    fn art_insert(map: *mut Handle, key: *const u8, len: usize, value: u64, old: *mut u64) -> u32;
    fn art_overwrite(map: *mut Handle, key: *const u8, len: usize, value: u64) -> u32;
    fn art_get(map: *mut Handle, key: *const u8, len: usize, value: *mut u64) -> bool;
    fn art_remove(map: *mut Handle, key: *const u8, len: usize, value: *mut u64) -> bool;
    fn art_prefix_get(
        map: *mut Handle,
        query: *const u8,
        len: usize,
        found_len: *mut usize,
        value: *mut u64,
    ) -> bool;
    fn art_remove_prefix(map: *mut Handle, prefix: *const u8, len: usize) -> usize;
    fn art_first(map: *mut Handle, key: *mut u8, room: usize, len: *mut usize, value: *mut u64) -> u32;
    fn art_last(map: *mut Handle, key: *mut u8, room: usize, len: *mut usize, value: *mut u64) -> u32;
    fn art_range_page(
        map: *mut Handle,
        from: *const u8,
        from_len: usize,
        skip: bool,
        to: *const u8,
        to_len: usize,
        with_to: bool,
        keys: *mut u8,
        key_room: usize,
        ends: *mut usize,
        end_room: usize,
        values: *mut u64,
        value_room: usize,
        needed: *mut usize,
    ) -> usize;
    fn art_page(
        map: *mut Handle,
        from: *const u8,
        from_len: usize,
        skip: bool,
        keys: *mut u8,
        key_room: usize,
        ends: *mut usize,
        end_room: usize,
        values: *mut u64,
        value_room: usize,
        needed: *mut usize,
    ) -> usize;
    fn art_prefix_page(
        map: *mut Handle,
        prefix: *const u8,
        prefix_len: usize,
        from: *const u8,
        from_len: usize,
        skip: bool,
        keys: *mut u8,
        key_room: usize,
        ends: *mut usize,
        end_room: usize,
        values: *mut u64,
        value_room: usize,
        needed: *mut usize,
    ) -> usize;
}

const REPLACED: u32 = 1;
const CONFLICT: u32 = 2;
const NO_MEMORY: u32 = 3;
const FOUND: u32 = 0;
const NONE: u32 = 1;

/// Why an insertion was refused. The map is then unchanged.
#[derive(Clone, Copy, Debug, PartialEq, Eq)]
pub enum Error {
    /// The key is a proper prefix of a stored key, or a stored key is a proper prefix of it.
    Conflict,
    /// Memory ran out.
    NoMemory,
}

impl fmt::Display for Error {
    fn fmt(&self, f: &mut fmt::Formatter<'_>) -> fmt::Result {
        f.write_str(match self {
            Error::Conflict => "the key begins a stored key, or a stored key begins it",
            Error::NoMemory => "out of memory",
        })
    }
}

impl std::error::Error for Error {}

/// An ordered map of byte strings to numbers.
///
/// Look-ups take `&self`. The C library asks that no two calls use a map at once, so the map is
/// neither `Send` nor `Sync`.
pub struct ArtMap {
    at: NonNull<Handle>,
}

impl ArtMap {
    /// Makes a map with no pairs.
    pub fn new() -> Result<ArtMap, Error> {
        let mut at = std::ptr::null_mut();
        unsafe { art_new(&mut at) };
        NonNull::new(at).map(|at| ArtMap { at }).ok_or(Error::NoMemory)
    }

    /// Returns how many pairs there are.
    pub fn len(&self) -> usize {
        unsafe { art_len(self.at.as_ptr()) }
    }

    /// Returns whether there are no pairs.
    pub fn is_empty(&self) -> bool {
        self.len() == 0
    }

    /// Removes all pairs.
    pub fn clear(&mut self) {
        unsafe { art_clear(self.at.as_ptr()) }
    }

    /// Gives the key the value, and returns the value that it had.
    pub fn insert(&mut self, key: &[u8], value: u64) -> Result<Option<u64>, Error> {
        let mut old = 0;
        match unsafe { art_insert(self.at.as_ptr(), key.as_ptr(), key.len(), value, &mut old) } {
            REPLACED => Ok(Some(old)),
            CONFLICT => Err(Error::Conflict),
            NO_MEMORY => Err(Error::NoMemory),
            _ => Ok(None),
        }
    }

    /// Gives the key the value, in place of all keys that begin with it and of its prefix.
    pub fn overwrite(&mut self, key: &[u8], value: u64) -> Result<(), Error> {
        match unsafe { art_overwrite(self.at.as_ptr(), key.as_ptr(), key.len(), value) } {
            NO_MEMORY => Err(Error::NoMemory),
            _ => Ok(()),
        }
    }

    /// Returns the value of the key.
    pub fn get(&self, key: &[u8]) -> Option<u64> {
        let mut value = 0;
        unsafe { art_get(self.at.as_ptr(), key.as_ptr(), key.len(), &mut value) }.then_some(value)
    }

    /// Returns the length of the stored key that is a prefix of the query, and its value.
    pub fn prefix_get(&self, query: &[u8]) -> Option<(usize, u64)> {
        let (mut len, mut value) = (0, 0);
        unsafe { art_prefix_get(self.at.as_ptr(), query.as_ptr(), query.len(), &mut len, &mut value) }
            .then_some((len, value))
    }

    /// Removes the key, and returns the value that it had.
    pub fn remove(&mut self, key: &[u8]) -> Option<u64> {
        let mut value = 0;
        unsafe { art_remove(self.at.as_ptr(), key.as_ptr(), key.len(), &mut value) }.then_some(value)
    }

    /// Removes the keys that begin with the prefix, and returns how many there were.
    pub fn remove_prefix(&mut self, prefix: &[u8]) -> usize {
        unsafe { art_remove_prefix(self.at.as_ptr(), prefix.as_ptr(), prefix.len()) }
    }

    /// Returns the first pair.
    pub fn first(&self) -> Option<(Vec<u8>, u64)> {
        self.end(art_first)
    }

    /// Returns the last pair.
    pub fn last(&self) -> Option<(Vec<u8>, u64)> {
        self.end(art_last)
    }

    fn end(
        &self,
        call: unsafe extern "C" fn(*mut Handle, *mut u8, usize, *mut usize, *mut u64) -> u32,
    ) -> Option<(Vec<u8>, u64)> {
        let (mut key, mut len, mut value) = (vec![0; 64], 0, 0);
        loop {
            match unsafe { call(self.at.as_ptr(), key.as_mut_ptr(), key.len(), &mut len, &mut value) } {
                FOUND => {
                    key.truncate(len);
                    return Some((key, value));
                }
                NONE => return None,
                _ => key.resize(len, 0),
            }
        }
    }

    /// Returns an iterator over all pairs, in the order of the keys.
    pub fn iter(&self) -> Pairs<'_> {
        self.pairs(Vec::new(), false, Within::All)
    }

    /// Returns an iterator over the pairs whose keys begin with the prefix.
    pub fn prefix(&self, prefix: &[u8]) -> Pairs<'_> {
        self.pairs(Vec::new(), false, Within::Prefix(prefix.to_vec()))
    }

    /// Returns an iterator over the pairs whose keys are within both bounds.
    pub fn range(&self, start: Bound<&[u8]>, end: Bound<&[u8]>) -> Pairs<'_> {
        let (from, skip) = match start {
            Bound::Included(key) => (key.to_vec(), false),
            Bound::Excluded(key) => (key.to_vec(), true),
            Bound::Unbounded => (Vec::new(), false),
        };
        let within = match end {
            Bound::Included(key) => Within::UpTo(key.to_vec(), true),
            Bound::Excluded(key) => Within::UpTo(key.to_vec(), false),
            Bound::Unbounded => Within::All,
        };
        self.pairs(from, skip, within)
    }

    fn pairs(&self, from: Vec<u8>, skip: bool, within: Within) -> Pairs<'_> {
        Pairs {
            map: self,
            within,
            from,
            skip,
            ended: false,
            keys: vec![0; 16384],
            ends: [0; 256],
            values: [0; 256],
            at: 0,
            count: 0,
        }
    }
}

impl Drop for ArtMap {
    fn drop(&mut self) {
        unsafe { art_free(self.at.as_ptr()) }
    }
}

impl fmt::Debug for ArtMap {
    fn fmt(&self, f: &mut fmt::Formatter<'_>) -> fmt::Result {
        f.debug_map().entries(self.iter()).finish()
    }
}

impl<'a> IntoIterator for &'a ArtMap {
    type Item = (Vec<u8>, u64);
    type IntoIter = Pairs<'a>;

    fn into_iter(self) -> Pairs<'a> {
        self.iter()
    }
}

enum Within {
    All,
    UpTo(Vec<u8>, bool),
    Prefix(Vec<u8>),
}

/// An iterator over pairs, in the order of the keys. It reads a page of up to 256 pairs at a time.
pub struct Pairs<'a> {
    map: &'a ArtMap,
    within: Within,
    from: Vec<u8>,
    skip: bool,
    ended: bool,
    keys: Vec<u8>,
    ends: [usize; 256],
    values: [u64; 256],
    at: usize,
    count: usize,
}

impl Pairs<'_> {
    fn read(&mut self) {
        let (map, from, skip) = (self.map.at.as_ptr(), &self.from, self.skip);
        let (keys, room) = (self.keys.as_mut_ptr(), self.keys.len());
        let (ends, values) = (self.ends.as_mut_ptr(), self.values.as_mut_ptr());
        let mut needed = 0;
        self.at = 0;
        self.count = unsafe {
            match &self.within {
                Within::All => art_page(
                    map, from.as_ptr(), from.len(), skip,
                    keys, room, ends, 256, values, 256, &mut needed,
                ),
                Within::UpTo(to, with_to) => art_range_page(
                    map, from.as_ptr(), from.len(), skip, to.as_ptr(), to.len(), *with_to,
                    keys, room, ends, 256, values, 256, &mut needed,
                ),
                Within::Prefix(prefix) => art_prefix_page(
                    map, prefix.as_ptr(), prefix.len(), from.as_ptr(), from.len(), skip,
                    keys, room, ends, 256, values, 256, &mut needed,
                ),
            }
        };
        self.ended = needed == 0;
        if needed > room {
            self.keys.resize(needed.max(2 * room), 0);
        }
        self.skip = self.skip || self.count > 0;
    }
}

impl Iterator for Pairs<'_> {
    type Item = (Vec<u8>, u64);

    fn next(&mut self) -> Option<(Vec<u8>, u64)> {
        while self.at == self.count {
            if self.ended {
                return None;
            }
            // what was read of the last page is kept in `from` alone
            self.read();
        }
        let start = if self.at == 0 { 0 } else { self.ends[self.at - 1] };
        let key = self.keys[start..self.ends[self.at]].to_vec();
        let value = self.values[self.at];
        self.at += 1;
        if self.at == self.count {
            self.from.clone_from(&key);
        }
        Some((key, value))
    }
}
