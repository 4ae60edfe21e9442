//! The library's store in lent places.

use crate::ffi::{self, Path, Words};
use crate::trees::Sheet;

/// As many places as a store uses at most.
const RECORDS: usize = 8_192;
const CHILDREN: usize = 16_384;
const TEXT: usize = 65_536;

#[derive(Clone)]
pub struct Store {
    pub records: Vec<u64>,
    pub children: Vec<u64>,
    pub text: Vec<u8>,
    pub used: [usize; 8],
    yields: Box<[u32; 4096]>,
}

/// A call that reads the store: no more than the exported function with the store's places before its own arguments.
#[macro_export]
macro_rules! ask {
    ($store:expr, $call:ident $(, $arg:expr)* $(,)?) => {{
        let store: &$crate::store::Store = $store;
        unsafe {
            $crate::ffi::$call(
                store.records.as_ptr(), store.records.len(), store.children.as_ptr(), store.children.len(),
                store.text.as_ptr(), store.text.len(), &store.used $(, $arg)*
            )
        }
    }};
}

impl Store {
    pub fn new() -> Store {
        Store {
            records: vec![0; RECORDS * 8],
            children: vec![0; CHILDREN],
            text: vec![0; TEXT],
            used: [0; 8],
            yields: Box::new([0; 4096]),
        }
    }

    /// Runs a sheet; the root's number.
    pub fn run(&mut self, sheet: &Sheet) -> usize {
        let mut words = [0; 8];
        let outcome = unsafe {
            ffi::notes_run(
                self.records.as_mut_ptr(),
                self.records.len(),
                self.children.as_mut_ptr(),
                self.children.len(),
                self.text.as_mut_ptr(),
                self.text.len(),
                &mut self.used,
                &mut self.yields,
                sheet.events.as_ptr(),
                sheet.events.len(),
                sheet.text.as_ptr(),
                sheet.text.len(),
                &mut words,
            )
        };
        assert_eq!(outcome, ffi::NUMBER, "the sheet is refused");
        words[0]
    }

    /// One edit; the new number.
    pub fn edit(&mut self, code: usize, number: usize, from: usize, to: usize, path: &Path) -> usize {
        let mut words = [0; 8];
        let outcome = unsafe {
            ffi::notes_edit(
                self.records.as_mut_ptr(),
                self.records.len(),
                self.children.as_mut_ptr(),
                self.children.len(),
                self.text.as_ptr(),
                self.text.len(),
                &mut self.used,
                code,
                number,
                from,
                to,
                std::ptr::null(),
                0,
                path,
                &mut words,
            )
        };
        assert_eq!(outcome, ffi::NUMBER, "the edit is refused");
        words[0]
    }

    /// What a record keeps: kind, length, size, height, children.
    pub fn element(&self, number: usize) -> Words {
        let mut words = [0; 8];
        let outcome = ask!(self, notes_element, number, &mut words);
        assert!(outcome == ffi::TOKEN || outcome == ffi::NODE);
        words
    }

    /// The number of the element at the path.
    pub fn number_at(&self, root: usize, indexes: &[u32]) -> usize {
        let mut words = [root, 0, 0, 0, 0, 0, 0, 0];
        for &index in indexes {
            let outcome = ask!(self, notes_child, words[0], index as usize, &mut words);
            assert_eq!(outcome, ffi::NUMBER);
        }
        words[0]
    }

    /// Bytes of the places in use.
    pub fn bytes(&self) -> usize {
        self.used[0] * 64 + self.used[1] * 8 + self.used[2]
    }
}

impl Default for Store {
    fn default() -> Store {
        Store::new()
    }
}
