//! The handle of the library that each object has.

use crate::{done, Error};
use std::cell::UnsafeCell;
use std::fmt;
use sulgrevad_sys::sam_status;

/// A call that frees a handle.
type Free<H> = unsafe extern "C" fn(*mut H) -> sam_status;

/// A handle of C that is made, stays where it is, and is freed with this. Each call writes to it, those that only read included.
pub struct Held<H> {
    handle: Box<UnsafeCell<H>>,
    free: Free<H>,
}

// A handle shares nothing with another, and each call has it alone.
unsafe impl<H> Send for Held<H> {}

impl<H> Held<H> {
    /// Makes a handle by a call, of one that is empty.
    pub(crate) fn made(empty: H, free: Free<H>, make: impl FnOnce(*mut H) -> sam_status) -> Result<Held<H>, Error> {
        let handle = Box::new(UnsafeCell::new(empty));
        done(make(handle.get()))?;
        Ok(Held { handle, free })
    }

    pub(crate) fn at(&self) -> *mut H {
        self.handle.get()
    }
}

impl<H> Drop for Held<H> {
    fn drop(&mut self) {
        unsafe { (self.free)(self.at()) };
    }
}

impl<H> fmt::Debug for Held<H> {
    fn fmt(&self, to: &mut fmt::Formatter<'_>) -> fmt::Result {
        to.write_str("Held")
    }
}
