//! A handle that several threads may use.

use std::sync::{Mutex, MutexGuard, PoisonError};

use crate::raw::{Handle, Held};

/// A handle under a lock: only one call of the library uses it at a time, since a call takes what
/// the handle holds out of it, and puts it back. No lock is held while the caller's code runs.
pub(crate) struct Shared<H: Held>(Mutex<Handle<H>>);

impl<H: Held> Shared<H> {
    /// Puts a handle under a lock.
    pub fn new(handle: Handle<H>) -> Shared<H> {
        Shared(Mutex::new(handle))
    }

    /// Returns the handle, for one call of the library.
    pub fn lock(&self) -> MutexGuard<'_, Handle<H>> {
        // A panic leaves the handle intact: a call that has begun runs to its end.
        self.0.lock().unwrap_or_else(PoisonError::into_inner)
    }
}
