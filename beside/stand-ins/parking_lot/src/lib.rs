//! Stand-in for `parking_lot` over the standard library's locks: a poisoned lock is taken all the same, as there are none in `parking_lot`.

use std::{
    ops::{Deref, DerefMut},
    sync::{self, PoisonError, RwLockReadGuard, RwLockWriteGuard},
};

pub struct Mutex<T>(sync::Mutex<T>);

/// Holds the standard guard in an `Option`, since the standard `Condvar` wants it by value and `parking_lot`'s only borrows it.
pub struct MutexGuard<'a, T>(Option<sync::MutexGuard<'a, T>>);

impl<T> Mutex<T> {
    pub fn new(value: T) -> Self {
        Self(sync::Mutex::new(value))
    }

    pub fn lock(&self) -> MutexGuard<'_, T> {
        MutexGuard(Some(self.0.lock().unwrap_or_else(PoisonError::into_inner)))
    }
}

impl<T> Deref for MutexGuard<'_, T> {
    type Target = T;

    fn deref(&self) -> &T {
        self.0.as_ref().expect("empty only inside a wait")
    }
}

impl<T> DerefMut for MutexGuard<'_, T> {
    fn deref_mut(&mut self) -> &mut T {
        self.0.as_mut().expect("empty only inside a wait")
    }
}

pub struct Condvar(sync::Condvar);

impl Condvar {
    #[expect(clippy::new_without_default, reason = "only what tapes uses")]
    pub fn new() -> Self {
        Self(sync::Condvar::new())
    }

    pub fn notify_one(&self) {
        self.0.notify_one();
    }

    pub fn wait_while<T, F>(&self, guard: &mut MutexGuard<'_, T>, condition: F)
    where
        F: FnMut(&mut T) -> bool,
    {
        let held = guard.0.take().expect("empty only inside a wait");
        let woken = self.0.wait_while(held, condition);
        guard.0 = Some(woken.unwrap_or_else(PoisonError::into_inner));
    }
}

pub struct RwLock<T>(sync::RwLock<T>);

impl<T> RwLock<T> {
    pub fn new(value: T) -> Self {
        Self(sync::RwLock::new(value))
    }

    pub fn read(&self) -> RwLockReadGuard<'_, T> {
        self.0.read().unwrap_or_else(PoisonError::into_inner)
    }

    pub fn write(&self) -> RwLockWriteGuard<'_, T> {
        self.0.write().unwrap_or_else(PoisonError::into_inner)
    }
}
