//! What `std::sync` has. `Mutex`, `RwLock` and `Condvar` are recorded; all else is that of std and is not seen.

use crate::recorder::{Kind, Object, Section, Site};
use std::fmt;
use std::ops::{Deref, DerefMut};
pub use std::sync::*;
use std::time::{Duration, Instant};

/// Changes the guard of a result, which may be of a poisoned lock.
fn with_guard<G, H>(result: LockResult<G>, make: impl FnOnce(G) -> H) -> LockResult<H> {
    match result {
        Ok(guard) => Ok(make(guard)),
        Err(poisoned) => Err(PoisonError::new(make(poisoned.into_inner()))),
    }
}

fn with_tried_guard<G, H>(result: TryLockResult<G>, make: impl FnOnce(G) -> H) -> TryLockResult<H> {
    match result {
        Ok(guard) => Ok(make(guard)),
        Err(TryLockError::Poisoned(poisoned)) => Err(TryLockError::Poisoned(PoisonError::new(make(poisoned.into_inner())))),
        Err(TryLockError::WouldBlock) => Err(TryLockError::WouldBlock),
    }
}

/// The methods of a lock that are those of std.
macro_rules! lock_as_in_std {
    ($lock:ident) => {
        impl<T> $lock<T> {
            /// As in std.
            pub const fn new(value: T) -> Self {
                Self { object: Object::new(), inner: std::sync::$lock::new(value) }
            }

            /// As in std.
            pub fn into_inner(self) -> LockResult<T> {
                self.inner.into_inner()
            }
        }

        impl<T: ?Sized> $lock<T> {
            /// As in std.
            pub fn get_mut(&mut self) -> LockResult<&mut T> {
                self.inner.get_mut()
            }

            /// As in std.
            pub fn is_poisoned(&self) -> bool {
                self.inner.is_poisoned()
            }

            /// As in std.
            pub fn clear_poison(&self) {
                self.inner.clear_poison()
            }
        }

        impl<T: Default> Default for $lock<T> {
            fn default() -> Self {
                Self::new(T::default())
            }
        }

        impl<T> From<T> for $lock<T> {
            fn from(value: T) -> Self {
                Self::new(value)
            }
        }

        impl<T: ?Sized + fmt::Debug> fmt::Debug for $lock<T> {
            fn fmt(&self, to: &mut fmt::Formatter<'_>) -> fmt::Result {
                self.inner.fmt(to)
            }
        }
    };
}

/// A guard. Its section is before the guard of std, so the release is recorded before it is made.
macro_rules! guard {
    ($guard:ident) => {
        /// As in std.
        #[must_use = "if unused the lock is released at once"]
        pub struct $guard<'a, T: ?Sized + 'a> {
            #[allow(dead_code)] // it is dropped
            section: Section<'a>,
            inner: std::sync::$guard<'a, T>,
        }

        impl<T: ?Sized> Deref for $guard<'_, T> {
            type Target = T;

            fn deref(&self) -> &T {
                &self.inner
            }
        }

        impl<T: ?Sized + fmt::Debug> fmt::Debug for $guard<'_, T> {
            fn fmt(&self, to: &mut fmt::Formatter<'_>) -> fmt::Result {
                self.inner.fmt(to)
            }
        }

        impl<T: ?Sized + fmt::Display> fmt::Display for $guard<'_, T> {
            fn fmt(&self, to: &mut fmt::Formatter<'_>) -> fmt::Result {
                self.inner.fmt(to)
            }
        }
    };
}

macro_rules! guard_changes {
    ($guard:ident) => {
        impl<T: ?Sized> DerefMut for $guard<'_, T> {
            fn deref_mut(&mut self) -> &mut T {
                &mut self.inner
            }
        }
    };
}

/// A mutex as in std, recorded.
pub struct Mutex<T: ?Sized> {
    object: Object,
    inner: std::sync::Mutex<T>,
}

lock_as_in_std!(Mutex);
guard!(MutexGuard);
guard_changes!(MutexGuard);

impl<T: ?Sized> Mutex<T> {
    /// As in std.
    #[track_caller]
    pub fn lock(&self) -> LockResult<MutexGuard<'_, T>> {
        let at = Site::here();
        let result = self.object.waits(at, || self.inner.lock());
        with_guard(result, |inner| MutexGuard { section: self.object.begins(Kind::Lock, Kind::Unlock, at), inner })
    }

    /// As in std. An attempt that fails is not recorded.
    #[track_caller]
    pub fn try_lock(&self) -> TryLockResult<MutexGuard<'_, T>> {
        let at = Site::here();
        let begins = || self.object.begins(Kind::Tried, Kind::Unlock, at);
        with_tried_guard(self.inner.try_lock(), |inner| MutexGuard { section: begins(), inner })
    }
}

/// A reader-writer lock as in std, recorded.
pub struct RwLock<T: ?Sized> {
    object: Object,
    inner: std::sync::RwLock<T>,
}

lock_as_in_std!(RwLock);
guard!(RwLockReadGuard);
guard!(RwLockWriteGuard);
guard_changes!(RwLockWriteGuard);

impl<T: ?Sized> RwLock<T> {
    fn begins(&self, acquire: Kind, at: Site) -> Section<'_> {
        self.object.begins(acquire, Kind::UnlockEither, at)
    }

    /// As in std.
    #[track_caller]
    pub fn read(&self) -> LockResult<RwLockReadGuard<'_, T>> {
        let at = Site::here();
        let result = self.object.waits(at, || self.inner.read());
        with_guard(result, |inner| RwLockReadGuard { section: self.begins(Kind::ReadLock, at), inner })
    }

    /// As in std. An attempt that fails is not recorded.
    #[track_caller]
    pub fn try_read(&self) -> TryLockResult<RwLockReadGuard<'_, T>> {
        let at = Site::here();
        with_tried_guard(self.inner.try_read(), |inner| RwLockReadGuard { section: self.begins(Kind::ReadTried, at), inner })
    }

    /// As in std.
    #[track_caller]
    pub fn write(&self) -> LockResult<RwLockWriteGuard<'_, T>> {
        let at = Site::here();
        let result = self.object.waits(at, || self.inner.write());
        with_guard(result, |inner| RwLockWriteGuard { section: self.begins(Kind::WriteLock, at), inner })
    }

    /// As in std. An attempt that fails is not recorded.
    #[track_caller]
    pub fn try_write(&self) -> TryLockResult<RwLockWriteGuard<'_, T>> {
        let at = Site::here();
        with_tried_guard(self.inner.try_write(), |inner| RwLockWriteGuard { section: self.begins(Kind::WriteTried, at), inner })
    }
}

/// A condition variable as in std. A wait is recorded as a release and an acquire of the mutex. A thread that was woken comes after the
/// threads that have notified.
#[derive(Default)]
pub struct Condvar {
    object: Object,
    inner: std::sync::Condvar,
}

impl Condvar {
    /// As in std.
    pub const fn new() -> Condvar {
        Condvar { object: Object::new(), inner: std::sync::Condvar::new() }
    }

    /// As in std.
    #[track_caller]
    pub fn notify_one(&self) {
        self.object.record(Kind::Notify, Site::here());
        self.inner.notify_one();
    }

    /// As in std.
    #[track_caller]
    pub fn notify_all(&self) {
        self.object.record(Kind::Notify, Site::here());
        self.inner.notify_all();
    }

    /// As in std.
    #[track_caller]
    pub fn wait<'a, T>(&self, guard: MutexGuard<'a, T>) -> LockResult<MutexGuard<'a, T>> {
        let at = Site::here();
        let (mutex, inner) = released(guard);
        let result = self.inner.wait(inner);
        self.object.record(Kind::Take, at);
        with_guard(result, |inner| MutexGuard { section: mutex.begins(Kind::Lock, Kind::Unlock, at), inner })
    }

    /// As in std.
    #[track_caller]
    pub fn wait_while<'a, T, F>(&self, mut guard: MutexGuard<'a, T>, mut condition: F) -> LockResult<MutexGuard<'a, T>>
    where
        F: FnMut(&mut T) -> bool,
    {
        while condition(&mut *guard) {
            guard = self.wait(guard)?;
        }
        Ok(guard)
    }

    /// As in std.
    #[track_caller]
    pub fn wait_timeout<'a, T>(&self, guard: MutexGuard<'a, T>, most: Duration) -> LockResult<(MutexGuard<'a, T>, WaitTimeoutResult)> {
        let at = Site::here();
        let (mutex, inner) = released(guard);
        let result = self.inner.wait_timeout(inner, most);
        with_guard(result, |(inner, ending)| {
            if !ending.timed_out() {
                self.object.record(Kind::Take, at);
            }
            let section = mutex.begins(Kind::Lock, Kind::Unlock, at);
            (MutexGuard { section, inner }, WaitTimeoutResult(ending.timed_out()))
        })
    }

    /// As in std.
    #[track_caller]
    pub fn wait_timeout_while<'a, T, F>(
        &self,
        mut guard: MutexGuard<'a, T>,
        most: Duration,
        mut condition: F,
    ) -> LockResult<(MutexGuard<'a, T>, WaitTimeoutResult)>
    where
        F: FnMut(&mut T) -> bool,
    {
        let start = Instant::now();
        while condition(&mut *guard) {
            let Some(left) = most.checked_sub(start.elapsed()) else { return Ok((guard, WaitTimeoutResult(true))) };
            (guard, _) = self.wait_timeout(guard, left)?;
        }
        Ok((guard, WaitTimeoutResult(false)))
    }
}

impl fmt::Debug for Condvar {
    fn fmt(&self, to: &mut fmt::Formatter<'_>) -> fmt::Result {
        self.inner.fmt(to)
    }
}

/// As in std.
#[derive(Clone, Copy, Debug, Eq, PartialEq)]
pub struct WaitTimeoutResult(bool);

impl WaitTimeoutResult {
    /// As in std.
    pub fn timed_out(&self) -> bool {
        self.0
    }
}

/// Ends the section of a mutex, whose guard of std is then for a wait.
fn released<'a, T>(guard: MutexGuard<'a, T>) -> (&'a Object, std::sync::MutexGuard<'a, T>) {
    let MutexGuard { section, inner } = guard;
    (section.object, inner)
}
