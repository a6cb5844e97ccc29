//! What `std::thread` has. `spawn`, `scope` and their joins are recorded with the caller's line. Threads of a `Builder` are seen too,
//! without it.

use crate::recorder::{Kind, Object, Site};
pub use std::thread::*;

/// As in std.
pub struct JoinHandle<T>(std::thread::JoinHandle<T>);

/// As in std.
#[track_caller]
pub fn spawn<F, T>(run: F) -> JoinHandle<T>
where
    F: FnOnce() -> T + Send + 'static,
    T: Send + 'static,
{
    JoinHandle(Site::here().calls(|| std::thread::spawn(run)))
}

impl<T> JoinHandle<T> {
    /// As in std.
    #[track_caller]
    pub fn join(self) -> Result<T> {
        Site::here().calls(|| self.0.join())
    }

    /// As in std.
    pub fn thread(&self) -> &Thread {
        self.0.thread()
    }

    /// As in std.
    pub fn is_finished(&self) -> bool {
        self.0.is_finished()
    }
}

/// As in std.
#[repr(transparent)]
pub struct Scope<'scope, 'env: 'scope>(std::thread::Scope<'scope, 'env>);

/// As in std.
pub struct ScopedJoinHandle<'scope, T>(std::thread::ScopedJoinHandle<'scope, T>);

/// What a scope hands from the ends of its threads to its own end, recorded when it is dropped.
struct End {
    object: Object,
    kind: Kind,
    at: Site,
}

impl Drop for End {
    fn drop(&mut self) {
        self.object.record(self.kind, self.at);
    }
}

/// As in std. The end of the scope comes after the ends of its threads.
#[track_caller]
pub fn scope<'env, F, T>(run: F) -> T
where
    F: for<'scope> FnOnce(&'scope Scope<'scope, 'env>) -> T,
{
    let mut end = End { object: Object::new(), kind: Kind::Take, at: Site::here() };
    std::thread::scope(|inner| {
        end.object = Object::at(inner);
        end.object.record(Kind::New, end.at);
        // SAFETY: a `Scope` is a std `Scope` without any other field.
        run(unsafe { &*(inner as *const std::thread::Scope<'_, 'env>).cast() })
    })
}

impl<'scope> Scope<'scope, '_> {
    /// As in std.
    #[track_caller]
    pub fn spawn<F, T>(&'scope self, run: F) -> ScopedJoinHandle<'scope, T>
    where
        F: FnOnce() -> T + Send + 'scope,
        T: Send + 'scope,
    {
        let at = Site::here();
        let end = End { object: Object::at(&self.0), kind: Kind::Give, at };
        let run_to_end = move || {
            let _end = end;
            run()
        };
        ScopedJoinHandle(at.calls(|| self.0.spawn(run_to_end)))
    }
}

impl<T> ScopedJoinHandle<'_, T> {
    /// As in std.
    #[track_caller]
    pub fn join(self) -> Result<T> {
        Site::here().calls(|| self.0.join())
    }

    /// As in std.
    pub fn thread(&self) -> &Thread {
        self.0.thread()
    }

    /// As in std.
    pub fn is_finished(&self) -> bool {
        self.0.is_finished()
    }
}
