//! The recorder that `goodlock` loads into the program: its functions, callers, and numbers of objects.

use std::ffi::{c_char, c_void};
use std::io::Write;
use std::panic::Location;
use std::sync::atomic::{AtomicU64, AtomicUsize, Ordering};
use std::sync::OnceLock;

/// Flags of `agents/pthread/shared/ring.h`, as `goodlock_record` takes them: a reader does not wait; waiting writers keep readers out, as in
/// std; a condition gives.
const TRIED: u32 = 1 << 8;
const WRITERS_FIRST: u32 = 4 << 8;
const BY_CONDITION: u32 = 2 << 8;

/// What is recorded: the kinds of `agents/pthread/shared/ring.h`.
#[derive(Clone, Copy)]
#[repr(u32)]
pub enum Kind {
    Lock = 9,
    Tried = 10,
    Unlock = 12,
    WriteLock = 13 | WRITERS_FIRST,
    WriteTried = 14 | WRITERS_FIRST,
    ReadLock = 16 | WRITERS_FIRST,
    ReadTried = 16 | WRITERS_FIRST | TRIED,
    UnlockEither = 17,
    Give = 19,
    Notify = 19 | BY_CONDITION,
    Take = 20,
    New = 22,
}

struct Functions {
    site: extern "C" fn(*const c_char, u32) -> u64,
    state: extern "C" fn(u64),
    record: extern "C" fn(u32, u64, u64),
    wait: extern "C" fn(u64, u64),
}

extern "C" {
    fn dlsym(handle: *mut c_void, name: *const c_char) -> *mut c_void;
}

/// The functions of the recorder, or `None` if the program runs without it.
fn functions() -> Option<&'static Functions> {
    static FUNCTIONS: OnceLock<Option<Functions>> = OnceLock::new();
    FUNCTIONS.get_or_init(find_all).as_ref()
}

fn find_all() -> Option<Functions> {
    let (site, state) = (find(b"goodlock_site\0")?, find(b"goodlock_state\0")?);
    let (record, wait) = (find(b"goodlock_record\0")?, find(b"goodlock_wait\0")?);
    // SAFETY: agents/pthread/recorder/recorder.c defines functions of these names with these types.
    unsafe {
        Some(Functions {
            site: std::mem::transmute::<*mut c_void, extern "C" fn(*const c_char, u32) -> u64>(site),
            state: std::mem::transmute::<*mut c_void, extern "C" fn(u64)>(state),
            record: std::mem::transmute::<*mut c_void, extern "C" fn(u32, u64, u64)>(record),
            wait: std::mem::transmute::<*mut c_void, extern "C" fn(u64, u64)>(wait),
        })
    }
}

/// The address of a function in the program or in one of its libraries. The name ends with a zero byte.
fn find(name: &'static [u8]) -> Option<*mut c_void> {
    // SAFETY: the name is a C string; a null handle means all libraries.
    let address = unsafe { dlsym(std::ptr::null_mut(), name.as_ptr().cast()) };
    (!address.is_null()).then_some(address)
}

/// A line of the program. `number` is the recorder's number of it.
#[derive(Clone, Copy)]
pub struct Site {
    number: u64,
}

impl Site {
    /// The line that calls the function which calls this one.
    #[track_caller]
    pub fn here() -> Site {
        let location = Location::caller();
        Site { number: functions().map_or(0, |to| number_of(to, location)) }
    }

    /// Calls a function of std that calls functions which are recorded: these are recorded with this line.
    pub fn calls<R>(self, call: impl FnOnce() -> R) -> R {
        struct Stated(&'static Functions);
        impl Drop for Stated {
            fn drop(&mut self) {
                (self.0.state)(0);
            }
        }
        let _stated = functions().map(|to| {
            (to.state)(self.number);
            Stated(to)
        });
        call()
    }
}

const SITES: usize = 1 << 13;
const MOST_TEXT: usize = 1000; // as in agents/pthread/recorder/recorder.c

/// The recorder's number of a location. A hash table with open addressing keeps the numbers, each plus one. It has no lock: if two
/// threads are at a new location at the same time, the location gets two numbers.
fn number_of(to: &Functions, location: &'static Location<'static>) -> u64 {
    static KEYS: [AtomicUsize; SITES] = [const { AtomicUsize::new(0) }; SITES];
    static NUMBERS: [AtomicU64; SITES] = [const { AtomicU64::new(0) }; SITES];
    let key = location as *const Location as usize;
    for at in (0..SITES).map(|step| ((key >> 3).wrapping_mul(0x9E37_79B1) + step) % SITES) {
        let found = match KEYS[at].compare_exchange(0, key, Ordering::Relaxed, Ordering::Relaxed) {
            Ok(_) => key,
            Err(other) => other,
        };
        if found == key {
            if NUMBERS[at].load(Ordering::Relaxed) == 0 {
                NUMBERS[at].store(new_number(to, location) + 1, Ordering::Relaxed);
            }
            return NUMBERS[at].load(Ordering::Relaxed) - 1;
        }
    }
    new_number(to, location)
}

/// Allocates nothing, since an allocator may use these locks.
fn new_number(to: &Functions, location: &Location) -> u64 {
    let mut text = [0; MOST_TEXT];
    let mut left = &mut text[..];
    let is_whole = write!(left, "{}:{}", location.file(), location.line()).is_ok();
    let length = MOST_TEXT - left.len();
    if is_whole {
        (to.site)(text.as_ptr().cast(), length as u32)
    } else {
        0
    }
}

/// What is locked or handed over. Its number is unique in a run and moves with it, so memory that is used again does not matter.
#[derive(Default)]
pub struct Object {
    number: AtomicU64,
}

/// Numbers of objects are above all addresses, and above those of objects with a fixed address.
const FIRST: u64 = 1 << 63;
const FIRST_AT_ADDRESS: u64 = 1 << 62;

impl Object {
    pub const fn new() -> Object {
        Object { number: AtomicU64::new(0) }
    }

    /// What hands over at this address. Another one may be there later: then it is recorded as new.
    pub fn at<T>(thing: &T) -> Object {
        Object { number: AtomicU64::new(FIRST_AT_ADDRESS | thing as *const T as u64) }
    }

    fn number(&self) -> u64 {
        static NEXT: AtomicU64 = AtomicU64::new(FIRST);
        let known = self.number.load(Ordering::Relaxed);
        if known != 0 {
            return known;
        }
        let fresh = NEXT.fetch_add(8, Ordering::Relaxed);
        match self.number.compare_exchange(0, fresh, Ordering::Relaxed, Ordering::Relaxed) {
            Ok(_) => fresh,
            Err(other) => other,
        }
    }

    pub fn record(&self, kind: Kind, at: Site) {
        if let Some(to) = functions() {
            (to.record)(kind as u32, self.number(), at.number);
        }
    }

    /// Calls a function that waits until this thread has the lock. Meanwhile the collector sees what the thread waits for.
    pub fn waits<R>(&self, at: Site, call: impl FnOnce() -> R) -> R {
        let Some(to) = functions() else { return call() };
        (to.wait)(self.number(), at.number);
        let result = call();
        (to.wait)(0, 0);
        result
    }

    /// Records an acquire. The section that it begins ends with a release of this kind, recorded with the line of the acquire.
    pub fn begins(&self, acquire: Kind, release: Kind, at: Site) -> Section<'_> {
        self.record(acquire, at);
        Section { object: self, release, at }
    }
}

/// A section of a lock. Its end is recorded when it is dropped.
pub struct Section<'a> {
    pub object: &'a Object,
    release: Kind,
    at: Site,
}

impl Drop for Section<'_> {
    fn drop(&mut self) {
        self.object.record(self.release, self.at);
    }
}
