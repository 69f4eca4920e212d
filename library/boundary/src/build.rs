//! One build of the library: the one that is linked, or an older one from a shared object.

use crate::{returned, Layout, Operations, Returned};
use megzhoi::raw;
use std::ffi::{c_char, c_int, c_void, CStr, CString};
use std::mem::transmute;

/// For each function of the library its type, and its type in a build from before there was a tick length.
macro_rules! types {
    ($($name:ident, $before:ident: $($argument:ty),*;)*) => {
        $(type $name = unsafe extern "C" fn(usize, $($argument),*, *mut usize, *mut usize, *mut usize) -> usize;
          type $before = unsafe extern "C" fn($($argument),*, *mut usize, *mut usize, *mut usize) -> usize;)*
    };
}

types! {
    Read, ReadBefore: *const u8, usize, *mut usize, usize;
    SafeStates, SafeStatesBefore: *const u8, usize, *mut u8, usize;
    Implementation, ImplementationBefore: *const u8, usize;
    Search, SearchBefore:
        *const u8, usize, *const u8, usize, *mut u8, usize, *mut u32, usize, *mut u32, usize, *mut u32, usize;
    Check, CheckBefore: *const u8, usize, *const u8, usize, *mut u8, usize, *const u8, usize;
    Widest, WidestBefore: *const u8, usize, *const u8, usize, *mut u8, usize, *mut u8, usize;
    Join, JoinBefore: *const u8, usize, *const u8, usize, *mut u8, usize;
}

/// A function that takes the tick length before its other arguments, or an older one that does not.
#[derive(Clone, Copy)]
enum Function<Now, Before> {
    Now(Now),
    Before(Before),
}

/// The tick length with which a build is called that takes none: constants are ticks.
pub const ONLY_TICK: usize = 1;

/// Calls a function in either form.
macro_rules! call {
    ($function:expr, $tick_length:expr, $($argument:expr),* $(,)?) => {
        match $function {
            Function::Now(function) => function($tick_length, $($argument),*),
            Function::Before(function) => {
                assert_eq!($tick_length, ONLY_TICK, "an older build has no other tick length");
                function($($argument),*)
            }
        }
    };
}

/// The functions of one build.
#[derive(Clone, Copy)]
pub struct Build {
    /// Of the record.
    layout: Layout,
    read: Function<Read, ReadBefore>,
    safe_states: Function<SafeStates, SafeStatesBefore>,
    /// An older build may lack it.
    implementation: Option<Function<Implementation, ImplementationBefore>>,
    search: Function<Search, SearchBefore>,
    check: Function<Check, CheckBefore>,
    widest: Function<Widest, WidestBefore>,
    /// An older build may lack it.
    join: Option<Function<Join, JoinBefore>>,
}

/// The environment variables that name the shared objects of an older build and of this one.
const BEFORE: &str = "MEGZHOI_BEFORE";
const AFTER: &str = "MEGZHOI_AFTER";

extern "C" {
    fn dlopen(name: *const c_char, flags: c_int) -> *mut c_void;
    fn dlsym(object: *mut c_void, name: *const c_char) -> *mut c_void;
}

/// Linux's flag by which dlopen binds all names at once.
const RTLD_NOW: c_int = 2;

impl Build {
    pub const LINKED: Build = Build {
        layout: Layout::Now,
        read: Function::Now(raw::megzhoi_read),
        safe_states: Function::Now(raw::megzhoi_safe_states),
        implementation: Some(Function::Now(raw::megzhoi_implementation)),
        search: Function::Now(raw::megzhoi_search),
        check: Function::Now(raw::megzhoi_check),
        widest: Function::Now(raw::megzhoi_widest),
        join: Some(Function::Now(raw::megzhoi_join)),
    };

    /// The older build that MEGZHOI_BEFORE names, if it names one. A shared object is made from an archive by
    /// `cc -shared -o old.so -Wl,--whole-archive libmegzhoi_c.a -Wl,--no-whole-archive`.
    pub fn before() -> Option<Build> {
        Build::named(BEFORE)
    }

    /// This build: from the shared object that MEGZHOI_AFTER names, so that it is called as an older one is, else the
    /// linked one.
    pub fn after() -> Build {
        Build::named(AFTER).unwrap_or(Build::LINKED)
    }

    /// Whether the build takes a tick length; one that does not is called with `ONLY_TICK` alone.
    pub fn takes_tick_length(&self) -> bool {
        matches!(self.read, Function::Now(_))
    }

    /// The build whose shared object an environment variable names, if it names one.
    fn named(variable: &str) -> Option<Build> {
        let path = std::env::var(variable).ok().filter(|path| !path.is_empty())?;
        // A name without a slash would be looked for among the system's libraries.
        let path = std::fs::canonicalize(&path).unwrap_or_else(|error| panic!("{variable}={path}: {error}"));
        let name = CString::new(path.into_os_string().into_encoded_bytes()).expect("a path without a zero byte");
        Some(Build::load(&name))
    }

    fn load(path: &CStr) -> Build {
        // SAFETY: the path ends in a zero byte. The object is the library's, whose loading runs no code of its own;
        // it is never closed, so its functions stay.
        let object = unsafe { dlopen(path.as_ptr(), RTLD_NOW) };
        assert!(!object.is_null(), "{} is no shared object", path.to_string_lossy());
        let find = |name: &CStr| {
            // SAFETY: the object is open and the name ends in a zero byte.
            let function = unsafe { dlsym(object, name.as_ptr()) };
            (!function.is_null()).then_some(function)
        };
        let named = |name: &CStr| {
            find(name).unwrap_or_else(|| panic!("{} has no {}", path.to_string_lossy(), name.to_string_lossy()))
        };
        let is_now = takes_tick_length(named(c"megzhoi_read"));
        // SAFETY: the functions that a build has have the types of its megzhoi.h, with or without the tick length.
        macro_rules! function {
            ($now:ty, $before:ty, $found:expr) => {
                match is_now {
                    true => Function::Now(unsafe { transmute::<*mut c_void, $now>($found) }),
                    false => Function::Before(unsafe { transmute::<*mut c_void, $before>($found) }),
                }
            };
        }
        let mut build = Build {
            layout: Layout::Now,
            read: function!(Read, ReadBefore, named(c"megzhoi_read")),
            safe_states: function!(SafeStates, SafeStatesBefore, named(c"megzhoi_safe_states")),
            implementation: find(c"megzhoi_implementation")
                .map(|found| function!(Implementation, ImplementationBefore, found)),
            search: function!(Search, SearchBefore, named(c"megzhoi_search")),
            check: function!(Check, CheckBefore, named(c"megzhoi_check")),
            widest: function!(Widest, WidestBefore, named(c"megzhoi_widest")),
            join: find(c"megzhoi_join").map(|found| function!(Join, JoinBefore, found)),
        };
        build.layout = layout_of(&build);
        build
    }
}

/// How a build lays out a record: it is asked for that of the least text. An older one writes fewer numbers.
fn layout_of(build: &Build) -> Layout {
    const UNTOUCHED: usize = usize::MAX;
    let mut record = [UNTOUCHED; raw::RECORD_ENTRIES + 1];
    let returned = build.read(ONLY_TICK, b"process P() { state L; init L; } system P;", &mut record);
    assert_eq!(returned.code, 0, "the least text is refused");
    Layout::of(&record, UNTOUCHED)
}

/// Whether a build's `megzhoi_read` takes the tick length. It has one name either way, so it is asked: it is called
/// with the arguments of an older one, an empty text and an empty record, and one place more. An older one refuses the
/// text by code 2 and does not see the last place. One that takes the tick length sees the text's address there, which
/// is above 60,000, so it refuses by code 24 and touches nothing but its three places: of the four that are handed over
/// the last three.
fn takes_tick_length(read: *mut c_void) -> bool {
    type Asked = unsafe extern "C" fn(
        *const u8,
        usize,
        *mut usize,
        usize,
        *mut usize,
        *mut usize,
        *mut usize,
        *mut usize,
    ) -> usize;
    let (text, mut record) = (*b"text", [0_usize; 1]);
    let [a, b, c, d] = &mut [0; 4];
    // SAFETY: by the C calling convention of x86-64 Linux each argument is a word, and words beyond those that a
    // function takes do not matter to it. An older one is given two slices without entries, and either has valid places
    // to write.
    let code = unsafe { transmute::<*mut c_void, Asked>(read)(text.as_ptr(), 0, record.as_mut_ptr(), 0, a, b, c, d) };
    match code {
        plain::codes::TICK_OUT_OF_RANGE => true,
        plain::codes::MISFIT => false,
        code => panic!("megzhoi_read answers {code} to an empty text"),
    }
}

impl Operations for Build {
    fn layout(&self) -> Layout {
        self.layout
    }

    #[rustfmt::skip]
    fn read(&self, tick_length: usize, text: &[u8], record: &mut [usize]) -> Returned {
        // SAFETY: pointers and lengths are those of live slices that do not overlap.
        returned(|file, p, q| unsafe {
            call!(
                self.read, tick_length,
                text.as_ptr(), text.len(), record.as_mut_ptr(), record.len(), file, p, q,
            )
        })
    }

    #[rustfmt::skip]
    fn safe_states(&self, tick_length: usize, text: &[u8], keep: &mut [u8]) -> Returned {
        // SAFETY: as in `read`.
        returned(|file, p, q| unsafe {
            call!(
                self.safe_states, tick_length,
                text.as_ptr(), text.len(), keep.as_mut_ptr(), keep.len(), file, p, q,
            )
        })
    }

    fn implementation(&self, tick_length: usize, text: &[u8]) -> Option<Returned> {
        let implementation = self.implementation?;
        // SAFETY: as in `read`.
        Some(returned(|file, p, q| unsafe {
            call!(implementation, tick_length, text.as_ptr(), text.len(), file, p, q)
        }))
    }

    #[rustfmt::skip]
    fn search(
        &self,
        tick_length: usize,
        left: &[u8],
        right: &[u8],
        keep: &mut [u8],
        back: &mut [u32],
        line: &mut [u32],
        run: &mut [u32],
    ) -> Returned {
        // SAFETY: as in `read`.
        returned(|file, p, q| unsafe {
            call!(
                self.search, tick_length,
                left.as_ptr(), left.len(), right.as_ptr(), right.len(), keep.as_mut_ptr(), keep.len(),
                back.as_mut_ptr(), back.len(), line.as_mut_ptr(), line.len(), run.as_mut_ptr(), run.len(),
                file, p, q,
            )
        })
    }

    #[rustfmt::skip]
    fn check(&self, tick_length: usize, left: &[u8], right: &[u8], keep: &mut [u8], table: &[u8]) -> Returned {
        // SAFETY: as in `read`.
        returned(|file, p, q| unsafe {
            call!(
                self.check, tick_length,
                left.as_ptr(), left.len(), right.as_ptr(), right.len(), keep.as_mut_ptr(), keep.len(),
                table.as_ptr(), table.len(), file, p, q,
            )
        })
    }

    #[rustfmt::skip]
    fn widest(&self, tick_length: usize, left: &[u8], right: &[u8], keep: &mut [u8], table: &mut [u8]) -> Returned {
        // SAFETY: as in `read`.
        returned(|file, p, q| unsafe {
            call!(
                self.widest, tick_length,
                left.as_ptr(), left.len(), right.as_ptr(), right.len(), keep.as_mut_ptr(), keep.len(),
                table.as_mut_ptr(), table.len(), file, p, q,
            )
        })
    }

    #[rustfmt::skip]
    fn join(&self, tick_length: usize, left: &[u8], right: &[u8], out: &mut [u8]) -> Option<Returned> {
        let join = self.join?;
        // SAFETY: as in `read`.
        Some(returned(|file, p, q| unsafe {
            call!(
                join, tick_length,
                left.as_ptr(), left.len(), right.as_ptr(), right.len(), out.as_mut_ptr(), out.len(), file, p, q,
            )
        }))
    }
}
