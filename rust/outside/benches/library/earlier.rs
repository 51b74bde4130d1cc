//! The scan and the finder beside those of an earlier version in the same run: version 2 or 3 of the header, which had four columns, or
//! a later one. SENDOSHI_EARLIER names its static library (of version 2: libexports.a) made into a shared one:
//! `cc -shared -o earlier.so -Wl,--whole-archive ARCHIVE -Wl,--no-whole-archive`. What it is put is all of edition 1.

use crate::growth::captures;
use crate::hard::{finds, patience, scans};
use crate::inputs::{late_fault, simulated};
use crate::sides::{scan_all_beside, Capture};
use crate::table;
use sendoshi::{Answer, Store};
use std::ffi::{c_char, c_int, c_void, CStr, CString, OsStr};
use std::mem::transmute;
use std::os::unix::ffi::OsStrExt;

extern "C" {
    fn dlopen(path: *const c_char, flags: c_int) -> *mut c_void;
    fn dlsym(library: *mut c_void, name: *const c_char) -> *mut c_void;
}

/// Linux's number for finding all symbols at once; those of the library stay its own.
const RTLD_NOW: c_int = 2;

type Slice<T> = (*const T, usize);

/// The columns that an earlier version takes.
#[derive(Clone, Copy)]
pub struct EarlierColumns<'a> {
    pub kinds: &'a [u16],
    pub transactions: &'a [u16],
    /// Where there are no threads, a begin's is its thread.
    pub registers: &'a [u16],
    pub values: &'a [u32],
    pub threads: Option<&'a [u16]>,
}

/// The start of both calls: edition, start values and four columns, each with its length. Where a call goes on, counts of 32 bits are
/// found in the lower halves of those of 64: on x86-64, for which alone the library is made, every number is passed in 64 bits.
macro_rules! call {
    ($($more:ty),*) => {
        unsafe extern "C" fn(
            u16, *const [u32; 32], *const u16, usize, *const u16, usize, *const u16, usize, *const u32, usize, $($more),*
        ) -> u64
    };
}

/// The two calls, as versions 2 and 3 declare them, and with the column of threads, as version 4 does.
type Scan = call!(usize);
type ScanThreads = call!(*const u16, usize, usize);
type Find = call!(usize, usize, *mut u8, usize);
type FindThreads = call!(*const u16, usize, usize, usize, *mut u8, usize);

/// An earlier version of the library.
pub struct Earlier {
    scan: *mut c_void,
    find: *mut c_void,
    /// Does it take the threads as a column?
    pub threads: bool,
}

impl Earlier {
    fn load(path: &OsStr) -> Earlier {
        let path = CString::new(path.as_bytes()).expect("a path without a zero byte");
        // SAFETY: the path ends with a zero byte; loading the library runs no code of its own.
        let library = unsafe { dlopen(path.as_ptr(), RTLD_NOW) };
        assert!(!library.is_null(), "{path:?} is no shared library");
        // SAFETY: the library is the one just loaded.
        let [scan, find] = [c"sendoshi_scan", c"sendoshi_find"].map(|name| unsafe { symbol(library, name) });
        let mut earlier = Earlier { scan, find, threads: true };
        // No events in five columns. A version that has four takes the address of the fifth for the count, and refuses columns that
        // are shorter: it has then read nothing in them.
        let none = EarlierColumns { kinds: &[], transactions: &[], registers: &[], values: &[], threads: Some(&[]) };
        earlier.threads = earlier.scan(Store { edition: 1, starts: &[0; 32] }, none, 0).code == 0;
        earlier
    }

    pub fn scan(&self, store: Store, c: EarlierColumns, count: usize) -> Answer {
        let [(k, kn), (t, tn), (r, rn)] = [c.kinds, c.transactions, c.registers].map(parts);
        let (v, vn) = parts(c.values);
        let (edition, starts) = (store.edition, store.starts);
        // SAFETY: pointers and lengths are those of slices that live through the call, and the function has this type where the library
        // takes the threads so.
        Answer::of(unsafe {
            if let Some((h, hn)) = c.threads.map(parts) {
                transmute::<*mut c_void, ScanThreads>(self.scan)(edition, starts, k, kn, t, tn, r, rn, v, vn, h, hn, count)
            } else {
                transmute::<*mut c_void, Scan>(self.scan)(edition, starts, k, kn, t, tn, r, rn, v, vn, count)
            }
        })
    }

    /// The finder on all of them.
    pub fn find(&self, store: Store, c: EarlierColumns, count: usize, output: &mut [u8]) -> Answer {
        let [(k, kn), (t, tn), (r, rn)] = [c.kinds, c.transactions, c.registers].map(parts);
        let (v, vn) = parts(c.values);
        let (edition, starts) = (store.edition, store.starts);
        let (o, on) = (output.as_mut_ptr(), output.len());
        // SAFETY: as above, and the output is borrowed for this call alone.
        Answer::of(unsafe {
            if let Some((h, hn)) = c.threads.map(parts) {
                transmute::<*mut c_void, FindThreads>(self.find)(
                    edition, starts, k, kn, t, tn, r, rn, v, vn, h, hn, count, count, o, on,
                )
            } else {
                transmute::<*mut c_void, Find>(self.find)(edition, starts, k, kn, t, tn, r, rn, v, vn, count, count, o, on)
            }
        })
    }
}

fn parts<T>(slice: &[T]) -> Slice<T> {
    (slice.as_ptr(), slice.len())
}

/// # Safety
/// The library is one that `dlopen` returned.
unsafe fn symbol(library: *mut c_void, name: &CStr) -> *mut c_void {
    let found = dlsym(library, name.as_ptr());
    assert!(!found.is_null(), "the library has no {name:?}");
    found
}

pub fn print(path: &OsStr, quick: bool) {
    let earlier = Earlier::load(path);
    print_captures(&earlier);
    print_hard(&earlier, patience(quick) / 2); // it places more slowly than plain Rust
}

fn print_captures(earlier: &Earlier) {
    table::head_beside("Beside the earlier version: captures", "job", "earlier");
    for seed in 1..=3 {
        let log = simulated(10, 2_048, seed);
        table::row(&format!("scan, opaque, capture {seed}"), &Capture::new(&log).scan_beside(earlier));
        let fault = Capture::new(&late_fault(log.clone()));
        table::row(&format!("scan, fault at the last read, capture {seed}"), &fault.scan_beside(earlier));
        table::row(&format!("find the lowest marking, capture {seed}"), &Capture::new(&log).find_beside(earlier));
    }
    for begins in [2, 4, 6, 8] {
        let measured = scan_all_beside(&captures(begins, 2_048), earlier);
        table::row(&format!("scan, {begins} transactions, 2048 events, the mean of 8 captures"), &measured);
    }
    for events in [256, 512, 1_024, 2_048] {
        let measured = scan_all_beside(&captures(10, events), earlier);
        table::row(&format!("scan, 10 transactions, {events} events, the mean of 8 captures"), &measured);
    }
    table::end();
}

/// An earlier version may be one that only tries: hard inputs are put to it where trying alone comes to an end.
fn print_hard(earlier: &Earlier, most: u64) {
    let dash = table::thousands(most);
    let title = format!("Beside the earlier version: hard inputs (a dash: {dash} placements and more by trying alone)");
    table::head_beside(&title, "job", "earlier");
    for (name, events) in finds() {
        let capture = Capture::new(&events);
        let measured = capture.find_placements_by_trying(most).map(|_| capture.find_beside(earlier));
        table::row_if(&format!("find, {name}"), measured.as_ref());
    }
    for (name, events) in scans() {
        let capture = Capture::new(&events);
        let measured = capture.scan_placements_by_trying(most).map(|_| capture.scan_beside(earlier));
        table::row_if(&format!("scan, {name}"), measured.as_ref());
    }
    table::end();
}
