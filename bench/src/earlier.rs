//! Calls of the library beside the same calls of an earlier build of it, in one run: for what a change costs or gains. Both are shared
//! objects, so that neither is called in a cheaper way; `cc -shared -o now.so -Wl,--whole-archive libcapi.a` makes one of a static library.
use crate::cases::{self, Case};
use crate::measure::medians;
use differential::graph::{Graph, NODES};
use differential::sheet;
use std::ffi::{c_char, c_int, c_void, CString};
use std::hint::black_box;

type Count = unsafe extern "C" fn(*const u8, usize, &mut u64) -> u8;
type Reading = unsafe extern "C" fn(*const u8, usize, &mut u64, *mut u8, usize, &mut u64) -> u8;
type Configuration = unsafe extern "C" fn(*const u8, usize, *mut u8, usize, &mut u64) -> u8;
type CheckPlacing = unsafe extern "C" fn(*const u8, usize, *const u8, usize, &mut u8) -> u8;

extern "C" {
    fn dlopen(path: *const c_char, flags: c_int) -> *mut c_void;
    fn dlsym(library: *mut c_void, name: *const c_char) -> *mut c_void;
}

/// All symbols at once.
const RTLD_NOW: c_int = 2;

const CALLS: [&str; 4] = ["reading 1", "configuration", "check of it", "count"];

struct Library {
    count: Count,
    reading: Reading,
    configuration: Configuration,
    check_placing: CheckPlacing,
}

/// What a call answers, and the bytes that it was lent.
type Answer = (u8, u64, Vec<u8>);

impl Library {
    fn open(path: &str) -> Result<Library, String> {
        let file = CString::new(path).map_err(|why| why.to_string())?;
        // SAFETY: both names are strings of C, and what is found is called by the types that the library's header has.
        unsafe {
            let library = dlopen(file.as_ptr(), RTLD_NOW);
            if library.is_null() {
                return Err(format!("{path} is no shared object; its path has a slash in it"));
            }
            let symbol = |name: &str| {
                let symbol = CString::new(name).map_or(std::ptr::null_mut(), |name| dlsym(library, name.as_ptr()));
                if symbol.is_null() {
                    return Err(format!("{path} has no {name}"));
                }
                Ok(symbol)
            };
            Ok(Library {
                count: std::mem::transmute::<*mut c_void, Count>(symbol("bixtogan_count")?),
                reading: std::mem::transmute::<*mut c_void, Reading>(symbol("bixtogan_reading")?),
                configuration: std::mem::transmute::<*mut c_void, Configuration>(symbol("bixtogan_configuration")?),
                check_placing: std::mem::transmute::<*mut c_void, CheckPlacing>(symbol("bixtogan_check_placing")?),
            })
        }
    }

    /// One of the calls; a placing is checked that `out` has.
    fn call(&self, call: usize, bytes: &[u8], out: &mut [u8]) -> (u8, u64) {
        let (mut place, mut value, mut answers) = (0, 0, 0);
        // SAFETY: each pointer comes with the length of what it points to.
        let number = unsafe {
            match call {
                0 => (self.reading)(bytes.as_ptr(), bytes.len(), &mut place, out.as_mut_ptr(), out.len(), &mut value),
                1 => (self.configuration)(bytes.as_ptr(), bytes.len(), out.as_mut_ptr(), out.len(), &mut value),
                2 => (self.check_placing)(bytes.as_ptr(), bytes.len(), out.as_ptr(), out.len(), &mut answers),
                _ => (self.count)(bytes.as_ptr(), bytes.len(), &mut value),
            }
        };
        (number, value + u64::from(answers))
    }

    fn answer(&self, call: usize, bytes: &[u8], out: &[u8]) -> Answer {
        let mut out = out.to_vec();
        let (number, value) = self.call(call, bytes, &mut out);
        (number, value, out)
    }
}

/// Fragments of a root and a leaf, each under the one before; numbered from the top, or from the bottom. In a ring the first is under
/// the last.
fn tall(from_top: bool, ring: bool) -> Case {
    let name = |depth: usize| if from_top { depth } else { NODES - 1 - depth };
    let mut parent = vec![None; NODES];
    let mut dominance = Vec::new();
    for depth in 0..NODES - 1 {
        if depth % 2 == 0 {
            parent[name(depth + 1)] = Some(name(depth));
        } else {
            dominance.push((name(depth), name(depth + 1)));
        }
    }
    if ring {
        dominance.push((name(NODES - 1), name(0)));
    }
    dominance.sort_unstable();
    let (what, end) = (if ring { "ring" } else { "tall" }, if from_top { "top" } else { "bottom" });
    Case { name: format!("{what}, {NODES} nodes from the {end}"), sheet: sheet::tidy(&Graph { parent, dominance }) }
}

/// Prints the times of every call on every sheet whose name begins so. All answers are compared first.
pub fn print(now: &str, earlier: &str, repeat: usize, family: &str) -> Result<(), String> {
    let libraries = [Library::open(now)?, Library::open(earlier)?];
    println!("A call, microseconds, the median of {repeat}. A ratio above 1 is in our favour.\n");
    println!("| sheet | call | now | earlier | earlier / now |\n|---|---|---:|---:|---:|");
    let tall =
        [(true, false), (false, false), (true, true), (false, true)].map(|(from_top, ring)| tall(from_top, ring));
    let cases = tall.into_iter().chain(cases::all());
    for case in cases.filter(|case| case.name.starts_with(family)) {
        let bytes = &case.sheet[..];
        let mut out = vec![0; 2 * NODES];
        for (call, name) in CALLS.iter().enumerate() {
            let [now, before] = [0, 1].map(|way| libraries[way].answer(call, bytes, &out));
            if now != before {
                return Err(format!("{}: {name}: {:?} and {:?}", case.name, &now, &before));
            }
            let mut rooms = [out.clone(), out.clone()];
            let times = medians(repeat, [true; 2], |way| libraries[way].call(call, black_box(bytes), &mut rooms[way]));
            let [now_takes, before_takes] = times.map(|time| time.unwrap_or_default().as_secs_f64() * 1e6);
            println!(
                "| {} | {name} | {now_takes:.2} | {before_takes:.2} | {:.2} |",
                case.name,
                before_takes / now_takes
            );
            out = now.2;
        }
    }
    Ok(())
}
