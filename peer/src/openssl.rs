//! The system's OpenSSL, loaded when the program runs, so that nothing needs it at build time.

use std::ffi::{c_char, c_int, c_void, CStr, CString};
use std::process::Command;
use std::ptr::null_mut;

extern "C" {
    fn dlopen(file: *const c_char, flags: c_int) -> *mut c_void;
    fn dlsym(library: *mut c_void, name: *const c_char) -> *mut c_void;
}

const RTLD_NOW: c_int = 2;

type Fetch = unsafe extern "C" fn(*mut c_void, *const c_char, *const c_char) -> *mut c_void;
type NewContext = unsafe extern "C" fn() -> *mut c_void;
type Init = unsafe extern "C" fn(*mut c_void, *const c_void, *mut c_void) -> c_int;
type Update = unsafe extern "C" fn(*mut c_void, *const c_void, usize) -> c_int;
type FinalXof = unsafe extern "C" fn(*mut c_void, *mut u8, usize) -> c_int;

/// SHAKE128 or SHAKE256, with one context for all calls and the algorithm fetched once: OpenSSL's
/// quickest use.
pub struct Shake {
    context: *mut c_void,
    algorithm: *mut c_void,
    init: Init,
    update: Update,
    final_xof: FinalXof,
}

fn open(file: &str) -> *mut c_void {
    let Ok(file) = CString::new(file) else { return null_mut() };
    // SAFETY: the name ends in NUL.
    unsafe { dlopen(file.as_ptr(), RTLD_NOW) }
}

/// Where Python's own OpenSSL lies, for machines that have no other.
fn pythons_library() -> Option<String> {
    let script = "import _hashlib; print(next(l.split()[-1] for l in open('/proc/self/maps') if 'libcrypto' in l))";
    let run = Command::new("python3").args(["-c", script]).output().ok()?;
    Some(String::from_utf8(run.stdout).ok()?.trim().to_string())
}

fn symbol(library: *mut c_void, name: &str) -> Option<*mut c_void> {
    let name = CString::new(name).ok()?;
    // SAFETY: the library is open and stays open, and the name ends in NUL.
    let found = unsafe { dlsym(library, name.as_ptr()) };
    (!found.is_null()).then_some(found)
}

/// OpenSSL's names of the two.
pub const SHAKE128: &CStr = c"SHAKE128";
pub const SHAKE256: &CStr = c"SHAKE256";

impl Shake {
    /// The one of this name. None where no OpenSSL 3 is found.
    pub fn load(name: &CStr) -> Option<Shake> {
        let mut library = open("libcrypto.so.3");
        if library.is_null() {
            library = open(&pythons_library()?);
        }
        if library.is_null() {
            return None;
        }
        // SAFETY: each symbol has the type that OpenSSL 3's header gives it.
        unsafe {
            let fetch: Fetch = std::mem::transmute(symbol(library, "EVP_MD_fetch")?);
            let new_context: NewContext = std::mem::transmute(symbol(library, "EVP_MD_CTX_new")?);
            let algorithm = fetch(null_mut(), name.as_ptr(), std::ptr::null());
            let context = new_context();
            if algorithm.is_null() || context.is_null() {
                return None;
            }
            Some(Shake {
                context,
                algorithm,
                init: std::mem::transmute::<*mut c_void, Init>(symbol(library, "EVP_DigestInit_ex")?),
                update: std::mem::transmute::<*mut c_void, Update>(symbol(library, "EVP_DigestUpdate")?),
                final_xof: std::mem::transmute::<*mut c_void, FinalXof>(symbol(library, "EVP_DigestFinalXOF")?),
            })
        }
    }

    pub fn hash(&mut self, input: &[u8], out: &mut [u8]) {
        // SAFETY: context and algorithm are those that OpenSSL made, and live as long as this.
        unsafe {
            (self.init)(self.context, self.algorithm, null_mut());
            (self.update)(self.context, input.as_ptr().cast(), input.len());
            (self.final_xof)(self.context, out.as_mut_ptr(), out.len());
        }
    }
}
