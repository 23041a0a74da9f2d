//! Another build of the stage, from a shared object.
use oracle::proved::{self, Function};
use oracle::stage::{Answer, Job, Lent};
use std::ffi::{c_char, c_int, c_void, CStr, CString};
use std::mem::transmute;
use std::os::unix::ffi::OsStrExt;
use std::path::Path;
use std::sync::OnceLock;

unsafe extern "C" {
    fn dlopen(path: *const c_char, mode: c_int) -> *mut c_void;
    fn dlsym(object: *mut c_void, name: *const c_char) -> *mut c_void;
    fn dlerror() -> *const c_char;
}

/// Linux's `RTLD_NOW`: all that the object needs is looked up at once.
const NOW: c_int = 2;

static LOADED: OnceLock<Function> = OnceLock::new();

/// Finds `blidrosk_raw_offset` in a shared object, which stays for as long as the program runs.
pub fn load(path: &Path) -> Result<(), String> {
    // a name without a folder would be looked for among the system's libraries
    let path = path
        .canonicalize()
        .map_err(|why| format!("{}: {why}", path.display()))?;
    let path = CString::new(path.as_os_str().as_bytes()).map_err(|why| why.to_string())?;
    // SAFETY: both names end with a zero. Whoever names the object vouches for what it does when it
    // is loaded, and that its function is the one of callers/include/blidrosk.h.
    let function = unsafe {
        let object = found(dlopen(path.as_ptr(), NOW))?;
        let address = found(dlsym(object, c"blidrosk_raw_offset".as_ptr()))?;
        transmute::<*mut c_void, Function>(address)
    };
    LOADED
        .set(function)
        .map_err(|_| "--before stands once".to_string())
}

/// The address, or the reason why there is none.
fn found(address: *mut c_void) -> Result<*mut c_void, String> {
    if !address.is_null() {
        return Ok(address);
    }
    // SAFETY: after a failure it is a text that ends with a zero, and nothing is loaded meanwhile.
    Err(unsafe { CStr::from_ptr(dlerror()) }
        .to_string_lossy()
        .into_owned())
}

/// Works one job on the build that was loaded.
pub fn job(job: &Job, lent: Lent) -> Answer {
    let function = *LOADED.get().expect("a build is loaded");
    // SAFETY: `load` says who vouches for it.
    unsafe { proved::job_by(function, job, lent) }
}
