//! An archive made a shared object and loaded, so that a program can call two
//! versions of it.

use std::ffi::{c_char, c_int, c_void, CStr, CString};
use std::io;
use std::os::unix::ffi::OsStrExt;
use std::path::Path;
use std::process::Command;

/// All symbols are looked up at once, and none of them serves another object.
const NOW_AND_LOCAL: c_int = 2;

extern "C" {
    fn dlopen(path: *const c_char, flags: c_int) -> *mut c_void;
    fn dlsym(object: *mut c_void, name: *const c_char) -> *mut c_void;
    fn dlerror() -> *const c_char;
}

/// It stays loaded until the program ends.
pub struct SharedObject(*mut c_void);

impl SharedObject {
    /// Links an archive into a shared object whose calls to itself stay inside
    /// it, and loads that.
    pub fn of(archive: &Path, object: &Path) -> io::Result<SharedObject> {
        let linked = Command::new("cc")
            .args(["-shared", "-Wl,-Bsymbolic", "-Wl,--whole-archive"])
            .arg(archive)
            .args(["-Wl,--no-whole-archive", "-o"])
            .arg(object)
            .status()?;
        if !linked.success() {
            return Err(io::Error::other(format!("{} is not linked", archive.display())));
        }
        let path = CString::new(object.as_os_str().as_bytes())?;
        // The path ends with a 0; an archive does nothing when it is loaded.
        let object = unsafe { dlopen(path.as_ptr(), NOW_AND_LOCAL) };
        if object.is_null() {
            return Err(last_error());
        }
        Ok(SharedObject(object))
    }

    /// Where a function of the object begins; never null.
    pub fn function(&self, name: &CStr) -> io::Result<*mut c_void> {
        // The object is loaded, and the name ends with a 0.
        let found = unsafe { dlsym(self.0, name.as_ptr()) };
        if found.is_null() {
            return Err(last_error());
        }
        Ok(found)
    }
}

/// What the loader says of what it could not do.
fn last_error() -> io::Error {
    // The loader gives null or a text that ends with a 0.
    let text = unsafe {
        match dlerror() {
            text if text.is_null() => "the loader gives no reason".to_string(),
            text => CStr::from_ptr(text).to_string_lossy().into_owned(),
        }
    };
    io::Error::other(text)
}
