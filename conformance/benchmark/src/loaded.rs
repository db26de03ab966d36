//! A build of the library or of plain C, loaded from its archive. Two builds
//! have the same names, so they can't be linked into one program; and one that
//! is loaded can be put to another place in memory each time.

use std::env;
use std::ffi::{c_char, c_int, c_void, CStr, CString};
use std::fs;
use std::mem;
use std::os::unix::ffi::OsStrExt;
use std::path::{Path, PathBuf};
use std::process::{self, Command};

use evaluator::RFC9309;

use crate::stop;

/// The archive that this program is linked with.
pub const LINKED: &str = concat!(
    env!("CARGO_MANIFEST_DIR"),
    "/../../crates/robots/out/librobots.a"
);

const WANTED: &str = "give an archive that 'rt lib' made in crates/robots";
const WRITABLE: &str = "set TMPDIR to a folder that can be written";

/// `RTLD_NOW | RTLD_LOCAL` on Linux.
const NOW_AND_LOCAL: c_int = 2;

extern "C" {
    fn dlopen(path: *const c_char, flags: c_int) -> Handle;
    fn dlsym(handle: Handle, name: *const c_char) -> *mut c_void;
}

/// Where octets start. A length follows it.
type Start = *const u8;
type OfLine = unsafe extern "C" fn(Start, usize) -> usize;
type OfPath = unsafe extern "C" fn(Start, usize, *mut u8, usize) -> usize;
type OfMatch = unsafe extern "C" fn(Start, usize, Start, usize) -> usize;
type OfDecision = unsafe extern "C" fn(usize, Start, usize, Start, usize, Start, usize) -> usize;
/// Before 0.2.0.
type OfOldDecision = unsafe extern "C" fn(Start, usize, Start, usize, Start, usize) -> usize;

/// A loaded object.
pub type Handle = *mut c_void;

/// Whether the functions of a decision take a dialect. No archive tells it.
#[derive(Clone, Copy)]
pub enum Signature {
    WithDialect,
    /// Before 0.2.0.
    WithoutDialect,
}

/// A function of a decision.
#[derive(Clone, Copy)]
enum Deciding {
    WithDialect(OfDecision),
    WithoutDialect(OfOldDecision),
}

/// The functions of a loaded library that are measured.
pub struct Loaded {
    line_kind: OfLine,
    normalise: OfPath,
    match_found: OfMatch,
    decide_disallow: Deciding,
    decide_unread: Deciding,
}

impl Loaded {
    pub fn line_kind(&self, line: &[u8]) -> usize {
        // SAFETY: pointer and length are those of a slice.
        unsafe { (self.line_kind)(line.as_ptr(), line.len()) }
    }

    pub fn normalise(&self, path: &[u8], buffer: &mut [u8]) -> usize {
        let (start, room) = (buffer.as_mut_ptr(), buffer.len());
        // SAFETY: both pointers and lengths are those of slices.
        unsafe { (self.normalise)(path.as_ptr(), path.len(), start, room) }
    }

    pub fn match_found(&self, pattern: &[u8], path: &[u8]) -> usize {
        let (start, length) = (pattern.as_ptr(), pattern.len());
        // SAFETY: both pointers and lengths are those of slices.
        unsafe { (self.match_found)(start, length, path.as_ptr(), path.len()) }
    }

    pub fn decide_disallow(&self, dialect: usize, file: &[u8], name: &[u8], path: &[u8]) -> usize {
        decided(self.decide_disallow, dialect, file, name, path)
    }

    pub fn decide_unread(&self, dialect: usize, file: &[u8], name: &[u8], path: &[u8]) -> usize {
        decided(self.decide_unread, dialect, file, name, path)
    }
}

/// A build without dialects is asked in the RFC's only.
fn decided(number: Deciding, dialect: usize, file: &[u8], name: &[u8], path: &[u8]) -> usize {
    let (file, f) = (file.as_ptr(), file.len());
    let (name, n) = (name.as_ptr(), name.len());
    let (path, p) = (path.as_ptr(), path.len());
    match number {
        // SAFETY: the pointers and lengths are those of slices.
        Deciding::WithDialect(number) => unsafe { number(dialect, file, f, name, n, path, p) },
        Deciding::WithoutDialect(number) => {
            assert_eq!(dialect, RFC9309, "the older build has no dialects");
            // SAFETY: the same.
            unsafe { number(file, f, name, n, path, p) }
        }
    }
}

/// Loads each archive of the library, with so many octets before its code.
pub fn load(wanted: &[(&str, usize, Signature)]) -> Vec<Loaded> {
    let places: Vec<(&str, usize)> = wanted.iter().map(|one| (one.0, one.1)).collect();
    let builds = open(&places).into_iter().zip(wanted);
    builds
        .map(|(handle, (archive, _, signature))| library(handle, archive, *signature))
        .collect()
}

/// Opens each archive, with so many octets before its code.
pub fn open(wanted: &[(&str, usize)]) -> Vec<Handle> {
    let folder = env::temp_dir().join(format!("robots-benchmark-{}", process::id()));
    if fs::create_dir(&folder).is_err() {
        stop(&format!("no folder can be made: {WRITABLE}"));
    }
    let opened: Result<_, String> = (0..)
        .zip(wanted)
        .map(|(at, (archive, before))| open_one(&folder.join(at.to_string()), archive, *before))
        .collect();
    // only now, since dlopen knows a file by its number, which another gets once it is removed
    fs::remove_dir_all(&folder).expect("this process has made the folder");
    opened.unwrap_or_else(|fault| stop(&fault))
}

fn open_one(place: &Path, archive: &str, before: usize) -> Result<Handle, String> {
    let object = shared_object(place, archive, before)?;
    let path = CString::new(object.as_os_str().as_bytes()).expect("a path holds no NUL");
    // SAFETY: the path ends with NUL.
    let handle = unsafe { dlopen(path.as_ptr(), NOW_AND_LOCAL) };
    if handle.is_null() {
        return Err(format!(
            "{archive} can't be loaded: set TMPDIR to a folder from which code can be run"
        ));
    }
    Ok(handle)
}

/// The functions of a library that is loaded.
pub fn library(handle: Handle, archive: &str, signature: Signature) -> Loaded {
    let deciding = |name: &CStr| match signature {
        // SAFETY: the object is loaded, and include/robots.h gives the functions this type.
        Signature::WithDialect => Deciding::WithDialect(unsafe { function(handle, name, archive) }),
        // SAFETY: before 0.2.0 it gave them this one.
        Signature::WithoutDialect => {
            Deciding::WithoutDialect(unsafe { function(handle, name, archive) })
        }
    };
    // SAFETY: the object is loaded, and include/robots.h gives the functions these types.
    unsafe {
        Loaded {
            line_kind: function(handle, c"robots_line_kind", archive),
            normalise: function(handle, c"robots_normalise", archive),
            match_found: function(handle, c"robots_match_found", archive),
            decide_disallow: deciding(c"robots_decide_disallow"),
            decide_unread: deciding(c"robots_decide_unread"),
        }
    }
}

/// Makes a shared object of an archive.
fn shared_object(place: &Path, archive: &str, before: usize) -> Result<PathBuf, String> {
    // a whole path, so that gcc doesn't take it for an option
    let whole =
        fs::canonicalize(archive).map_err(|fault| format!("{archive}: {fault}: {WANTED}"))?;
    let (source, object) = (place.with_extension("s"), place.with_extension("so"));
    // the second section says that the stack holds no code
    let skipping = format!(".text\n.skip {before}\n.section .note.GNU-stack, \"\"\n");
    fs::write(&source, skipping).map_err(|fault| format!("{fault}: {WRITABLE}"))?;
    let made = Command::new("gcc")
        .args(["-shared", "-Wl,-z,defs", "-o"])
        .args([&object, &source])
        .arg("-Wl,--whole-archive")
        .arg(whole)
        .arg("-Wl,--no-whole-archive")
        .output()
        .map_err(|fault| format!("gcc: {fault}: install it"))?;
    if made.status.success() {
        Ok(object)
    } else {
        Err(format!("gcc makes no shared object of {archive}: {WANTED}"))
    }
}

/// # Safety
///
/// The handle has to be that of a loaded object, and `Function` the type of
/// the function of this name.
pub unsafe fn function<Function>(handle: Handle, name: &CStr, archive: &str) -> Function {
    let found = dlsym(handle, name.as_ptr());
    if found.is_null() {
        let name = name.to_string_lossy();
        stop(&format!("{archive} has no {name}: {WANTED}"));
    }
    // a pointer to a function is as long as any other
    mem::transmute_copy(&found)
}
