//! The contenders of steps, packets and loss lines, each at every place that code can have in a block of 64 bytes. Its time moves by a
//! third with that place, which a linker gives by chance.

use std::ffi::{c_char, c_int, c_void, CString};
use std::mem;

/// How many build.rs makes.
pub const PLACES: usize = 4;

const RTLD_NOW: c_int = 2;

extern "C" {
    fn dlopen(file: *const c_char, flags: c_int) -> *mut c_void;
    fn dlsym(library: *mut c_void, name: *const c_char) -> *mut c_void;
}

/// A function of each contender's, by what it is linked as and its name there: all at the first place, then all at the next.
///
/// # Safety
/// `Call` is a function pointer of the type that all of them have.
pub unsafe fn calls<Call, const ALL: usize>(functions: &[(&str, &str)]) -> [Call; ALL] {
    assert_eq!(ALL, PLACES * functions.len());
    std::array::from_fn(|i| {
        let (linked, name) = functions[i % functions.len()];
        let file = format!("{}/{linked}-{}.so", env!("OUT_DIR"), i / functions.len());
        let address = unsafe { address(&file, name) };
        assert_eq!(mem::size_of::<Call>(), mem::size_of_val(&address));
        unsafe { mem::transmute_copy(&address) }
    })
}

unsafe fn address(file: &str, name: &str) -> *mut c_void {
    let [file_name, function] = [file, name].map(|text| CString::new(text).expect("no name has a zero byte"));
    let library = unsafe { dlopen(file_name.as_ptr(), RTLD_NOW) };
    assert!(!library.is_null(), "{file} was not loaded");
    let address = unsafe { dlsym(library, function.as_ptr()) };
    assert!(!address.is_null(), "{file} has no {name}");
    address
}
