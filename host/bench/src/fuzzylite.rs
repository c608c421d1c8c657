//! fuzzylite, by `shim.cpp`.
use std::ffi::c_void;

mod raw {
    use super::c_void;
    extern "C" {
        pub fn shim_text(bytes: *const u8, length: usize) -> *mut c_void;
        pub fn shim_engine(text: *const c_void) -> *mut c_void;
        pub fn shim_rules(engine: *const c_void) -> usize;
        pub fn shim_import(text: *const c_void) -> usize;
        pub fn shim_export(engine: *const c_void) -> usize;
        pub fn shim_process(engine: *mut c_void, readings: *const f64, figures: *mut f64);
    }
}

/// A text and its engine, which live as long as the program.
#[derive(Clone, Copy)]
pub struct Engine {
    text: *mut c_void,
    engine: *mut c_void,
}

impl Engine {
    pub fn new(text: &str) -> Engine {
        let text = unsafe { raw::shim_text(text.as_ptr(), text.len()) };
        let engine = unsafe { raw::shim_engine(text) };
        assert!(!engine.is_null(), "fuzzylite refuses the text");
        Engine { text, engine }
    }

    pub fn rules(&self) -> usize {
        unsafe { raw::shim_rules(self.engine) }
    }

    /// The text imported anew, and that engine deleted.
    pub fn import(&self) -> usize {
        unsafe { raw::shim_import(self.text) }
    }

    pub fn export(&self) -> usize {
        unsafe { raw::shim_export(self.engine) }
    }

    pub fn process(&self, readings: &[f64; 8]) -> [f64; 6] {
        let mut figures = [0.0; 6];
        unsafe { raw::shim_process(self.engine, readings.as_ptr(), figures.as_mut_ptr()) };
        figures
    }
}
