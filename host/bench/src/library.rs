//! The static library, by `host/grillenhelm.h`.

/// Bytes of the longest text, image and listing.
pub const TEXT: usize = 65_536;
pub const IMAGE: usize = 10_200;
pub const LISTING: usize = 31_421;

#[repr(C)]
#[derive(Clone, Copy, Default)]
pub struct Outcome {
    pub refusal: u32,
    pub has_place: u32,
    pub place: usize,
    pub length: usize,
}

#[repr(C)]
#[derive(Clone, Copy, Default)]
pub struct Reading {
    pub kind: u32,
    pub real: f32,
    pub whole: i16,
}

#[repr(C)]
#[derive(Clone, Copy, Default)]
pub struct Readings {
    pub at: [Reading; 8],
    pub count: usize,
}

#[repr(C)]
#[derive(Clone, Copy, Default)]
pub struct Held {
    pub figures: [i32; 6],
}

#[repr(C)]
#[derive(Clone, Copy, Default)]
pub struct Answer {
    pub mark: u32,
    pub thousandths: i32,
    pub sum: u32,
    pub value: f64,
}

#[repr(C)]
pub struct Fresh {
    pub outcome: Outcome,
    pub held: Held,
}

#[repr(C)]
pub struct Evaluation {
    pub outcome: Outcome,
    pub answers: [Answer; 6],
    pub held: Held,
}

mod raw {
    use super::*;
    extern "C" {
        pub fn grillenhelm_read(text: *const u8, text_length: usize, image: *mut u8, image_room: usize) -> Outcome;
        pub fn grillenhelm_append(
            chunk: *const u8,
            chunk_length: usize,
            store: *mut u8,
            store_length: usize,
            count: *mut usize,
        ) -> Outcome;
        pub fn grillenhelm_finish(
            store: *const u8,
            store_length: usize,
            count: *mut usize,
            image: *mut u8,
            image_room: usize,
        ) -> Outcome;
        pub fn grillenhelm_check(image: *const u8, image_length: usize) -> Outcome;
        pub fn grillenhelm_list(image: *const u8, image_length: usize, text: *mut u8, text_room: usize) -> Outcome;
        pub fn grillenhelm_fresh(image: *const u8, image_length: usize) -> Fresh;
        pub fn grillenhelm_evaluate(
            image: *const u8,
            image_length: usize,
            readings: Readings,
            held: Held,
        ) -> Evaluation;
    }
}

// The slices are lent for the time of the call, and the borrow checker keeps the written ones apart from the others.
pub fn read(text: &[u8], image: &mut [u8]) -> Outcome {
    unsafe { raw::grillenhelm_read(text.as_ptr(), text.len(), image.as_mut_ptr(), image.len()) }
}

pub fn read_in_chunks(text: &[u8], size: usize, store: &mut [u8], image: &mut [u8]) -> Outcome {
    let mut count = 0;
    for chunk in text.chunks(size) {
        unsafe { raw::grillenhelm_append(chunk.as_ptr(), chunk.len(), store.as_mut_ptr(), store.len(), &mut count) };
    }
    unsafe { raw::grillenhelm_finish(store.as_ptr(), store.len(), &mut count, image.as_mut_ptr(), image.len()) }
}

pub fn check(image: &[u8]) -> Outcome {
    unsafe { raw::grillenhelm_check(image.as_ptr(), image.len()) }
}

pub fn list(image: &[u8], text: &mut [u8]) -> Outcome {
    unsafe { raw::grillenhelm_list(image.as_ptr(), image.len(), text.as_mut_ptr(), text.len()) }
}

pub fn fresh(image: &[u8]) -> Fresh {
    unsafe { raw::grillenhelm_fresh(image.as_ptr(), image.len()) }
}

pub fn evaluate(image: &[u8], readings: &Readings, held: Held) -> Evaluation {
    unsafe { raw::grillenhelm_evaluate(image.as_ptr(), image.len(), *readings, held) }
}
