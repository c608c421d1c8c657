//! The functions of `host/grillenhelm.h`, over slices: what is lent is a slice, so no pointer is null and what is
//! written overlaps with nothing else.

pub const TEXT: usize = 65_536;
pub const IMAGE: usize = 10_200;
pub const LISTING: usize = 31_421;
pub const INPUTS: usize = 8;
pub const OUTPUTS: usize = 6;

/// The number beside a text in chunks that is over.
pub const OVER: usize = TEXT + 1;

#[repr(C)]
#[derive(Clone, Copy, Debug)]
pub struct Outcome {
    pub refusal: u32,
    pub has_place: u32,
    pub place: usize,
    pub length: usize,
}

#[repr(C)]
#[derive(Clone, Copy, Debug, Default)]
pub struct Reading {
    pub kind: u32,
    pub real: f32,
    pub whole: i16,
}

#[repr(C)]
#[derive(Clone, Copy, Debug)]
pub struct Readings {
    pub at: [Reading; INPUTS],
    pub count: usize,
}

#[repr(C)]
#[derive(Clone, Copy, Debug, PartialEq, Eq)]
pub struct Held {
    pub figures: [i32; OUTPUTS],
}

#[repr(C)]
#[derive(Clone, Copy, Debug)]
pub struct Answer {
    pub mark: u32,
    pub thousandths: i32,
    pub sum: u32,
    pub value: f64,
}

#[repr(C)]
#[derive(Clone, Copy, Debug)]
pub struct Fresh {
    pub outcome: Outcome,
    pub held: Held,
}

#[repr(C)]
#[derive(Clone, Copy, Debug)]
pub struct Evaluation {
    pub outcome: Outcome,
    pub answers: [Answer; OUTPUTS],
    pub held: Held,
}

#[repr(C)]
#[derive(Clone, Copy, Debug)]
pub struct Reply {
    pub outcome: Outcome,
    pub answers: [Answer; OUTPUTS],
}

extern "C" {
    fn grillenhelm_read(text: *const u8, text_length: usize, image: *mut u8, image_room: usize) -> Outcome;
    fn grillenhelm_append(
        chunk: *const u8,
        chunk_length: usize,
        store: *mut u8,
        store_length: usize,
        count: *mut usize,
    ) -> Outcome;
    fn grillenhelm_finish(
        store: *const u8,
        store_length: usize,
        count: *mut usize,
        image: *mut u8,
        image_room: usize,
    ) -> Outcome;
    fn grillenhelm_check(image: *const u8, image_length: usize) -> Outcome;
    fn grillenhelm_list(image: *const u8, image_length: usize, text: *mut u8, text_room: usize) -> Outcome;
    fn grillenhelm_fresh(image: *const u8, image_length: usize) -> Fresh;
    fn grillenhelm_evaluate(image: *const u8, image_length: usize, readings: Readings, held: Held) -> Evaluation;
    fn grillenhelm_evaluate_held(image: *const u8, image_length: usize, readings: Readings, held: *mut Held) -> Reply;
}

pub fn read(text: &[u8], image: &mut [u8]) -> Outcome {
    // SAFETY: both slices are alive for the call and apart from each other; any contents are allowed.
    unsafe { grillenhelm_read(text.as_ptr(), text.len(), image.as_mut_ptr(), image.len()) }
}

pub fn append(chunk: &[u8], store: &mut [u8], count: &mut usize) -> Outcome {
    // SAFETY: the slices and the number are alive for the call and apart from each other; any contents are allowed.
    unsafe { grillenhelm_append(chunk.as_ptr(), chunk.len(), store.as_mut_ptr(), store.len(), count) }
}

pub fn finish(store: &[u8], count: &mut usize, image: &mut [u8]) -> Outcome {
    // SAFETY: the slices and the number are alive for the call and apart from each other; any contents are allowed.
    unsafe { grillenhelm_finish(store.as_ptr(), store.len(), count, image.as_mut_ptr(), image.len()) }
}

pub fn check(image: &[u8]) -> Outcome {
    // SAFETY: the slice is alive for the call; any contents are allowed.
    unsafe { grillenhelm_check(image.as_ptr(), image.len()) }
}

pub fn list(image: &[u8], text: &mut [u8]) -> Outcome {
    // SAFETY: both slices are alive for the call and apart from each other; any contents are allowed.
    unsafe { grillenhelm_list(image.as_ptr(), image.len(), text.as_mut_ptr(), text.len()) }
}

pub fn fresh(image: &[u8]) -> Fresh {
    // SAFETY: the slice is alive for the call; any contents are allowed.
    unsafe { grillenhelm_fresh(image.as_ptr(), image.len()) }
}

pub fn evaluate(image: &[u8], readings: Readings, held: Held) -> Evaluation {
    // SAFETY: the slice is alive for the call; any contents and values are allowed.
    unsafe { grillenhelm_evaluate(image.as_ptr(), image.len(), readings, held) }
}

pub fn evaluate_held(image: &[u8], readings: Readings, held: &mut Held) -> Reply {
    // SAFETY: the slice and the record are alive for the call and apart from each other; any values are allowed.
    unsafe { grillenhelm_evaluate_held(image.as_ptr(), image.len(), readings, held) }
}
