//! The library's C interface (include/phasefold.h), and its answers in the twin's types.

use crate::twin::{Clock, Counts, Folded, Refusal};

#[repr(C)]
struct PfCounts {
    refusal: PfRefusal,
    counts: [u32; 5],
}

#[repr(C)]
struct PfFolded {
    refusal: PfRefusal,
    numbers: [u32; 6],
}

#[repr(C)]
struct PfShown {
    refusal: PfRefusal,
    offset: u32,
    size: u32,
}

#[repr(C)]
struct PfWritten {
    refusal: PfRefusal,
    rows: u32,
}

#[repr(C)]
struct PfTraced {
    refusal: PfRefusal,
    steps: u32,
}

#[repr(C)]
struct PfRefusal {
    number: u32,
    place: u32,
}

extern "C" {
    fn pf_check(file: *const u8, file_len: usize) -> PfRefusal;
    fn pf_count(file: *const u8, file_len: usize) -> PfCounts;
    fn pf_show(file: *const u8, file_len: usize, block: u32) -> PfShown;
    fn pf_sort(
        file: *const u8,
        file_len: usize,
        result: *mut u8,
        result_len: usize,
        work: *mut u8,
        work_len: usize,
    ) -> PfWritten;
    fn pf_import(
        text: *const u8,
        text_len: usize,
        result: *mut u8,
        result_len: usize,
        work: *mut u8,
        work_len: usize,
    ) -> PfWritten;
    fn pf_fold(
        file: *const u8,
        file_len: usize,
        wish: u32,
        result: *mut u8,
        result_len: usize,
        work: *mut u8,
        work_len: usize,
        clocks: *mut Clock,
        clocks_len: usize,
    ) -> PfFolded;
    fn pf_run(
        file: *const u8,
        file_len: usize,
        steps: u32,
        choices: *const u8,
        choices_len: usize,
        inputs: *const u8,
        inputs_len: usize,
        result: *mut u8,
        result_len: usize,
        work: *mut u8,
        work_len: usize,
    ) -> PfRefusal;
    fn pf_trace(
        file: *const u8,
        file_len: usize,
        wish: u32,
        groups: u32,
        phase: u32,
        choices: *const u8,
        choices_len: usize,
        inputs: *const u8,
        inputs_len: usize,
        result: *mut u8,
        result_len: usize,
        work: *mut u8,
        work_len: usize,
        trace: *mut u8,
        trace_len: usize,
    ) -> PfTraced;
}

fn answer<T>(refusal: PfRefusal, success: T) -> Result<T, Refusal> {
    match refusal {
        PfRefusal { number: 0, place: 0 } => Ok(success),
        PfRefusal { number, place } => Err(Refusal { number, place }),
    }
}

pub fn check(file: &[u8]) -> Result<(), Refusal> {
    answer(unsafe { pf_check(file.as_ptr(), file.len()) }, ())
}

pub fn count(file: &[u8]) -> Result<Counts, Refusal> {
    let told = unsafe { pf_count(file.as_ptr(), file.len()) };
    let [nodes, inputs, registers, unknown, outputs] = told.counts;
    answer(told.refusal, Counts { nodes, inputs, registers, unknown, outputs })
}

pub fn show(file: &[u8], block: u32) -> Result<&[u8], Refusal> {
    let told = unsafe { pf_show(file.as_ptr(), file.len(), block) };
    let (offset, size) = (told.offset as usize, told.size as usize);
    answer(told.refusal, &file[offset..offset + size])
}

pub fn sort(file: &[u8], result: &mut [u8], work: &mut [u8]) -> Result<u32, Refusal> {
    let (file_len, result_len, work_len) = (file.len(), result.len(), work.len());
    let (result, work) = (result.as_mut_ptr(), work.as_mut_ptr());
    let told = unsafe { pf_sort(file.as_ptr(), file_len, result, result_len, work, work_len) };
    answer(told.refusal, told.rows)
}

pub fn import(text: &[u8], result: &mut [u8], work: &mut [u8]) -> Result<u32, Refusal> {
    let (text_len, result_len, work_len) = (text.len(), result.len(), work.len());
    let (result, work) = (result.as_mut_ptr(), work.as_mut_ptr());
    let told = unsafe { pf_import(text.as_ptr(), text_len, result, result_len, work, work_len) };
    answer(told.refusal, told.rows)
}

pub fn run(
    file: &[u8],
    steps: u32,
    choices: &[u8],
    inputs: &[u8],
    result: &mut [u8],
    work: &mut [u8],
) -> Result<(), Refusal> {
    let refusal = unsafe {
        pf_run(
            file.as_ptr(),
            file.len(),
            steps,
            choices.as_ptr(),
            choices.len(),
            inputs.as_ptr(),
            inputs.len(),
            result.as_mut_ptr(),
            result.len(),
            work.as_mut_ptr(),
            work.len(),
        )
    };
    answer(refusal, ())
}

pub fn fold(
    file: &[u8],
    wish: u32,
    result: &mut [u8],
    work: &mut [u8],
    clocks: &mut [Clock],
) -> Result<Folded, Refusal> {
    let told = unsafe {
        pf_fold(
            file.as_ptr(),
            file.len(),
            wish,
            result.as_mut_ptr(),
            result.len(),
            work.as_mut_ptr(),
            work.len(),
            clocks.as_mut_ptr(),
            clocks.len(),
        )
    };
    let [stem, cycle, phases, used, before, after] = told.numbers;
    answer(told.refusal, Folded { stem, cycle, phases, used, before, after })
}

pub fn trace(
    file: &[u8],
    wish: u32,
    [groups, phase]: [u32; 2],
    choices: &[u8],
    inputs: &[u8],
    result: &mut [u8],
    work: &mut [u8],
    trace: &mut [u8],
) -> Result<u32, Refusal> {
    let told = unsafe {
        pf_trace(
            file.as_ptr(),
            file.len(),
            wish,
            groups,
            phase,
            choices.as_ptr(),
            choices.len(),
            inputs.as_ptr(),
            inputs.len(),
            result.as_mut_ptr(),
            result.len(),
            work.as_mut_ptr(),
            work.len(),
            trace.as_mut_ptr(),
            trace.len(),
        )
    };
    answer(told.refusal, told.steps)
}
