//! The seven operations on the caller's own thread, which has to have stack enough.

use super::{raw, Code, Record, Refusal, Safe, Side, Widest};

/// What a call returns that is no refusal.
const SUCCESS: usize = 0;

/// The two numbers of a successful call, or its refusal.
fn answer(call: impl FnOnce(*mut usize, *mut usize, *mut usize) -> usize) -> Result<(usize, usize), Refusal> {
    let (mut file, mut p, mut q) = (0, 0, 0);
    match call(&mut file, &mut p, &mut q) {
        SUCCESS => Ok((p, q)),
        code => {
            let code = Code::try_from(code).expect("the library returns no other code");
            Err(Refusal { code, file: Side::of_mark(file), p, q })
        }
    }
}

/// See [`super::read`].
///
/// # Safety
/// The thread has [`super::STACK`] bytes of stack left.
pub unsafe fn read(tick_length: usize, text: &[u8]) -> Result<Record, Refusal> {
    let mut numbers = [0; raw::RECORD_ENTRIES];
    answer(|file, p, q| unsafe {
        raw::megzhoi_read(tick_length, text.as_ptr(), text.len(), numbers.as_mut_ptr(), numbers.len(), file, p, q)
    })?;
    Ok(Record::from_numbers(&numbers))
}

/// See [`super::safe_states`].
///
/// # Safety
/// The thread has [`super::STACK`] bytes of stack left.
pub unsafe fn safe_states(tick_length: usize, text: &[u8], keep: &mut [u8]) -> Result<Safe, Refusal> {
    let (count, start) = answer(|file, p, q| unsafe {
        raw::megzhoi_safe_states(tick_length, text.as_ptr(), text.len(), keep.as_mut_ptr(), keep.len(), file, p, q)
    })?;
    Ok(Safe { count, start: start == 1 })
}

/// See [`super::implementation`].
///
/// # Safety
/// The thread has [`super::STACK`] bytes of stack left.
pub unsafe fn implementation(tick_length: usize, text: &[u8]) -> Result<(), Refusal> {
    answer(|file, p, q| unsafe { raw::megzhoi_implementation(tick_length, text.as_ptr(), text.len(), file, p, q) })?;
    Ok(())
}

/// See [`super::search`].
///
/// # Safety
/// The thread has [`super::STACK`] bytes of stack left.
pub unsafe fn search(
    tick_length: usize,
    left: &[u8],
    right: &[u8],
    keep: &mut [u8],
    back: &mut [u32],
    line: &mut [u32],
    run: &mut [u32],
) -> Result<usize, Refusal> {
    let (n, _) = answer(|file, p, q| unsafe {
        raw::megzhoi_search(
            tick_length, left.as_ptr(), left.len(), right.as_ptr(), right.len(), keep.as_mut_ptr(), keep.len(),
            back.as_mut_ptr(), back.len(), line.as_mut_ptr(), line.len(), run.as_mut_ptr(), run.len(), file, p, q,
        )
    })?;
    Ok(n)
}

/// See [`super::check`].
///
/// # Safety
/// The thread has [`super::STACK`] bytes of stack left.
pub unsafe fn check(
    tick_length: usize,
    left: &[u8],
    right: &[u8],
    keep: &mut [u8],
    table: &[u8],
) -> Result<usize, Refusal> {
    let (pairs, _) = answer(|file, p, q| unsafe {
        raw::megzhoi_check(
            tick_length, left.as_ptr(), left.len(), right.as_ptr(), right.len(), keep.as_mut_ptr(), keep.len(),
            table.as_ptr(), table.len(), file, p, q,
        )
    })?;
    Ok(pairs)
}

/// See [`super::widest`].
///
/// # Safety
/// The thread has [`super::STACK`] bytes of stack left.
pub unsafe fn widest(
    tick_length: usize,
    left: &[u8],
    right: &[u8],
    keep: &mut [u8],
    table: &mut [u8],
) -> Result<Widest, Refusal> {
    let (pairs, start) = answer(|file, p, q| unsafe {
        raw::megzhoi_widest(
            tick_length, left.as_ptr(), left.len(), right.as_ptr(), right.len(), keep.as_mut_ptr(), keep.len(),
            table.as_mut_ptr(), table.len(), file, p, q,
        )
    })?;
    Ok(Widest { pairs, start: start == 1 })
}

/// See [`super::join`].
///
/// # Safety
/// The thread has [`super::STACK`] bytes of stack left.
pub unsafe fn join(tick_length: usize, left: &[u8], right: &[u8], out: &mut [u8]) -> Result<usize, Refusal> {
    let (length, _) = answer(|file, p, q| unsafe {
        raw::megzhoi_join(
            tick_length, left.as_ptr(), left.len(), right.as_ptr(), right.len(), out.as_mut_ptr(), out.len(),
            file, p, q,
        )
    })?;
    Ok(length)
}
