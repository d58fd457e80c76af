//! The library's functions on slices. The unsafe code is in the two macros.

use crate::{REPLY, Refused, Reply, Stepped};

/// Puts the next card at the start of `out`, `STEP_OUT` bytes at most; a refusal leaves `out` untouched.
pub fn step(sheet: &[u8], card: &[u8], event: &[u8], out: &mut [u8]) -> Reply {
    let mut reply = [0; REPLY];
    step_into(sheet, card, event, out, &mut reply);
    Reply::of(reply)
}

/// Puts every pattern that may still come at the start of `out`, ascending, `OUTLOOK_OUT` at most; a refusal
/// leaves `out` untouched.
pub fn outlook(sheet: &[u8], card: &[u8], event: &[u8], out: &mut [u32]) -> Reply {
    let mut reply = [0; REPLY];
    outlook_into(sheet, card, event, out, &mut reply);
    Reply::of(reply)
}

/// Puts the reasons why each status changed or did not at the start of `out`, ascending, `WHY_OUT` at most; a refusal
/// leaves `out` untouched. A reason is `(status * 1000 + line) * 10 + kind`.
pub fn why(sheet: &[u8], card: &[u8], event: &[u8], out: &mut [u32]) -> Reply {
    let mut reply = [0; REPLY];
    why_into(sheet, card, event, out, &mut reply);
    Reply::of(reply)
}

/// The step, its answer or its refusal; with `STEP_OUT` bytes it never tells ROOM.
pub fn try_step<'out>(sheet: &[u8], card: &[u8], event: &[u8], out: &'out mut [u8]) -> Result<Stepped<'out>, Refused> {
    let reply = step(sheet, card, event, out);
    reply.written().map(|count| Stepped { card: &out[..count], tasks: reply.tasks })
}

/// The outlook's patterns, ascending, or its refusal; with `OUTLOOK_OUT` entries it never tells ROOM.
pub fn try_outlook<'out>(
    sheet: &[u8],
    card: &[u8],
    event: &[u8],
    out: &'out mut [u32],
) -> Result<&'out [u32], Refused> {
    outlook(sheet, card, event, out).written().map(|count| &out[..count])
}

/// The reasons, ascending, or the refusal; with `WHY_OUT` entries it never tells ROOM.
pub fn try_why<'out>(sheet: &[u8], card: &[u8], event: &[u8], out: &'out mut [u32]) -> Result<&'out [u32], Refused> {
    why(sheet, card, event, out).written().map(|count| &out[..count])
}

/// Hands the papers and the lent space of a request on, each slice as a pointer and its length.
macro_rules! request {
    ($door:ident, $sheet:ident, $card:ident, $event:ident, $out:ident, $reply:ident) => {
        // SAFETY: each pointer comes from a slice of the length given with it; `out` and `reply` are lent to this call alone.
        unsafe {
            library::$door(
                $sheet.as_ptr(),
                $sheet.len(),
                $card.as_ptr(),
                $card.len(),
                $event.as_ptr(),
                $event.len(),
                $out.as_mut_ptr(),
                $out.len(),
                $reply.as_mut_ptr(),
                $reply.len(),
            )
        }
    };
}

/// The step as the library has it: the five numbers go to the start of `reply`, and the first is returned; 9, and
/// nothing touched, where `reply` is too short.
pub fn step_into(sheet: &[u8], card: &[u8], event: &[u8], out: &mut [u8], reply: &mut [u64]) -> u64 {
    request!(reambodkin_step, sheet, card, event, out, reply)
}

/// The outlook as the library has it, likewise.
pub fn outlook_into(sheet: &[u8], card: &[u8], event: &[u8], out: &mut [u32], reply: &mut [u64]) -> u64 {
    request!(reambodkin_outlook, sheet, card, event, out, reply)
}

/// Why, as the library has it, likewise.
pub fn why_into(sheet: &[u8], card: &[u8], event: &[u8], out: &mut [u32], reply: &mut [u64]) -> u64 {
    request!(reambodkin_why, sheet, card, event, out, reply)
}

/// Hands the input and the lent space of a program's output on, likewise.
#[cfg(feature = "desk")]
macro_rules! output {
    ($door:ident, $input:ident, $out:ident) => {
        // SAFETY: both pointers come from slices of the lengths given with them, and `out` is lent to this call alone.
        unsafe { library::$door($input.as_ptr(), $input.len(), $out.as_mut_ptr(), $out.len()) }
    };
}

/// The length of the desk's output, which stands at the start of `out`; 0, and nothing touched, where `out` has fewer
/// than `DESK_OUT` bytes.
#[cfg(feature = "desk")]
pub fn desk(input: &[u8], out: &mut [u8]) -> usize {
    output!(reambodkin_desk, input, out)
}

/// The length of the clerk's output with the word `why`, which stands at the start of `out`; 0 where there is no reason,
/// and 0, and nothing touched, where `out` has fewer than `CLERK_OUT` bytes.
#[cfg(feature = "desk")]
pub fn clerk_why(input: &[u8], out: &mut [u8]) -> usize {
    output!(reambodkin_clerk_why, input, out)
}

/// Likewise with the word `card`, the next card alone; `CARD_OUT` bytes are needed.
#[cfg(feature = "desk")]
pub fn clerk_card(input: &[u8], out: &mut [u8]) -> usize {
    output!(reambodkin_clerk_card, input, out)
}

/// Likewise with the word `outlook`, what may still come in names; `NAMED_OUT` bytes are needed.
#[cfg(feature = "desk")]
pub fn clerk_outlook(input: &[u8], out: &mut [u8]) -> usize {
    output!(reambodkin_clerk_outlook, input, out)
}

/// Likewise with the word `check`, what a sheet has or why it is refused; `CHECK_OUT` bytes are needed. The whole input
/// is the sheet.
#[cfg(feature = "desk")]
pub fn clerk_check(input: &[u8], out: &mut [u8]) -> usize {
    output!(reambodkin_clerk_check, input, out)
}

/// Likewise with the word `blank`, the card of a sheet with nothing known yet; `CARD_OUT` bytes are needed. The whole
/// input is the sheet.
#[cfg(feature = "desk")]
pub fn clerk_blank(input: &[u8], out: &mut [u8]) -> usize {
    output!(reambodkin_clerk_blank, input, out)
}

mod library {
    unsafe extern "C" {
        pub fn reambodkin_step(
            sheet: *const u8,
            sheet_len: usize,
            card: *const u8,
            card_len: usize,
            event: *const u8,
            event_len: usize,
            out: *mut u8,
            out_len: usize,
            reply: *mut u64,
            reply_len: usize,
        ) -> u64;
        pub fn reambodkin_outlook(
            sheet: *const u8,
            sheet_len: usize,
            card: *const u8,
            card_len: usize,
            event: *const u8,
            event_len: usize,
            out: *mut u32,
            out_len: usize,
            reply: *mut u64,
            reply_len: usize,
        ) -> u64;
        pub fn reambodkin_why(
            sheet: *const u8,
            sheet_len: usize,
            card: *const u8,
            card_len: usize,
            event: *const u8,
            event_len: usize,
            out: *mut u32,
            out_len: usize,
            reply: *mut u64,
            reply_len: usize,
        ) -> u64;
        #[cfg(feature = "desk")]
        pub fn reambodkin_desk(input: *const u8, input_len: usize, out: *mut u8, out_len: usize) -> usize;
        #[cfg(feature = "desk")]
        pub fn reambodkin_clerk_why(input: *const u8, input_len: usize, out: *mut u8, out_len: usize) -> usize;
        #[cfg(feature = "desk")]
        pub fn reambodkin_clerk_card(input: *const u8, input_len: usize, out: *mut u8, out_len: usize) -> usize;
        #[cfg(feature = "desk")]
        pub fn reambodkin_clerk_outlook(input: *const u8, input_len: usize, out: *mut u8, out_len: usize) -> usize;
        #[cfg(feature = "desk")]
        pub fn reambodkin_clerk_check(input: *const u8, input_len: usize, out: *mut u8, out_len: usize) -> usize;
        #[cfg(feature = "desk")]
        pub fn reambodkin_clerk_blank(input: *const u8, input_len: usize, out: *mut u8, out_len: usize) -> usize;
    }
}
