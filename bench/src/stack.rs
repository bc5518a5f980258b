//! How many bytes of stack an operation needs: the stack below the caller is filled with one byte before the call, and looked at after it.

use crate::ops::{Op, Run};
use crate::stage::Stage;
use crate::timing;
use std::arch::asm;
use std::hint::black_box;

/// No operation needs as much; what one needs is printed, so a reader sees how far it is from that.
const DEEPEST: usize = 1 << 16;
const FILL: u8 = 0xa5;

/// The bytes below this function's frame that a call alters. Nothing but the call runs between the filling and the looking, and neither loop calls anything.
#[inline(never)]
fn altered(run: Run, stages: &mut [Stage]) -> usize {
    let here: *mut u8;
    // The stack pointer is only read.
    unsafe { asm!("mov {}, rsp", out(reg) here, options(nomem, nostack, preserves_flags)) };
    // The bytes below the stack pointer belong to this thread's stack, which is far longer, and nobody's values stand there.
    (1..=DEEPEST).for_each(|below| unsafe { here.sub(below).write_volatile(FILL) });
    black_box(timing::measured(run, black_box(stages)));
    let kept = (1..=DEEPEST).rev().take_while(|&below| unsafe { here.sub(below).read_volatile() } == FILL).count();
    DEEPEST - kept
}

/// The stack that an operation of the library needs, in whole words of eight bytes, its caller's loop taken off. The deeper of two runs counts, since a call
/// may happen to write the filling.
pub fn needed(op: &Op) -> usize {
    let depth = |run: Run| altered(run, std::slice::from_mut(&mut op.stage.clone()));
    depth(op.product).max(depth(op.product)).saturating_sub(depth(timing::nothing)).next_multiple_of(8)
}
