//! How much stack a call uses: it runs on memory that was painted before.

use std::arch::asm;

/// More than any call needs that is measured here. Of a call that needs as much, nothing would be known.
const BYTES: usize = 1 << 20;

/// What the memory is painted with; as long as a stack is aligned.
const PAINT: u128 = 0x5eed_face_5eed_face_5eed_face_5eed_face;

const STEP: usize = size_of::<u128>();

/// How many bytes of stack the call uses at most, rounded up to 16. The program ends if the call panics.
///
/// # Panics
///
/// Where the call used all of the memory.
pub fn used<F: FnMut()>(mut call: F) -> usize {
    let mut stack = vec![PAINT; BYTES / STEP];
    let top = stack.as_mut_ptr_range().end;
    // SAFETY: stacks grow downwards on x86-64, so that the call has the painted memory below `top`, which is aligned by
    // 16. `enter` gets a pointer to the call, returns, and unwinds never. r12 is kept by what is called.
    unsafe {
        asm!(
            "mov r12, rsp",
            "mov rsp, {top}",
            "call {enter}",
            "mov rsp, r12",
            top = in(reg) top,
            enter = sym enter::<F>,
            in("rdi") &raw mut call,
            out("r12") _,
            clobber_abi("C"),
        );
    }
    let untouched = stack.iter().take_while(|&&cell| cell == PAINT).count();
    assert_ne!(untouched, 0, "the call used more stack than it had");
    BYTES - STEP * untouched
}

/// The first function on the painted stack.
extern "C" fn enter<F: FnMut()>(call: &mut F) {
    call();
}

#[cfg(test)]
mod tests {
    use super::used;
    use std::hint::black_box;

    #[test]
    fn of_calls_that_use_some() {
        let some = used(|| {
            black_box([1_u8; 10_000]);
        });
        assert!((10_000..31_000).contains(&some), "{some}");
        let mut sum = 0;
        let little = used(|| sum += 1);
        assert!((8..1_000).contains(&little), "{little}");
        assert_eq!(sum, 1);
    }
}
