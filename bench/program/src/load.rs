//! Loading two blocks of 16 by 16 bytes, 16 at a time, and nothing but an `or` of
//! each: no SAD that reads both blocks takes less.

#[cfg(target_arch = "aarch64")]
use neon::or_all;
#[cfg(target_arch = "x86_64")]
use sse2::or_all;

/// Both blocks start where the slices do. The answer hangs on every byte.
#[inline]
pub fn load(org: &[u8], reference: &[u8], stride: usize) -> u32 {
    assert!(org.len().min(reference.len()) >= 15 * stride + 16);
    // SAFETY: both slices have 16 rows of 16 bytes, `stride` apart.
    unsafe { or_all([org.as_ptr(), reference.as_ptr()], stride) }
}

#[cfg(target_arch = "x86_64")]
mod sse2 {
    use std::arch::x86_64::{
        _mm_cvtsi128_si32, _mm_loadu_si128, _mm_or_si128, _mm_setzero_si128, _mm_unpackhi_epi64,
    };

    #[inline(always)]
    pub unsafe fn or_all(blocks: [*const u8; 2], stride: usize) -> u32 {
        // SAFETY: every x86-64 processor has SSE2, and the caller's blocks are there.
        unsafe {
            let mut all = _mm_setzero_si128();
            for y in 0..16 {
                for block in blocks {
                    all = _mm_or_si128(all, _mm_loadu_si128(block.add(y * stride).cast()));
                }
            }
            _mm_cvtsi128_si32(_mm_or_si128(all, _mm_unpackhi_epi64(all, all))) as u32
        }
    }
}

#[cfg(target_arch = "aarch64")]
mod neon {
    use std::arch::aarch64::{vdupq_n_u8, vld1q_u8, vmaxvq_u8, vorrq_u8};

    #[inline(always)]
    pub unsafe fn or_all(blocks: [*const u8; 2], stride: usize) -> u32 {
        // SAFETY: every AArch64 processor that Linux runs on has these, and the caller's
        // blocks are there.
        unsafe {
            let mut all = vdupq_n_u8(0);
            for y in 0..16 {
                for block in blocks {
                    all = vorrq_u8(all, vld1q_u8(block.add(y * stride)));
                }
            }
            u32::from(vmaxvq_u8(all))
        }
    }
}
