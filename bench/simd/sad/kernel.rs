//! The sum of absolute differences of two blocks of bytes, of any width and of up
//! to 128 rows.

#[cfg(target_arch = "aarch64")]
use neon::{sum8, sum16};
#[cfg(target_arch = "x86_64")]
use sse2::{sum8, sum16};

/// The first sample of a block, and how far on the next row is.
#[derive(Clone, Copy)]
pub struct Rows {
    pub first: *const u8,
    pub stride: usize,
}

impl Rows {
    unsafe fn at(self, x: usize, y: usize) -> *const u8 {
        // SAFETY: the caller's block has a sample there.
        unsafe { self.first.add(y * self.stride + x) }
    }

    unsafe fn from(self, x: usize) -> Rows {
        // SAFETY: as in `at`.
        let first = unsafe { self.at(x, 0) };
        Rows { first, ..self }
    }
}

/// All blocks but those at a frame's edge have one of the first two sizes.
///
/// # Safety
///
/// Both blocks have w by h samples.
#[inline]
pub unsafe fn sad(org: Rows, reference: Rows, w: usize, h: usize) -> u32 {
    debug_assert!(h <= 128);
    // SAFETY: the caller's promise.
    unsafe {
        match (w, h) {
            (16, 16) => strips(org, reference, 16, 16),
            (32, 32) => sad_32(org, reference),
            _ => sad_cropped(org, reference, w, h),
        }
    }
}

#[inline(never)]
unsafe fn sad_32(org: Rows, reference: Rows) -> u32 {
    // SAFETY: the caller's promise.
    unsafe { strips(org, reference, 32, 32) }
}

#[cold]
#[inline(never)]
unsafe fn sad_cropped(org: Rows, reference: Rows, w: usize, h: usize) -> u32 {
    // SAFETY: the caller's promise.
    unsafe { strips(org, reference, w, h) }
}

/// Strips of 16 columns, then one of 8, then the rest sample by sample.
#[inline(always)]
unsafe fn strips(org: Rows, reference: Rows, w: usize, h: usize) -> u32 {
    let (mut sum, mut x) = (0, 0);
    // SAFETY: no strip goes past column w or row h.
    unsafe {
        while x + 16 <= w {
            sum += sum16(org.from(x), reference.from(x), h);
            x += 16;
        }
        if x + 8 <= w {
            sum += sum8(org.from(x), reference.from(x), h);
            x += 8;
        }
        for y in 0..h {
            for x in x..w {
                let (a, b) = (*org.at(x, y), *reference.at(x, y));
                sum += u32::from(a.abs_diff(b));
            }
        }
    }
    sum
}

#[cfg(target_arch = "x86_64")]
mod sse2 {
    use std::arch::x86_64::{
        __m128i, _mm_add_epi64, _mm_cvtsi128_si32, _mm_loadl_epi64, _mm_loadu_si128, _mm_sad_epu8,
        _mm_setzero_si128, _mm_unpackhi_epi64,
    };

    use super::Rows;

    #[inline(always)]
    unsafe fn strip(h: usize, row: impl Fn(usize) -> [__m128i; 2]) -> u32 {
        // SAFETY: every x86-64 processor has SSE2.
        unsafe {
            let mut sums = _mm_setzero_si128();
            for y in 0..h {
                let [a, b] = row(y);
                sums = _mm_add_epi64(sums, _mm_sad_epu8(a, b));
            }
            _mm_cvtsi128_si32(_mm_add_epi64(sums, _mm_unpackhi_epi64(sums, sums))) as u32
        }
    }

    #[inline(always)]
    pub unsafe fn sum16(org: Rows, reference: Rows, h: usize) -> u32 {
        // SAFETY: the caller's blocks have 16 samples in each of h rows.
        unsafe {
            strip(h, |y| {
                [org, reference].map(|rows| _mm_loadu_si128(rows.at(0, y).cast()))
            })
        }
    }

    #[inline(always)]
    pub unsafe fn sum8(org: Rows, reference: Rows, h: usize) -> u32 {
        // SAFETY: as in `sum16`, with 8 samples.
        unsafe {
            strip(h, |y| {
                [org, reference].map(|rows| _mm_loadl_epi64(rows.at(0, y).cast()))
            })
        }
    }
}

/// A lane of 16 bits holds the sum of a column: 255 in each of up to 128 rows.
#[cfg(target_arch = "aarch64")]
mod neon {
    use std::arch::aarch64::{
        vabal_high_u8, vabal_u8, vaddlvq_u16, vdupq_n_u16, vget_low_u8, vld1_u8, vld1q_u8,
    };

    use super::Rows;

    #[inline(always)]
    pub unsafe fn sum16(org: Rows, reference: Rows, h: usize) -> u32 {
        // SAFETY: every AArch64 processor that Linux runs on has these, and the caller's
        // blocks have 16 samples in each of h rows.
        unsafe {
            let (mut low, mut high) = (vdupq_n_u16(0), vdupq_n_u16(0));
            for y in 0..h {
                let (a, b) = (vld1q_u8(org.at(0, y)), vld1q_u8(reference.at(0, y)));
                low = vabal_u8(low, vget_low_u8(a), vget_low_u8(b));
                high = vabal_high_u8(high, a, b);
            }
            vaddlvq_u16(low) + vaddlvq_u16(high)
        }
    }

    #[inline(always)]
    pub unsafe fn sum8(org: Rows, reference: Rows, h: usize) -> u32 {
        // SAFETY: as in `sum16`, with 8 samples.
        unsafe {
            let mut sums = vdupq_n_u16(0);
            for y in 0..h {
                sums = vabal_u8(sums, vld1_u8(org.at(0, y)), vld1_u8(reference.at(0, y)));
            }
            vaddlvq_u16(sums)
        }
    }
}
