// Numbers of f32 that are worked out together: one, or four, which every x86-64 has in one register.

/// Numbers, or answers with all bits set or none.
pub trait Lanes: Copy {
    const COUNT: usize;

    fn all(number: f32) -> Self;

    /// # Safety
    /// COUNT numbers lie there.
    unsafe fn read(from: *const f32) -> Self;

    /// Numbers that lie STEP apart.
    ///
    /// # Safety
    /// COUNT numbers lie there so.
    unsafe fn pick<const STEP: usize>(from: *const f32) -> Self;

    /// # Safety
    /// There is room for COUNT numbers.
    unsafe fn write(self, to: *mut f32);

    /// One number of each of K behind the other, COUNT times.
    ///
    /// # Safety
    /// There is room for K times COUNT numbers.
    unsafe fn write_by_turns<const K: usize>(numbers: &[Self; K], to: *mut f32);

    fn plus(self, other: Self) -> Self;
    fn minus(self, other: Self) -> Self;
    fn times(self, other: Self) -> Self;
    fn over(self, other: Self) -> Self;
    fn highest(self, other: Self) -> Self;
    fn lowest(self, other: Self) -> Self;

    /// Where it is at most the other.
    fn at_most(self, other: Self) -> Self;

    /// Answers where both hold, or numbers where an answer holds and 0 elsewhere.
    fn and(self, other: Self) -> Self;

    /// The answers as bits, the first lowest.
    fn bits(self) -> u32;
}

impl Lanes for f32 {
    const COUNT: usize = 1;

    #[inline(always)]
    fn all(number: f32) -> f32 {
        number
    }

    #[inline(always)]
    unsafe fn read(from: *const f32) -> f32 {
        *from
    }

    #[inline(always)]
    unsafe fn pick<const STEP: usize>(from: *const f32) -> f32 {
        *from
    }

    #[inline(always)]
    unsafe fn write(self, to: *mut f32) {
        *to = self;
    }

    #[inline(always)]
    unsafe fn write_by_turns<const K: usize>(numbers: &[f32; K], to: *mut f32) {
        to.cast::<[f32; K]>().write_unaligned(*numbers);
    }

    #[inline(always)]
    fn plus(self, other: f32) -> f32 {
        self + other
    }

    #[inline(always)]
    fn minus(self, other: f32) -> f32 {
        self - other
    }

    #[inline(always)]
    fn times(self, other: f32) -> f32 {
        self * other
    }

    #[inline(always)]
    fn over(self, other: f32) -> f32 {
        self / other
    }

    #[inline(always)]
    fn highest(self, other: f32) -> f32 {
        if self > other {
            self
        } else {
            other
        }
    }

    #[inline(always)]
    fn lowest(self, other: f32) -> f32 {
        if self < other {
            self
        } else {
            other
        }
    }

    #[inline(always)]
    fn at_most(self, other: f32) -> f32 {
        f32::from_bits(if self <= other { u32::MAX } else { 0 })
    }

    #[inline(always)]
    fn and(self, other: f32) -> f32 {
        f32::from_bits(self.to_bits() & other.to_bits())
    }

    #[inline(always)]
    fn bits(self) -> u32 {
        self.to_bits() >> 31
    }
}

#[cfg(target_arch = "x86_64")]
mod four {
    use std::arch::x86_64::*;

    use super::Lanes;

    #[derive(Clone, Copy)]
    pub struct Four(__m128);

    // Every x86-64 has SSE2.
    impl Lanes for Four {
        const COUNT: usize = 4;

        #[inline(always)]
        fn all(number: f32) -> Four {
            Four(unsafe { _mm_set1_ps(number) })
        }

        #[inline(always)]
        unsafe fn read(from: *const f32) -> Four {
            Four(_mm_loadu_ps(from))
        }

        #[inline(always)]
        unsafe fn pick<const STEP: usize>(from: *const f32) -> Four {
            Four(_mm_setr_ps(*from, *from.add(STEP), *from.add(2 * STEP), *from.add(3 * STEP)))
        }

        #[inline(always)]
        unsafe fn write(self, to: *mut f32) {
            _mm_storeu_ps(to, self.0);
        }

        #[inline(always)]
        unsafe fn write_by_turns<const K: usize>(numbers: &[Four; K], to: *mut f32) {
            for k in (0..K / 4 * 4).step_by(4) {
                let [mut a, mut b, mut c, mut d] = std::array::from_fn(|lane| numbers[k + lane].0);
                _MM_TRANSPOSE4_PS(&mut a, &mut b, &mut c, &mut d);
                for (turn, row) in [a, b, c, d].into_iter().enumerate() {
                    _mm_storeu_ps(to.add(K * turn + k), row);
                }
            }
            for (k, number) in numbers.iter().enumerate().skip(K / 4 * 4) {
                let mut lanes = [0.0; 4];
                number.write(lanes.as_mut_ptr());
                for (turn, lane) in lanes.into_iter().enumerate() {
                    *to.add(K * turn + k) = lane;
                }
            }
        }

        #[inline(always)]
        fn plus(self, other: Four) -> Four {
            Four(unsafe { _mm_add_ps(self.0, other.0) })
        }

        #[inline(always)]
        fn minus(self, other: Four) -> Four {
            Four(unsafe { _mm_sub_ps(self.0, other.0) })
        }

        #[inline(always)]
        fn times(self, other: Four) -> Four {
            Four(unsafe { _mm_mul_ps(self.0, other.0) })
        }

        #[inline(always)]
        fn over(self, other: Four) -> Four {
            Four(unsafe { _mm_div_ps(self.0, other.0) })
        }

        #[inline(always)]
        fn highest(self, other: Four) -> Four {
            Four(unsafe { _mm_max_ps(self.0, other.0) })
        }

        #[inline(always)]
        fn lowest(self, other: Four) -> Four {
            Four(unsafe { _mm_min_ps(self.0, other.0) })
        }

        #[inline(always)]
        fn at_most(self, other: Four) -> Four {
            Four(unsafe { _mm_cmple_ps(self.0, other.0) })
        }

        #[inline(always)]
        fn and(self, other: Four) -> Four {
            Four(unsafe { _mm_and_ps(self.0, other.0) })
        }

        #[inline(always)]
        fn bits(self) -> u32 {
            unsafe { _mm_movemask_ps(self.0) as u32 }
        }
    }
}

#[cfg(not(target_arch = "x86_64"))]
mod four {
    use super::Lanes;

    /// As an array, of which the compiler may make registers again.
    #[derive(Clone, Copy)]
    #[repr(align(16))]
    pub struct Four([f32; 4]);

    impl Four {
        #[inline(always)]
        fn each(self, other: Four, of: impl Fn(f32, f32) -> f32) -> Four {
            Four(std::array::from_fn(|lane| of(self.0[lane], other.0[lane])))
        }
    }

    impl Lanes for Four {
        const COUNT: usize = 4;

        #[inline(always)]
        fn all(number: f32) -> Four {
            Four([number; 4])
        }

        #[inline(always)]
        unsafe fn read(from: *const f32) -> Four {
            Four(from.cast::<[f32; 4]>().read_unaligned())
        }

        #[inline(always)]
        unsafe fn pick<const STEP: usize>(from: *const f32) -> Four {
            Four(std::array::from_fn(|lane| *from.add(STEP * lane)))
        }

        #[inline(always)]
        unsafe fn write(self, to: *mut f32) {
            to.cast::<[f32; 4]>().write_unaligned(self.0);
        }

        #[inline(always)]
        unsafe fn write_by_turns<const K: usize>(numbers: &[Four; K], to: *mut f32) {
            for turn in 0..4 {
                for (k, number) in numbers.iter().enumerate() {
                    *to.add(K * turn + k) = number.0[turn];
                }
            }
        }

        #[inline(always)]
        fn plus(self, other: Four) -> Four {
            self.each(other, Lanes::plus)
        }

        #[inline(always)]
        fn minus(self, other: Four) -> Four {
            self.each(other, Lanes::minus)
        }

        #[inline(always)]
        fn times(self, other: Four) -> Four {
            self.each(other, Lanes::times)
        }

        #[inline(always)]
        fn over(self, other: Four) -> Four {
            self.each(other, Lanes::over)
        }

        #[inline(always)]
        fn highest(self, other: Four) -> Four {
            self.each(other, Lanes::highest)
        }

        #[inline(always)]
        fn lowest(self, other: Four) -> Four {
            self.each(other, Lanes::lowest)
        }

        #[inline(always)]
        fn at_most(self, other: Four) -> Four {
            self.each(other, Lanes::at_most)
        }

        #[inline(always)]
        fn and(self, other: Four) -> Four {
            self.each(other, Lanes::and)
        }

        #[inline(always)]
        fn bits(self) -> u32 {
            (0..4).fold(0, |bits, lane| bits | self.0[lane].bits() << lane)
        }
    }
}

pub use four::Four;
