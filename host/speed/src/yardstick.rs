//! What the processor can do at the moment, whatever program runs: a shared one gives half of itself or all, and changes within seconds.

use std::arch::asm;
use std::time::Instant;

const LOOPS: u32 = 1_000_000;
const ADDITIONS: u32 = 12;

/// Thousand million additions a second, in six chains that do not wait for each other.
pub fn additions() -> f64 {
    let [mut a, mut b, mut c, mut d, mut e, mut f] = [0u64; 6];
    let start = Instant::now();
    for _ in 0..LOOPS {
        // Twelve instructions that no compiler can put together.
        unsafe {
            asm!(
                "add {a}, 1", "add {b}, 1", "add {c}, 1", "add {d}, 1", "add {e}, 1", "add {f}, 1",
                "add {a}, 1", "add {b}, 1", "add {c}, 1", "add {d}, 1", "add {e}, 1", "add {f}, 1",
                a = inout(reg) a, b = inout(reg) b, c = inout(reg) c, d = inout(reg) d, e = inout(reg) e, f = inout(reg) f,
                options(nomem, nostack)
            );
        }
    }
    f64::from(LOOPS) * f64::from(ADDITIONS) / start.elapsed().as_secs_f64() / 1e9
}
