//! What calls of a few functions take, told where TRACE=1.

use std::sync::OnceLock;

unsafe extern "C" {
    fn clock() -> i64;
}

/// Processor seconds of this process.
pub fn seconds() -> f64 {
    (unsafe { clock() }) as f64 / 1e6
}

fn is_told() -> bool {
    static TOLD: OnceLock<bool> = OnceLock::new();
    *TOLD.get_or_init(|| std::env::var("TRACE").is_ok_and(|value| value == "1"))
}

/// A call, from its making to its drop.
pub struct Probe(&'static str, f64);

impl Probe {
    pub fn new(name: &'static str) -> Probe {
        Probe(name, if is_told() { seconds() } else { 0.0 })
    }
}

impl Drop for Probe {
    fn drop(&mut self) {
        if is_told() {
            let now = seconds();
            eprintln!("{now:9.3} {} took {:.3}", self.0, now - self.1);
        }
    }
}
