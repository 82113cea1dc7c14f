//! What other programs leave of the machine: rounds beside them are not to be compared.

use std::thread::sleep;
use std::time::Duration;

const LOOK: Duration = Duration::from_millis(200);

/// Above this part of the processors' time figures say more of the others than of what is measured.
pub const MOST: f64 = 0.15;

/// The part of the processors' time that is used while this program does nothing.
pub fn others() -> f64 {
    let [busy, all] = spent();
    sleep(LOOK);
    let [busy_then, all_then] = spent();
    (busy_then - busy) / (all_then - all).max(1.0)
}

/// Time of all processors since the system's start: busy, and in all. Waiting for a disk is not being busy.
fn spent() -> [f64; 2] {
    const IDLE: [usize; 2] = [3, 4];
    let told = std::fs::read_to_string("/proc/stat").expect("the system's figures");
    let first = told.lines().next().unwrap_or_default();
    let times: Vec<f64> = first.split_whitespace().skip(1).filter_map(|word| word.parse().ok()).collect();
    let all = times.iter().sum::<f64>();
    [all - IDLE.map(|at| times[at]).iter().sum::<f64>(), all]
}
