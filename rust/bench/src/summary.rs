//! What is said of many times, and of the machine they were taken on.

use std::fs;

#[derive(Clone)]
pub struct Summary {
    pub median: f64,
    pub best: f64,
}

impl Summary {
    pub fn of(mut times: Vec<f64>) -> Self {
        times.sort_by(f64::total_cmp);
        Summary {
            median: times[times.len() / 2],
            best: times[0],
        }
    }
}

pub fn cpu_model() -> String {
    let info = fs::read_to_string("/proc/cpuinfo").unwrap_or_default();
    info.lines()
        .find_map(|line| line.strip_prefix("model name")?.split_once(':'))
        .map_or("unknown CPU".to_string(), |(_, model)| model.trim().to_string())
}
