//! Random calls from arbitrary sound pools, most of which no run from a fresh pool reaches.

use oracle::generate::{Generator, LETTERS};
use oracle::kernel_hal::mem;
use oracle::pool::Code;
use oracle::random::Random;
use oracle::sound;
use oracle::sound_pools::sound_pool;
use oracle::trace::Trace;

#[test]
fn calls_keep_any_sound_pool_sound() {
    let mut random = Random::new(500);
    let mut trace = Trace::default();
    let all_but_start = LETTERS.replace('s', "");
    let mut stopped = 0;
    for pools in 0..4000 {
        let start = sound_pool(&mut random);
        trace.pool_mut().rebuild(&start);
        assert_eq!(sound::broken(trace.pool().state(), &mem::used()), None);
        assert_eq!(trace.pool().state(), &start.state);
        let mut generator = Generator::new(pools, &all_but_start, 64);
        for _ in 0..15 {
            let line = generator.line(trace.pool());
            let answer = trace.call(&line);
            let broken = sound::broken(trace.pool().state(), &mem::used());
            assert_eq!(broken, None, "after {}", String::from_utf8_lossy(&line));
            let set_len_stopped = line[..].starts_with(b"t")
                && answer.is_some_and(|answer| answer.code == Code::Stopped);
            stopped += set_len_stopped as u32;
        }
    }
    assert!(stopped > 0, "set_len was never stopped");
}
