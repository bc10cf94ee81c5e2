//! Times the sound test, which heads every call, and calls on 64 pages, each beside what the
//! machine needs for the same bytes. All are timed in turn in one run. A ratio is that of the
//! medians; the quartiles tell how far to trust it.

mod buffers;
mod calls;
mod case;
mod sound;
mod timing;

use buffers::Buffers;

const ROUNDS: usize = 10_000;

fn main() {
    let mut buffers = Buffers::default();
    let mut cases: Vec<_> = sound::cases().into_iter().chain(calls::cases()).collect();
    for _ in 0..ROUNDS {
        for case in &mut cases {
            case.round(&mut buffers);
        }
    }
    println!("{}", case::header());
    cases.iter().for_each(|case| println!("{case}"));
    println!("\n{}", calls::NOTE);
}
