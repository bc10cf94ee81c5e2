//! A work on a pool beside a reference.

use crate::buffers::Buffers;
use crate::timing::Times;
use goramul::Store;
use std::fmt;

pub type Work = fn(&mut Store, &mut Buffers);

pub struct Case {
    name: &'static str,
    pool: Store,
    /// The tables before the work.
    before: Store,
    work: Work,
    reference: (&'static str, Work),
    /// The most that the work should take of the reference.
    goal: Option<f64>,
    times: [Times; 2],
}

impl Case {
    pub fn new(
        name: &'static str,
        pool: &Store,
        work: Work,
        reference: (&'static str, Work),
        goal: Option<f64>,
    ) -> Case {
        Case {
            name,
            pool: pool.clone(),
            before: Store {
                memory: Vec::new(),
                ..pool.clone()
            },
            work,
            reference,
            goal,
            times: Default::default(),
        }
    }

    /// Both once untimed, which warms the caches, and once timed.
    pub fn round(&mut self, buffers: &mut Buffers) {
        let Case {
            pool,
            before,
            work,
            reference,
            times,
            ..
        } = self;
        reset(pool, before);
        work(pool, buffers);
        reset(pool, before);
        times[0].add(1, || work(pool, buffers));
        reset(pool, before);
        reference.1(pool, buffers);
        times[1].add(1, || reference.1(pool, buffers));
    }
}

/// The tables as they were; the bytes of the memory don't matter.
fn reset(pool: &mut Store, before: &Store) {
    pool.nodes.copy_from_slice(&before.nodes);
    pool.pages.copy_from_slice(&before.pages);
    pool.used.copy_from_slice(&before.used);
    pool.mappings.copy_from_slice(&before.mappings);
    pool.head.copy_from_slice(&before.head);
}

pub fn header() -> String {
    let quartiles = "quartiles, µs";
    format!(
        "{:<39} ratio  goal  {quartiles:>23}  {:<18} {quartiles:>23}",
        "", "beside"
    )
}

impl fmt::Display for Case {
    fn fmt(&self, f: &mut fmt::Formatter<'_>) -> fmt::Result {
        let (name, beside) = (self.name, self.reference.0);
        let [work, reference] = &self.times;
        let ratio = work.ratio(reference);
        let goal = self.goal.map_or(String::new(), |goal| goal.to_string());
        write!(
            f,
            "{name:<39} {ratio:>5.2} {goal:>5}  {work}  {beside:<18} {reference}"
        )
    }
}
