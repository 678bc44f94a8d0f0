//! The library has no state: eight threads that call at once get the answers that one gets.
use crate::asked::{cases, Answer, Cases};
use std::sync::Barrier;
use std::thread;

const THREADS: usize = 8;
const ROUNDS: usize = 5;

/// All cases in turn, from one of them on, and the answers in the order of the cases.
fn answers(cases: &Cases, from: usize) -> Vec<Answer> {
    let count = cases.asked.len();
    let mut found = vec![Answer::default(); count];
    for at in (0..count).map(|k| (from + k) % count) {
        let one = &cases.asked[at];
        let (area, room) = one.lengths();
        found[at] = one.ask(cases.runs[one.over].tables(), &mut vec![0; area], &mut vec![0; room]);
    }
    found
}

#[test]
fn eight_threads_at_once() {
    let cases = cases(35, 250);
    let alone = answers(&cases, 0);
    assert!(alone.iter().any(|answer| answer.number == 0 && answer.words.len() > 4));
    let start = Barrier::new(THREADS);
    thread::scope(|scope| {
        for thread in 0..THREADS {
            let (cases, alone, start) = (&cases, &alone, &start);
            scope.spawn(move || {
                start.wait();
                for round in 0..ROUNDS {
                    // each thread has another case at a time
                    let found = answers(cases, (thread * ROUNDS + round) * cases.asked.len() / (THREADS * ROUNDS));
                    assert!(found == *alone, "thread {thread}, round {round}");
                }
            });
        }
    });
}
