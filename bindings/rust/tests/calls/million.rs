//! A million calls in one process, each answer compared.
use crate::asked::cases;
use std::time::Instant;

const CALLS: usize = 1_000_000;

#[test]
fn a_million_calls() {
    let cases = cases(34, 250);
    let (mut area, mut room) = (vec![], vec![]);
    let began = Instant::now();
    let mut counted = std::collections::BTreeMap::new();
    // another case at each call: the step has no factor in common with their number
    let step = (cases.asked.len() / 3..).find(|step| gcd(*step, cases.asked.len()) == 1).expect("a step");
    for call in 0..CALLS {
        let one = &cases.asked[call * step % cases.asked.len()];
        let (words, bytes) = one.lengths();
        area.resize(words, 0);
        room.resize(bytes, 0);
        let fault = one.fault(cases.runs[one.over].tables(), &mut area, &mut room);
        assert!(fault.is_none(), "call {call}: {fault:?}");
        *counted.entry(one.name()).or_insert(0usize) += 1;
    }
    assert_eq!(counted.values().sum::<usize>(), CALLS);
    assert!(counted.len() == 4 && counted.values().all(|count| *count > CALLS / 5), "{counted:?}");
    println!("note: {CALLS} calls {counted:?} in {:.1} s", began.elapsed().as_secs_f64());
}

fn gcd(a: usize, b: usize) -> usize {
    if b == 0 {
        a
    } else {
        gcd(b, a % b)
    }
}
