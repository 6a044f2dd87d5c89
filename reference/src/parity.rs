//! Parities (document 01, "Weights and rows"): p names wires, p(x) is the XOR of the bits of x that p names.

use crate::running::State;

/// p(x): the named bits that are set are counted one by one; the count's oddness is their XOR.
pub fn value(p: u16, x: u16) -> u16 {
    let mut named = p & x;
    let mut count = 0;
    while named != 0 {
        count += named & 1;
        named >>= 1;
    }
    count % 2
}

/// The parity that a wire holds, where `states[x]` is what has become of the basis state x: the one p whose p(x) is
/// the wire's bit for every x. Every candidate is tried, so that two answers would be noticed.
pub fn held(states: &[State], wire: u8) -> u16 {
    let explains = |p: &u16| (0u16..).zip(states).all(|(x, state)| value(*p, x) == state.bit(wire));
    let mut found = (0..states.len() as u16).filter(explains);
    let p = found.next().expect("some parity explains what the wire holds");
    assert_eq!(found.next(), None, "only one parity explains what the wire holds");
    p
}
