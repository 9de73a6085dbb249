// Enumerates the device of the field notes, and tries what is refused.
use mast::{Ran, Refusal, ENTRY, EVENT, RECORD, STATE};

const PAN: [u8; 6] = [0x50, 0, 0x61, 0, 0x6e, 0];

// Notes 4 and 5: vendor 1234h, product 0138h, an interface of class FF, endpoint 81h bulk 64, 100 mA, "Pan" for strings 1 and 2.
fn pan() -> [u8; RECORD] {
    let mut r = [0; RECORD];
    r[..17].copy_from_slice(&[8, 0, 0, 0, 0x34, 0x12, 0x38, 1, 0, 1, 50, 0, 0, 0, 1, 1, 1]);
    r[17] = 0xff;
    r[29..34].copy_from_slice(&[0x81, 0, 64, 0, 0]);
    r[69..71].copy_from_slice(&[0x09, 0x04]);
    r[77..79].copy_from_slice(&[4, 4]);
    r[89..95].copy_from_slice(&PAN);
    r[151..157].copy_from_slice(&PAN);
    r
}

fn built() -> [u8; STATE] {
    let mut state = [0; STATE];
    assert_eq!(mast::build(&pan(), 0, &mut state), Ok(()));
    assert_eq!(state[..RECORD], pan());
    state
}

// An event record of data: the place of the mask that names endpoint 0, and the packet.
fn event(mask: usize, packet: &[u8]) -> [u8; EVENT] {
    let mut e = [0; EVENT];
    e[0] = 4;
    e[3] = packet.len() as u8;
    e[mask] = 1;
    e[16..16 + packet.len()].copy_from_slice(packet);
    e
}

fn out(packet: &[u8]) -> [u8; EVENT] {
    event(4, packet)
}

fn taken() -> [u8; EVENT] {
    event(6, &[])
}

fn setup(packet: [u8; 8]) -> [u8; EVENT] {
    event(8, &packet)
}

// Runs the events, and gives their trace entries.
fn run(state: &mut [u8], events: &[[u8; EVENT]]) -> Vec<Vec<u8>> {
    let mut trace = vec![0; ENTRY * events.len()];
    let ran = mast::run(state, &[], &events.concat(), &mut trace);
    assert_eq!(ran, Ran { count: events.len(), refusal: None });
    trace.chunks(ENTRY).map(|e| e.to_vec()).collect()
}

// The actions of an entry, without the empty slots.
fn actions(entry: &[u8]) -> Vec<(u8, u8)> {
    entry[8..18].chunks(2).map(|a| (a[0], a[1])).filter(|a| a.0 != 0).collect()
}

#[test]
fn size() {
    assert_eq!(mast::size(), STATE);
}

#[test]
fn enumerates() {
    let mut state = built();
    let mut reset = [0; EVENT];
    reset[0] = 1;
    let trace = run(
        &mut state,
        &[
            reset,
            setup([0x80, 6, 0, 1, 0, 0, 64, 0]),
            taken(),
            taken(),
            taken(),
            out(&[]),
            setup([0, 5, 5, 0, 0, 0, 0, 0]),
            taken(),
            setup([0, 9, 1, 0, 0, 0, 0, 0]),
            taken(),
        ],
    );
    assert_eq!(actions(&trace[0]), [(3, 0)]);
    // note 4, in packets of 8, 8 and 2
    let bytes = [0x12, 1, 0, 2, 0, 0, 0, 8, 0x34, 0x12, 0x38, 1, 0, 1, 1, 2, 0, 1];
    assert_eq!(actions(&trace[1]), [(4, 0), (5, 0), (11, 8)]);
    assert_eq!(trace[1][18..26], bytes[..8]);
    assert_eq!(trace[2][18..26], bytes[8..16]);
    assert_eq!(actions(&trace[3]), [(11, 2)]);
    assert_eq!(trace[3][18..20], bytes[16..]);
    assert_eq!(actions(&trace[4]), [(4, 0)]);
    // the address, when its status stage completes
    assert_eq!(actions(&trace[6]), [(4, 0), (5, 0), (11, 0)]);
    assert_eq!(actions(&trace[7]), [(10, 5)]);
    let states: Vec<u8> = trace.iter().map(|e| e[0]).collect();
    assert_eq!(states, [0, 0, 0, 0, 0, 0, 0, 1, 2, 2]);
}

#[test]
fn one_by_one_is_all_at_once() {
    let events = [setup([0x80, 6, 0, 2, 0, 0, 255, 0]), taken(), taken(), taken(), taken(), taken(), out(&[])];
    let mut at_once = built();
    let whole = run(&mut at_once, &events);
    let mut state = built();
    let single: Vec<Vec<u8>> = events.iter().map(|e| run(&mut state, &[*e]).remove(0)).collect();
    assert_eq!(whole, single);
    assert_eq!(at_once, state);
}

#[test]
fn hands_out_data() {
    let mut state = built();
    let mut room = [9; 8];
    assert_eq!(mast::data(&state, &mut room), Err(Refusal(7)));
    run(&mut state, &[setup([0x40, 2, 0, 0, 0, 0, 4, 0]), out(&[1, 2, 3, 4, 5, 6, 7, 8])]);
    assert_eq!(mast::data(&state, &mut room[..3]), Err(Refusal(8)));
    assert_eq!(room, [9; 8]);
    assert_eq!(mast::data(&state, &mut room), Ok(4));
    assert_eq!(room, [1, 2, 3, 4, 9, 9, 9, 9]);
}

#[test]
fn sets_the_flag() {
    let mut state = built();
    assert_eq!(mast::set_self_powered(&mut state, true), Ok(()));
    let trace = run(&mut state, &[setup([0x80, 0, 0, 0, 0, 0, 2, 0])]);
    assert_eq!(trace[0][18..20], [1, 0]);
    assert_eq!(mast::set_self_powered(&mut state, false), Ok(()));
    let trace = run(&mut state, &[setup([0x80, 0, 0, 0, 0, 0, 2, 0])]);
    assert_eq!(trace[0][18..20], [0, 0]);
}

#[test]
fn a_refused_call_changes_nothing() {
    let mut state = built();
    let before = state;
    let mut trace = [9; ENTRY];
    let mut stopped = |state: &mut [u8], book: &[u8], events: &[u8], number: u8| {
        let ran = mast::run(state, book, events, &mut trace);
        assert_eq!(ran, Ran { count: 0, refusal: Some(Refusal(number)) });
        assert_eq!(trace, [9; ENTRY]);
    };
    let mut malformed = taken();
    malformed[0] = 5;
    stopped(&mut state, &[0; 16], &taken(), 5);
    stopped(&mut state, &[], &malformed, 10);
    stopped(&mut state, &[], &taken()[1..], 10);
    stopped(&mut state[1..], &[], &taken(), 9);
    assert_eq!(state, before);
    // each byte that is a code, one above its highest
    let kinds = (0..8).map(|i| (30 + 5 * i, 2));
    let flags = [11, 12, 13, 834, 835, 841, 851, 865, 866, 872].map(|at| (at, 2));
    let enums = [(833, 10), (842, 4), (843, 5), (864, 4), (871, 4)];
    for (at, code) in kinds.chain(flags).chain(enums) {
        state[at] = code;
        let bad = state;
        stopped(&mut state, &[], &taken(), 9);
        assert_eq!(mast::data(&state, &mut [0; 8]), Err(Refusal(9)));
        assert_eq!(mast::set_self_powered(&mut state, true), Err(Refusal(9)));
        assert_eq!(state, bad);
        state = before;
    }
    // a state that was never built
    let mut never = [0; STATE];
    stopped(&mut never, &[], &taken(), 9);
    assert_eq!(never, [0; STATE]);
}

#[test]
fn a_refused_record_builds_nothing() {
    let mut state = built();
    let before = state;
    let mut with = |at: usize, value: u8, book: usize, number: u8| {
        let mut r = pan();
        r[at] = value;
        assert_eq!(mast::build(&r, book, &mut state), Err(Refusal(number)));
        assert_eq!(state, before);
    };
    with(0, 9, 0, 1);
    with(10, 251, 0, 2);
    for at in [11, 12, 13, 30, 65] {
        with(at, 2, 0, 2);
    }
    with(77, 33, 0, 3);
    with(0, 8, 15, 4);
    with(0, 8, 65552, 4);
    assert_eq!(mast::build(&pan()[1..], 0, &mut state), Err(Refusal(1)));
    assert_eq!(mast::build(&pan(), 0, &mut state[1..]), Err(Refusal(9)));
    assert_eq!(state, before);
}
