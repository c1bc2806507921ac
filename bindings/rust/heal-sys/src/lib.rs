//! The functions and structs of `bindings/c/heal.h`, which describes each. The crate `heal` has safe types over them.
use std::ffi::c_void;

/// A handle: one word. `EMPTY` holds nothing.
#[repr(C)]
pub struct Handle {
    at: *mut c_void,
}

impl Handle {
    pub const EMPTY: Handle = Handle {
        at: std::ptr::null_mut(),
    };
}

/// Bytes that a call lends. `EMPTY` has none.
#[repr(C)]
#[derive(Clone, Copy)]
pub struct Span {
    pub data: *const u8,
    pub len: usize,
    pub reserved: u64,
}

impl Span {
    pub const EMPTY: Span = Span {
        data: std::ptr::NonNull::dangling().as_ptr(),
        len: 0,
        reserved: 0,
    };
}

#[repr(C)]
#[derive(Clone, Copy, Default)]
pub struct Owner {
    pub node: u32,
    pub serial: u32,
}

#[repr(C)]
#[derive(Clone, Copy, Default)]
pub struct Registration {
    pub owner: Owner,
    pub stamp: u64,
    pub weight: u64,
    pub extra: [u8; 16],
    pub resolver: u32,
    pub program: [u8; 32],
    pub reserved: u32,
}

#[repr(C)]
#[derive(Clone, Copy, Default)]
pub struct Name {
    pub len: u32,
    pub bytes: [u8; 32],
    pub reserved: u32,
}

#[repr(C)]
#[derive(Clone, Copy, Default)]
pub struct Row {
    pub name: Name,
    pub registration: Registration,
    pub reserved: u64,
}

#[repr(C)]
#[derive(Clone, Copy, Default)]
pub struct Facts {
    pub size: u64,
    pub uptime: u64,
    pub reserved: u64,
}

#[repr(C)]
#[derive(Clone, Copy, Default)]
pub struct Ended {
    pub r0: u64,
    pub steps: u32,
    pub reserved: u32,
}

#[repr(C)]
#[derive(Clone, Copy, Default)]
pub struct Clash {
    pub name: Name,
    pub first: Registration,
    pub second: Registration,
    pub word: u64,
    pub verdict: u32,
    pub keeps: u32,
    pub first_half: u32,
    pub notices: u32,
    pub reserved: u64,
}

#[repr(C)]
#[derive(Clone, Copy, Default)]
pub struct Notice {
    pub kind: u32,
    pub to: Owner,
    pub other: Owner,
    pub reserved: u32,
}

#[repr(C)]
#[derive(Clone, Copy, Default)]
pub struct State {
    pub side: u32,
    pub is_open: u32,
    pub has_heard: u32,
    pub has_closed: u32,
    pub has_heard_list: u32,
    pub missing: u32,
    pub has_begun: u32,
    pub reserved: u32,
    pub number: u64,
    pub latest: u64,
    pub missing_clash: u64,
    pub withdrawn: u64,
}

#[repr(C)]
#[derive(Clone, Copy, Default)]
pub struct Head {
    pub kind: u32,
    pub version: u32,
    pub side: u32,
    pub reserved: u32,
    pub number: u64,
    pub seed: u64,
}

#[repr(C)]
#[derive(Clone, Copy, Default)]
pub struct Fault {
    pub number: u32,
    pub place: u32,
    pub at: u64,
    pub reason: u32,
    pub slot: u32,
    pub reserved: u64,
}

#[repr(C)]
#[derive(Clone, Copy, Default)]
pub struct Life {
    pub incarnation: u64,
    pub node: u32,
    pub reserved: u32,
}

#[repr(C)]
#[derive(Clone, Copy, Default)]
pub struct Position {
    pub primary: Life,
    pub view: u64,
    pub op: u64,
    pub reserved: u64,
}

#[repr(C)]
#[derive(Clone, Copy, Default)]
pub struct ReplicaState {
    pub at: Position,
    pub names: u64,
    pub limit: u64,
    pub latest: u64,
    pub has_begun: u32,
    pub is_primary: u32,
    pub reserved: u64,
}

#[repr(C)]
#[derive(Clone, Copy, Default)]
pub struct Front {
    pub kind: u32,
    pub reserved: u32,
    pub size: u64,
}

#[rustfmt::skip]
extern "C" {
    pub fn heal_version() -> u32;
    pub fn heal_program_load(code: *const u8, len: usize, program: *mut Handle, slot: *mut u32) -> u32;
    pub fn heal_program_judge(program: *const Handle, record: *const [u8; 160], ended: *mut Ended) -> u32;
    pub fn heal_program_id(program: *const Handle, id: *mut [u8; 32]) -> u32;
    pub fn heal_program_free(program: *mut Handle);
    pub fn heal_bpf_load(code: *const u8, len: usize, context_len: u32, bpf: *mut Handle, slot: *mut u32) -> u32;
    pub fn heal_bpf_run(bpf: *mut Handle, context: *const u8, len: usize, ended: *mut Ended) -> u32;
    pub fn heal_bpf_free(bpf: *mut Handle);
    pub fn heal_record(name: *const u8, len: usize, first: *const Registration, second: *const Registration, word: u64,
        of_first: *const Facts, of_second: *const Facts, record: *mut [u8; 160]) -> u32;
    pub fn heal_refusal_words(number: u32, words: *mut u8, capacity: usize) -> usize;
    pub fn heal_side_new(id: u32, side: *mut Handle) -> u32;
    pub fn heal_side_new_within(id: u32, names: usize, side: *mut Handle) -> u32;
    pub fn heal_side_free(side: *mut Handle);
    pub fn heal_side_upload(side: *mut Handle, code: *const u8, len: usize, id: *mut [u8; 32], slot: *mut u32) -> u32;
    pub fn heal_side_forget(side: *mut Handle, id: *const [u8; 32]) -> u32;
    pub fn heal_side_program(side: *const Handle, i: usize, id: *mut [u8; 32]) -> u32;
    pub fn heal_side_code(side: *const Handle, id: *const [u8; 32], code: *mut Handle) -> u32;
    pub fn heal_side_register(side: *mut Handle, name: *const u8, len: usize, registration: *const Registration) -> u32;
    pub fn heal_side_unregister(side: *mut Handle, name: *const u8, len: usize) -> u32;
    pub fn heal_side_whereis(side: *const Handle, name: *const u8, len: usize, registration: *mut Registration) -> u32;
    pub fn heal_side_count(side: *const Handle, count: *mut usize) -> u32;
    pub fn heal_side_row(side: *const Handle, i: usize, row: *mut Row) -> u32;
    pub fn heal_side_row_after(side: *const Handle, name: *const u8, len: usize, row: *mut Row) -> u32;
    pub fn heal_side_live(side: *const Handle, i: usize, row: *mut Row) -> u32;
    pub fn heal_side_live_after(side: *const Handle, name: *const u8, len: usize, row: *mut Row) -> u32;
    pub fn heal_side_query(side: *const Handle, state: *mut State) -> u32;
    pub fn heal_side_withdrawn(side: *const Handle, i: usize, name: *mut Name) -> u32;
    pub fn heal_side_begin(side: *mut Handle, number: u64, seed: u64, uptime: u64, offer: *mut Handle) -> u32;
    pub fn heal_side_hear(side: *mut Handle, offer: *const u8, len: usize) -> u32;
    pub fn heal_side_settle(side: *mut Handle) -> u32;
    pub fn heal_side_withdraw(side: *mut Handle, name: *const u8, len: usize) -> u32;
    pub fn heal_side_close_list(side: *mut Handle, list: *mut Handle) -> u32;
    pub fn heal_side_hear_list(side: *mut Handle, list: *const u8, len: usize) -> u32;
    pub fn heal_side_finish(side: *mut Handle, outcome: *mut Handle) -> u32;
    pub fn heal_side_abandon(side: *mut Handle) -> u32;
    pub fn heal_side_events(side: *const Handle, events: *mut usize) -> u32;
    pub fn heal_side_renew(side: *mut Handle) -> u32;
    pub fn heal_side_give_up(side: *mut Handle) -> u32;
    pub fn heal_bytes_len(bytes: *const Handle, len: *mut usize) -> u32;
    pub fn heal_bytes_lend(bytes: *const Handle, span: *mut Span) -> u32;
    pub fn heal_bytes_copy(bytes: *const Handle, to: *mut u8, len: usize) -> u32;
    pub fn heal_bytes_free(bytes: *mut Handle);
    pub fn heal_message_peek(message: *const u8, len: usize, head: *mut Head) -> u32;
    pub fn heal_offer_fault(offer: *const u8, len: usize, fault: *mut Fault) -> u32;
    pub fn heal_list_fault(list: *const u8, len: usize, fault: *mut Fault) -> u32;
    pub fn heal_outcome_number(outcome: *const Handle, number: *mut u64) -> u32;
    pub fn heal_outcome_withdrawn(outcome: *const Handle, half: u32, i: usize, name: *mut Name) -> u32;
    pub fn heal_outcome_merged(outcome: *const Handle, names: *mut usize) -> u32;
    pub fn heal_outcome_clashes(outcome: *const Handle, clashes: *mut usize) -> u32;
    pub fn heal_outcome_clash(outcome: *const Handle, i: usize, clash: *mut Clash) -> u32;
    pub fn heal_outcome_notice(outcome: *const Handle, i: usize, n: usize, notice: *mut Notice) -> u32;
    pub fn heal_outcome_free(outcome: *mut Handle);
    pub fn heal_replica_start(life: *const Life, replica: *mut Handle) -> u32;
    pub fn heal_replica_free(replica: *mut Handle);
    pub fn heal_replica_query(replica: *const Handle, state: *mut ReplicaState) -> u32;
    pub fn heal_replica_register(replica: *mut Handle, name: *const u8, len: usize, registration: *const Registration,
        entry: *mut Handle) -> u32;
    pub fn heal_replica_unregister(replica: *mut Handle, name: *const u8, len: usize, entry: *mut Handle) -> u32;
    pub fn heal_replica_upload(replica: *mut Handle, program: *const Handle, entry: *mut Handle) -> u32;
    pub fn heal_replica_limit(replica: *mut Handle, names: usize, entry: *mut Handle) -> u32;
    pub fn heal_replica_begin(replica: *mut Handle, number: u64, entry: *mut Handle) -> u32;
    pub fn heal_replica_lead(replica: *mut Handle) -> u32;
    pub fn heal_replica_snapshot(replica: *const Handle, snapshot: *mut Handle) -> u32;
    pub fn heal_replica_follow(replica: *mut Handle, snapshot: *const u8, len: usize) -> u32;
    pub fn heal_replica_apply(replica: *mut Handle, entry: *const u8, len: usize) -> u32;
    pub fn heal_replica_whereis(replica: *const Handle, name: *const u8, len: usize, registration: *mut Registration) -> u32;
    pub fn heal_replica_row(replica: *const Handle, i: usize, row: *mut Row) -> u32;
    pub fn heal_replica_row_after(replica: *const Handle, name: *const u8, len: usize, row: *mut Row) -> u32;
    pub fn heal_replica_side(replica: *const Handle, id: u32, side: *mut Handle) -> u32;
    pub fn heal_replica_change(replica: *mut Handle, from: *const Position, side: *const Handle) -> u32;
    pub fn heal_log_front(log: *const u8, len: usize, front: *mut Front) -> u32;
}
