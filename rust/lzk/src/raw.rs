//! The calls, as include/lzk.h has them.

#[repr(C)]
#[derive(Clone, Copy, Default)]
pub struct Report {
    pub answer: u32,
    pub check: u32,
    pub kind: u32,
    pub line: u32,
    pub offset: u64,
    pub column: u32,
    pub found_count: u32,
    pub needed_count: u32,
    pub found_digest: [u8; 32],
    pub found_sum: [u8; 16],
    pub wanted_sum: [u8; 16],
}

#[repr(C)]
#[derive(Clone, Copy, Default)]
pub struct Outcome {
    pub answer: u32,
    pub kind: u32,
    pub line: u32,
    pub check: u32,
    pub offset: u64,
    pub count: u64,
    pub value: [u8; 16],
}

#[repr(C)]
#[derive(Clone, Copy, Default)]
pub struct Info {
    pub answer: u32,
    pub kind: u32,
    pub offset: u64,
    pub field: u32,
    pub version: u32,
    pub publics: u32,
    pub privates: u32,
    pub layers: u32,
    pub checks: u32,
    pub id: [u8; 32],
}

#[repr(C)]
#[derive(Clone, Copy)]
pub struct Bytes {
    pub start: *const u8,
    pub len: usize,
}

#[repr(C)]
#[derive(Clone, Copy)]
pub struct PolicyGiven {
    pub policy: Bytes,
    pub record: Bytes,
    pub values: Bytes,
    pub secret: Bytes,
    pub path: Bytes,
}

#[repr(C)]
pub struct Desk {
    _opaque: [u8; 0],
}

extern "C" {
    pub fn lzk_version() -> u32;
    pub fn lzk_random_seed(seed: *mut u8) -> u32;
    pub fn lzk_explain(
        c: *const u8,
        cn: usize,
        p: *const u8,
        pn: usize,
        s: *const u8,
        sn: usize,
        w: *const u8,
        wn: usize,
        report: *mut Report,
    ) -> u32;
    pub fn lzk_compile(
        version: u32,
        text: *const u8,
        len: usize,
        room: *mut u8,
        room_len: usize,
        outcome: *mut Outcome,
    ) -> u32;
    pub fn lzk_sha_circuit(
        message_len: u32,
        room: *mut u8,
        room_len: usize,
        outcome: *mut Outcome,
    ) -> u32;
    pub fn lzk_upgrade(
        c: *const u8,
        cn: usize,
        room: *mut u8,
        room_len: usize,
        outcome: *mut Outcome,
    ) -> u32;
    pub fn lzk_circuit_info(c: *const u8, cn: usize, info: *mut Info) -> u32;
    pub fn lzk_eval(
        c: *const u8,
        cn: usize,
        p: *const u8,
        pn: usize,
        q: *const u8,
        qn: usize,
        outcome: *mut Outcome,
    ) -> u32;
    pub fn lzk_prove(
        c: *const u8,
        cn: usize,
        p: *const u8,
        pn: usize,
        q: *const u8,
        qn: usize,
        s: *const u8,
        sn: usize,
        seed: *const u8,
        room: *mut u8,
        room_len: usize,
        outcome: *mut Outcome,
    ) -> u32;
    pub fn lzk_policy_show(
        p: *const u8,
        pn: usize,
        room: *mut u8,
        room_len: usize,
        outcome: *mut Outcome,
    ) -> u32;
    pub fn lzk_policy_circuit(
        p: *const u8,
        pn: usize,
        room: *mut u8,
        room_len: usize,
        outcome: *mut Outcome,
    ) -> u32;
    pub fn lzk_policy_digest(
        p: *const u8,
        pn: usize,
        r: *const u8,
        rn: usize,
        room: *mut u8,
        room_len: usize,
        outcome: *mut Outcome,
    ) -> u32;
    pub fn lzk_policy_inputs(
        given: *const PolicyGiven,
        room: *mut u8,
        room_len: usize,
        outcome: *mut Outcome,
    ) -> u32;
    pub fn lzk_policy_shown(
        given: *const PolicyGiven,
        room: *mut u8,
        room_len: usize,
        outcome: *mut Outcome,
    ) -> u32;
    pub fn lzk_policy_public(
        p: *const u8,
        pn: usize,
        s: *const u8,
        sn: usize,
        room: *mut u8,
        room_len: usize,
        outcome: *mut Outcome,
    ) -> u32;
    pub fn lzk_desk_open(
        desk: *mut *mut Desk,
        c: *const u8,
        cn: usize,
        p: *const u8,
        pn: usize,
        s: *const u8,
        sn: usize,
    ) -> u32;
    pub fn lzk_desk_feed(desk: *mut Desk, bytes: *const u8, len: usize) -> u32;
    pub fn lzk_desk_end(desk: *mut Desk, report: *mut Report) -> u32;
    pub fn lzk_desk_free(desk: *mut Desk);
}
