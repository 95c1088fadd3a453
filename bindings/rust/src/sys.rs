//! The declarations of include/sazhonthil.h.

use std::ffi::c_void;

#[repr(C)]
pub struct Handle {
    live: u32,
    at: *mut c_void,
}

impl Handle {
    pub const NOTHING: Handle = Handle { live: 0, at: std::ptr::null_mut() };
}

extern "C" {
    pub fn sshc_abi() -> u32;
    pub fn sshc_known_hosts_check(
        host: *const u8, host_len: usize, port: u16, known: *const u8, known_len: usize, key: *const u8, key_len: usize, line: *mut u64,
    ) -> u32;
    pub fn sshc_known_hosts_check_openssh(
        host: *const u8, host_len: usize, port: u16, known: *const u8, known_len: usize, key: *const u8, key_len: usize, line: *mut u64,
    ) -> u32;
    pub fn sshc_known_hosts_learn(
        host: *const u8, host_len: usize, port: u16, known: *const u8, known_len: usize, key: *const u8, key_len: usize,
        to: *mut u8, to_len: usize, size: *mut usize,
    ) -> u32;
    pub fn sshc_settings_default(settings: *mut crate::Settings);
    pub fn sshc_session_new(
        session: *mut Handle, settings: *const crate::Settings, host: *const u8, host_len: usize, port: u16, known: *const u8, known_len: usize,
    ) -> u32;
    pub fn sshc_session_take(session: *mut Handle, events: *const u8, events_len: usize, detail: *mut u64) -> u32;
    pub fn sshc_session_record(session: *mut Handle, to: *mut u8, to_len: usize, size: *mut usize) -> u32;
    pub fn sshc_session_free(session: *mut Handle);
    pub fn sshc_agent_new(agent: *mut Handle, asks: u32) -> u32;
    pub fn sshc_agent_asks(agent: *mut Handle, moment: u64, connection: u32, input: u32, frame: *const u8, frame_len: usize, hash: *mut u32) -> u32;
    pub fn sshc_agent_asked(agent: *mut Handle, part: u32, to: *mut u8, to_len: usize, size: *mut usize) -> u32;
    pub fn sshc_agent_take(
        agent: *mut Handle, moment: u64, connection: u32, input: u32, frame: *const u8, frame_len: usize, told: u32,
        signature: *const u8, signature_len: usize, request: *mut u32,
    ) -> u32;
    pub fn sshc_agent_answer(agent: *mut Handle, to: *mut u8, to_len: usize, size: *mut usize) -> u32;
    pub fn sshc_agent_forget(agent: *mut Handle, connection: u32) -> u32;
    pub fn sshc_agent_free(agent: *mut Handle);
}
