//! The declarations of include/sazhonthil_ssh.h that are used here, and of the system.

use std::ffi::{c_char, c_int, c_short, c_ulong, c_void};

pub enum Connection {}
pub enum Channel {}
pub enum Forward {}
pub enum Key {}

#[repr(C)]
pub struct Settings {
    pub size: usize,
    pub ciphers: *const c_char,
    pub host_key_algorithms: *const c_char,
    pub host_key_alias: *const c_char,
    pub family: c_int,
    pub connect_seconds: u32,
    pub exchange_seconds: u32,
    pub keepalive_seconds: u32,
    pub keepalive_max: u32,
    pub rekey_bytes: u64,
    pub rekey_packets: u64,
    pub rekey_seconds: u32,
    pub window: u32,
    pub banner: *const c_void,
    pub own: *mut c_void,
}

#[repr(C)]
pub struct Failure {
    pub code: c_int,
    pub text: *const c_char,
    pub status: u32,
    pub reason: u32,
    pub server_words: *const c_char,
    pub file: *const c_char,
    pub line: u64,
    pub key_type: *const c_char,
    pub fingerprint: *const c_char,
    pub system: c_int,
}

#[repr(C)]
pub struct HostKey {
    pub kind: *const c_char,
    pub fingerprint: *const c_char,
    pub blob: *const u8,
    pub blob_len: usize,
    pub host: *const c_char,
    pub file: *const c_char,
}

#[repr(C)]
pub struct Prompt {
    pub text: *const c_char,
    pub echo: bool,
}

#[repr(C)]
pub struct Exit {
    pub has_status: bool,
    pub has_signal: bool,
    pub status: u32,
    pub signal: *const c_char,
    pub message: *const c_char,
    pub core_dumped: bool,
}

#[repr(C)]
pub struct End {
    pub host: *const c_char,
    pub port: u16,
    pub path: *const c_char,
}

#[repr(C)]
#[derive(Clone, Copy, PartialEq, Eq)]
pub struct PollFd {
    pub fd: c_int,
    pub events: c_short,
    pub revents: c_short,
}

pub type Passphrase = extern "C" fn(own: *mut c_void, file: *const c_char) -> *mut c_char;
pub type Answers = extern "C" fn(own: *mut c_void, name: *const c_char, instruction: *const c_char, count: usize, prompts: *const Prompt, answers: *mut *mut c_char) -> bool;

extern "C" {
    pub fn sazh_abi() -> u32;
    pub fn sazh_code_text(code: c_int) -> *const c_char;
    pub fn sazh_error_of(it: *const Connection) -> *const Failure;
    pub fn sazh_is_over(it: *const Connection) -> bool;
    pub fn sazh_settings_default(settings: *mut Settings);
    pub fn sazh_new(made: *mut *mut Connection, settings: *const Settings) -> c_int;
    pub fn sazh_free(it: *mut Connection);
    pub fn sazh_hosts_file(it: *mut Connection, path: *const c_char, must_exist: bool) -> c_int;
    pub fn sazh_connect(it: *mut Connection, host: *const c_char, port: u16) -> c_int;
    pub fn sazh_wait_connect(it: *mut Connection) -> c_int;
    pub fn sazh_host_key_of(it: *const Connection) -> HostKey;
    pub fn sazh_host_accept(it: *mut Connection, learn: bool) -> c_int;
    pub fn sazh_login_none(it: *mut Connection, user: *const c_char) -> c_int;
    pub fn sazh_login_password(it: *mut Connection, user: *const c_char, password: *const c_char) -> c_int;
    pub fn sazh_login_prompts(it: *mut Connection, user: *const c_char, answers: Answers, own: *mut c_void) -> c_int;
    pub fn sazh_login_key(it: *mut Connection, user: *const c_char, key: *mut Key) -> c_int;
    pub fn sazh_login_agent(it: *mut Connection, user: *const c_char, socket_path: *const c_char) -> c_int;
    pub fn sazh_wait_login(it: *mut Connection) -> c_int;
    pub fn sazh_methods(it: *const Connection) -> *const c_char;
    pub fn sazh_key_read(made: *mut *mut Key, path: *const c_char, passphrase: Passphrase, own: *mut c_void, why: *mut c_char, why_room: usize) -> c_int;
    pub fn sazh_key_free(key: *mut Key);
    pub fn sazh_open_session(it: *mut Connection, made: *mut *mut Channel) -> c_int;
    pub fn sazh_open_tcp(it: *mut Connection, host: *const c_char, port: u16, made: *mut *mut Channel) -> c_int;
    pub fn sazh_channel_wait(it: *mut Channel) -> c_int;
    pub fn sazh_channel_free(it: *mut Channel);
    pub fn sazh_command(it: *mut Channel, command: *const c_char) -> c_int;
    pub fn sazh_subsystem(it: *mut Channel, name: *const c_char) -> c_int;
    pub fn sazh_signal(it: *mut Channel, name: *const c_char) -> c_int;
    pub fn sazh_read(it: *mut Channel, from: c_int, to: *mut u8, room: usize, got: *mut usize) -> c_int;
    pub fn sazh_write(it: *mut Channel, from: *const u8, count: usize, taken: *mut usize) -> c_int;
    pub fn sazh_write_eof(it: *mut Channel) -> c_int;
    pub fn sazh_wait_exit(it: *mut Channel, to: *mut Exit) -> c_int;
    pub fn sazh_forward_local(it: *mut Connection, here: *const End, there: *const End, made: *mut *mut Forward) -> c_int;
    pub fn sazh_forward_dynamic(it: *mut Connection, here: *const End, made: *mut *mut Forward) -> c_int;
    pub fn sazh_forward_remote(it: *mut Connection, there: *const End, here: *const End, made: *mut *mut Forward) -> c_int;
    pub fn sazh_forward_wait(it: *mut Forward) -> c_int;
    pub fn sazh_forward_port(it: *const Forward) -> u16;
    pub fn sazh_forward_free(it: *mut Forward);
    pub fn sazh_set_blocking(it: *mut Connection, blocking: bool);
    pub fn sazh_step(it: *mut Connection) -> c_int;
    pub fn sazh_changes(it: *const Connection) -> u64;
    pub fn sazh_poll(it: *const Connection, to: *mut PollFd, room: usize) -> usize;
    pub fn sazh_timeout(it: *const Connection) -> c_int;
    pub fn sazh_rekey(it: *mut Connection) -> c_int;

    pub fn poll(all: *mut PollFd, count: c_ulong, milliseconds: c_int) -> c_int;
    pub fn strdup(text: *const c_char) -> *mut c_char;
}
