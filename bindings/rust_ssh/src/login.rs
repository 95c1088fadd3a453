use crate::engine::{Engine, OK};
use crate::error::{text_of, Error, ErrorKind};
use crate::{plain, sys};
use std::cell::RefCell;
use std::ffi::{c_char, c_int, c_void, CString};
use std::panic::{catch_unwind, AssertUnwindSafe};
use std::path::{Path, PathBuf};
use std::sync::Arc;
use std::time::{Duration, Instant};

/// What to do with the key of a host that isn't known.
#[derive(Clone, Copy, Debug, PartialEq, Eq)]
pub enum Accept {
    /// End the connection.
    Refuse,
    /// Go on with the key.
    Once,
    /// Go on, and append a line to the first known hosts file.
    Learn,
}

/// A server's host key.
#[derive(Clone, Debug, PartialEq, Eq)]
pub struct HostKey {
    /// As it stands in the known hosts: host, or \[host\]:port.
    pub host: String,
    /// ssh-ed25519 ..
    pub kind: String,
    /// SHA256:..
    pub fingerprint: String,
    /// The key (RFC 4253, section 6.6).
    pub blob: Vec<u8>,
}

/// A question of the server's.
#[derive(Clone, Debug, PartialEq, Eq)]
pub struct Prompt {
    /// Its text, as it came: show no control characters of it.
    pub text: String,
    /// Whether the answer may be seen as it is typed.
    pub echo: bool,
}

type Decides<'a> = Box<dyn Fn(&HostKey) -> Accept + 'a>;
type GivesPassphrase<'a> = Box<dyn Fn(&Path) -> Option<String> + 'a>;
type GivesAnswers<'a> = Box<dyn Fn(&[Prompt]) -> Option<Vec<String>> + 'a>;

/// How to connect. The default logs in as the user of the variable USER, by the agent of SSH_AUTH_SOCK and the key files of
/// ~/.ssh, to hosts that ~/.ssh/known_hosts and /etc/ssh/ssh_known_hosts have. The functions are called while
/// [`Client::connect`](crate::Client::connect) runs.
#[derive(Default)]
pub struct Config<'a> {
    /// The user's name; `None`: of the variable USER, or LOGNAME.
    pub user: Option<String>,
    /// Files of private keys.
    pub key_files: Vec<PathBuf>,
    /// Gives the passphrase of a key file; it is asked three times at most.
    pub passphrase: Option<GivesPassphrase<'a>>,
    /// The path of an agent's socket.
    pub agent: Option<PathBuf>,
    /// A password.
    pub password: Option<String>,
    /// Answers what the server asks, one text for each prompt. `None` ends the connection.
    pub answers: Option<GivesAnswers<'a>>,
    /// Known hosts files; `None`: the two above.
    pub known_hosts: Option<Vec<PathBuf>>,
    /// Decides on a host that isn't known, which is refused without it. A changed or revoked key is always refused.
    pub new_host: Option<Decides<'a>>,
    /// How long connecting and the first key exchange may take; `None`: 30 seconds.
    pub timeout: Option<Duration>,
    /// How often the server is asked whether it is there; `None`: never.
    pub keepalive: Option<Duration>,
    /// New keys after so many bytes; `None`: the library's own number.
    pub rekey_bytes: Option<u64>,
}

impl Config<'_> {
    fn is_bare(&self) -> bool {
        self.key_files.is_empty() && self.agent.is_none() && self.password.is_none() && self.answers.is_none()
    }
}

fn home(path: &str) -> Option<PathBuf> {
    Some(PathBuf::from(std::env::var_os("HOME")?).join(path))
}

fn path_text(path: &Path) -> Result<CString, Error> {
    plain(path.to_str().ok_or_else(|| Error::new(ErrorKind::Misuse, "a path that isn't UTF-8"))?)
}

fn seconds(of: Duration) -> u32 {
    u32::try_from(of.as_secs() + u64::from(of.subsec_nanos() != 0)).unwrap_or(u32::MAX).max(1)
}

// ---- what the library asks

extern "C" fn give_passphrase(own: *mut c_void, file: *const c_char) -> *mut c_char {
    let asked = unsafe { &*own.cast::<Option<GivesPassphrase<'_>>>() };
    let given = catch_unwind(AssertUnwindSafe(|| asked.as_ref().and_then(|it| it(Path::new(&text_of(file))))));
    match given.ok().flatten().and_then(|text| CString::new(text).ok()) {
        Some(text) => unsafe { sys::strdup(text.as_ptr()) },
        None => std::ptr::null_mut(),
    }
}

extern "C" fn give_answers(
    own: *mut c_void, _: *const c_char, _: *const c_char, count: usize, prompts: *const sys::Prompt, answers: *mut *mut c_char,
) -> bool {
    let asked = unsafe { &*own.cast::<GivesAnswers<'_>>() };
    let prompts: Vec<Prompt> = (0..count).map(|i| unsafe { &*prompts.add(i) }).map(|it| Prompt { text: text_of(it.text), echo: it.echo }).collect();
    let said = catch_unwind(AssertUnwindSafe(|| asked(&prompts))).ok().flatten();
    let texts: Option<Vec<CString>> = said.and_then(|all| all.into_iter().map(|text| CString::new(text).ok()).collect());
    match texts {
        Some(texts) if texts.len() == count => {
            for (i, text) in texts.iter().enumerate() {
                unsafe { *answers.add(i) = sys::strdup(text.as_ptr()) };
            }
            true
        }
        _ => false,
    }
}

struct Key(*mut sys::Key);

impl Drop for Key {
    fn drop(&mut self) {
        unsafe { sys::sazh_key_free(self.0) }
    }
}

fn read_key(path: &Path, config: &Config<'_>) -> Result<Key, Error> {
    let (name, mut made, mut why) = (path_text(path)?, std::ptr::null_mut(), vec![0u8; 1024]);
    let own = std::ptr::from_ref(&config.passphrase).cast_mut().cast();
    let code = unsafe { sys::sazh_key_read(&mut made, name.as_ptr(), give_passphrase, own, why.as_mut_ptr().cast(), why.len()) };
    if code == OK {
        return Ok(Key(made));
    }
    let mut error = Error::of_code(code);
    error.0.text = text_of(why.as_ptr().cast());
    error.0.file = path.display().to_string();
    Err(error)
}

fn read_keys(config: &Config<'_>) -> Result<Vec<Key>, Error> {
    let mut keys = config.key_files.iter().map(|path| read_key(path, config)).collect::<Result<Vec<Key>, Error>>()?;
    if config.is_bare() {
        let usual = [".ssh/id_ed25519", ".ssh/id_ecdsa", ".ssh/id_rsa"];
        keys.extend(usual.iter().filter_map(|name| read_key(&home(name)?, config).ok()));
    }
    Ok(keys)
}

// ---- connecting

pub fn connect(host: &str, port: u16, config: &Config<'_>) -> Result<Arc<Engine>, Error> {
    if unsafe { sys::sazh_abi() } < 0x0001_0001 || unsafe { sys::sazh_abi() } >> 16 != 1 {
        return Err(Error::new(ErrorKind::OtherLibrary, "libsazhonthil_ssh has another interface"));
    }
    let keys = read_keys(config)?;
    let engine = make(config)?;
    let done = add_hosts(&engine, config).and_then(|()| secure(&engine, host, port, config)).and_then(|()| log_in(&engine, config, &keys));
    match done {
        Ok(()) => Ok(engine),
        Err(error) => {
            engine.close();
            Err(error)
        }
    }
}

fn make(config: &Config<'_>) -> Result<Arc<Engine>, Error> {
    let mut settings = std::mem::MaybeUninit::<sys::Settings>::uninit();
    let mut settings = unsafe {
        sys::sazh_settings_default(settings.as_mut_ptr());
        settings.assume_init()
    };
    if settings.size != std::mem::size_of::<sys::Settings>() {
        return Err(Error::new(ErrorKind::OtherLibrary, "libsazhonthil_ssh has other settings"));
    }
    settings.connect_seconds = config.timeout.map_or(settings.connect_seconds, seconds);
    settings.keepalive_seconds = config.keepalive.map_or(0, seconds);
    settings.rekey_bytes = config.rekey_bytes.unwrap_or(0);
    Engine::new(&settings)
}

fn add_hosts(engine: &Engine, config: &Config<'_>) -> Result<(), Error> {
    let usual = || home(".ssh/known_hosts").into_iter().chain([PathBuf::from("/etc/ssh/ssh_known_hosts")]).collect();
    for path in config.known_hosts.clone().unwrap_or_else(usual) {
        let name = path_text(&path)?;
        engine.once(|it| unsafe { sys::sazh_hosts_file(it, name.as_ptr(), false) }, &[])?;
    }
    Ok(())
}

const HOST_UNKNOWN: c_int = 15;

fn secure(engine: &Engine, host: &str, port: u16, config: &Config<'_>) -> Result<(), Error> {
    let name = plain(host)?;
    let deadline = config.timeout.map(|limit| Instant::now() + limit);
    let begin = |it: *mut sys::Connection| unsafe { sys::sazh_connect(it, name.as_ptr(), port) };
    let code = engine.started(begin, |it| unsafe { sys::sazh_wait_connect(it) }, &[HOST_UNKNOWN], deadline)?;
    if code != HOST_UNKNOWN {
        return Ok(());
    }
    let (refusal, key) = {
        let state = engine.lock();
        let it = unsafe { sys::sazh_host_key_of(state.handle) };
        let blob = unsafe { std::slice::from_raw_parts(it.blob, it.blob_len) }.to_vec();
        (state.failure(code), HostKey { host: text_of(it.host), kind: text_of(it.kind), fingerprint: text_of(it.fingerprint), blob })
    };
    match config.new_host.as_ref().map_or(Accept::Refuse, |decides| decides(&key)) {
        Accept::Refuse => Err(refusal),
        accept => engine.once(|it| unsafe { sys::sazh_host_accept(it, accept == Accept::Learn) }, &[]).map(|_| ()),
    }
}

// ---- logging in: the agent, key files, the password, answers

type Begin<'a> = Box<dyn Fn(*mut sys::Connection) -> c_int + 'a>;

struct Login<'a> {
    engine: &'a Engine,
    methods: RefCell<String>,
    /// Why a way wasn't refused by the server, but couldn't be tried.
    other: RefCell<Option<Error>>,
}

impl Login<'_> {
    /// Whether the user is in; else another way may be tried.
    fn is_in(&self, begin: &Begin<'_>) -> Result<bool, Error> {
        const OTHERS: [c_int; 5] = [23, 25, 26, 28, 29]; // denied, no agent, no key, passphrase, signing
        let code = self.engine.started(begin, |it| unsafe { sys::sazh_wait_login(it) }, &OTHERS, None)?;
        if code == OK {
            return Ok(true);
        }
        let state = self.engine.lock();
        if state.handle.is_null() {
            return Err(Error::closed());
        }
        *self.methods.borrow_mut() = state.methods();
        if code != OTHERS[0] {
            self.other.borrow_mut().get_or_insert_with(|| state.failure(code));
        }
        Ok(false)
    }
}

fn log_in(engine: &Engine, config: &Config<'_>, keys: &[Key]) -> Result<(), Error> {
    let named = config.user.clone().or_else(|| std::env::var("USER").ok()).or_else(|| std::env::var("LOGNAME").ok());
    let user = plain(&named.ok_or_else(|| Error::new(ErrorKind::Misuse, "no user is named"))?)?;
    let as_user = user.as_ptr();
    let login = Login { engine, methods: RefCell::new(String::new()), other: RefCell::new(None) };
    if login.is_in(&(Box::new(move |it| unsafe { sys::sazh_login_none(it, as_user) }) as Begin<'_>))? {
        return Ok(());
    }
    let password = config.password.as_deref().map(plain).transpose()?;
    let usual = std::env::var_os("SSH_AUTH_SOCK").filter(|_| config.is_bare()).map(PathBuf::from);
    let agent = config.agent.clone().or(usual).map(|path| path_text(&path)).transpose()?;
    let mut ways: Vec<(&str, Begin<'_>)> = Vec::new();
    if let Some(path) = &agent {
        ways.push(("publickey", Box::new(move |it| unsafe { sys::sazh_login_agent(it, as_user, path.as_ptr()) })));
    }
    for key in keys {
        ways.push(("publickey", Box::new(move |it| unsafe { sys::sazh_login_key(it, as_user, key.0) })));
    }
    if let Some(password) = &password {
        ways.push(("password", Box::new(move |it| unsafe { sys::sazh_login_password(it, as_user, password.as_ptr()) })));
    }
    if let Some(answers) = &config.answers {
        let own = std::ptr::from_ref(answers).cast_mut().cast();
        ways.push(("keyboard-interactive", Box::new(move |it| unsafe { sys::sazh_login_prompts(it, as_user, give_answers, own) })));
    }
    let mut tried = 0;
    loop {
        let at = ways.iter().position(|(method, _)| login.methods.borrow().split(',').any(|it| it == *method));
        let Some(at) = at else { break };
        tried += 1;
        if login.is_in(&ways.remove(at).1)? {
            return Ok(());
        }
    }
    match login.other.take() {
        Some(error) if tried == 1 => Err(error),
        _ => {
            let methods = login.methods.take();
            let mut error = Error::new(ErrorKind::AuthenticationFailed, format!("permission denied ({methods})"));
            error.0.methods = methods;
            Err(error)
        }
    }
}

