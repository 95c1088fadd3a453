//! Connections to Debian's sshd, dropbear and asyncssh, which the tests start on the loopback; one that is missing is passed over,
//! and a line says so.

use sazhonthil_ssh::{Accept, Address, Client, Config, Error, ErrorKind};
use std::fs;
use std::io::{Read, Write};
use std::net::{Shutdown, TcpListener, TcpStream};
use std::os::unix::fs::PermissionsExt;
use std::os::unix::process::CommandExt;
use std::path::{Path, PathBuf};
use std::process::{Child, Command, Stdio};
use std::sync::atomic::{AtomicU32, Ordering};
use std::time::{Duration, Instant};

const PASSWORD: &str = "a password of the tests'";

struct Server {
    name: &'static str,
    folder: PathBuf,
    port: u16,
    user: String,
    host_key: String,
    process: Child,
}

fn said(words: &[&str]) -> String {
    let output = Command::new(words[0]).args(&words[1..]).output().unwrap();
    assert!(output.status.success(), "{words:?}: {}", String::from_utf8_lossy(&output.stderr));
    String::from_utf8(output.stdout).unwrap()
}

fn free_port() -> u16 {
    TcpListener::bind(("127.0.0.1", 0)).unwrap().local_addr().unwrap().port()
}

fn until(what: &str, mut done: impl FnMut() -> bool) {
    let end = Instant::now() + Duration::from_secs(20);
    while !done() {
        assert!(Instant::now() < end, "not within 20 s: {what}");
        std::thread::sleep(Duration::from_millis(20));
    }
}

fn is_root() -> bool {
    said(&["id", "-u"]).trim() == "0"
}

impl Server {
    fn start(name: &'static str) -> Option<Server> {
        static COUNT: AtomicU32 = AtomicU32::new(0);
        let folder = std::env::temp_dir().join(format!("sazhonthil-rust-{}-{}", std::process::id(), COUNT.fetch_add(1, Ordering::Relaxed)));
        fs::create_dir_all(folder.join("home/.ssh")).unwrap();
        for path in ["home", "home/.ssh"] {
            fs::set_permissions(folder.join(path), fs::Permissions::from_mode(0o700)).unwrap();
        }
        for (key, phrase) in [("host_ed25519", ""), ("user", ""), ("other", ""), ("sealed", "open sesame")] {
            said(&["ssh-keygen", "-q", "-t", "ed25519", "-N", phrase, "-C", "", "-f", folder.join(key).to_str().unwrap()]);
        }
        let keys = fs::read_to_string(folder.join("user.pub")).unwrap() + &fs::read_to_string(folder.join("sealed.pub")).unwrap();
        for path in ["authorized_keys", "home/.ssh/authorized_keys"] {
            fs::write(folder.join(path), &keys).unwrap();
            fs::set_permissions(folder.join(path), fs::Permissions::from_mode(0o600)).unwrap();
        }
        let (port, user) = (free_port(), said(&["id", "-un"]).trim().to_string());
        let Some(words) = words_of(name, &folder, port, &user) else {
            println!("passed over: {name} isn't here");
            let _ = fs::remove_dir_all(&folder);
            return None;
        };
        let log = fs::File::create(folder.join("log")).unwrap();
        let process = Command::new(&words[0]).args(&words[1..]).stdin(Stdio::null()).stdout(log.try_clone().unwrap()).stderr(log).process_group(0).spawn().unwrap();
        until("the server starts", || TcpStream::connect(("127.0.0.1", port)).is_ok());
        let key = fs::read_to_string(folder.join("host_ed25519.pub")).unwrap();
        let host_key = key.split_whitespace().take(2).collect::<Vec<_>>().join(" ");
        let server = Server { name, folder, port, user, host_key, process };
        server.write("known", &format!("{} {}\n", server.host(), server.host_key));
        Some(server)
    }

    fn host(&self) -> String {
        format!("[localhost]:{}", self.port)
    }

    fn path(&self, name: &str) -> PathBuf {
        self.folder.join(name)
    }

    fn write(&self, name: &str, text: &str) -> PathBuf {
        fs::write(self.path(name), text).unwrap();
        self.path(name)
    }

    fn config(&self) -> Config<'static> {
        Config { user: Some(self.user.clone()), key_files: vec![self.path("user")], known_hosts: Some(vec![self.path("known")]), ..Config::default() }
    }

    fn connect(&self, config: &Config<'_>) -> Result<Client, Error> {
        Client::connect("localhost", self.port, config)
    }

    fn client(&self) -> Client {
        self.connect(&self.config()).unwrap()
    }

    /// Kills it and its connections, which are sessions of their own.
    fn kill_all(&self) {
        let told = said(&["ps", "-e", "-o", "pid=,ppid="]);
        let pairs: Vec<(u32, u32)> =
            told.lines().filter_map(|line| { let mut words = line.split_whitespace().map(|it| it.parse().unwrap()); Some((words.next()?, words.next()?)) }).collect();
        let mut found = vec![self.process.id()];
        for _ in 0..4 {
            let more: Vec<u32> = pairs.iter().filter(|(pid, parent)| found.contains(parent) && !found.contains(pid)).map(|it| it.0).collect();
            found.extend(more);
        }
        for pid in found {
            let _ = Command::new("kill").args(["-KILL", &pid.to_string()]).output();
        }
    }
}

impl Drop for Server {
    fn drop(&mut self) {
        let _ = Command::new("kill").args(["-TERM", "--", &format!("-{}", self.process.id())]).output();
        let _ = self.process.wait();
        let _ = fs::remove_dir_all(&self.folder);
    }
}

fn words_of(name: &str, folder: &Path, port: u16, user: &str) -> Option<Vec<String>> {
    let at = folder.display();
    match name {
        "sshd" => {
            fs::metadata("/usr/sbin/sshd").ok()?;
            if is_root() {
                fs::create_dir_all("/run/sshd").unwrap();
            }
            let config = format!(
                "Port {port}\nListenAddress 127.0.0.1\nHostKey {at}/host_ed25519\nPidFile none\nAuthorizedKeysFile {at}/authorized_keys\nStrictModes no\nUsePAM no\n\
                 PermitRootLogin yes\nPasswordAuthentication no\nKbdInteractiveAuthentication no\nSetEnv HOME={at}/home\nMaxStartups 200\nMaxSessions 200\n"
            );
            fs::write(folder.join("config"), config).unwrap();
            Some(["/usr/sbin/sshd", "-D", "-e", "-f", &format!("{at}/config")].map(String::from).to_vec())
        }
        "dropbear" => {
            fs::metadata("/usr/sbin/dropbear").ok().filter(|_| is_root())?;
            let key = format!("{at}/dropbear");
            said(&["dropbearkey", "-t", "ed25519", "-f", &key]);
            let told = said(&["dropbearkey", "-y", "-f", &key]);
            fs::write(folder.join("host_ed25519.pub"), told.lines().find(|line| line.starts_with("ssh-"))?).unwrap();
            let home = std::env::var("HOME").unwrap();
            let script = format!("mount --bind {at}/home {home} && exec /usr/sbin/dropbear -F -E -p 127.0.0.1:{port} -r {key}");
            Some(["unshare", "-m", "sh", "-c", &script].map(String::from).to_vec())
        }
        _ => {
            let has = Command::new("/usr/bin/python3").args(["-c", "import asyncssh"]).output().ok()?;
            let script = concat!(env!("CARGO_MANIFEST_DIR"), "/../python/tests/asyncssh_server.py");
            has.status.success().then(|| ["/usr/bin/python3", script, &port.to_string(), &at.to_string(), user, PASSWORD].map(String::from).to_vec())
        }
    }
}

/// Runs a test on each of these servers that is here.
fn on(names: &[&'static str], test: impl Fn(&Server)) {
    for name in names {
        if let Some(server) = Server::start(name) {
            println!("on {name}");
            test(&server);
        }
    }
}

const EVERY: &[&str] = &["sshd", "dropbear", "asyncssh"];
const SHELLS: &[&str] = &["sshd", "dropbear"];

fn kind<T>(result: Result<T, Error>) -> ErrorKind {
    result.err().expect("an error").kind
}

fn echoing() -> u16 {
    let listener = TcpListener::bind(("127.0.0.1", 0)).unwrap();
    let port = listener.local_addr().unwrap().port();
    std::thread::spawn(move || {
        for line in listener.incoming().flatten() {
            std::thread::spawn(move || std::io::copy(&mut &line, &mut &line));
        }
    });
    port
}

fn some_bytes(size: usize) -> Vec<u8> {
    let mut state = 88172645463325252u64;
    std::iter::repeat_with(|| {
        state ^= state << 13;
        state ^= state >> 7;
        state ^= state << 17;
        state as u8
    })
    .take(size)
    .collect()
}

fn said_back(port: u16, data: &[u8]) -> Vec<u8> {
    let line = TcpStream::connect(("127.0.0.1", port)).unwrap();
    line.set_read_timeout(Some(Duration::from_secs(20))).unwrap();
    let mut got = Vec::new();
    std::thread::scope(|scope| {
        scope.spawn(|| (&line).write_all(data).and_then(|()| line.shutdown(Shutdown::Write)).unwrap());
        (&line).read_to_end(&mut got).unwrap();
    });
    got
}

// ---- the table

#[test]
fn logins() {
    on(EVERY, |server| {
        assert_eq!(server.client().run("echo well").unwrap().stdout, b"well\n");
        let with = |name: &str, phrase: Option<&'static str>| {
            let passphrase = phrase.map(|it| Box::new(move |_: &Path| Some(it.to_string())) as Box<dyn Fn(&Path) -> Option<String>>);
            server.connect(&Config { key_files: vec![server.path(name)], passphrase, ..server.config() })
        };
        assert!(with("sealed", Some("open sesame")).is_ok());
        assert_eq!(kind(with("sealed", Some("open"))), ErrorKind::Passphrase);
        assert_eq!(kind(with("sealed", None)), ErrorKind::Passphrase);
        let error = with("other", None).unwrap_err();
        assert!(error.kind == ErrorKind::AuthenticationFailed && error.methods.contains("publickey"), "{error:?}");
        assert_eq!(kind(with("nothing", None)), ErrorKind::KeyFile);
    });
}

#[test]
fn passwords() {
    on(&["asyncssh"], |server| {
        for (given, right) in [(PASSWORD, true), ("wrong", false)] {
            let bare = || Config { key_files: vec![], ..server.config() };
            let one = server.connect(&Config { password: Some(given.into()), ..bare() });
            let two = server.connect(&Config { answers: Some(Box::new(|prompts| Some(vec![given.to_string(); prompts.len()]))), ..bare() });
            for result in [one, two] {
                assert_eq!(result.map_err(|it| it.kind).err(), (!right).then_some(ErrorKind::AuthenticationFailed));
            }
        }
        let panics = Config { key_files: vec![], answers: Some(Box::new(|_| panic!("a callback of the test's"))), ..server.config() };
        assert_eq!(kind(server.connect(&panics)), ErrorKind::NoAnswers);
    });
}

#[test]
fn host_keys() {
    on(EVERY, |server| {
        let learned = server.path("learned");
        for (accept, lines) in [(Accept::Refuse, 0), (Accept::Once, 0), (Accept::Learn, 1)] {
            let new_host = Box::new(move |key: &sazhonthil_ssh::HostKey| if key.fingerprint.starts_with("SHA256:") { accept } else { Accept::Refuse });
            let result = server.connect(&Config { known_hosts: Some(vec![learned.clone()]), new_host: Some(new_host), ..server.config() });
            assert_eq!(result.err().map(|it| it.kind), (accept == Accept::Refuse).then_some(ErrorKind::HostUnknown));
            assert_eq!(fs::read_to_string(&learned).unwrap_or_default().lines().count(), lines);
        }
        server.connect(&Config { known_hosts: Some(vec![learned]), ..server.config() }).unwrap();
        let other = fs::read_to_string(server.path("other.pub")).unwrap();
        let changed = server.write("changed", &format!("# a comment\n\n{} {other}", server.host()));
        let revoked = server.write("revoked", &format!("{0} {1}\n@revoked {0} {1}\n", server.host(), server.host_key));
        for (file, wanted, line) in [(changed, ErrorKind::HostChanged, 3), (revoked, ErrorKind::HostRevoked, 2)] {
            let config = Config { known_hosts: Some(vec![file.clone()]), new_host: Some(Box::new(|_| Accept::Learn)), ..server.config() };
            let error = server.connect(&config).unwrap_err();
            assert_eq!((error.kind, error.file.clone(), error.line), (wanted, file.display().to_string(), line));
        }
    });
}

#[test]
fn commands() {
    on(EVERY, |server| {
        let (client, data) = (server.client(), some_bytes(10 << 20));
        assert!(client.run_with("cat", &data).unwrap().stdout == data, "10 MB each way");
        assert_eq!(client.run("exit 7").unwrap().exit.status, Some(7));
        let mut channel = client.exec("cat").unwrap();
        channel.write_all(b"hello").unwrap();
        channel.close_write().unwrap();
        let mut got = String::new();
        channel.read_to_string(&mut got).unwrap();
        assert_eq!((got.as_str(), channel.wait().unwrap().status), ("hello", Some(0)));
        if server.name != "asyncssh" {
            let output = client.run("echo one; echo two >&2; kill -TERM $$").unwrap();
            assert_eq!((output.stdout, output.stderr), (b"one\n".to_vec(), b"two\n".to_vec()));
            assert_eq!((output.exit.status, output.exit.signal.as_deref()), (None, Some("TERM")));
            let slow = client.exec("sleep 30").unwrap();
            assert_eq!(kind(slow.read_for(&mut [0], Duration::from_millis(100))), ErrorKind::TookTooLong);
        }
    });
}

#[test]
fn forwards() {
    on(EVERY, |server| {
        let (client, data, target) = (server.client(), some_bytes(1 << 20), echoing());
        let at = |port| Address::Tcp("127.0.0.1".into(), port);
        let here = client.forward_local(&at(0), &at(target)).unwrap();
        let port = here.port().unwrap();
        assert!(said_back(port, &data) == data, "a local forward");
        here.close();
        here.close();
        assert!(here.port().is_none() && TcpStream::connect(("127.0.0.1", port)).is_err());
        let asked = if server.name == "sshd" { 0 } else { free_port() };
        let there = client.forward_remote(&Address::Tcp("localhost".into(), asked), &at(target)).unwrap();
        let port = there.port().unwrap();
        assert!(said_back(port, &data) == data, "a remote forward");
        drop(there);
        if server.name != "dropbear" {
            until("the server listens no longer", || TcpStream::connect(("127.0.0.1", port)).is_err());
        }
        let channel = client.open_tcp("127.0.0.1", target).unwrap();
        (&channel).write_all(b"through").unwrap();
        let mut got = [0; 7];
        (&channel).read_exact(&mut got).unwrap();
        assert_eq!(&got, b"through");
        assert_eq!(kind(client.open_tcp("127.0.0.1", free_port())), ErrorKind::ChannelRefused);
    });
}

#[test]
fn lost_connections() {
    on(EVERY, |server| {
        let client = server.client();
        let channel = client.exec("cat").unwrap();
        std::thread::scope(|scope| {
            scope.spawn(|| { std::thread::sleep(Duration::from_millis(200)); server.kill_all() });
            assert_eq!(kind(channel.read_for(&mut [0], Duration::from_secs(20))), ErrorKind::ConnectionLost);
        });
        assert!(client.is_over());
        assert_eq!(kind(client.run("echo")), ErrorKind::ConnectionLost);
    });
}

#[test]
fn paused_readers_and_new_keys() {
    on(SHELLS, |server| {
        let client = server.connect(&Config { rekey_bytes: Some(256 << 10), ..server.config() }).unwrap();
        let paused = client.exec("head -c 20000000 /dev/zero").unwrap();
        for _ in 0..5 {
            client.rekey().unwrap();
            assert_eq!(client.run("echo well").unwrap().stdout, b"well\n");
        }
        assert_eq!(std::io::copy(&mut &paused, &mut std::io::sink()).unwrap(), 20_000_000);
        let data = some_bytes(10 << 20);
        assert!(client.run_with("cat", &data).unwrap().stdout == data);
    });
}

#[test]
fn threads() {
    on(&["sshd", "asyncssh"], |server| {
        let client = server.client();
        std::thread::scope(|scope| {
            for n in 0..8 {
                let client = client.clone();
                scope.spawn(move || {
                    for i in 0..20 {
                        assert_eq!(client.run(&format!("echo {n} {i}")).unwrap().stdout, format!("{n} {i}\n").into_bytes());
                    }
                });
            }
        });
    });
}

#[test]
fn closing() {
    on(&["sshd"], |server| {
        let client = server.client();
        let channel = client.exec("cat").unwrap();
        std::thread::scope(|scope| {
            let waiting: Vec<_> = (0..3).map(|_| scope.spawn(|| kind(channel.read_for(&mut [0], Duration::from_secs(20))))).collect();
            std::thread::sleep(Duration::from_millis(100));
            client.close();
            client.close();
            for one in waiting {
                assert_eq!(one.join().unwrap(), ErrorKind::Closed);
            }
        });
        assert!(client.is_over());
        channel.close();
        channel.close();
        for error in [kind(client.run("echo")), kind(client.rekey()), kind(channel.wait()), kind(channel.close_write()), kind(client.open_tcp("localhost", 1))] {
            assert_eq!(error, ErrorKind::Closed);
        }
        let client = server.client();
        let channel = client.exec("cat").unwrap();
        channel.close();
        assert_eq!(kind(channel.wait()), ErrorKind::Closed);
        let kept = client.exec("echo still there").unwrap();
        drop(client);
        let mut got = String::new();
        (&kept).read_to_string(&mut got).unwrap();
        assert_eq!(got, "still there\n");
    });
    assert_eq!(kind(Client::connect("a,b", 22, &Config::default())), ErrorKind::BadName);
    assert_eq!(kind(Client::connect("127.0.0.1", free_port(), &Config { known_hosts: Some(vec![]), ..Config::default() })), ErrorKind::NoConnection);
}

/// The lines of the README run as they stand, but for the host and the key.
#[test]
fn readme() {
    let Ok(text) = fs::read_to_string(concat!(env!("CARGO_MANIFEST_DIR"), "/../README.md")) else { return };
    let block = text.split("```rust\n").skip(1).map(|it| it.split("```").next().unwrap()).find(|it| it.contains("sazhonthil_ssh::Client")).expect("lines in Rust");
    on(&["sshd"], |server| {
        let config = format!(
            "\"localhost\", {}, &sazhonthil_ssh::Config {{ user: Some({:?}.into()), key_files: vec![{:?}.into()], known_hosts: Some(vec![{:?}.into()]), ..Default::default() }}",
            server.port, server.user, server.path("user"), server.path("known")
        );
        let lines = block.replace("\"example.org\", 22, &sazhonthil_ssh::Config::default()", &config);
        fs::create_dir_all(server.path("try/src")).unwrap();
        server.write("try/src/main.rs", &format!("fn main() -> Result<(), Box<dyn std::error::Error>> {{\n{lines}\nOk(())\n}}\n"));
        let here = env!("CARGO_MANIFEST_DIR");
        server.write("try/Cargo.toml", &format!("[package]\nname = \"try\"\nversion = \"0.1.0\"\nedition = \"2021\"\n\n[dependencies]\nsazhonthil_ssh = {{ path = {here:?} }}\n"));
        let library = std::env::var("SAZHONTHIL_SSH_LIB").unwrap_or(format!("{here}/../out/shared"));
        let output = Command::new(env!("CARGO"))
            .args(["run", "--offline", "-q"])
            .current_dir(server.path("try"))
            .env("CARGO_TARGET_DIR", server.path("try/target"))
            .env("LD_LIBRARY_PATH", library)
            .output()
            .unwrap();
        let printed = String::from_utf8_lossy(&output.stdout);
        assert!(printed.starts_with("Linux") && printed.ends_with("a\nb\n"), "{printed}{}", String::from_utf8_lossy(&output.stderr));
    });
}
