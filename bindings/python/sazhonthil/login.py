"""Connecting and logging in: what is asked for (Options), the server's key, and one method of logging in after another."""
from __future__ import annotations

import ctypes as c
import getpass
import math
import os
import socket
from dataclasses import dataclass, field
from enum import Enum
from typing import Any, Awaitable, Callable, Dict, Iterator, List, Optional, Sequence, Set, Tuple, Union

from . import errors, native
from .channels import port_of
from .engine import Attempt, Engine, Waits, deadline_in, plain, text_of
from .errors import AuthenticationFailed, Code, Details, KeyFileError

Path = Union[str, "os.PathLike[str]"]
Passphrase = Union[str, bytes, Callable[[str], Optional[str]], None]

DEFAULT_KEYS = ("~/.ssh/id_ed25519", "~/.ssh/id_ecdsa", "~/.ssh/id_rsa")
DEFAULT_KNOWN_HOSTS = ("~/.ssh/known_hosts", "/etc/ssh/ssh_known_hosts")


class Accept(Enum):
    """What to do with the key of a host that isn't known."""

    REFUSE = "refuse"
    ONCE = "once"
    LEARN = "learn"


@dataclass(frozen=True)
class HostKey:
    """A server's host key."""

    host: str  # as it stands in the known hosts: host, or [host]:port
    type: str
    fingerprint: str  # SHA256:..
    blob: bytes  # RFC 4253, section 6.6
    file: str  # the known hosts file that is learned to, or ""


@dataclass(frozen=True)
class Question:
    """A question of the server's, and whether the answer may be shown as it is typed."""

    text: str
    echo: bool


@dataclass(frozen=True)
class Challenge:
    """What the server asks of a user (RFC 4256); there may be no question in it."""

    name: str
    instruction: str
    questions: Tuple[Question, ...]


Decide = Callable[[HostKey], Union[Accept, Awaitable[Accept]]]
Answers = Callable[[Challenge], Sequence[str]]


@dataclass
class Options:
    """Where to connect to, and how; `connect` says what each is."""

    host: str
    port: int = 22
    user: Optional[str] = None
    password: Optional[str] = field(default=None, repr=False)
    key: Union[Path, Sequence[Path], None] = None
    passphrase: Passphrase = field(default=None, repr=False)
    agent: Union[bool, Path, None] = None
    answers: Optional[Answers] = None
    known_hosts: Union[Path, Sequence[Path], None] = None
    new_host: Union[Accept, Decide] = Accept.REFUSE
    host_alias: Optional[str] = None
    timeout: Optional[float] = 30
    login_timeout: Optional[float] = 120
    keepalive: int = 0
    keepalive_max: int = 3
    rekey_bytes: int = 0
    rekey_seconds: int = 0
    window: int = 0
    ciphers: Optional[str] = None
    host_key_algorithms: Optional[str] = None
    banner: Optional[Callable[[str], None]] = None
    sock: Optional[socket.socket] = None


def _paths(given: Union[Path, Sequence[Path]]) -> List[str]:
    all_of = [given] if isinstance(given, (str, os.PathLike)) else list(given)
    return [os.path.expanduser(os.fspath(path)) for path in all_of]


def _seconds(given: Optional[float]) -> int:
    return 0 if given is None else max(1, math.ceil(given))


def _settings(options: Options) -> native.Settings:
    lib, it = native.load(), native.Settings()
    lib.sazh_settings_default(c.byref(it))
    if it.size != c.sizeof(it):
        raise errors.LibraryMissing(f"the library's settings have {it.size} bytes, and not {c.sizeof(it)}")
    texts = {"ciphers": options.ciphers, "host_key_algorithms": options.host_key_algorithms, "host_key_alias": options.host_alias}
    for name, text in texts.items():
        if text is not None:
            setattr(it, name, plain(text))
    it.connect_seconds = _seconds(options.timeout)
    it.keepalive_seconds, it.keepalive_max = options.keepalive, options.keepalive_max
    it.rekey_bytes, it.rekey_seconds = options.rekey_bytes, options.rekey_seconds
    if options.window:
        it.window = options.window
    return it


def make_engine(options: Options, waits: Waits, jump: Optional[Engine] = None) -> Engine:
    """An engine that isn't connected."""
    try:
        engine = _made(options, waits, jump)
    except BaseException:
        waits.end()
        raise
    try:
        _add_known_hosts(engine, options)
    except BaseException:
        engine.close()
        raise
    return engine


def _made(options: Options, waits: Waits, jump: Optional[Engine]) -> Engine:
    port_of(options.port)
    settings, show = _settings(options), options.banner
    made: List[Engine] = []

    def banner(_: int, at: int, size: int) -> None:
        try:
            if show is not None:
                show(c.string_at(at, size).decode("utf-8", "replace"))
        except BaseException as why:
            made[0].failure = why

    call = native.BANNER(banner)
    if show is not None:
        settings.banner = c.cast(call, native.Pointer)
    made.append(Engine(settings, waits, jump))
    made[0].kept.append(call)
    return made[0]


def _add_known_hosts(engine: Engine, options: Options) -> None:
    named = options.known_hosts
    for path in _paths(DEFAULT_KNOWN_HOSTS if named is None else named):
        given = plain(path)
        engine.once(lambda: engine.lib.sazh_hosts_file(engine.handle, given, False))


# ---- the host


def _host_key(engine: Engine) -> HostKey:
    with engine.guard:
        engine.check()
        it = engine.lib.sazh_host_key_of(engine.handle)
        blob = c.string_at(it.blob, it.blob_len)
        return HostKey(text_of(it.host), text_of(it.type), text_of(it.fingerprint), blob, text_of(it.file))


async def secure(engine: Engine, options: Options, begin: Attempt) -> None:
    """Connects, and returns once the server has shown to be the host."""
    engine.host = options.host if options.port == 22 else f"[{options.host}]:{options.port}"
    lib, deadline = engine.lib, deadline_in(options.timeout)
    unknown = (Code.HOST_UNKNOWN,)
    code = await engine.started(begin, lambda: lib.sazh_wait_connect(engine.handle), deadline, unknown)
    if code is not Code.HOST_UNKNOWN:
        return
    with engine.guard:
        engine.check()
        refusal = engine.error(code)
    decided = options.new_host if isinstance(options.new_host, Accept) else options.new_host(_host_key(engine))
    decision = decided if isinstance(decided, Accept) else await decided
    if decision is Accept.REFUSE:
        raise refusal
    learns = decision is Accept.LEARN
    if learns and options.known_hosts is None:
        os.makedirs(os.path.expanduser("~/.ssh"), mode=0o700, exist_ok=True)
    engine.once(lambda: lib.sazh_host_accept(engine.handle, learns))


# ---- the user


class Key:
    """A private key of a file."""

    def __init__(self, path: str, passphrase: Passphrase) -> None:
        self.lib, self.path = native.load(), path
        self.failure: Optional[BaseException] = None
        self._passphrase, self._asked = passphrase, 0
        self._callback = native.PASSPHRASE(self._give)
        self.handle: Optional[int] = None
        made, why = native.Pointer(), c.create_string_buffer(1024)
        code = Code(self.lib.sazh_key_read(c.byref(made), plain(path), self._callback, None, why, len(why)))
        if self.failure is not None:
            raise self.failure
        if code is not Code.OK:
            raise errors.of(text_of(why.value), Details(code, file=path))
        self.handle = made.value

    def _give(self, _: int, file: Optional[bytes]) -> Optional[int]:
        """The passphrase, once, or whatever is answered to each of three questions."""
        try:
            self._asked += 1
            given = self._passphrase
            if callable(given):
                given = given(text_of(file))
            elif self._asked > 1:
                given = None
            if given is None:
                return None
            return native.copied(given.encode() if isinstance(given, str) else given)
        except BaseException as why:
            self.failure = why
            return None

    def free(self) -> None:
        handle, self.handle = self.handle, None
        if handle is not None:
            self.lib.sazh_key_free(handle)


def read_keys(options: Options) -> List[Key]:
    """The key files that are named; without one, and where nothing else is, those of the user that can be read."""
    if options.key is not None:
        return [Key(path, options.passphrase) for path in _paths(options.key)]
    if options.password is not None or options.agent is not None or options.answers is not None:
        return []
    found = []
    for path in _paths(DEFAULT_KEYS):
        if os.path.exists(path):
            try:
                found.append(Key(path, options.passphrase))
            except KeyFileError:
                pass
    return found


def _agent_of(options: Options) -> Optional[str]:
    given = options.agent
    if given is None:
        is_alone = options.key is None and options.password is None and options.answers is None
        return os.environ.get("SSH_AUTH_SOCK") or None if is_alone else None
    if given is False:
        return None
    if given is True:
        path = os.environ.get("SSH_AUTH_SOCK")
        if not path:
            raise errors.of("there is no agent: SSH_AUTH_SOCK isn't set", Details(Code.NO_AGENT))
        return path
    return os.path.expanduser(os.fspath(given))


@dataclass
class Way:
    """One way of logging in."""

    method: str
    begin: Attempt
    key: Optional[Key] = None


class Login:
    """Tries one way after another: the agent, key files, the password, answers to questions."""

    def __init__(self, engine: Engine, options: Options, keys: Sequence[Key]) -> None:
        self.engine, self.options, self.keys = engine, options, keys
        self.user = plain(options.user if options.user is not None else getpass.getuser())
        self.methods: List[str] = []
        self.first_other: Optional[errors.Error] = None

    def _ways(self) -> Iterator[Way]:
        engine, lib, options = self.engine, self.engine.lib, self.options
        agent = _agent_of(options)
        if agent is not None:
            path = plain(agent)
            yield Way("publickey", lambda: lib.sazh_login_agent(engine.handle, self.user, path))
        for key in self.keys:
            yield self._by_key(key)
        password = options.password
        if password is not None:
            given = password.encode()
            if b"\0" in given:
                raise errors.Misuse("a password with a zero byte")
            yield Way("password", lambda: lib.sazh_login_password(engine.handle, self.user, given))
        answers = options.answers
        if answers is None and password is not None and "password" not in self.methods:
            answers = _by_password(password)
        if answers is not None:
            yield self._by_answers(answers)

    def _by_key(self, key: Key) -> Way:
        engine = self.engine
        return Way("publickey", lambda: engine.lib.sazh_login_key(engine.handle, self.user, key.handle), key)

    def _by_answers(self, answers: Answers) -> Way:
        engine = self.engine

        def give(own: int, name: bytes, instruction: bytes, count: int, prompts: Any, to: Any) -> bool:
            try:
                questions = tuple(Question(text_of(prompts[i].text), bool(prompts[i].echo)) for i in range(count))
                said = list(answers(Challenge(text_of(name), text_of(instruction), questions)))
                if len(said) != count:
                    raise errors.Misuse(f"{len(said)} answers to {count} questions")
                for i, answer in enumerate(said):
                    to[i] = native.copied(answer.encode())
                return True
            except BaseException as why:
                engine.failure = why
                return False

        call = native.ANSWERS(give)
        engine.kept.append(call)
        return Way("keyboard-interactive", lambda: engine.lib.sazh_login_prompts(engine.handle, self.user, call, None))

    async def _try(self, begin: Attempt, deadline: Optional[float]) -> bool:
        """Whether the user is in."""
        engine = self.engine
        others = (Code.DENIED, Code.NO_AGENT, Code.NO_KEY, Code.PASSPHRASE, Code.SIGNING)
        code = await engine.started(begin, lambda: engine.lib.sazh_wait_login(engine.handle), deadline, others)
        if code is Code.OK:
            return True
        with engine.guard:
            engine.check()
            if code is not Code.DENIED and self.first_other is None:
                self.first_other = engine.error(code)
            self.methods = [name for name in text_of(engine.lib.sazh_methods(engine.handle)).split(",") if name]
        return False

    async def run(self, deadline: Optional[float]) -> None:
        engine = self.engine
        if await self._try(lambda: engine.lib.sazh_login_none(engine.handle, self.user), deadline):
            return
        left, tried = list(self._ways()), 0
        while True:
            way = next((it for it in left if it.method in self.methods), None)
            if way is None:
                break
            left.remove(way)
            tried += 1
            if await self._try(way.begin, deadline):
                return
            if way.key is not None and way.key.failure is not None:
                raise way.key.failure
        if self.first_other is not None and tried == 1:
            raise self.first_other
        self._refuse(tried)

    def _refuse(self, tried: int) -> None:
        user, methods = self.user.decode(errors="replace"), ",".join(self.methods)
        what = "" if tried else ": nothing that could be tried"
        details = Details(Code.DENIED, self.engine.host, methods=tuple(self.methods))
        raise AuthenticationFailed(f"{user}@{self.engine.host}: permission denied ({methods}){what}", details) from self.first_other


def _by_password(password: str) -> Answers:
    """Answers one hidden question, once, by the password."""
    asked: Set[str] = set()

    def answers(challenge: Challenge) -> Sequence[str]:
        if not challenge.questions:
            return []
        if len(challenge.questions) > 1 or challenge.questions[0].echo or asked:
            raise AuthenticationFailed("the server asks for more than a password", Details(Code.NO_ANSWERS))
        asked.add(challenge.questions[0].text)
        return [password]

    return answers


async def log_in(engine: Engine, options: Options, keys: Sequence[Key]) -> None:
    await Login(engine, options, keys).run(deadline_in(options.login_timeout))


def names_of(engine: Engine) -> Dict[str, object]:
    """What the two sides agreed on."""
    with engine.guard:
        engine.check()
        it = engine.lib.sazh_names_of(engine.handle)
        names = {name: text_of(getattr(it, name)) for name, _ in native.Names._fields_ if name != "is_strict"}
        return {**names, "is_strict": bool(it.is_strict)}
