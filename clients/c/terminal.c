#include "terminal.h"

#include <errno.h>
#include <fcntl.h>
#include <openssl/crypto.h>
#include <signal.h>
#include <stdio.h>
#include <stdlib.h>
#include <string.h>
#include <sys/ioctl.h>
#include <termios.h>
#include <unistd.h>

/* What a signal handler needs. */
static volatile sig_atomic_t changed_at = -1; /* the terminal whose modes were changed */
static struct termios before;
static volatile sig_atomic_t resized;
static sigset_t while_waiting;

void terminal_restore(void) {
  if (changed_at < 0) return;
  tcsetattr(changed_at, TCSADRAIN, &before);
  changed_at = -1;
}

static void on_end(int number) {
  int kept = errno;
  terminal_restore();
  signal(number, SIG_DFL);
  raise(number);
  errno = kept;
}

static void on_resize(int number) {
  (void)number;
  resized = 1;
}

static void open_standard(void) {
  int file;
  while ((file = open("/dev/null", O_RDWR)) >= 0 && file <= 2) {}
  if (file > 2) close(file);
}

void terminal_begin(void) {
  static const int ENDING[] = {SIGINT, SIGTERM, SIGHUP, SIGQUIT, SIGALRM, SIGUSR1, SIGUSR2};
  open_standard();
  signal(SIGPIPE, SIG_IGN);
  for (size_t i = 0; i < sizeof ENDING / sizeof *ENDING; i++)
    if (signal(ENDING[i], on_end) == SIG_IGN) signal(ENDING[i], SIG_IGN); /* nohup */
  struct sigaction resize = {.sa_handler = on_resize};
  sigemptyset(&resize.sa_mask);
  sigaction(SIGWINCH, &resize, NULL);
  sigset_t blocked;
  sigemptyset(&blocked);
  sigaddset(&blocked, SIGWINCH);
  sigprocmask(SIG_BLOCK, &blocked, &while_waiting);
  sigdelset(&while_waiting, SIGWINCH);
  atexit(terminal_restore);
}

int terminal_poll(struct pollfd *all, size_t count, int milliseconds) {
  struct timespec time = {milliseconds / 1000, milliseconds % 1000 * 1000000L};
  return ppoll(all, count, milliseconds < 0 ? NULL : &time, &while_waiting);
}

bool terminal_resized(void) {
  bool is = resized != 0;
  resized = 0;
  return is;
}

/* ---- asking */

void wipe_free(char *text) {
  if (text == NULL) return;
  OPENSSL_cleanse(text, strlen(text));
  free(text);
}

/* A line of at most 1,023 bytes without its end, read byte by byte, so that nothing of it stays in a buffer of stdio. */
static char *read_line(int from) {
  char line[1024];
  size_t len = 0;
  ssize_t got = 0;
  char one = 0;
  while (len < sizeof line - 1 && (got = read(from, &one, 1)) == 1 && one != '\n' && one != '\r') line[len++] = one;
  line[len] = 0;
  char *made = got <= 0 && len == 0 ? NULL : strdup(line);
  OPENSSL_cleanse(line, sizeof line);
  return made;
}

char *first_line(const char *path) {
  int file = open(path, O_RDONLY | O_CLOEXEC);
  if (file < 0) return NULL;
  char *made = read_line(file);
  close(file);
  return made;
}

static void say(int to, const char *text) {
  if (write(to, text, strlen(text)) < 0) return;
}

char *terminal_ask(const char *prompt, bool echo) {
  int file = open("/dev/tty", O_RDWR | O_NOCTTY | O_CLOEXEC);
  if (file < 0) return NULL;
  struct termios hidden;
  bool was_raw = changed_at >= 0;
  if (tcgetattr(file, &hidden) != 0) {
    close(file);
    return NULL;
  }
  if (!echo && !was_raw) {
    before = hidden;
    hidden.c_lflag &= ~(tcflag_t)(ECHO | ECHONL);
    changed_at = file; /* first: a signal after the next line finds it */
    tcsetattr(file, TCSAFLUSH, &hidden);
  }
  say(file, prompt);
  char *made = read_line(file);
  if (!echo && !was_raw) terminal_restore();
  if (!echo) say(file, "\n");
  close(file);
  return made;
}

void print_safe(const char *text, size_t len) {
  for (size_t i = 0; i < len; i++) {
    unsigned char byte = (unsigned char)text[i];
    bool is_control = (byte < 0x20 && byte != '\n' && byte != '\t') || byte == 0x7f;
    bool is_later_control = byte >= 0x80 && byte < 0xa0 && (i == 0 || (unsigned char)text[i - 1] == 0xc2); /* U+0080 to U+009F */
    if (byte == '\r') continue;
    fputc(is_control || is_later_control ? '?' : byte, stderr);
  }
}

/* ---- raw mode */

void terminal_raw(void) {
  struct termios raw;
  if (tcgetattr(0, &before) != 0) return;
  raw = before;
  raw.c_iflag |= IGNPAR;
  raw.c_iflag &= ~(tcflag_t)(ISTRIP | INLCR | IGNCR | ICRNL | IXON | IXANY | IXOFF | IUCLC);
  raw.c_lflag &= ~(tcflag_t)(ISIG | ICANON | ECHO | ECHOE | ECHOK | ECHONL | IEXTEN);
  raw.c_oflag &= ~(tcflag_t)OPOST;
  raw.c_cc[VMIN] = 1;
  raw.c_cc[VTIME] = 0;
  changed_at = 0;
  tcsetattr(0, TCSADRAIN, &raw);
}

void terminal_size(uint32_t *columns, uint32_t *rows) {
  struct winsize size = {0};
  if (ioctl(0, TIOCGWINSZ, &size) != 0) size = (struct winsize){.ws_row = 24, .ws_col = 80};
  *columns = size.ws_col;
  *rows = size.ws_row;
}

typedef struct mode_name {
  uint8_t code;
  tcflag_t flag;
} mode_name;

typedef struct sign_name {
  uint8_t code;
  int at;
} sign_name;

static const sign_name SIGNS[] = {{1, VINTR}, {2, VQUIT}, {3, VERASE}, {4, VKILL}, {5, VEOF}, {6, VEOL}, {7, VEOL2}, {8, VSTART}, {9, VSTOP},
                                  {10, VSUSP}, {12, VREPRINT}, {13, VWERASE}, {14, VLNEXT}, {18, VDISCARD}};
static const mode_name INPUT[] = {{30, IGNPAR}, {31, PARMRK}, {32, INPCK}, {33, ISTRIP}, {34, INLCR}, {35, IGNCR}, {36, ICRNL}, {37, IUCLC},
                                  {38, IXON}, {39, IXANY}, {40, IXOFF}, {41, IMAXBEL}, {42, IUTF8}};
static const mode_name LOCAL[] = {{50, ISIG}, {51, ICANON}, {53, ECHO}, {54, ECHOE}, {55, ECHOK}, {56, ECHONL}, {57, NOFLSH}, {58, TOSTOP},
                                  {59, IEXTEN}, {60, ECHOCTL}, {61, ECHOKE}, {62, PENDIN}};
static const mode_name OUTPUT[] = {{70, OPOST}, {71, OLCUC}, {72, ONLCR}, {73, OCRNL}, {74, ONOCR}, {75, ONLRET}};
static const mode_name CONTROL[] = {{90, CS7}, {91, CS8}, {92, PARENB}, {93, PARODD}};

static size_t add_modes(sazh_mode *to, size_t at, size_t room, const mode_name *names, size_t count, tcflag_t set) {
  for (size_t i = 0; i < count && at < room; i++) to[at++] = (sazh_mode){names[i].code, (set & names[i].flag) == names[i].flag};
  return at;
}

size_t terminal_modes(sazh_mode *to, size_t room) {
  struct termios now;
  size_t count = 0;
  if (tcgetattr(0, &now) != 0) return 0;
  for (size_t i = 0; i < sizeof SIGNS / sizeof *SIGNS && count < room; i++) to[count++] = (sazh_mode){SIGNS[i].code, now.c_cc[SIGNS[i].at]};
  count = add_modes(to, count, room, INPUT, sizeof INPUT / sizeof *INPUT, now.c_iflag);
  count = add_modes(to, count, room, LOCAL, sizeof LOCAL / sizeof *LOCAL, now.c_lflag);
  count = add_modes(to, count, room, OUTPUT, sizeof OUTPUT / sizeof *OUTPUT, now.c_oflag);
  count = add_modes(to, count, room, CONTROL, sizeof CONTROL / sizeof *CONTROL, now.c_cflag);
  enum { IN_SPEED = 128, OUT_SPEED = 129, BITS = 38400 };
  if (count + 2 <= room) to[count++] = (sazh_mode){IN_SPEED, BITS}, to[count++] = (sazh_mode){OUT_SPEED, BITS};
  return count;
}
