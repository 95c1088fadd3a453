#include "streaming.h"

#include "terminal.h"

#include <errno.h>
#include <fcntl.h>
#include <stdio.h>
#include <string.h>
#include <sys/socket.h>
#include <sys/stat.h>
#include <unistd.h>

enum { MOST_POLLS = 1024, NOT_NOW = -1, BROKEN = -2, PIECE = 4096 /* what a pipe that can be written takes without waiting */ };

/* Bytes on their way to a descriptor. The descriptors are others' too, so they are left as they are: not made
 * non-blocking, but asked before each read and write. */
typedef struct outlet {
  int file;
  sazh_stream from;
  bool is_socket, is_file;
  size_t at, len;
  unsigned char bytes[32768];
} outlet;

typedef struct state {
  const streaming *how;
  outlet out, err;
  bool input_ended, input_waits; /* input_waits: poll said that there is something */
  bool output_ended;
  bool line_begins, has_tilde, leaves;
} state;

static void outlet_begin(outlet *it, int file, sazh_stream from) {
  struct stat is;
  *it = (outlet){.file = file, .from = from};
  if (fstat(file, &is) != 0) return;
  it->is_socket = S_ISSOCK(is.st_mode);
  it->is_file = S_ISREG(is.st_mode);
}

static bool is_ready(int file, short events) {
  struct pollfd one = {.fd = file, .events = events};
  return poll(&one, 1, 0) > 0;
}

static ssize_t write_some(outlet *it) {
  const unsigned char *from = it->bytes + it->at;
  size_t left = it->len - it->at;
  ssize_t done;
  if (it->is_socket) done = send(it->file, from, left, MSG_DONTWAIT | MSG_NOSIGNAL);
  else if (it->is_file) done = write(it->file, from, left);
  else if (!is_ready(it->file, POLLOUT)) return NOT_NOW;
  else done = write(it->file, from, left < PIECE ? left : PIECE);
  if (done >= 0) return done;
  return errno == EAGAIN || errno == EWOULDBLOCK || errno == EINTR ? NOT_NOW : BROKEN;
}

/* Writes what can be written; false where nothing can be written any more, so that no output is lost in silence. */
static bool drain(const streaming *how, outlet *it) {
  for (;;) {
    if (it->at == it->len) {
      it->at = it->len = 0;
      if (how->channel == NULL || sazh_readable(how->channel, it->from) == 0) return true;
      if (sazh_read(how->channel, it->from, it->bytes, sizeof it->bytes, &it->len) != SAZH_OK) return true;
    }
    ssize_t done = write_some(it);
    if (done == NOT_NOW) return true;
    if (done < 0) {
      fprintf(stderr, "sazh: can't write standard %s: %s\r\n", it->from == SAZH_OUT ? "output" : "error", strerror(errno));
      return false;
    }
    it->at += (size_t)done;
  }
}

/* ---- input */

/* Takes ~. and ~~ out of what was typed (as ssh has them, at the beginning of a line); how many bytes are left. */
static size_t without_escapes(state *it, unsigned char *bytes, size_t count, unsigned char *to) {
  size_t made = 0;
  for (size_t i = 0; i < count && !it->leaves; i++) {
    unsigned char sign = bytes[i];
    if (it->has_tilde) {
      it->has_tilde = false;
      if (sign == '.') {
        it->leaves = true;
        break;
      }
      to[made++] = '~';
      if (sign == '~') {
        it->line_begins = false;
        continue;
      }
    } else if (sign == '~' && it->line_begins) {
      it->has_tilde = true;
      continue;
    }
    to[made++] = sign;
    it->line_begins = sign == '\r' || sign == '\n';
  }
  return made;
}

/* How many bytes may be read now. Of what is typed each may become two. */
static size_t may_take(const streaming *how) { return how->is_terminal ? sazh_writable(how->channel) / 2 : sazh_writable(how->channel); }

static void take_input(state *it) {
  const streaming *how = it->how;
  unsigned char typed[32768], sent[2 * sizeof typed];
  size_t may = may_take(how), taken;
  if (it->input_ended || may == 0 || !it->input_waits) return;
  it->input_waits = false;
  ssize_t got = read(0, typed, may < sizeof typed ? may : sizeof typed);
  if (got < 0 && (errno == EAGAIN || errno == EWOULDBLOCK || errno == EINTR)) return;
  if (got <= 0) {
    it->input_ended = true;
    sazh_write_eof(how->channel);
    return;
  }
  size_t count = (size_t)got;
  if (how->is_terminal) count = without_escapes(it, typed, count, sent);
  const unsigned char *at = how->is_terminal ? sent : typed;
  /* no more was read than may be written, so all of it is taken unless the connection ends */
  if (count != 0) sazh_write(how->channel, at, count, &taken);
}

/* ---- the loop */

static bool is_written(const state *it) {
  const sazh_channel *from = it->how->channel;
  return it->out.at == it->out.len && it->err.at == it->err.len && (from == NULL || (sazh_readable(from, SAZH_OUT) == 0 && sazh_readable(from, SAZH_ERR) == 0));
}

static void wait_for_more(state *it) {
  struct pollfd all[MOST_POLLS + 3];
  const streaming *how = it->how;
  size_t count = sazh_poll(how->of, all, MOST_POLLS);
  if (count > MOST_POLLS) count = MOST_POLLS;
  size_t input = count;
  bool reads = how->channel != NULL && !it->input_ended && may_take(how) != 0;
  if (reads) all[count++] = (struct pollfd){.fd = 0, .events = POLLIN};
  if (it->out.at != it->out.len) all[count++] = (struct pollfd){.fd = it->out.file, .events = POLLOUT};
  if (it->err.at != it->err.len) all[count++] = (struct pollfd){.fd = it->err.file, .events = POLLOUT};
  int ready = terminal_poll(all, count, sazh_is_over(how->of) ? -1 : sazh_timeout(how->of));
  it->input_waits = ready > 0 && reads && all[input].revents != 0;
}

static void pass_size(const streaming *how) {
  uint32_t columns, rows;
  if (!how->is_terminal || !terminal_resized()) return;
  terminal_size(&columns, &rows);
  sazh_window_change(how->channel, columns, rows);
}

static bool is_closing(const streaming *how) { return sazh_is_over(how->of) || (how->channel != NULL && sazh_is_closed(how->channel)); }

/* Whether the last step brought what no descriptor will tell of. */
static bool has_news(const state *it) {
  const sazh_channel *from = it->how->channel;
  if (is_closing(it->how) && is_written(it)) return true;
  return from != NULL && ((it->out.at == it->out.len && sazh_readable(from, SAZH_OUT) != 0) || (it->err.at == it->err.len && sazh_readable(from, SAZH_ERR) != 0));
}

/* Whoever reads our output is told its end, also while input still goes. */
static void pass_end(state *it) {
  const streaming *how = it->how;
  if (it->output_ended || how->is_terminal || how->channel == NULL || it->out.at != it->out.len || !sazh_at_eof(how->channel, SAZH_OUT)) return;
  it->output_ended = true;
  int nowhere = open("/dev/null", O_WRONLY | O_CLOEXEC);
  if (nowhere >= 0) dup2(nowhere, 1), close(nowhere);
}

/* A connection that ends after the server closed the channel has lost nothing of it. */
static sazh_code how_it_ended(const streaming *how) {
  unsigned char none;
  size_t got;
  if (how->channel == NULL) return sazh_error_of(how->of)->code;
  sazh_code code = sazh_read(how->channel, SAZH_OUT, &none, 1, &got);
  return code == SAZH_EOF ? SAZH_OK : code;
}

sazh_code stream_until_closed(const streaming *how) {
  static state it; /* 64 KiB of buffers */
  it = (state){.how = how, .line_begins = true};
  outlet_begin(&it.out, 1, SAZH_OUT);
  outlet_begin(&it.err, 2, SAZH_ERR);
  if (how->channel != NULL && how->no_input) {
    it.input_ended = true;
    sazh_write_eof(how->channel);
  }
  for (;;) {
    sazh_step(how->of);
    if (!drain(how, &it.out) || !drain(how, &it.err)) return SAZH_SYSTEM;
    pass_end(&it);
    if (is_closing(how) && is_written(&it)) return how_it_ended(how);
    if (how->channel != NULL && !sazh_is_closed(how->channel)) take_input(&it);
    if (it.leaves) return SAZH_CLOSED;
    pass_size(how);
    sazh_step(how->of);
    if (!has_news(&it)) wait_for_more(&it);
  }
}
