#include "place.h"

#include "options.h"

#include <ctype.h>
#include <errno.h>
#include <fcntl.h>
#include <stdio.h>
#include <stdlib.h>
#include <string.h>
#include <sys/file.h>
#include <sys/socket.h>
#include <sys/stat.h>
#include <sys/un.h>
#include <unistd.h>

enum { SOCKET_UMASK = 0177, OTHERS_ENTER_OR_WRITE = 033 };

/* ---- the path */

/* The path from the root, since those who read SSH_AUTH_SOCK stand in other folders. */
static char *whole_path(const char *path) {
  char *made = NULL, *here = NULL;
  if (*path == '/') return strdup(path);
  if ((here = getcwd(NULL, 0)) == NULL || asprintf(&made, "%s/%s", here, path) < 0) made = NULL;
  if (made == NULL) complain("the current folder: %s", strerror(errno));
  free(here);
  return made;
}

/* A new folder under TMPDIR, and a socket's name in it. */
static char *new_path(place *it) {
  const char *under = getenv("TMPDIR");
  char *made = NULL, *folder = whole_path(under == NULL || *under == 0 ? "/tmp" : under);
  if (folder != NULL && asprintf(&it->made_folder, "%s/ssh-XXXXXX", folder) < 0) it->made_folder = NULL;
  free(folder);
  if (it->made_folder != NULL && mkdtemp(it->made_folder) == NULL) {
    complain("no folder can be made as %s: %s", it->made_folder, strerror(errno));
    free(it->made_folder);
    it->made_folder = NULL;
  }
  if (it->made_folder != NULL && asprintf(&made, "%s/agent.%ld", it->made_folder, (long)getpid()) < 0) made = NULL;
  return made;
}

/* Whether clients can name it: it has to fit into their address, and to be one line for the shell. */
static bool is_nameable(const char *path) {
  struct sockaddr_un address;
  if (path[strlen(path) - 1] == '/') {
    complain("the socket has no name: %s", path);
    return false;
  }
  if (strlen(path) >= sizeof address.sun_path) {
    complain("the socket's path is too long, above %zu bytes: %s", sizeof address.sun_path - 1, path);
    return false;
  }
  for (const char *at = path; *at != 0; at++)
    if (iscntrl((unsigned char)*at)) {
      complain("the socket's path has a control character");
      return false;
    }
  return true;
}

/* ---- the folder */

/* Whether others can reach the socket, or put another one in its place. */
static bool is_own(int folder, const char *path) {
  struct stat its;
  if (fstat(folder, &its) != 0) {
    complain("the folder %s: %s", path, strerror(errno));
    return false;
  }
  if (its.st_uid != geteuid()) {
    complain("the folder %s belongs to another user: name a socket in a folder of your own", path);
    return false;
  }
  if ((its.st_mode & OTHERS_ENTER_OR_WRITE) != 0) {
    complain("others may enter the folder %s or write there (mode %04o): run  chmod 700 %s  or name a socket in a folder of your own",
             path, (unsigned)its.st_mode & 07777, path);
    return false;
  }
  return true;
}

static bool open_folder(place *it) {
  const char *last = strrchr(it->path, '/');
  it->name = last + 1;
  char *path = last == it->path ? strdup("/") : strndup(it->path, (size_t)(last - it->path));
  if (path == NULL) return false;
  it->folder = open(path, O_RDONLY | O_DIRECTORY | O_CLOEXEC);
  if (it->folder < 0) complain("the folder %s: %s", path, strerror(errno));
  bool is_good = it->folder >= 0 && is_own(it->folder, path);
  free(path);
  return is_good;
}

/* ---- the socket, by its name in the current folder: nobody can put another folder in between */

static struct sockaddr_un address_of(const char *name) {
  struct sockaddr_un made = {.sun_family = AF_UNIX};
  strncpy(made.sun_path, name, sizeof made.sun_path - 1);
  return made;
}

/* Whether an agent answers there. One whose queue is full does. */
static bool is_live(const char *name) {
  struct sockaddr_un at = address_of(name);
  int line = socket(AF_UNIX, SOCK_STREAM | SOCK_NONBLOCK | SOCK_CLOEXEC, 0);
  if (line < 0) return true;
  bool answers = connect(line, (struct sockaddr *)&at, sizeof at) == 0 || errno != ECONNREFUSED;
  close(line);
  return answers;
}

/* Removes what an agent left that was killed. */
static bool make_way(const place *it) {
  struct stat there;
  if (fstatat(it->folder, it->name, &there, AT_SYMLINK_NOFOLLOW) != 0) return true;
  if (!S_ISSOCK(there.st_mode))
    complain("%s is there already, and is no socket", it->path);
  else if (is_live(it->name))
    complain("another agent answers at %s: end it first (sazh-agent -k), or name another socket", it->path);
  else if (unlinkat(it->folder, it->name, 0) == 0)
    return true;
  else
    complain("%s can't be removed: %s", it->path, strerror(errno));
  return false;
}

static bool listen_here(place *it) {
  struct sockaddr_un at = address_of(it->name);
  it->listener = socket(AF_UNIX, SOCK_STREAM | SOCK_NONBLOCK | SOCK_CLOEXEC, 0);
  mode_t before = umask(SOCKET_UMASK);
  bool is_bound = it->listener >= 0 && bind(it->listener, (struct sockaddr *)&at, sizeof at) == 0;
  umask(before);
  struct stat there;
  if (is_bound && fstatat(it->folder, it->name, &there, AT_SYMLINK_NOFOLLOW) == 0) {
    it->device = there.st_dev;
    it->inode = there.st_ino;
    if (listen(it->listener, SOMAXCONN) == 0) return true;
  }
  complain("no socket at %s: %s", it->path, strerror(errno));
  return false;
}

/* The lock is for two agents that begin at once: the second one sees the first one's socket, and doesn't remove it. */
static bool make_socket(place *it) {
  int here = open(".", O_PATH | O_DIRECTORY | O_CLOEXEC);
  bool is_made = here >= 0 && flock(it->folder, LOCK_EX) == 0 && fchdir(it->folder) == 0;
  if (!is_made) complain("the folder of %s: %s", it->path, strerror(errno));
  is_made = is_made && make_way(it) && listen_here(it);
  flock(it->folder, LOCK_UN);
  if (here >= 0 && fchdir(here) != 0) is_made = false;
  if (here >= 0) close(here);
  return is_made;
}

bool place_make(place *it, const char *path) {
  *it = (place){.folder = -1, .listener = -1};
  it->path = path == NULL ? new_path(it) : whole_path(path);
  if (it->path != NULL && is_nameable(it->path) && open_folder(it) && make_socket(it)) return true;
  place_remove(it);
  return false;
}

/* ---- its end */

static void free_names(place *it) {
  if (it->listener >= 0) close(it->listener);
  if (it->folder >= 0) close(it->folder);
  free(it->path);
  free(it->made_folder);
  *it = (place){.folder = -1, .listener = -1};
}

void place_remove(place *it) {
  struct stat there;
  if (it->inode != 0 && fstatat(it->folder, it->name, &there, AT_SYMLINK_NOFOLLOW) == 0 && there.st_dev == it->device &&
      there.st_ino == it->inode)
    unlinkat(it->folder, it->name, 0);
  if (it->made_folder != NULL) rmdir(it->made_folder);
  free_names(it);
}

void place_leave(place *it) { free_names(it); }
