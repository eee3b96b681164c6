/* The clients of bench/speed/serve, and what a commit does to a file at least. Compiled there:

     load serve PORT PID CLIENTS THREADS MILLISECONDS  clients on loopback, in pairs of which each plays one game after the
                                                       other: the next line is sent as soon as the last is answered
     load run READ WRITE PID MILLISECONDS              one session over pipes, whose descriptors these are: a name and a
                                                       move are sent, and the next once both are answered
     load raw FILE MILLISECONDS                        two writes of a sector and two syncs, again and again

   A game is opened, joined, played to 112 plies, resigned and dropped; each of these lines is one commit at least on its
   way. What is answered in the first fifth of the time is not counted. It prints on one line how many were answered (or
   committed), the seconds, the processor's seconds of PID, and the middle, the 99th percentile and the longest of the
   times from a line to its answer, in nanoseconds. An answer that is not the one wanted ends it with status 1. */
#define _GNU_SOURCE
#include <arpa/inet.h>
#include <errno.h>
#include <fcntl.h>
#include <netinet/in.h>
#include <netinet/tcp.h>
#include <pthread.h>
#include <stdio.h>
#include <stdlib.h>
#include <string.h>
#include <sys/epoll.h>
#include <sys/socket.h>
#include <time.h>
#include <unistd.h>

enum { PLIES = 112, STEPS = PLIES + 4, CLIENTS = 64, ROOM = 512 };

static char plays[PLIES][4];

struct pair;

struct client {
  int in, out, side;
  struct pair *pair;
  char text[ROOM];
  size_t length;
};

/* Two clients, and how far their game has come. */
struct pair {
  struct client players[2];
  int number, step;
  unsigned long game;
  long sent;
};

/* What one thread plays. */
struct player {
  struct pair *pairs;
  int count;
  long begins, ends;
  unsigned *times;
  size_t answers, room;
};

static void fail(const char *what, const char *found) {
  fprintf(stderr, "bench/speed/serve: %s: %s\n", what, found);
  exit(1);
}

static long now(void) {
  struct timespec t;
  clock_gettime(CLOCK_MONOTONIC, &t);
  return t.tv_sec * 1000000000L + t.tv_nsec;
}

/* The processor's time of a process, in nanoseconds. */
static long used(int pid) {
  clockid_t clock;
  struct timespec t;
  if (clock_getcpuclockid(pid, &clock) || clock_gettime(clock, &t)) fail("the server's clock", strerror(errno));
  return t.tv_sec * 1000000000L + t.tv_nsec;
}

/* Between pawn moves no position comes a fifth time. */
static void write_game(void) {
  static const char *shuffle[] = {"Nf3", "Nf6", "Ng1", "Ng8"};
  int ply = 0;
  for (char file = 'a'; file <= 'd'; file++)
    for (int pawns = 0; pawns < 2; pawns++) {
      sprintf(plays[ply++], "%c%c", file, pawns ? '4' : '3');
      sprintf(plays[ply++], "%c%c", file, pawns ? '5' : '6');
      for (int move = 0; move < 12; move++) strcpy(plays[ply++], shuffle[move % 4]);
    }
}

/* ---- lines and answers */

static void send_all(int out, const char *text, size_t length) {
  while (length) {
    ssize_t sent = write(out, text, length);
    if (sent <= 0) fail("a line was not taken", strerror(errno));
    text += sent;
    length -= sent;
  }
}

/* Who sends the line of the step. */
static int side_of(const struct pair *pair) {
  int ply = pair->step - 2;
  return ply == -1 || (ply >= 0 && ply < PLIES && ply % 2);
}

/* Sends the line of the step. */
static void send_line(struct pair *pair) {
  char line[ROOM];
  int length, ply = pair->step - 2;
  if (ply == -2) length = sprintf(line, "open white 86400 60\n");
  else if (ply == -1) length = sprintf(line, "join %lu\n", pair->game);
  else if (ply < PLIES) length = sprintf(line, "move %lu %d %s\n", pair->game, ply, plays[ply]);
  else length = sprintf(line, "%s %lu\n", ply == PLIES ? "resign" : "drop", pair->game);
  pair->sent = now();
  send_all(pair->players[side_of(pair)].out, line, length);
}

/* Wants this to be the answer to the line of the step, and goes on to the next. */
static void take_answer(struct pair *pair, const char *text) {
  char wanted[ROOM];
  int ply = pair->step - 2;
  if (pair->step == 0) {
    if (sscanf(text, "ok open %lu", &pair->game) != 1) fail("no game was opened", text);
    pair->step = 1;
    return;
  }
  if (pair->step == 1) sprintf(wanted, "ok join %lu black", pair->game);
  else if (ply < PLIES) sprintf(wanted, "ok move %lu %d %s", pair->game, ply + 1, plays[ply]);
  else if (ply == PLIES) sprintf(wanted, "ok resign %lu 0-1 5.1.2", pair->game);
  else sprintf(wanted, "ok drop %lu", pair->game);
  if (strcmp(text, wanted)) fail(wanted, text);
  pair->step = (pair->step + 1) % STEPS;
}

/* Reads until a line is whole: it stands in the client's text then, and 1 is answered. */
static int read_line(struct client *client) {
  ssize_t came = read(client->in, client->text + client->length, ROOM - 1 - client->length);
  if (came <= 0) fail("no answer came", came ? strerror(errno) : "the end");
  client->length += came;
  client->text[client->length] = 0;
  if (client->text[client->length - 1] != '\n') return 0;
  client->text[client->length - 1] = 0;
  client->length = 0;
  return 1;
}

/* ---- clients on loopback */

static void connect_to(struct client *client, int port) {
  struct sockaddr_in to = {.sin_family = AF_INET, .sin_port = htons(port)};
  int one = 1;
  to.sin_addr.s_addr = htonl(INADDR_LOOPBACK);
  client->in = client->out = socket(AF_INET, SOCK_STREAM, 0);
  if (connect(client->in, (struct sockaddr *)&to, sizeof to)) fail("connect", strerror(errno));
  setsockopt(client->in, IPPROTO_TCP, TCP_NODELAY, &one, sizeof one);
}

static void say_name(struct client *client) {
  char line[ROOM], wanted[ROOM];
  int length = sprintf(line, "name %c%d\n", client->side ? 'b' : 'w', client->pair->number);
  sprintf(wanted, "ok name %c%d", client->side ? 'b' : 'w', client->pair->number);
  send_all(client->out, line, length);
  while (!read_line(client)) {}
  if (strcmp(client->text, wanted)) fail(wanted, client->text);
}

static void note(struct player *player, long sent, long at) {
  if (at < player->begins || at >= player->ends) return;
  if (player->answers == player->room) {
    player->room = player->room ? 2 * player->room : 1 << 16;
    player->times = realloc(player->times, player->room * sizeof *player->times);
    if (!player->times) fail("memory", strerror(errno));
  }
  player->times[player->answers++] = at - sent;
}

/* Plays until the time is over. */
static void *play(void *given) {
  struct player *player = given;
  struct epoll_event events[CLIENTS];
  int ready = epoll_create1(0), left = player->count;
  for (int number = 0; number < player->count; number++)
    for (int side = 0; side < 2; side++) {
      struct client *client = &player->pairs[number].players[side];
      struct epoll_event event = {.events = EPOLLIN, .data.ptr = client};
      if (epoll_ctl(ready, EPOLL_CTL_ADD, client->in, &event)) fail("epoll", strerror(errno));
    }
  for (int number = 0; number < player->count; number++) send_line(&player->pairs[number]);
  while (left) {
    int count = epoll_wait(ready, events, CLIENTS, -1);
    for (int number = 0; number < count; number++) {
      struct client *client = events[number].data.ptr;
      struct pair *pair = client->pair;
      if (!read_line(client)) continue;
      long at = now();
      note(player, pair->sent, at);
      take_answer(pair, client->text);
      if (at < player->ends) send_line(pair);
      else left--;
    }
  }
  close(ready);
  return 0;
}

static int by_length(const void *a, const void *b) {
  unsigned one = *(const unsigned *)a, other = *(const unsigned *)b;
  return one < other ? -1 : one > other;
}

static void report(struct player *players, int count, long busy) {
  size_t answers = 0;
  for (int number = 0; number < count; number++) answers += players[number].answers;
  unsigned *times = malloc((answers + 1) * sizeof *times), *to = times;
  if (!times || !answers) fail("answers", "none");
  for (int number = 0; number < count; number++) {
    memcpy(to, players[number].times, players[number].answers * sizeof *times);
    to += players[number].answers;
  }
  qsort(times, answers, sizeof *times, by_length);
  printf("%zu %.6f %.6f %u %u %u\n", answers, (players->ends - players->begins) / 1e9, busy / 1e9, times[answers / 2],
         times[answers * 99 / 100], times[answers - 1]);
}

static void sleep_until(long moment) {
  struct timespec at = {moment / 1000000000L, moment % 1000000000L};
  while (clock_nanosleep(CLOCK_MONOTONIC, TIMER_ABSTIME, &at, 0) == EINTR) {}
}

static void serve(int port, int pid, int clients, int threads, long milliseconds) {
  static struct pair pairs[CLIENTS / 2];
  struct player players[CLIENTS / 2] = {0};
  pthread_t others[CLIENTS / 2];
  int games = clients / 2;
  if (clients < 2 || clients > CLIENTS || threads < 1 || threads > games) fail("usage", "so many clients or threads");
  for (int number = 0; number < games; number++)
    for (int side = 0; side < 2; side++) {
      struct client *client = &pairs[number].players[side];
      pairs[number].number = number;
      client->pair = &pairs[number];
      client->side = side;
      connect_to(client, port);
      say_name(client);
    }
  long begins = now() + milliseconds * 200000, ends = begins + milliseconds * 800000;
  for (int number = 0, first = 0; number < threads; number++) {
    struct player *player = &players[number];
    player->pairs = pairs + first;
    player->count = (games - first) / (threads - number);
    player->begins = begins;
    player->ends = ends;
    first += player->count;
    if (pthread_create(&others[number], 0, play, player)) fail("thread", strerror(errno));
  }
  sleep_until(begins);
  long before = used(pid);
  sleep_until(ends);
  long busy = used(pid) - before;
  for (int number = 0; number < threads; number++) pthread_join(others[number], 0);
  report(players, threads, busy);
}

/* ---- one session over pipes */

static void run(int in, int out, int pid, long milliseconds) {
  static struct pair pair;
  struct player player = {.begins = now() + milliseconds * 200000};
  long before = -1;
  player.ends = player.begins + milliseconds * 800000;
  for (int side = 0; side < 2; side++) {
    pair.players[side].in = in;
    pair.players[side].out = out;
    pair.players[side].side = side;
    pair.players[side].pair = &pair;
  }
  for (long at = 0; at < player.ends;) {
    struct client *client = &pair.players[side_of(&pair)];
    say_name(client);
    send_line(&pair);
    while (!read_line(client)) {}
    at = now();
    note(&player, pair.sent, at);
    take_answer(&pair, client->text);
    if (before < 0 && at >= player.begins) before = used(pid);
  }
  report(&player, 1, used(pid) - before);
}

/* ---- what a commit does at least */

static void write_sector(int file, const char *sector, long at) {
  if (pwrite(file, sector, 512, 512 * at) != 512 || fdatasync(file)) fail("a sector was not written", strerror(errno));
}

static void raw(const char *name, long milliseconds) {
  struct player player = {.begins = now() + milliseconds * 200000};
  int file = open(name, O_RDWR | O_CLOEXEC);
  off_t sectors = file < 0 ? 0 : lseek(file, 0, SEEK_END) / 512;
  char sector[512];
  long sent, at = 2, before = -1, count = 0;
  if (sectors < 3) fail("the file has no sectors", name);
  memset(sector, 1, sizeof sector);
  player.ends = player.begins + milliseconds * 800000;
  do {
    sent = now();
    write_sector(file, sector, at);
    write_sector(file, sector, count++ % 2);
    at = at + 1 < sectors ? at + 1 : 2;
    note(&player, sent, now());
    if (before < 0 && sent >= player.begins) before = used(getpid());
  } while (sent < player.ends);
  report(&player, 1, used(getpid()) - before);
}

int main(int count, char **words) {
  setvbuf(stdout, 0, _IOFBF, ROOM);
  write_game();
  if (count == 7 && !strcmp(words[1], "serve"))
    serve(atoi(words[2]), atoi(words[3]), atoi(words[4]), atoi(words[5]), atol(words[6]));
  else if (count == 6 && !strcmp(words[1], "run"))
    run(atoi(words[2]), atoi(words[3]), atoi(words[4]), atol(words[5]));
  else if (count == 4 && !strcmp(words[1], "raw"))
    raw(words[2], atol(words[3]));
  else
    fail("usage", "see bench/speed/load.c");
  return 0;
}
