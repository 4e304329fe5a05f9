/* The client of bench/loopback, an echo server as its ceiling, and the bare writes and syncs of a durable change. One thread, `poll`.
 *   load client PORT CLIENTS REQUESTS KIND FIRST IDLE SPAN   kinds: get, list, post, put, nginx, etcd_put, etcd_get
 *   load echo PORT                                      answers each request with one fixed reply
 *   load syncs FILE COUNT                               (write and fsync) twice, so often
 * A client prints: requests a second, median and 99th percentile in microseconds, and how many replies weren't of 2xx. */
#define _GNU_SOURCE
#include <arpa/inet.h>
#include <errno.h>
#include <fcntl.h>
#include <netinet/in.h>
#include <netinet/tcp.h>
#include <poll.h>
#include <stdio.h>
#include <stdlib.h>
#include <string.h>
#include <sys/socket.h>
#include <time.h>
#include <unistd.h>

enum { CLIENTS = 1024, ROOM = 1 << 21 };

static double now(void) {
  struct timespec t;
  clock_gettime(CLOCK_MONOTONIC, &t);
  return t.tv_sec + t.tv_nsec / 1e9;
}

static void fail(const char *what) {
  perror(what);
  exit(1);
}

static struct sockaddr_in loopback(int port) {
  struct sockaddr_in a = {.sin_family = AF_INET, .sin_port = htons(port), .sin_addr.s_addr = htonl(INADDR_LOOPBACK)};
  return a;
}

static int connected(int port) {
  int s = socket(AF_INET, SOCK_STREAM, 0), on = 1;
  struct sockaddr_in a = loopback(port);
  if (s < 0 || connect(s, (struct sockaddr *)&a, sizeof a)) fail("connect");
  setsockopt(s, IPPROTO_TCP, TCP_NODELAY, &on, sizeof on);
  return s;
}

static int by_size(const void *a, const void *b) {
  double x = *(const double *)a, y = *(const double *)b;
  return x < y ? -1 : x > y;
}

static void tell(double *times, int count, double spent, int other) {
  qsort(times, count, sizeof *times, by_size);
  printf("%.0f %.0f %.0f %d\n", count / spent, times[count / 2] * 1e6, times[count * 99 / 100] * 1e6, other);
}

static const char *widgets = "/apis/demo.example/v1/namespaces/default/widgets";

static int base64(char *out, const char *in, int n) {
  static const char digits[] = "ABCDEFGHIJKLMNOPQRSTUVWXYZabcdefghijklmnopqrstuvwxyz0123456789+/";
  int at = 0;
  for (int i = 0; i < n; i += 3) {
    unsigned v = (unsigned char)in[i] << 16 | (i + 1 < n ? (unsigned char)in[i + 1] << 8 : 0) | (i + 2 < n ? (unsigned char)in[i + 2] : 0);
    out[at++] = digits[v >> 18];
    out[at++] = digits[v >> 12 & 63];
    out[at++] = i + 1 < n ? digits[v >> 6 & 63] : '=';
    out[at++] = i + 2 < n ? digits[v & 63] : '=';
  }
  out[at] = 0;
  return at;
}

/* The bytes of a request for the object of this number; `round` tells updates apart. */
static int make(char *out, const char *kind, int number, int round) {
  char body[1024] = "", path[256], key[64], key64[128], value64[512];
  const char *method = "POST";
  snprintf(path, sizeof path, "%s", widgets);
  if (!strcmp(kind, "get")) {
    method = "GET";
    snprintf(path, sizeof path, "%s/w%d", widgets, number);
  } else if (!strcmp(kind, "list")) {
    method = "GET";
  } else if (!strcmp(kind, "nginx")) {
    method = "GET";
    snprintf(path, sizeof path, "/object.json");
  } else if (!strcmp(kind, "post")) {
    snprintf(body, sizeof body, "{\"metadata\":{\"name\":\"w%d\"},\"spec\":{\"dimensions\":{\"size\":%d}}}", number, number);
  } else if (!strcmp(kind, "put")) {
    method = "PUT";
    snprintf(path, sizeof path, "%s/w%d", widgets, number);
    snprintf(body, sizeof body, "{\"spec\":{\"dimensions\":{\"size\":%d}}}", 1000000 + round);
  } else {
    snprintf(key, sizeof key, "/registry/demo.example/widgets/default/w%d", number);
    snprintf(body, sizeof body, "{\"apiVersion\":\"demo.example/v1\",\"kind\":\"Widget\",\"spec\":{\"dimensions\":{\"size\":%d}}}", round);
    base64(value64, body, strlen(body));
    base64(key64, key, strlen(key));
    int is_put = !strcmp(kind, "etcd_put");
    snprintf(path, sizeof path, "/v3/kv/%s", is_put ? "put" : "range");
    if (is_put) snprintf(body, sizeof body, "{\"key\":\"%s\",\"value\":\"%s\"}", key64, value64);
    else snprintf(body, sizeof body, "{\"key\":\"%s\"}", key64);
  }
  if (!strcmp(method, "GET")) return sprintf(out, "GET %s HTTP/1.1\r\nHost: 127.0.0.1\r\n\r\n", path);
  return sprintf(out, "%s %s HTTP/1.1\r\nHost: 127.0.0.1\r\nContent-Length: %zu\r\n\r\n%s", method, path, strlen(body), body);
}

/* The length of the reply that the bytes begin with, 0 where it isn't whole. */
static int whole(char *data, int n) {
  data[n] = 0;
  char *end = strstr(data, "\r\n\r\n");
  if (!end) return 0;
  char *length = strcasestr(data, "\r\nContent-Length:");
  int size = end + 4 - data;
  if (length && length < end) return n >= size + atoi(length + 17) ? size + atoi(length + 17) : 0;
  /* A chunked reply, as of etcd's gateway, ends with an empty chunk. */
  char *last = strstr(end, "\r\n0\r\n\r\n");
  return last ? last + 7 - data : 0;
}

static void client(char **words) {
  int port = atoi(words[0]), clients = atoi(words[1]), requests = atoi(words[2]), first = atoi(words[4]), idle = atoi(words[5]);
  int span = words[6] ? atoi(words[6]) : requests;
  const char *kind = words[3];
  struct pollfd *polled = calloc(clients, sizeof *polled);
  char **data = calloc(clients, sizeof *data), out[4096];
  int *held = calloc(clients, sizeof *held), sent = 0, done = 0, other = 0;
  double *begun = calloc(clients, sizeof *begun), *times = calloc(requests, sizeof *times);
  for (int i = 0; i < idle; i++) connected(port);
  for (int i = 0; i < clients; i++) {
    polled[i].fd = connected(port);
    polled[i].events = POLLIN;
    data[i] = malloc(ROOM + 1);
  }
  double start = now();
  for (int i = 0; i < clients && sent < requests; i++, sent++) {
    int n = make(out, kind, first + sent % span, sent);
    begun[i] = now();
    if (write(polled[i].fd, out, n) != n) fail("write");
  }
  while (done < requests) {
    if (poll(polled, clients, 10000) <= 0) fail("poll");
    for (int i = 0; i < clients; i++) {
      if (!polled[i].revents) continue;
      int n = read(polled[i].fd, data[i] + held[i], ROOM - held[i]);
      if (n <= 0) fail("read");
      held[i] += n;
      if (!whole(data[i], held[i])) continue;
      times[done++] = now() - begun[i];
      if (data[i][9] != '2' && !other++) fprintf(stderr, "%.300s\n", data[i]);
      held[i] = 0;
      if (sent == requests) continue;
      n = make(out, kind, first + sent % span, sent);
      sent++;
      begun[i] = now();
      if (write(polled[i].fd, out, n) != n) fail("write");
    }
  }
  tell(times, requests, now() - start, other);
}

static void echo(int port) {
  static const char reply[] = "HTTP/1.1 200 OK\r\nContent-Type: application/json\r\nContent-Length: 2\r\n\r\n{}";
  struct pollfd polled[CLIENTS];
  static char data[4096];
  int count = 1, on = 1;
  struct sockaddr_in a = loopback(port);
  polled[0].fd = socket(AF_INET, SOCK_STREAM, 0);
  polled[0].events = POLLIN;
  setsockopt(polled[0].fd, SOL_SOCKET, SO_REUSEADDR, &on, sizeof on);
  if (bind(polled[0].fd, (struct sockaddr *)&a, sizeof a) || listen(polled[0].fd, 1024)) fail("listen");
  for (;;) {
    poll(polled, count, -1);
    for (int i = count - 1; i > 0; i--) {
      if (!polled[i].revents) continue;
      int n = read(polled[i].fd, data, sizeof data);
      if (n > 0 && write(polled[i].fd, reply, sizeof reply - 1) > 0) continue;
      close(polled[i].fd);
      polled[i] = polled[--count];
    }
    if (polled[0].revents && count < CLIENTS) {
      polled[count].fd = accept(polled[0].fd, 0, 0);
      setsockopt(polled[count].fd, IPPROTO_TCP, TCP_NODELAY, &on, sizeof on);
      polled[count].events = POLLIN;
      polled[count++].revents = 0;
    }
  }
}

static void syncs(const char *path, int count) {
  static char record[160], gate[1] = {0x4f};
  int file = open(path, O_RDWR | O_CREAT | O_TRUNC, 0600);
  double *times = calloc(count, sizeof *times), start = now();
  for (int i = 0; i < count; i++) {
    double begun = now();
    off_t at = (off_t)i * sizeof record;
    if (pwrite(file, record, sizeof record, at) < 0 || fsync(file) || pwrite(file, gate, 1, at) < 0 || fsync(file)) fail("sync");
    times[i] = now() - begun;
  }
  tell(times, count, now() - start, 0);
}

int main(int count, char **words) {
  if (count >= 8 && !strcmp(words[1], "client")) client(words + 2);
  else if (count == 3 && !strcmp(words[1], "echo")) echo(atoi(words[2]));
  else if (count == 4 && !strcmp(words[1], "syncs")) syncs(words[2], atoi(words[3]));
  else return 2;
  return 0;
}
