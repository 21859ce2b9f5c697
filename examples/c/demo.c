/* A first program with Kozbrax: a log on two servers, and one user, all in memory.

   The user writes two insertions and a strike, updates, reads the log back and works out its board. Then an answer is damaged on its way,
   a request names another log, and a write is given up. Every code is compared with the one that is expected; the program exits with 1 where one differs.

   In a program that is used, servers and users are on different machines, and `save_user` and `save_server` write to stable storage. */
#include <stdio.h>
#include <stdlib.h>
#include <string.h>

#include "kozbrax.h"

enum { SERVERS = 2, OWN = 1, ENTRIES = 3, STORE_BYTES = 16384 };

/* What servers and users share: the log's name, filled up with zero bytes, and the public keys of the users, of whom there is one. */
static const uint8_t log_name[KOZBRAX_LOG_NAME] = "studio";
static uint8_t users[1 * KOZBRAX_PUBLIC_KEY];

/* A server: what its caller keeps from call to call. */
struct server {
  uint8_t head[KOZBRAX_HEAD];
  uint8_t store[STORE_BYTES];
  uint64_t used;
};

/* The user's key, and a second secret for randomizers. */
struct key {
  uint8_t seed[KOZBRAX_SEED];
  uint8_t id[KOZBRAX_ID];
  uint8_t second_secret[32];
  uint8_t tree[KOZBRAX_TREE];
};

/* The user: what it keeps, the call that goes on, and the buffers for a request and for an entry that is read. */
struct user {
  uint8_t kept[KOZBRAX_KEPT];
  uint8_t path[KOZBRAX_PATH];
  uint8_t signature[KOZBRAX_SIGNATURE];
  uint8_t call[KOZBRAX_CALL];
  uint8_t hashes[KOZBRAX_HASHES];
  uint8_t held[KOZBRAX_HELD];
  uint8_t request[KOZBRAX_REQUEST];
  uint8_t entry[KOZBRAX_ENTRY];
};

static struct server servers[SERVERS];
static struct key key;
static struct user user;
static uint8_t answer[KOZBRAX_ANSWER];

static const struct { uint32_t code; const char *name; } names[] = {
  { KOZBRAX_OK, "OK" },
  { KOZBRAX_BAD_REQUEST, "BAD_REQUEST" },
  { KOZBRAX_OTHER_LOG, "OTHER_LOG" },
  { KOZBRAX_OTHER_OWNER, "OTHER_OWNER" },
  { KOZBRAX_POSITION_TAKEN, "POSITION_TAKEN" },
  { KOZBRAX_NOT_RESERVED, "NOT_RESERVED" },
  { KOZBRAX_STORED_OTHERWISE, "STORED_OTHERWISE" },
  { KOZBRAX_BAD_COMMIT, "BAD_COMMIT" },
  { KOZBRAX_NOT_STORED, "NOT_STORED" },
  { KOZBRAX_STORE_FULL, "STORE_FULL" },
  { KOZBRAX_BAD_ANSWER, "BAD_ANSWER" },
  { KOZBRAX_SERVER_REFUSED, "SERVER_REFUSED" },
  { KOZBRAX_LABELS_APART, "LABELS_APART" },
  { KOZBRAX_SERVERS_BEHIND, "SERVERS_BEHIND" },
  { KOZBRAX_BAD_RECORD, "BAD_RECORD" },
  { KOZBRAX_OWN_DIGEST_DIFFERS, "OWN_DIGEST_DIFFERS" },
  { KOZBRAX_RECORD_DIGEST_DIFFERS, "RECORD_DIGEST_DIFFERS" },
  { KOZBRAX_KEY_SPENT, "KEY_SPENT" },
  { KOZBRAX_WRITE_OPEN, "WRITE_OPEN" },
  { KOZBRAX_BAD_ENTRY, "BAD_ENTRY" },
  { KOZBRAX_LOG_FULL, "LOG_FULL" },
  { KOZBRAX_BUFFER_SHORT, "BUFFER_SHORT" },
  { KOZBRAX_BAD_STATE, "BAD_STATE" },
  { KOZBRAX_READ_DIFFERS, "READ_DIFFERS" },
  { KOZBRAX_BAD_POSITION, "BAD_POSITION" },
  { KOZBRAX_BAD_SCHEDULE, "BAD_SCHEDULE" },
  { KOZBRAX_NOTHING_TO_GIVE_UP, "NOTHING_TO_GIVE_UP" },
  { KOZBRAX_CANNOT_GIVE_UP, "CANNOT_GIVE_UP" },
  { KOZBRAX_BAD_STARTS, "BAD_STARTS" },
  { KOZBRAX_BAD_HOURS, "BAD_HOURS" },
  { KOZBRAX_NO_START, "NO_START" },
};

static const char *name_of(uint32_t code) {
  for (size_t i = 0; i < sizeof names / sizeof names[0]; i++)
    if (names[i].code == code) return names[i].name;
  return "a code without a name";
}

static void expect_code(const char *what, uint32_t code, uint32_t wanted) {
  printf("%s: %s (%u)\n", what, name_of(code), (unsigned)code);
  if (code == wanted) return;
  printf("  expected: %s (%u)\n", name_of(wanted), (unsigned)wanted);
  exit(1);
}

static void expect(const char *what, int holds) {
  printf("  %s: %s\n", what, holds ? "yes" : "no");
  if (!holds) exit(1);
}

/* A number of 4 bytes, big-endian. */
static uint32_t number(const uint8_t *bytes) {
  return (uint32_t)bytes[0] << 24 | (uint32_t)bytes[1] << 16 | (uint32_t)bytes[2] << 8 | bytes[3];
}

/* Stand for writing to stable storage (fsync): a user's kept, path and signature; a server's head, used part of the store and `used`. */
static void save_user(void) {}
static void save_server(const struct server *server) { (void)server; }

/* Server number `own` takes in a request; its answer is in `answer`. The state is saved before the answer leaves. */
static kozbrax_served serve(uint32_t own, const uint8_t *request, size_t length) {
  struct server *s = &servers[own - 1];
  kozbrax_served served = kozbrax_server(SERVERS, own, log_name, users, sizeof users, s->head, s->store, sizeof s->store, s->used,
                                         request, length, answer, sizeof answer);
  s->used = served.used;
  save_server(s);
  return served;
}

/* The user takes in the answer to its last request. */
static kozbrax_asked take(size_t length) {
  return kozbrax_take(SERVERS, OWN, log_name, users, sizeof users, key.id, key.seed, key.tree, sizeof key.tree, answer, length,
                      user.kept, user.path, user.signature, user.call, user.hashes, user.held, user.request, sizeof user.request,
                      user.entry, sizeof user.entry);
}

/* Sends the request that the last step handed out, and takes in its answer. The user's state is saved before the request is sent. */
static kozbrax_asked step(kozbrax_asked asked) {
  save_user();
  return take(serve(asked.server, user.request, asked.length).answer);
}

/* Runs a call to its end. The user's state is saved before the end is reported. */
static kozbrax_asked finish(kozbrax_asked asked) {
  while (asked.code == KOZBRAX_OK && !asked.ended) asked = step(asked);
  save_user();
  return asked;
}

/* The randomizer of a Write: the hash of a second secret, the next signature number and the entry. */
static void make_randomizer(const uint8_t *entry, size_t length, uint8_t *randomizer) {
  uint8_t text[sizeof key.second_secret + 4 + KOZBRAX_ENTRY];
  size_t secret = sizeof key.second_secret;
  if (length > KOZBRAX_ENTRY) length = KOZBRAX_ENTRY; /* such an entry is refused in any case */
  memcpy(text, key.second_secret, secret);
  memcpy(text + secret, user.kept + 36, 4);
  memcpy(text + secret + 4, entry, length);
  kozbrax_sha256(text, secret + 4 + length, randomizer, KOZBRAX_RANDOMIZER);
}

static kozbrax_asked start_write(const uint8_t *entry, size_t length) {
  uint8_t randomizer[KOZBRAX_RANDOMIZER];
  make_randomizer(entry, length, randomizer);
  return kozbrax_write_start(SERVERS, OWN, log_name, users, sizeof users, key.tree, sizeof key.tree, entry, length, randomizer,
                             user.kept, user.path, user.call, user.held, user.request, sizeof user.request);
}

static kozbrax_asked write_entry(const uint8_t *entry, size_t length) { return finish(start_write(entry, length)); }

/* It changes what is kept, which `finish` saves before the first request is sent. */
static kozbrax_asked give_up(void) {
  return finish(kozbrax_give_up_start(SERVERS, OWN, log_name, users, sizeof users, user.kept, user.path, user.call, user.request,
                                      sizeof user.request));
}

static kozbrax_asked start_update(void) {
  return kozbrax_update_start(SERVERS, OWN, log_name, users, sizeof users, user.kept, user.call, user.request, sizeof user.request);
}

static kozbrax_asked read_entry(uint32_t position) {
  return finish(kozbrax_read_start(SERVERS, OWN, log_name, users, sizeof users, position, user.kept, user.call, user.request,
                                   sizeof user.request, user.entry, sizeof user.entry));
}

static uint32_t settled(uint32_t position) {
  kozbrax_settled_answer s = kozbrax_settled(SERVERS, OWN, log_name, users, sizeof users, user.kept, position);
  if (s.code != KOZBRAX_OK) expect_code("settled", s.code, KOZBRAX_OK);
  return s.settled;
}

/* The secrets here are fixed so that each run prints the same. In a program that is used they come from the system's random bytes. */
static void make_key(void) {
  memset(key.seed, 7, sizeof key.seed);
  memset(key.id, 9, sizeof key.id);
  memset(key.second_secret, 5, sizeof key.second_secret);
  expect_code("The user makes its key", kozbrax_lms_generate(key.seed, key.id, key.tree, sizeof key.tree), KOZBRAX_OK);
  expect_code("The public key goes into the list of users",
              kozbrax_lms_public_key(key.id, key.tree, sizeof key.tree, users, sizeof users), KOZBRAX_OK);
}

/* An insertion is the byte 1 and a text; a strike is the byte 2 and a position in 4 bytes. */
static void write_three_entries(void) {
  static const uint8_t glaze[] = "\001cone 6, 1222 degrees, hold 10 minutes";
  static const uint8_t bisque[] = "\001cone 04, 1060 degrees";
  static const uint8_t strike[KOZBRAX_STRIKE] = { 2, 0, 0, 0, 1 };
  expect_code("Write of an insertion", write_entry(glaze, sizeof glaze - 1).code, KOZBRAX_OK);
  expect("not settled yet, since one server owns no node of it", settled(1) == 0);
  expect_code("Write of another insertion", write_entry(bisque, sizeof bisque - 1).code, KOZBRAX_OK);
  expect("the first is settled now", settled(1) == 1);
  expect_code("Write of a strike of entry 1", write_entry(strike, sizeof strike).code, KOZBRAX_OK);
  expect("the version is 3", number(user.kept) == ENTRIES);
}

static void update_once(void) {
  expect_code("Update", finish(start_update()).code, KOZBRAX_OK);
  expect("the version is 3 still", number(user.kept) == ENTRIES);
}

/* Reads every entry, notes what each strikes, and works out which insertions stand. */
static void read_and_show_board(void) {
  uint32_t targets[ENTRIES], standing[ENTRIES];
  for (uint32_t i = 0; i < ENTRIES; i++) {
    kozbrax_asked asked = read_entry(i + 1);
    expect_code("Read", asked.code, KOZBRAX_OK);
    int strikes = user.entry[0] == 2 && asked.entry == KOZBRAX_STRIKE;
    targets[i] = strikes ? number(user.entry + 1) : 0;
    if (strikes) printf("  entry %u, by user %u: strikes entry %u\n", (unsigned)i + 1, (unsigned)asked.author, (unsigned)targets[i]);
    else printf("  entry %u, by user %u: %.*s\n", (unsigned)i + 1, (unsigned)asked.author, (int)asked.entry - 1, (char *)user.entry + 1);
  }
  expect_code("Board", kozbrax_board(targets, ENTRIES, standing, ENTRIES), KOZBRAX_OK);
  for (uint32_t i = 0; i < ENTRIES; i++)
    printf("  entry %u: %s\n", (unsigned)i + 1, standing[i] ? "stands" : targets[i] ? "is a strike" : "is struck");
  expect("entry 2 alone stands", !standing[0] && standing[1] && !standing[2]);
}

/* After the Status of each server an Update asks for the last Record. One bit of its signature is changed here, as a noisy line might. */
static void take_damaged_answer(void) {
  kozbrax_asked asked = start_update();
  for (int i = 0; i < SERVERS; i++) asked = step(asked);
  expect_code("Update, up to the last Record", asked.code, KOZBRAX_OK);
  kozbrax_asked out = asked;
  struct user before = user;
  kozbrax_served served = serve(out.server, user.request, out.length);
  answer[served.answer - 1] ^= 1;
  expect_code("The Record with one bit changed", take(served.answer).code, KOZBRAX_BAD_RECORD);
  expect("all that the user has is as it was", memcmp(&before, &user, sizeof user) == 0);
  expect_code("The same call takes the right answer and goes on to its end", finish(step(out)).code, KOZBRAX_OK);
}

/* A request that names another log: the server refuses it, and says so to the user, whose call goes on with the right request. */
static void send_damaged_request(void) {
  kozbrax_asked out = start_update();
  struct server before = servers[out.server - 1];
  uint8_t damaged[KOZBRAX_REQUEST];
  memcpy(damaged, user.request, out.length);
  damaged[3] ^= 1; /* the log's name follows the mark and the kind */
  kozbrax_served served = serve(out.server, damaged, out.length);
  expect_code("A server gets a request for another log", served.code, KOZBRAX_OTHER_LOG);
  struct server *server = &servers[out.server - 1];
  expect("its head and store are as they were", memcmp(before.head, server->head, sizeof before.head) == 0
         && before.used == server->used && memcmp(before.store, server->store, sizeof before.store) == 0);
  kozbrax_asked asked = take(served.answer);
  expect_code("The user takes its answer", asked.code, KOZBRAX_SERVER_REFUSED);
  expect_code("  the server's own code", asked.refusal, KOZBRAX_OTHER_LOG);
  expect_code("The same call with the right request", finish(step(out)).code, KOZBRAX_OK);
}

/* The user is switched off with a write open: one Reserve is accepted, and the next one was handed out and never sent. Both servers are told;
   the one that knows nothing of this write answers 27, and is done as well. */
static void give_up_a_write(void) {
  static const uint8_t wrong[] = "\001cone 10, 1305 degrees", right[] = "\001cone 9, 1280 degrees";
  kozbrax_asked asked = start_write(wrong, sizeof wrong - 1);
  while (asked.code == KOZBRAX_OK && !user.kept[40]) asked = step(asked); /* until the write is open */
  asked = step(asked);
  expect_code("Write of a third insertion, up to its second Reserve", asked.code, KOZBRAX_OK);
  expect_code("Update while it is open", start_update().code, KOZBRAX_WRITE_OPEN);
  expect_code("The user gives it up", give_up().code, KOZBRAX_OK);
  expect("the version is 3 still, and nothing is open", number(user.kept) == ENTRIES && !user.kept[40]);
  expect_code("There is nothing more to give up", give_up().code, KOZBRAX_CANNOT_GIVE_UP);
  expect_code("Write of another insertion in its place", write_entry(right, sizeof right - 1).code, KOZBRAX_OK);
  expect("the version is 4", number(user.kept) == ENTRIES + 1);
}

int main(void) {
  make_key();
  write_three_entries();
  update_once();
  read_and_show_board();
  take_damaged_answer();
  send_damaged_request();
  give_up_a_write();
  printf("The stores hold %u and %u bytes.\n", (unsigned)servers[0].used, (unsigned)servers[1].used);
  return 0;
}
