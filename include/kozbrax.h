/* Kozbrax: the functions of the static library that `rt lib` in crates/kozbrax writes.

   A slice is passed as a pointer and then its length, in bytes where nothing else is said. The caller sees to it that no pointer is
   NULL, also where the length is 0, that it reaches as many bytes as the length says, that a buffer which is written overlaps no other
   argument, and that nothing else writes what is lent during the call. No function keeps a pointer or allocates.

   What a caller has to save, and when, stands under 'Custody' below, and what its links have to keep under 'Links'. A key that signs twice
   under one number can be forged. */
#ifndef KOZBRAX_H
#define KOZBRAX_H

#include <stddef.h>
#include <stdint.h>

#ifdef __cplusplus
extern "C" {
#endif

/* Lengths in bytes. */
#define KOZBRAX_HASH 32        /* a SHA-256, leaf, node or digest */
#define KOZBRAX_SEED 32        /* of a key: the secret that its secret strings come from */
#define KOZBRAX_ID 16          /* of a key: its identifier, the RFC's I */
#define KOZBRAX_TREE 65504     /* of a key: its tree, 2,047 nodes */
#define KOZBRAX_PUBLIC_KEY 56
#define KOZBRAX_RANDOMIZER 32
#define KOZBRAX_SIGNATURE 2508
#define KOZBRAX_LOG_NAME 16
#define KOZBRAX_HEAD 79        /* a server's head, with the one before it */
#define KOZBRAX_RECORD 2552    /* the longest record that one request adds to a server's store */
#define KOZBRAX_REQUEST 2566   /* the longest request of a user, and the least length of a buffer for it */
#define KOZBRAX_ANSWER 2552    /* the longest answer of a server, and the least length of a buffer for it */
#define KOZBRAX_ENTRY 1024     /* the longest entry, and the least length of a buffer for one that is read */
#define KOZBRAX_STRIKE 5       /* an entry that strikes */
#define KOZBRAX_KEPT 46        /* kept, path and signature: a user's between calls */
#define KOZBRAX_PATH 672
#define KOZBRAX_CALL 82        /* call, hashes and held: a user's during a call */
#define KOZBRAX_HASHES 1248
#define KOZBRAX_HELD 1026
#define KOZBRAX_NODE 5         /* a node of a cover: p and l */

/* Ranges. */
#define KOZBRAX_LEAST_SERVERS 2
#define KOZBRAX_MOST_SERVERS 16
#define KOZBRAX_MOST_USERS 64
#define KOZBRAX_GREATEST_POSITION 1048576
#define KOZBRAX_SIGNATURES 1024       /* of one key, numbered 0 to 1,023 */
#define KOZBRAX_MOST_SEGMENTS 16      /* of a firing schedule */
#define KOZBRAX_WEEK 10080            /* minutes */
#define KOZBRAX_MOST_WINDOWS 32       /* of opening hours */

/* 'None', from a function that returns a number of the log and no code. */
#define KOZBRAX_NONE 4294967295u

/* The codes that the functions return, and a server's answers hold. */
enum kozbrax_code {
  KOZBRAX_OK = 0,                     /* accepted, found, done */

  /* A server's, in an answer too. */
  KOZBRAX_BAD_REQUEST = 1,            /* mark, kind, length, position, level or author are no request's */
  KOZBRAX_OTHER_LOG = 2,              /* the request names another log */
  KOZBRAX_OTHER_OWNER = 3,            /* the node is owned by another server */
  KOZBRAX_POSITION_TAKEN = 4,         /* Reserve: the position is below the head's, or held by another author or digest */
  KOZBRAX_NOT_RESERVED = 5,           /* put or Commit: not the head's position and author */
  KOZBRAX_STORED_OTHERWISE = 6,       /* put or Commit: other bytes are stored for this node and kind */
  KOZBRAX_BAD_COMMIT = 7,             /* the digest is not the reserved one, or the signature fails */
  KOZBRAX_NOT_STORED = 8,             /* nothing is stored that could be answered */
  KOZBRAX_STORE_FULL = 9,             /* the new record is longer than the free part of the store */
  KOZBRAX_NOTHING_TO_GIVE_UP = 27,    /* give-up: not the head's position, author and digest, or no earlier head is known */

  /* A user's; 17, 19, 21, 22, 24 and 26 of other functions too. */
  KOZBRAX_BAD_ANSWER = 10,            /* no answer to the request that is out */
  KOZBRAX_SERVER_REFUSED = 11,        /* the server refused, with the code in `refusal` */
  KOZBRAX_LABELS_APART = 12,          /* the greatest and the least label are `servers` or more apart */
  KOZBRAX_SERVERS_BEHIND = 13,        /* the servers' greatest position is below the user's version */
  KOZBRAX_BAD_RECORD = 14,            /* the Record's author is not listed, or its signature fails */
  KOZBRAX_OWN_DIGEST_DIFFERS = 15,    /* the cover does not give the user's own digest */
  KOZBRAX_RECORD_DIGEST_DIFFERS = 16, /* the cover does not give the Record's digest */
  KOZBRAX_KEY_SPENT = 17,             /* the signature number is 1,024; of kozbrax_lms_sign: 1,024 or more */
  KOZBRAX_WRITE_OPEN = 18,            /* a write is open: it comes first, or its give-up where one has begun */
  KOZBRAX_BAD_ENTRY = 19,             /* the entry's length, first byte, strike length or strike target */
  KOZBRAX_LOG_FULL = 20,              /* the position would be above 1,048,576 */
  KOZBRAX_BUFFER_SHORT = 21,          /* a lent buffer is too short, or the board's two lists differ in length */
  KOZBRAX_BAD_STATE = 22,             /* settings, kept state, head or store are out of range or not whole */
  KOZBRAX_READ_DIFFERS = 23,          /* what was read does not give the user's own digest */
  KOZBRAX_BAD_POSITION = 24,          /* the position is not 1 to the version; of a digest: the leaves' length */
  KOZBRAX_BAD_SCHEDULE = 26,          /* no firing schedule, or one against the rules */
  KOZBRAX_CANNOT_GIVE_UP = 28,        /* no write is open, or its PutOperation was handed out */

  /* Those of the reports on firing schedules. */
  KOZBRAX_BAD_STARTS = 32,            /* the range of start temperatures, or a start that the first rate does not fit */
  KOZBRAX_BAD_HOURS = 33,             /* the opening hours or the minute */
  KOZBRAX_NO_START = 34               /* no start has all its minutes within the opening hours */
};

/* Custody: what has to be on stable storage, and when. To have written it is not enough: the storage must have confirmed that it stays
   there when power fails, as fsync does.

   A user's kept, path and signature, where a step changed them, before the request that this step handed out is sent, and before the end
   of a call is reported. The danger is in the step of a Write that signs: it hands out the Commit. If that is sent first and power fails
   before kept, path and signature are saved, the resumed write signs again under the same number. A key that signs two texts under one
   number, or one text with two randomizers, can be forged. A refused step changes nothing of the three, and of the starts of a call only
   kozbrax_give_up_start does.
   call, hashes and held need not be saved: a call that was cut is started anew, an open write by kozbrax_write_start with the same
   entry, a give-up by kozbrax_give_up_start. So the entry of a Write is saved by the caller too, before the first Reserve is sent: no
   other entry can be written while it is open, and from its PutOperation on it cannot be given up.

   A server's head, the used part of its store and `used`, where a call changed them, before the answer leaves.

   One process at a time on one state, a user's or a server's, and one state for one key: kept counts the key's numbers, so a key that
   signs in two logs, or by kozbrax_lms_sign beside its Writes, needs one count for all.
   A user's state that was lost, or restored from an older copy, means a new key: nobody knows which numbers are used. A server whose state
   was lost, or restored from an older copy, no longer follows the rules: it may deny what it has answered. */

/* Links: what a caller sees to between users and servers. Answers are not signed, and of requests only a Commit is.

   What is given to kozbrax_take as the answer to a request is the answer of the server that was asked, to that request. That two views part
   no longer than the wait is true only where this is so of some server that follows the rules: whoever can answer in that server's place
   can show each user another log. The library cannot tell; a private network, ssh, or TLS with both ends known can.

   A give-up asks more of the link: kozbrax_give_up_start.

   An open write is resumed before another user writes. If its Commit was stored and the answer lost, and another user then writes, the
   write is refused with 11 and 4 from then on, kozbrax_give_up_start with 28 and kozbrax_update_start with 18; the entry is in the log. No
   call leads out, unless the other write is given up: this key can only read in this log. */

/* The SHA-256 (FIPS 180-4) of the message, into the first 32 bytes of out.
   Returns 0, or 21 where out_len is below KOZBRAX_HASH, 32.
   Leaves, on 0: the hash in the first 32 bytes of out, and the bytes past them as they were. On 21: out as it was. */
uint32_t kozbrax_sha256(const uint8_t *message, size_t message_len, uint8_t *out, size_t out_len);

/* The tree of an LMS key (RFC 8554, LMS_SHA256_M32_H10 with LMOTS_SHA256_N32_W4): nodes 1 to 2,047 in order, 32 bytes each.
   seed has 32 bytes and id 16. Returns 0, or 21 where tree_len is below KOZBRAX_TREE, 65,504.
   Leaves, on 0: the nodes in the first 65,504 bytes, and the bytes past them as they were. On 21: tree as it was.
   Custody: seed and id are saved before the public key is given away, and the seed is secret. They give the same tree at any time. */
uint32_t kozbrax_lms_generate(const uint8_t *seed, const uint8_t *id, uint8_t *tree, size_t tree_len);

/* The RFC's public key of 56 bytes, from id (16 bytes) and the key's tree.
   Returns 0, or 21 where tree_len is below KOZBRAX_TREE or key_len below KOZBRAX_PUBLIC_KEY, 56.
   Leaves, on 0: the public key in the first 56 bytes of key, and the bytes past them as they were. On 21: key as it was. */
uint32_t kozbrax_lms_public_key(const uint8_t *id, const uint8_t *tree, size_t tree_len, uint8_t *key, size_t key_len);

/* The RFC's signature of a text, 2,508 bytes. seed has 32 bytes, id 16 and randomizer 32; each number is to be used once.
   Returns 0; 21 where tree_len is below KOZBRAX_TREE or signature_len below KOZBRAX_SIGNATURE; else 17 where number is 1,024 or more.
   Leaves, on 0: the signature in the first 2,508 bytes, and the bytes past them as they were. Else: signature as it was.
   Custody: that the number is used is saved before the signature is handed out. A user's Write signs by itself and does not need this
   function. */
uint32_t kozbrax_lms_sign(const uint8_t *seed, const uint8_t *id, uint32_t number, const uint8_t *randomizer,
                          const uint8_t *text, size_t text_len, const uint8_t *tree, size_t tree_len,
                          uint8_t *signature, size_t signature_len);

/* Whether a signature of a text is valid under a public key, all of any length.
   Returns the number that the signature was made with, or KOZBRAX_NONE, 4294967295, where the RFC says INVALID. Writes nothing.
   0 is a valid number, that of a key's first signature, and no error; and every number but KOZBRAX_NONE says that the signature is
   valid. So `if (kozbrax_lms_check(...))` and a comparison with KOZBRAX_OK are both wrong: compare with KOZBRAX_NONE. */
uint32_t kozbrax_lms_check(const uint8_t *key, size_t key_len, const uint8_t *text, size_t text_len,
                           const uint8_t *signature, size_t signature_len);

/* The first label of position p's path. Returns KOZBRAX_NONE where p is not 1 to 1,048,576. Up to 1,024 it is looked up in a table of
   the library's own, which is not copied. */
uint32_t kozbrax_first_label(uint32_t p);

/* The server, of `servers`, that owns node (p, l).
   Returns KOZBRAX_NONE where `servers` is not 2 to 16, p not 1 to 1,048,576, or l above the level of p. */
uint32_t kozbrax_owner(uint32_t servers, uint32_t p, uint32_t l);

/* The wait Q(p, N) with N = servers: how many operations after p until every server owns a node of the paths from p on.
   Returns KOZBRAX_NONE where `servers` is not 2 to 16 or p not 1 to 1,048,576. */
uint32_t kozbrax_wait(uint32_t servers, uint32_t p);

/* The nodes of the cover from v to w, v from 0 and w from max(v, 1) to 1,048,576: each as p (4 bytes, big-endian) and l (1 byte).
   Returns the count of nodes, or KOZBRAX_NONE where v and w are out of range or nodes_len is below 5 bytes (KOZBRAX_NODE) a node: 21
   is also a count.
   Leaves, where it returns a count: the nodes in the first bytes, and the bytes past them as they were. Else: nodes as it was. */
uint32_t kozbrax_cover(uint32_t v, uint32_t w, uint8_t *nodes, size_t nodes_len);

/* The leaf of an entry, into the first 32 bytes of out. Returns 0, or 21 where out_len is below KOZBRAX_HASH.
   Leaves out as kozbrax_sha256 does. */
uint32_t kozbrax_leaf(uint16_t author, const uint8_t *entry, size_t entry_len, uint8_t *out, size_t out_len);

/* The digest of 1 to 1,048,576 leaves of 32 bytes each, into the first 32 bytes of out.
   Returns 0, 21 where out_len is below KOZBRAX_HASH, or else 24 where leaves_len is not 32 to 33,554,432 in steps of 32.
   Leaves, on 0: the digest in the first 32 bytes of out, and the bytes past them as they were. Else: out as it was. */
uint32_t kozbrax_digest(const uint8_t *leaves, size_t leaves_len, uint8_t *out, size_t out_len);

/* The board: targets are those of the log's entries in order, 0 for an insertion, which a firing schedule is too; standing gets 1 for
   each standing insertion and 0 for every other entry. Both lengths count numbers. Entries are numbered from 1, and one stands if no later
   standing entry has its number as target, so that striking a strike undoes it. A target that is not before its own entry strikes nothing.
   Returns 0, or 21 where the lengths differ. Leaves, on 21: standing as it was. */
uint32_t kozbrax_board(const uint32_t *targets, size_t targets_len, uint32_t *standing, size_t standing_len);

/* What is reported of a firing schedule: the code, and where it is 0 the total of minutes and the peak, the highest target in degrees
   Celsius; these two are 0 where it is not. */
typedef struct {
  uint32_t code;
  uint32_t minutes;
  uint32_t peak;
} kozbrax_firing;

/* The total time and the peak of the firing that an entry of any bytes holds. Such an entry is laid out as: the byte 3, a segment count
   (1 byte) from 1 to 16, and for each segment 6 bytes, big-endian: rate in degrees Celsius per hour (2 bytes, two's complement, below 0
   when cooling) from -600 to 600, target in degrees Celsius (2) from 20 to 1,350, hold in minutes (2) from 0 to 5,999. It ends with its
   last segment. The kiln starts at 20. A rate has the sign of its target minus the temperature before it, and is 0 exactly where they are
   equal. A segment lasts 60 times the difference over the rate's size, rounded up to whole minutes, plus the hold; with rate 0 it lasts
   its hold.
   Returns the code: 19 where the entry is empty, longer than 1,024 bytes, begins with a byte other than 1, 2 or 3, or is a strike (2) that
   has not 5 bytes; else 26 where it is no schedule or breaks these rules; else 0. Writes nothing.
   Servers do not look at these rules: an entry that was read may begin with 3 and break them. */
kozbrax_firing kozbrax_schedule(const uint8_t *entry, size_t entry_len);

/* What is reported of a firing schedule whose start lies in a range: the code, and where it is 0 the least and the greatest total of
   minutes; these two are 0 where it is not. */
typedef struct {
  uint32_t code;
  uint32_t least;
  uint32_t greatest;
} kozbrax_totals;

/* The least and the greatest total time of the firing that an entry of any bytes holds, where the kiln starts at some whole temperature
   from `from` to `to` degrees Celsius, both of them included, instead of 20. Each of the two is the total from some start in the range.
   Returns the code: 19 or 26 where kozbrax_schedule does, which still judges from 20; else 32 where `from` is above `to`, one of them is
   above 1,350, or the first rate, for a start in the range, has not the sign of the first target minus the start, 0 exactly where these
   are equal; else 0. Writes nothing. */
kozbrax_totals kozbrax_schedule_warm(const uint8_t *entry, size_t entry_len, uint32_t from, uint32_t to);

/* When a firing may begin: the code, and where it is 0 the start; that is 0 where it is not. */
typedef struct {
  uint32_t code;
  uint32_t start;
} kozbrax_start;

/* The earliest start of a firing of `length` minutes, any number, within opening hours. A week has 10,080 minutes from Monday 0:00.
   windows has the first minute and the end of each window, one window behind the other, the end not belonging to it; windows_len counts
   numbers, two for each window. A window may end at 10,080, and two may meet: a firing goes on from the one into the other, and from the
   week's end into the next week.
   A start is a number from `minute` to minute + 10,079, counted on past the week's end: 10,080 is Monday 0:00 of the week after. With
   length 0 it is `minute`; with 10,080 or more, `minute` where the windows cover the whole week, and else there is none.
   Returns the code: 33 where minute is not 0 to 10,079, windows_len not 2 to 64 or odd, or a window is empty, ends after 10,080 or begins
   before the end of the one before it; else 34 where no start has all its minutes in windows; else 0. Writes nothing. */
kozbrax_start kozbrax_opening(const uint32_t *windows, size_t windows_len, uint32_t minute, uint32_t length);

/* The same for the firing that an entry of any bytes holds, with its total time from 20 as the length.
   Returns the code: 19 or 26 where kozbrax_schedule does; else 33 or 34 where kozbrax_opening does; else 0. Writes nothing. */
kozbrax_start kozbrax_schedule_opening(const uint8_t *entry, size_t entry_len, const uint32_t *windows, size_t windows_len,
                                       uint32_t minute);

/* What a call of the server gives: its code, the answer's length (0 where none is written), and the store's used length after it. */
typedef struct {
  uint32_t code;
  uint32_t answer;
  uint64_t used;
} kozbrax_served;

/* One call of server own, of `servers`: takes in a request of any bytes. log has 16 bytes; users are the public keys, 56 bytes each.
   head has KOZBRAX_HEAD, 79, bytes, big-endian: p (4 bytes at 0), l (1 at 4), author (2 at 5), digest (32 at 7); and the head that was
   there before the first Reserve for p: known (1 at 39), 1 or 0, its p (4 at 40), l (1 at 44), author (2 at 45), digest (32 at 47). All
   are zero at first. Where known is 0, bytes 40 to 78 may be any: nothing looks at them, and they stay as they are until an accepted
   Reserve of a higher p lays the earlier head there; a give-up that is accepted leaves zeros. The first `used` bytes of store are its
   records; at first there are none. The caller keeps head, store and `used` from call to call.
   A give-up (kind 9, laid out as a Reserve) of the head's p, author and digest brings the earlier head back, and then no earlier one is
   known.
   Returns the code: 22 where `servers` is not 2 to 16, own not 1 to `servers`, users_len not 56 to 3,584 in steps of 56, the head out
   of range, known above 1, the earlier head, where known, out of range or its p not below the head's, `used` above store_len or the used
   part not whole stored records; else 21 where answer_len is below KOZBRAX_ANSWER, 2,552; else 0 to 9 or 27, as the answer says.
   Leaves, on 0: the request's effect on head or on store and `used`, and the answer in the first bytes. On 1 to 9 and 27: the answer, and
   head and store as they were. On 21 and 22: everything as it was. The bytes past the answer, and past the used part, stay as they were.
   Custody: on 0, where head or `used` has changed, head, the used part of store and `used` are on stable storage before the answer
   leaves. A call adds one record of at most KOZBRAX_RECORD bytes behind the used part, or changes the head, or neither; it never changes
   a record. On any other code there is nothing to save. Where saving fails the answer must not leave, and the server starts again from
   what was saved. */
kozbrax_served kozbrax_server(uint32_t servers, uint32_t own, const uint8_t *log, const uint8_t *users, size_t users_len, uint8_t *head,
                              uint8_t *store, size_t store_len, uint64_t used, const uint8_t *request, size_t request_len,
                              uint8_t *answer, size_t answer_len);

/* A user. What it keeps, and the call that goes on, are lent bytes, big-endian, that the caller keeps from call to call:

   kept, KOZBRAX_KEPT (46) bytes, all zero for a new user:
     version (4 bytes at 0), digest (32 at 4), next signature number (4 at 36), opened (1 at 40), signed (1 at 41)
     of an open write: levels (1 at 42), for how many levels of its path a Reserve was handed out; put (1 at 43), whether its PutOperation
       was; begun (1 at 44), whether a give-up of it has begun; done (1 at 45), the last server that is done with the give-up, 0 for none
     opened, signed, put and begun are 1 or 0
   path, KOZBRAX_PATH (672) bytes, and signature, KOZBRAX_SIGNATURE (2,508): of an open write
   call, KOZBRAX_CALL (82) bytes, all zero before the first start, and where a caller drops a call without starting another: zero bytes take
   no answer; the bytes that a kind does not name keep their contents:
     kind (1 at 0): 1 Update, 2 Write, 3 Read, 4 give-up
     Update and Write: answers (1 at 1), greatest (4 at 2), least (4 at 6), position (4 at 10), digest (32 at 14)
     Write as well: opened (1 at 46), answers (1 at 47), randomizer (32 at 48), length (2 at 80)
     Read: position (4 at 1), answers (1 at 5), length (2 at 6)
     give-up: waits (1 at 1), 1 while a request of it is out, else 0
   hashes, KOZBRAX_HASHES (1,248) bytes, and held, KOZBRAX_HELD (1,026): the call's memory, with any contents at its start

   log has 16 bytes; users are the users' public keys, 56 bytes each. own is the user's number, from 1. Every function returns 22 where
   `servers` is not 2 to 16, users_len not 56 to 3,584 in steps of 56, own not a number of the users, or what is kept out of range: the
   version above 1,048,576, the signature number above 1,024, opened, signed, put or begun above 1; or, with a write open, the version
   1,048,576, levels not 1 to the level of the write's position and 1 more, signed without put, begun with put, or done above `servers`,
   or above 0 without begun.

   A call goes so: a start hands out the first request and names the server that it goes to; each answer is given to kozbrax_take, which
   hands out the next request, until the call has ended.

   A refused answer changes nothing, and the same call may take another answer to the same request, which may have to be sent again. So an
   answer that the line has damaged need not end the call. The request buffer still holds the request where the caller has not used it
   otherwise.

   Custody, as said above: kept, path and signature are on stable storage before each request that a start or kozbrax_take hands out is
   sent, and before the end of a call is reported; where a step has not changed them they are there already. */

/* What a start, or an answer taken in, gives: the code; the server's code for 11, else 0; the server to ask and the length of the
   request in the request buffer, 0 where the call has ended; ended, 1 where the call has ended and else 0; and the author and the
   entry's length of a Read that has ended with 0, else 0. ended is 1 after a refusal too: a call ends there (document 01), but nothing
   has changed, and the caller may go on with it all the same. So only ended = 1 with code 0 says that a call has done its work. */
typedef struct {
  uint32_t code;
  uint32_t refusal;
  uint32_t server;
  uint32_t length;
  uint32_t ended;
  uint32_t author;
  uint32_t entry;
} kozbrax_asked;

/* Starts an Update.
   Returns the code: 22; else 21 where request_len is below KOZBRAX_REQUEST, 2,566; else 18 where a write is open; else 0.
   Leaves, on 0: the Update in call and its first request in the first bytes of request. Else: everything as it was.
   Custody: changes nothing that is to be saved. */
kozbrax_asked kozbrax_update_start(uint32_t servers, uint32_t own, const uint8_t *log, const uint8_t *users, size_t users_len,
                                   const uint8_t *kept, uint8_t *call, uint8_t *request, size_t request_len);

/* Starts a Write of an entry, or resumes the open write of that entry. tree is the key's; randomizer has 32 bytes.
   Returns the code: 22; else 21 where request_len is below KOZBRAX_REQUEST or tree_len below KOZBRAX_TREE; else 18 where a write of
   another entry is open, or a give-up of the open write has begun; else 19 where the entry has another shape than kozbrax_schedule names;
   else 26 where it begins with 3 and breaks the rules named there; else 17 where the signature number is 1,024 and no signed write is
   open; else 0.
   Leaves, on 0: the Write in call, the entry in the first bytes of held, and the first request. Else: everything as it was.
   Custody: changes nothing of kept, path and signature; but the entry is saved before the first Reserve is sent, since only this entry can
   resume the write.
   The randomizer is not known to anybody before the signature is handed out. It best comes from a hash of a second secret, the signature
   number (kept's 4 bytes at 36) and the entry: then a write that is resumed from the state before its signature makes the same signature
   again, also where the signature was not saved in time. This does not help where the state is older than the first Reserve: the text
   may then be another. */
kozbrax_asked kozbrax_write_start(uint32_t servers, uint32_t own, const uint8_t *log, const uint8_t *users, size_t users_len,
                                  const uint8_t *tree, size_t tree_len, const uint8_t *entry, size_t entry_len,
                                  const uint8_t *randomizer, const uint8_t *kept, const uint8_t *path, uint8_t *call, uint8_t *held,
                                  uint8_t *request, size_t request_len);

/* Starts a Read of the entry at a position. Of the entry buffer the length is looked at.
   Returns the code: 22; else 21 where request_len is below KOZBRAX_REQUEST or entry_len below KOZBRAX_ENTRY, 1,024; else 24 where the
   position is not 1 to the version; else 0.
   Leaves, on 0: the Read in call and its first request. Else: everything as it was.
   Custody: changes nothing that is to be saved. */
kozbrax_asked kozbrax_read_start(uint32_t servers, uint32_t own, const uint8_t *log, const uint8_t *users, size_t users_len,
                                 uint32_t position, const uint8_t *kept, uint8_t *call, uint8_t *request, size_t request_len,
                                 const uint8_t *entry, size_t entry_len);

/* Starts a give-up of the open write, or repeats one that has begun: it tells every server that a Reserve of the write was handed out for,
   in the order of their numbers, each with one request of kind 9 and one answer. kept and path are the open write's; kept is written.
   It may be started at any time while a write is open and its PutOperation was not handed out, also where a call goes on: it takes that
   call's place in `call`.
   Returns the code: 22; else 28 where no write is open, or its PutOperation was handed out in any call of it; else 21 where request_len is
   below KOZBRAX_REQUEST; else 0.
   Leaves, on 0: begun in kept, the give-up in call, and in the first bytes of request its request to the first server that is not done;
   where every server is done, no request but the end (ended is 1), with the write closed. Else: everything as it was.
   The answers go to kozbrax_take. A server is done once it has answered 0, or 27: its head is not this write's, or no longer, as where the
   Reserve was refused or never came, or where this give-up was taken and its answer lost; or it knows no earlier head. Any other answer is
   refused, and the same server is still to be told. With the last server's answer the write is closed: version, digest and signature
   number are as they were when the first Reserve was handed out, and an Update or a Write may start.
   Once begun, a give-up can only be repeated: kozbrax_update_start and kozbrax_write_start return 18, with the same entry too, and an
   answer to a request of the write is refused 10; a Read may go on. A call that was cut is repeated by this function, which skips the
   servers that are done.
   Custody: on 0, kept is on stable storage before the request is sent. Unsaved, the write could be resumed while a server has already taken
   its Reserve back, and the views of two users could part.
   What the caller sees to on the way to a server.
   So that two views part no longer than the wait: a give-up that the server accepts was handed out by this user, its author, and no copy
   of it comes once the server has answered a Reserve that this user handed out after it; and an answer to a Reserve that was handed out
   before the give-up is not given to kozbrax_take for an equal Reserve that was handed out after it.
   So that the log goes on: a give-up is sent only when each earlier request of the write has arrived or can never arrive, and the answer
   that is given to kozbrax_take is to this sending. A Reserve that arrives after its give-up was answered 27 is accepted. Then no write is
   open, every user's Update is refused, and no call leads out.
   A connection for each call that only this user can open, and that the server reads to its end before it takes the next, has all of it. */
kozbrax_asked kozbrax_give_up_start(uint32_t servers, uint32_t own, const uint8_t *log, const uint8_t *users, size_t users_len,
                                    uint8_t *kept, const uint8_t *path, uint8_t *call, uint8_t *request, size_t request_len);

/* Takes in an answer of any bytes to the call's last request. id (16 bytes), seed (32) and tree are the key's; only a Write reads them.
   Returns the code: 0 with the next request, or at the call's end; else the first that holds, by what call says:
     every call: 22; 21 where request_len is below KOZBRAX_REQUEST
     Update: 18 where a write is open; 10 where this is no answer to the request that is out, or none is out; 11 where the server refused;
       for a Status 10 where the server cannot have that head, for the last one 12 where the greatest and the least label are `servers` or
       more apart, and 13 where the greatest label's position is below the version; for the Record 14 where its author is not listed or
       the signature fails; for the last node 15 where the version is above 0 and the cover does not give the own digest, and 16 where it
       does not give the Record's
     Write that is not open: its Update's codes in that order; where the Update ends, 20 where it has come to position 1,048,576, and 19
       where the entry strikes position 0 or one above the Update's
     Write that is open: 21 also where tree_len is below KOZBRAX_TREE; 10, also where a give-up has begun; 11; 17 where the Commit comes
       next, it is not signed yet and the signature number is 1,024
     Read: 21 also where entry_len is below KOZBRAX_ENTRY; 24 where its position is not 1 to the version; 10; 11; for the last answer 23
       where author, entry and nodes do not give the own digest
     give-up: between 22 and 21, 28 where no write is open or its PutOperation was handed out; 10; 11 where the server refused, but not
       with 27
     no call, the kind not 1 to 4, or a Write's opened or a give-up's waits above 1: 10
   Leaves, on 0: the call's next state in call, hashes and held, what is kept in kept, path and signature, the next request, where there
   is one, in the first bytes of request, and the entry of a Read that has ended in the first bytes of entry; the bytes past the request
   and past the entry stay as they were. Else: everything as it was.
   Custody: on 0, kept, path and signature are on stable storage before the request is sent or the call's end is reported. They change
     at the end of an Update (version, digest): unsaved, the user could later take a log that differs from the one it has seen;
     where a Write hands out its first Reserve (version, digest, opened, levels, path): unsaved, the user can neither resume this write
       nor give it up, and no user can write any more: the Record that their Updates ask for is missing;
     where a Write hands out a Reserve for a level that it had none handed out for (levels): unsaved, a give-up may leave out that server,
       whose head then stays at this position;
     where a Write first hands out its PutOperation (put): unsaved, a write that a server has stored could be given up;
     where a Write hands out its Commit and was not signed before (number, signed, signature): unsaved, the key may sign twice under one
       number;
     at the end of a Write (version, digest, opened, signed, levels, put): unsaved, the write is open still, and resuming it ends it;
     at each answer of a give-up (done, at its end opened, levels, begun and done): unsaved, it is repeated from the last server saved.
   A Read changes none of them. On any other code there is nothing to save. */
kozbrax_asked kozbrax_take(uint32_t servers, uint32_t own, const uint8_t *log, const uint8_t *users, size_t users_len, const uint8_t *id,
                           const uint8_t *seed, const uint8_t *tree, size_t tree_len, const uint8_t *answer, size_t answer_len,
                           uint8_t *kept, uint8_t *path, uint8_t *signature, uint8_t *call, uint8_t *hashes, uint8_t *held,
                           uint8_t *request, size_t request_len, uint8_t *entry, size_t entry_len);

/* Whether an own operation is settled: the code, and 1 or 0, 0 where the code is not 0. */
typedef struct {
  uint32_t code;
  uint32_t settled;
} kozbrax_settled_answer;

/* Whether the user's own operation at a position is settled. Returns the code: 22; else 24 where the position is not 1 to the version;
   else 0. Writes nothing, and nothing is to be saved. */
kozbrax_settled_answer kozbrax_settled(uint32_t servers, uint32_t own, const uint8_t *log, const uint8_t *users, size_t users_len,
                                       const uint8_t *kept, uint32_t position);

#ifdef __cplusplus
}
#endif

#endif
