/*
 * senna.h: replicated objects on a tree of thirteen nodes: the quorums, the messages between nodes, a node's stored image, the
 * replica that answers messages from it, the record of the node's own transaction, the settings that say when one may begin and how weights are
 * sorted into classes, and a whole station of thirteen nodes.
 *
 * `tools/library` writes the library, target/staticlib/libhost.a, for x86-64 Linux. Of the C library it needs memcpy, memmove
 * and memset alone. This line builds a program with it:
 *
 *   gcc -std=c11 -Iinclude main.c target/staticlib/libhost.a -o main
 *
 * C11 and C++11 or later. Every name begins with senna_ or SENNA_. examples/grader.c is a whole host program.
 *
 * Nodes are 0 to 12. The children of node i are 3i+1, 3i+2 and 3i+3; 4 to 12 are leaves. A set of nodes is a 16-bit mask with bit i
 * for node i. A read quorum of a subtree is its root, or read quorums of two of its three child subtrees. A write quorum is its root
 * together with write quorums of two. For a leaf both are the leaf. A set that contains a quorum is a quorum too. Every read quorum
 * meets every write quorum, and any two write quorums meet.
 *
 * Objects are 0 to 127. A transaction is named by its owner, which is a node, and a serial from 1, and carries a timestamp from 1, here
 * its stamp. Nodes exchange messages, each of which belongs to one transaction. What a node keeps as a replica is its image: a copy of
 * each object, and what it knows of each owner's last transaction. Messages and images are bytes; both formats are written below.
 *
 * No function here keeps a state of its own, has a global or uses the heap. A function reads its arguments and the bytes lent to it, and
 * writes only to a buffer lent to it as non-const; a pointer is not kept after the call. All are re-entrant and may be called from any thread,
 * as long as no other thread uses a buffer that is being written. A pointer is never null, also where its length is 0, and may have any
 * alignment. A buffer that a call may write overlaps no other buffer of the call.
 *
 * A call that can refuse answers a number, SENNA_OK or one of the fifteen below. On a refusal every lent byte is as it was, and what is
 * answered beside the number is 0. There is one exception, which its answer tells: SENNA_USED_UP with the answer SENNA_ABORTED, from
 * senna_coordinator_request_commit and senna_station_request_commit, has given a batch up, and the node's record has changed.
 */
#ifndef SENNA_H
#define SENNA_H

#include <stddef.h>
#include <stdint.h>

#ifdef __cplusplus
extern "C" {
#endif

/* Sizes. */
#define SENNA_NODES 13        /* nodes of the tree */
#define SENNA_DISTANCES 26    /* bytes of thirteen distances */
#define SENNA_ALL 8191        /* the mask of all nodes, and the highest mask of nodes */
#define SENNA_OBJECTS 128     /* objects */
#define SENNA_ENTRIES 8       /* entries of a message, at most */
#define SENNA_MESSAGE_MIN 15  /* bytes of the shortest message */
#define SENNA_MESSAGE_MAX 128 /* bytes of the longest message, and of the smallest buffer for one */
#define SENNA_IMAGE 2935      /* bytes of a stored image */
#define SENNA_IMAGE_1207 1207 /* bytes of a stored image of the first release: 64 objects, no authors; senna_take_in reads it */
#define SENNA_IMAGE_1527 1527 /* bytes of a stored image of 64 objects with authors; senna_take_in reads it */
#define SENNA_RECORD 301      /* bytes of a coordinator's record */
#define SENNA_WAITING 128     /* messages that wait in a station's pool, at most */
#define SENNA_IMAGES 38155    /* bytes of a station's images: thirteen of SENNA_IMAGE, node 0 first */
#define SENNA_RECORDS 3913    /* bytes of a station's records: thirteen of SENNA_RECORD, node 0 first */
#define SENNA_POOL 16513      /* bytes of a station's pool */
#define SENNA_OWN 2           /* bytes of the mask of a station's nodes that are on */
#define SENNA_SETTINGS 228    /* bytes of a node's settings */
#define SENNA_STATION_SETTINGS 2964 /* bytes of a station's settings: thirteen of SENNA_SETTINGS, node 0 first */
#define SENNA_MINUTES 10080   /* minutes of a week, numbered from 0 */
#define SENNA_WINDOWS 14      /* windows of a table of packing hours, at most */
#define SENNA_DATES 32        /* closed dates of a table of packing hours, at most */
#define SENNA_HOURS_MAX 186   /* bytes of the longest table of packing hours */
#define SENNA_BOUNDS_MAX 7    /* bounds of a table of weight classes, at most */
#define SENNA_CLASSES_MAX 8   /* classes of a table of weight classes, at most */
#define SENNA_CLASS_TABLE_MAX 24 /* bytes of the longest table of weight classes */
#define SENNA_WEIGHTS_MAX 4096 /* weights of a batch, at most */
#define SENNA_BATCH_MAX 8194  /* bytes of the longest batch */

/* Numbers. A call answers 0, or why it refuses; where several fit, the lowest unless its comment says otherwise. */
#define SENNA_OK 0
#define SENNA_LENGTH 1         /* a buffer or a message has another length than it must */
#define SENNA_DAMAGED 2        /* stored bytes, or a table that is loaded, break a rule of their format */
#define SENNA_GARBLED 3        /* a message breaks a rule of its format, a minute is above 10,079, a weight above 1,999, or a batch too long */
#define SENNA_STRANGER 4       /* a node above 12, a mask above 8191, or a message for another node */
#define SENNA_OUT_OF_TURN 5    /* wrong phase or state, a timestamp that comes too early, or a batch where a call or a table does not fit */
#define SENNA_NO_SUCH_OBJECT 6 /* above 127, opened twice, not opened, or a value set on a read; a class that there is not */
#define SENNA_EIGHT_OPEN 7     /* a ninth object */
#define SENNA_NO_QUORUM 8      /* the live nodes contain no quorum */
#define SENNA_USED_UP 9        /* a serial or a version is at its last number, or a batch would take a value past 64 bits */
#define SENNA_BUSY 10          /* begin, or a table of classes loaded, while a transaction is under way */
#define SENNA_NOT_READY 11     /* a value or the votes wanted too soon */
#define SENNA_POOL_FULL 12     /* 128 messages wait already */
#define SENNA_CLOSED 13        /* begin outside the node's packing hours */
#define SENNA_BOUNDS 14        /* bounds of classes that do not rise, leave their range, are too many, or do not fit the number of classes */
#define SENNA_TALLY_TWICE 15   /* two classes with one object */

/*
 * A number's word, for a log or a screen: "ok", "length" .. "tally twice", and "unknown" for what is no number of this table. The words are
 * constants: they are never freed or changed. Reads only its argument; no heap; re-entrant.
 */
static inline const char *senna_word(uint8_t number)
{
    switch (number) {
    case SENNA_OK: return "ok";
    case SENNA_LENGTH: return "length";
    case SENNA_DAMAGED: return "damaged";
    case SENNA_GARBLED: return "garbled";
    case SENNA_STRANGER: return "stranger";
    case SENNA_OUT_OF_TURN: return "out of turn";
    case SENNA_NO_SUCH_OBJECT: return "no such tally";
    case SENNA_EIGHT_OPEN: return "eight open";
    case SENNA_NO_QUORUM: return "no quorum";
    case SENNA_USED_UP: return "number used up";
    case SENNA_BUSY: return "busy";
    case SENNA_NOT_READY: return "not ready";
    case SENNA_POOL_FULL: return "pool full";
    case SENNA_CLOSED: return "closed";
    case SENNA_BOUNDS: return "bounds";
    case SENNA_TALLY_TWICE: return "tally twice";
    default: return "unknown";
    }
}

/* The answer of a nearest call. On a refusal mask and sum are 0. */
typedef struct senna_choice {
    uint8_t number; /* SENNA_OK, or why the call refuses */
    uint16_t mask;  /* the chosen quorum */
    uint32_t sum;   /* the sum of the distances of its nodes */
} senna_choice;

/*
 * Whether a set is, or contains, a read quorum of the whole tree: 1 yes, 0 no.
 * Bits 13 to 15 of mask do not matter. Never refuses. Reads only its argument; no heap; re-entrant.
 */
uint8_t senna_is_read_quorum(uint16_t mask);

/*
 * Whether a set is, or contains, a write quorum of the whole tree: 1 yes, 0 no.
 * Bits 13 to 15 of mask do not matter. Never refuses. Reads only its argument; no heap; re-entrant.
 */
uint8_t senna_is_write_quorum(uint16_t mask);

/*
 * The nearest read quorum among the live nodes, for the node that asks: of the smallest read quorums inside live the one with the least sum of
 * distances; of equal sums one that has the asker comes first, and then the lowest mask. So a node takes its own copy before one by cable, where that
 * is no farther. A coordinator asks for itself: the calls that begin, look again or ask for votes pass their own node on.
 *
 * live       the nodes that may be chosen, at most SENNA_ALL
 * distances  SENNA_DISTANCES bytes: thirteen 16-bit numbers, low byte first, node 0 first; at any alignment; never null
 * length     the bytes at distances
 * asker      the node that asks, 0 to 12; it need not be live. With asker 0 the lowest mask of the least sum is chosen.
 *
 * Numbers, the lowest that fits: SENNA_LENGTH (length is not SENNA_DISTANCES), SENNA_STRANGER (live above SENNA_ALL, or asker above 12),
 * SENNA_NO_QUORUM (live contains no read quorum, and only then).
 * Only reads the bytes at distances; no heap; re-entrant.
 */
senna_choice senna_nearest_read(uint16_t live, const uint8_t *distances, size_t length, uint8_t asker);

/*
 * The nearest write quorum among the live nodes: as senna_nearest_read, with the smallest write quorums.
 * The same arguments and numbers; SENNA_NO_QUORUM exactly where live contains no write quorum.
 * Only reads the bytes at distances; no heap; re-entrant.
 */
senna_choice senna_nearest_write(uint16_t live, const uint8_t *distances, size_t length, uint8_t asker);

/*
 * Messages. Numbers are little-endian. Twelve bytes come first: kind, from, to, owner (one byte each), serial, stamp (four each). Then
 * three sections follow, each after its count in one byte:
 *   entries  object 1, mode 1 (0 read, 1 write), version 4, value 8 (signed); ascending strictly by object
 *   rivals   owner 1, serial 4; ascending strictly by owner
 *   word     1
 *
 *   kind       goes             entries                       rivals                              word
 *   1 fetch    from the owner   1, version and value 0        0                                   none
 *   2 copy     to the owner     1                             0                                   none
 *   3 ask      from the owner   1 to 8                        0                                   none
 *   4 vote     to the owner     0                             0 to 12, never the owner; 0 on no   0 no, 1 yes
 *   5 outcome  from the owner   0 on abort, 1 to 8 on commit  0                                   0 abort, 1 commit
 *   6 done     to the owner     0                             0                                   none
 *   7 yield    from the owner   0                             1, the receiver, not the owner      none
 *
 * Nodes are 0 to 12, objects 0 to 127, serials and stamps from 1. In an ask and an outcome a read's value is 0, and a write's version is
 * below 4294967295. A message that keeps all of this, with no byte missing or left over, is well formed.
 */

/* Where a message has its kind, and the node that it goes to: what a host looks at to pass it on. */
#define SENNA_KIND_AT 0
#define SENNA_TO_AT 2

/* Kinds of messages. */
#define SENNA_FETCH 1
#define SENNA_COPY 2
#define SENNA_ASK 3
#define SENNA_VOTE 4
#define SENNA_OUTCOME 5
#define SENNA_DONE 6
#define SENNA_YIELD 7

/* Modes of an object in a message or a record. */
#define SENNA_READ 0
#define SENNA_WRITE 1

/* Words of a vote and of an outcome. */
#define SENNA_NO 0
#define SENNA_YES 1
#define SENNA_ABORT 0
#define SENNA_COMMIT 1

/* An object in a message. */
typedef struct senna_entry {
    uint8_t object;
    uint8_t mode; /* SENNA_READ or SENNA_WRITE */
    uint32_t version;
    int64_t value;
} senna_entry;

/* The entries of a message: the first count of these, SENNA_ENTRIES at most; more is SENNA_GARBLED. The rest does not matter. */
typedef struct senna_entries {
    senna_entry entry[SENNA_ENTRIES];
    uint8_t count;
} senna_entries;

/* The rivals that a vote names, by owner: the serial, or 0 where that owner's transaction is no rival. */
typedef struct senna_serials {
    uint32_t serial[SENNA_NODES];
} senna_serials;

/* The answer of a write call. On a refusal length is 0. */
typedef struct senna_written {
    uint8_t number; /* SENNA_OK, or why the call refuses */
    uint8_t length; /* the bytes of the message, SENNA_MESSAGE_MIN to SENNA_MESSAGE_MAX */
} senna_written;

/*
 * Whether bytes are a well-formed message.
 *
 * message  the bytes
 * length   how many
 *
 * Numbers, the lowest that fits: SENNA_LENGTH (length is not SENNA_MESSAGE_MIN to SENNA_MESSAGE_MAX), SENNA_GARBLED (they are not a
 * well-formed message).
 * Only reads the bytes at message; no heap; re-entrant.
 */
uint8_t senna_check_message(const uint8_t *message, size_t length);

/*
 * The write calls, one for each kind: writes a message to the front of out and leaves the bytes behind it as they were.
 *
 * out                   where the message goes
 * size                  the bytes at out, at least SENNA_MESSAGE_MAX whatever the message
 * owner, serial, stamp  the transaction
 *
 * Numbers, the lowest that fits: SENNA_LENGTH (size is under SENNA_MESSAGE_MAX), SENNA_GARBLED (the message would not be well formed: a
 * node above 12, serial or stamp 0, or what each call names besides).
 * On a refusal nothing is written. Otherwise senna_check_message answers 0 for what is written. Only writes to out; no heap;
 * re-entrant.
 */

/*
 * A fetch from the owner to node `to`: one entry of this object and mode, with version and value 0.
 * SENNA_GARBLED also: object above 127, mode above 1.
 */
senna_written senna_write_fetch(uint8_t *out, size_t size, uint8_t to, uint8_t owner, uint32_t serial, uint32_t stamp,
                                uint8_t object, uint8_t mode);

/*
 * A copy from node `from` to the owner: this entry, of any version and value.
 * SENNA_GARBLED also: its object above 127, its mode above 1.
 */
senna_written senna_write_copy(uint8_t *out, size_t size, uint8_t from, uint8_t owner, uint32_t serial, uint32_t stamp,
                               senna_entry entry);

/*
 * An ask from the owner to node `to`: these entries.
 * SENNA_GARBLED also: no entry, more than SENNA_ENTRIES, an object above 127, a mode above 1, objects that do not ascend strictly, a read
 * with a value other than 0, a write with version 4294967295.
 */
senna_written senna_write_ask(uint8_t *out, size_t size, uint8_t to, uint8_t owner, uint32_t serial, uint32_t stamp,
                              senna_entries entries);

/*
 * A vote from node `from` to the owner: word 0 no, 1 yes, and the rivals in ascending order.
 * SENNA_GARBLED also: word above 1, the owner among the rivals, a no with a rival.
 */
senna_written senna_write_vote(uint8_t *out, size_t size, uint8_t from, uint8_t owner, uint32_t serial, uint32_t stamp,
                               senna_serials rivals, uint8_t word);

/*
 * An outcome from the owner to node `to`: word 0 abort, without entries, or 1 commit, with these entries.
 * SENNA_GARBLED also: word above 1, an abort with an entry, a commit with entries that an ask would not have.
 */
senna_written senna_write_outcome(uint8_t *out, size_t size, uint8_t to, uint8_t owner, uint32_t serial, uint32_t stamp,
                                  senna_entries entries, uint8_t word);

/* A done from node `from` to the owner. */
senna_written senna_write_done(uint8_t *out, size_t size, uint8_t from, uint8_t owner, uint32_t serial, uint32_t stamp);

/*
 * A yield from the owner to node `rival`: one rival, that node's transaction rival_serial.
 * SENNA_GARBLED also: rival is the owner, rival_serial 0.
 */
senna_written senna_write_yield(uint8_t *out, size_t size, uint8_t owner, uint32_t serial, uint32_t stamp, uint8_t rival,
                                uint32_t rival_serial);

/*
 * Images. Numbers are little-endian. SENNA_IMAGE bytes:
 *   the count 128, then 128 copies: value 8 (signed), version 4, holder 1 (0 to 12, SENNA_NOBODY for none), readers 2, writers 2 (masks),
 *   author 5: owner 1, serial 4
 *   the count 13, then 13 owners: last serial 4, state 1 (0 over, 1 listed, 2 held, 3 refused), stamp 4
 *
 * An owner's serial and stamp are both 0, and then its state is 0, or neither is 0. A holder's state is 2. A node that readers or
 * writers contain has state 1, and no mask is above SENNA_ALL. An author is the transaction that wrote the copy last, with its owner, 0 to 12, and its
 * serial, from 1; or SENNA_NOBODY with serial 0, as in a blank image, where no commit has written it; or SENNA_UNKNOWN with serial 0, where it was
 * written before authors were kept. An image that breaks any of this is damaged. Nothing ties the author to the version.
 *
 * Formats by length. An image is told by its length alone:
 *
 *   bytes                    written since                    copies                          read by
 *   1207 (SENNA_IMAGE_1207)  the first release                64 of 17 bytes, without author  the two calls that take in
 *   1527 (SENNA_IMAGE_1527)  authors are kept                 64 of 22 bytes                  the two calls that take in
 *   2935 (SENNA_IMAGE)       there are 128 objects; present   128 of 22 bytes, as above       every call on images; those two write it
 *
 * A caller who holds images of an older length gets SENNA_LENGTH from every other call: take them in first, one by one with senna_take_in or a station's
 * thirteen with senna_station_take_in.
 */

/* Who is no node: for a holder and an author nobody; for an author unknown. */
#define SENNA_NOBODY 255
#define SENNA_UNKNOWN 254

/*
 * Whether bytes are a valid image.
 *
 * image   the bytes
 * length  how many
 *
 * Numbers, the lowest that fits: SENNA_LENGTH (length is not SENNA_IMAGE), SENNA_DAMAGED (they break a rule of the format).
 * Only reads the bytes at image; no heap; re-entrant.
 */
uint8_t senna_check_image(const uint8_t *image, size_t length);

/*
 * Writes a blank image: all zeros, but for the two counts, and the holders and the owners of authors, which are SENNA_NOBODY. Whatever stood
 * there before is lost.
 *
 * image   where the image goes
 * length  the bytes at image
 *
 * Number: SENNA_LENGTH (length is not SENNA_IMAGE), and then nothing is written. Otherwise senna_check_image answers 0 for what is
 * written. Only writes to image; no heap; re-entrant.
 */
uint8_t senna_blank_image(uint8_t *image, size_t length);

/*
 * Takes an image of an older length in: writes it as an image of the present length. Each copy and each owner stays as it was; what the older format
 * does not have is added. From both older lengths: objects 64 to 127 are as in a blank image. From SENNA_IMAGE_1527: each author stays as it was.
 * From SENNA_IMAGE_1207: the author is SENNA_UNKNOWN where the version is above 0, until the next commit of that object writes the copy, and
 * SENNA_NOBODY at version 0.
 *
 * A program calls it once after an update, on each node's kept image, before any other call on it. It then keeps the new bytes in place of the old
 * ones. Records and settings stay as they are. A station's nodes are taken in together, and with the station at rest, that is with every record idle,
 * where what was booked before and what is booked after shall count as one running.
 *
 * old         the older image; only read
 * old_length  the bytes at old, SENNA_IMAGE_1207 or SENNA_IMAGE_1527
 * image       where the image goes; whatever stood there before is lost
 * length      the bytes at image, SENNA_IMAGE
 *
 * Numbers, the lowest that fits: SENNA_LENGTH (old_length is no older length, as SENNA_IMAGE is none, or length is not SENNA_IMAGE), SENNA_DAMAGED
 * (old breaks a rule of its own format). On a refusal nothing is written. Otherwise senna_check_image answers 0 for what is written. Only reads
 * the bytes at old, only writes to image, which must not overlap old; no heap; re-entrant. On the stack it has a scratch of SENNA_IMAGE bytes.
 */
uint8_t senna_take_in(const uint8_t *old, size_t old_length, uint8_t *image, size_t length);

/* Who wrote a copy last. On a refusal owner and serial are 0. */
typedef struct senna_author {
    uint8_t number;  /* SENNA_OK, or why the call refuses */
    uint8_t owner;   /* the transaction's owner, 0 to 12; SENNA_NOBODY or SENNA_UNKNOWN */
    uint32_t serial; /* the transaction's serial; 0 for nobody and unknown */
} senna_author;

/*
 * Who wrote an object's copy last: the author, as the image has it.
 *
 * image   the image; only read
 * length  the bytes at image
 * object  the object
 *
 * Numbers, the lowest that fits: SENNA_LENGTH (length is not SENNA_IMAGE), SENNA_DAMAGED, SENNA_NO_SUCH_OBJECT (object above 127).
 * Only reads the bytes at image; no heap; re-entrant.
 */
senna_author senna_image_author(const uint8_t *image, size_t length, uint8_t object);

/*
 * The replica: it answers the messages that owners send to a node, and keeps the node's image. Of each owner it knows the last
 * transaction. A message with a higher serial begins that owner's next one here; it needs the last one to be over. A message with a lower
 * serial, or of the last one when it is over, is late.
 */

/* The answer of a delivery. length is 0 where nothing is answered, and on a refusal. */
typedef struct senna_received {
    uint8_t number; /* SENNA_OK, or why the call refuses */
    uint8_t length; /* the bytes of the answer, SENNA_MESSAGE_MIN to SENNA_MESSAGE_MAX, or 0 */
} senna_received;

/*
 * Delivers one message to the replica of node me: changes the image, and writes the answer to the front of the answer buffer.
 *
 *   fetch    listed: the owner joins the readers or writers of the object, and a copy is answered. Late, held or refused: nothing.
 *   ask      listed: judged, and a vote is answered. No where another holds any of its objects, where a copy here has a higher version,
 *            or where a rival is older. Yes holds what it writes and names the rivals. Held: yes again; refused: no again, both without
 *            rivals. Late: nothing.
 *   commit   held: each object that it writes takes its value and its version plus 1, and its transaction as the author. Then the owner lets
 *            go of everything, its transaction is over, and done is answered. Late: done only.
 *   abort    the owner lets go of everything, its transaction is over, and done is answered; also before any other message of its
 *            transaction came. Late: done only.
 *
 * image         the node's image, which is changed in place
 * image_length  the bytes at image
 * me            the node
 * message       the message
 * length        the bytes at message
 * answer        where the answer goes; the bytes behind it stay as they were, and all of them where nothing is answered
 * size          the bytes at answer, at least SENNA_MESSAGE_MAX whatever the answer
 *
 * Numbers, the lowest that fits: SENNA_LENGTH (image_length is not SENNA_IMAGE, length is not SENNA_MESSAGE_MIN to SENNA_MESSAGE_MAX, or
 * size is under SENNA_MESSAGE_MAX), SENNA_DAMAGED (the image), SENNA_GARBLED (the message), SENNA_STRANGER (me above 12, or a message for
 * another node), SENNA_OUT_OF_TURN (a higher serial while the owner's last transaction is not over, a commit that is neither held nor late,
 * or a kind that is no fetch, ask or outcome).
 * On a refusal image and answer stay as they were. Otherwise senna_check_image answers 0 for the image after. Only reads the bytes at
 * message, only writes to image and answer, which must not overlap each other or the message; no heap; re-entrant.
 */
senna_received senna_replica_receive(uint8_t *image, size_t image_length, uint8_t me, const uint8_t *message, size_t length,
                                     uint8_t *answer, size_t size);

/*
 * Whether senna_replica_receive with the same image, node and message, and an answer buffer that is long enough, will answer: 1 yes, 0 no.
 * 0 also where it refuses. Never refuses itself. Only reads the bytes at image and message; no heap; re-entrant.
 */
uint8_t senna_replica_answers(const uint8_t *image, size_t image_length, uint8_t me, const uint8_t *message, size_t length);

/*
 * Records. What a node keeps of its own transaction, as its coordinator, is a record of SENNA_RECORD bytes. Numbers are little-endian:
 *   last serial 4, last timestamp 4, last outcome 1, phase 1
 *   live nodes 2, thirteen distances of 2, the present read quorum 2, the contacted nodes 2
 *   how many objects are open 1, then eight places in the order of opening: object 1, mode 1, the nodes whose copies came 2, version
 *   found 4, value found 8, whether a new value was given 1, new value 8
 *   the participants 2, who voted yes 2, who said done 2, thirteen serials of rivals of 4, by owner
 *
 * A record begins as senna_blank_record makes it, and the calls below change it in place. A record that breaks a rule which every call
 * keeps is damaged. A host keeps the bytes, by writing them to its disk after each call, and goes on from them after a power cut. Every call takes:
 *
 * record  the node's record; only senna_coordinator_found and _due, the check and the accessors leave it as it is
 * length  the bytes at record
 * me      the node's own number
 *
 * Numbers of every call: SENNA_LENGTH (length is not SENNA_RECORD, or another lent length is wrong) and SENNA_DAMAGED come first, then
 * SENNA_STRANGER for me above 12, then what its comment says, the lowest that fits unless it says otherwise. On a refusal every lent
 * byte is as it was, but where senna_coordinator_request_commit gives a batch up. Otherwise senna_check_record answers 0 for the record after, and
 * no other lent byte has changed but those that the comment names. No heap; re-entrant.
 *
 * Calls that are lent the settings too have SENNA_LENGTH and SENNA_DAMAGED of both:
 *
 * settings         the node's settings; a begin, a batch and a load change them, all others only read them
 * settings_length  the bytes at settings; another number than SENNA_SETTINGS is SENNA_LENGTH
 */

/* Phases. */
#define SENNA_IDLE 0      /* no transaction; the rest of the record is blank but for the last serial, timestamp and outcome */
#define SENNA_OPEN 1      /* objects are opened and read */
#define SENNA_VOTING 2    /* votes are asked for */
#define SENNA_FINISHING 3 /* the outcome is told until every participant says done */

/* What a delivery brought about. Committed and aborted are a transaction's outcomes too; an outcome of 0 is none. */
#define SENNA_NOTHING 0
#define SENNA_COMMITTED 1
#define SENNA_ABORTED 2
#define SENNA_READY 3    /* copies of an object have come from a read quorum */
#define SENNA_FINISHED 4 /* the last done came: the record is idle */

/*
 * The answer of a call on a record, and of a station's step. On a refusal answer is 0, but SENNA_ABORTED beside SENNA_USED_UP where a request for
 * votes has given a batch up.
 */
typedef struct senna_called {
    uint8_t number;  /* SENNA_OK, or why the call refuses */
    uint64_t answer; /* what the call's comment says, and 0 where it says nothing */
} senna_called;

/* The answer of senna_coordinator_found and senna_station_found. On a refusal value is 0. */
typedef struct senna_value {
    uint8_t number; /* SENNA_OK, or why the call refuses */
    int64_t value;  /* the value found */
} senna_value;

/*
 * Whether bytes are a record, as kept bytes must be before a host goes on from them.
 * Numbers, the lowest that fits: SENNA_LENGTH (length is not SENNA_RECORD), SENNA_DAMAGED (a rule is broken).
 * Only reads the bytes at record; no heap; re-entrant.
 */
uint8_t senna_check_record(const uint8_t *record, size_t length);

/*
 * Writes the record of a node that never began a transaction: all zeros. Whatever stood there before is lost. Number: SENNA_LENGTH (length
 * is not SENNA_RECORD), and then nothing is written. Only writes to record; no heap; re-entrant.
 */
uint8_t senna_blank_record(uint8_t *record, size_t length);

/*
 * Settings. Beside its record a node has settings of SENNA_SETTINGS bytes: its packing hours, its table of weight classes, and what it must know of the
 * transaction that it began last. A host makes them blank once, keeps the bytes beside the record, and lends them to the calls that take them. It
 * writes both to its disk after each call, together: what waits is told by the two of them. Numbers are little-endian:
 *   at   bytes  what
 *   0    1      1 where a table of packing hours is loaded, else 0
 *   1    186    that table as it was lent, zeros behind it
 *   187  24     the table of weight classes as it was lent, zeros behind it; 0 and 0 for its two counts where none is loaded
 *   211  1      the kind of the transaction that began last: SENNA_KIND_OWN or SENNA_KIND_BATCH
 *   212  8      the tenths that waited when it began, one byte a class, 0 to 9
 *   220  8      the tenths that it leaves over where it is a batch, alike; else zeros
 * Blank settings are all zeros: nothing is loaded, all hours are open, no batch was begun, and nothing waits. Settings are damaged where byte 0 is above
 * 1, the lists from byte 1 on are no table of hours (also where byte 0 is 0), those from byte 187 on are no table of classes that a load accepts (0 and
 * 0 is none loaded), the kind is above 1, or one of the sixteen tenths is above 9. What stands behind the lists, up to bytes 186 and 210, does not
 * matter.
 *
 * Packing hours. A transaction begins only in packing hours. There is no begin that is not lent the settings, so every transaction goes through them.
 * No other call asks for the hours: a transaction that is under way may go on after closing time, to its last done.
 *
 * A begin is told the day and the minute, which are the host's; the library has no clock, and does not ask whether the two belong together:
 *   minute  of the week, counted from Monday midnight: 0 is Monday 00:00, 1,440 Tuesday 00:00, 10,079 Sunday 23:59; a higher one is SENNA_GARBLED
 *   day     a number of the host's own, such as the days since a date that it has chosen; it is compared with the closed dates and with nothing else
 *
 * A table of packing hours is a list of weekly windows and a list of closed dates. It is lent as bytes; numbers are little-endian:
 *   at           bytes  what
 *   0            1      n: how many windows, 0 to SENNA_WINDOWS
 *   1 + 4i       2      window i, counted from 0: its first minute, 0 to 10,079
 *   3 + 4i       2      its end, above the first minute, at most 10,080
 *   1 + 4n       1      d: how many closed dates, 0 to SENNA_DATES
 *   2 + 4n + 4j  4      date j, counted from 0: a day
 * and no byte more: the table has 2 + 4n + 4d bytes, at most SENNA_HOURS_MAX. A window's first minute is open and its end minute is closed; what
 * goes past Sunday midnight is two windows. Windows may overlap and dates may come twice, in any order. The hours are closed on each closed date,
 * and at each minute that no window has: without a window always. Monday 06:00 to 14:00, closed on day 20,815, is the bytes
 *   1, 0x68, 0x01, 0x48, 0x03, 1, 0x4f, 0x51, 0, 0
 *
 * Weight classes. The line weighs eggs in tenths of a gram. A table of classes has bounds that rise, and for each class between them an object whose
 * value counts its grams; a weight on a bound is in the upper class. It is lent as bytes:
 *   at           bytes  what
 *   0            1      n: how many bounds, 0 to SENNA_BOUNDS_MAX
 *   1 + 2i       2      bound i, counted from 0: 1 to 1,999 tenths, each above the one before
 *   1 + 2n       1      k: how many classes, n + 1
 *   2 + 2n + j   1      the object of class j, counted from 0: 0 to 127, none twice
 * and no byte more: the table has 2 + 2n + k bytes, at most SENNA_CLASS_TABLE_MAX. Class 0 has the weights below bound 0, class j those from bound j - 1
 * on and below bound j, the last one all from the last bound on. Below 53.0 g to object 10, from 53.0 g to object 11, is the bytes
 *   1, 0x12, 0x02, 2, 10, 11
 *
 * A batch is one transaction that adds to each class's object the whole grams of its weights and of the tenths that waited there. The tenths left over,
 * 0 to 9 a class, wait for the next batch of this node. It is lent as bytes:
 *   at      bytes  what
 *   0       2      n: how many weights, 0 to SENNA_WEIGHTS_MAX
 *   2 + 2i  2      weight i, counted from 0: 0 to 1,999 tenths
 * and no byte more: 2 + 2n bytes, at most SENNA_BATCH_MAX. What a host does, each step with the record and the settings of its node:
 *   1. senna_load_classes once, while idle
 *   2. senna_coordinator_batch with the weights: it begins, opens every class's object to write, also one that gets 0 grams, and notes the amounts
 *   3. what is due, and deliveries, as in any transaction, until every object is ready (senna_coordinator_is_ready)
 *   4. senna_coordinator_request_commit: each new value is the one found plus the grams, in signed 64 bits
 *   5. what is due, and deliveries, to the last done
 * Aborted, by a no, by a yield, by the host or at step 4, a batch has booked nothing and moved no tenth: the host books the same weights again, with the
 * same timestamp, so that it keeps its place. From the delivery on that answers SENNA_COMMITTED the new tenths wait, and not before
 * (senna_coordinator_waiting). Over the batches committed since the table was loaded, ten times the grams booked and the tenths that wait are together the
 * sum of all weights, class by class.
 *
 * Which number is given for what; each call tries them from the top:
 *
 *   number               senna_load_classes          senna_coordinator_batch                senna_coordinator_request_commit, on a batch
 *   SENNA_LENGTH         a length of the three       a length of the four                   a length of the two
 *   SENNA_DAMAGED        record, settings            record, settings                       record, settings
 *   SENNA_GARBLED        -                           a weight, too many, the minute         -
 *   SENNA_STRANGER       me                          me, live                               me
 *   SENNA_NO_SUCH_OBJECT an object above 127         -                                      -
 *   SENNA_BUSY           not idle                    not idle: before SENNA_OUT_OF_TURN     -
 *   SENNA_OUT_OF_TURN    -                           no table, the timestamp                not open
 *   SENNA_NOT_READY      -                           -                                      a value is not found yet: before SENNA_NO_QUORUM
 *   SENNA_NO_QUORUM      -                           no read quorum                         no write quorum
 *   SENNA_USED_UP        -                           the serial                             a version, answer 0; or a value, answer SENNA_ABORTED
 *   SENNA_CLOSED         -                           outside packing hours                  -
 *   SENNA_BOUNDS         the bounds                  -                                      -
 *   SENNA_TALLY_TWICE    an object twice             -                                      -
 */

/* Kinds of transactions. */
#define SENNA_KIND_OWN 0   /* the host's own: it opens objects and gives values */
#define SENNA_KIND_BATCH 1 /* a batch of weights */

/*
 * Whether bytes are settings, as kept bytes must be before a host goes on from them.
 * Numbers, the lowest that fits: SENNA_LENGTH (length is not SENNA_SETTINGS), SENNA_DAMAGED (a rule is broken).
 * Only reads the bytes at settings; no heap; re-entrant.
 */
uint8_t senna_check_settings(const uint8_t *settings, size_t length);

/*
 * Writes the settings of a node for which nothing was loaded: all zeros. Whatever stood there before is lost. Number: SENNA_LENGTH (length is not
 * SENNA_SETTINGS), and then nothing is written. Only writes to settings; no heap; re-entrant.
 */
uint8_t senna_blank_settings(uint8_t *settings, size_t length);

/*
 * Loads a table of packing hours in place of the one before, in whatever phase the node's record is. A refusal keeps the one before. To have all
 * hours open again, load one window from 0 to 10,080 and no date.
 *
 * settings  the node's settings, which are changed in place
 * length    the bytes at settings
 * list      the table; only read
 * size      the bytes at list
 *
 * Numbers, the lowest that fits: SENNA_LENGTH (length is not SENNA_SETTINGS, or size is another than the table's two counts say, also 0),
 * SENNA_DAMAGED (the settings; or the table has more than SENNA_WINDOWS windows, more than SENNA_DATES dates, a first minute above 10,079, an end above
 * 10,080, or an end that is not above its first minute).
 * Otherwise senna_check_settings answers 0 for the settings after. Only writes to settings, which must not overlap the list; no heap; re-entrant.
 */
uint8_t senna_load_hours(uint8_t *settings, size_t length, const uint8_t *list, size_t size);

/*
 * Loads a table of weight classes in place of the one before. The node must be idle. No tenth waits after it: what waited by the table before is gone, so
 * a host that wants to book it asks senna_coordinator_waiting first. A refusal keeps the table before and what waits. Answers 0.
 *
 * record           the node's record; only read: its phase
 * length           the bytes at record
 * settings         the node's settings, which are changed in place, but for the packing hours
 * settings_length  the bytes at settings
 * me               the node's own number
 * list             the table; only read
 * size             the bytes at list
 *
 * Numbers, in this order: SENNA_LENGTH (of the record or the settings, or size is another than the table's two counts say, also 0), SENNA_DAMAGED (the
 * record or the settings), SENNA_STRANGER (me above 12), SENNA_NO_SUCH_OBJECT (an object above 127), SENNA_BUSY (the phase is not SENNA_IDLE: load after
 * the last done), SENNA_BOUNDS (bounds that do not rise strictly, one that is 0 or above 1,999, more than SENNA_BOUNDS_MAX, or not one fewer than the
 * objects), SENNA_TALLY_TWICE (an object twice).
 * Otherwise senna_check_settings answers 0 for the settings after. Only writes to settings, which must not overlap the others; no heap; re-entrant.
 */
senna_called senna_load_classes(const uint8_t *record, size_t length, uint8_t *settings, size_t settings_length, uint8_t me, const uint8_t *list,
                                size_t size);

/*
 * The kind of the transaction that the node began last: SENNA_KIND_OWN (also before the first, and after a table of classes was loaded) or
 * SENNA_KIND_BATCH. A host that resumes from kept bytes sees by it whether what is under way is a batch.
 * Numbers, the lowest that fits: SENNA_LENGTH, SENNA_DAMAGED. Only reads the bytes at settings; no heap; re-entrant.
 */
senna_called senna_settings_kind(const uint8_t *settings, size_t length);

/*
 * The tenths that wait in a class, counted from 0: answers 0 to 9. They are those that the last batch left over, from its commit on; otherwise those that
 * waited when the last transaction began. Nothing is changed: the call may come at any time, and as often as the host likes.
 * Numbers, the lowest that fits: SENNA_LENGTH and SENNA_DAMAGED (of the record or the settings), SENNA_NO_SUCH_OBJECT (the table has no such class, or
 * none is loaded). Only reads the bytes at record and settings; no heap; re-entrant.
 */
senna_called senna_coordinator_waiting(const uint8_t *record, size_t length, const uint8_t *settings, size_t settings_length, uint8_t class_number);

/*
 * Turns. Of two transactions that meet, the older goes first: the one with the smaller timestamp, of equal ones that of the lower node. Whoever was sent
 * back keeps his place: after an abort, whatever its cause (a no, a yield, senna_coordinator_abort, a batch given up), a begin takes the last timestamp
 * again, or any above it, and refuses a lower one. After a commit, and before the first transaction, it must be above the last. 0 is never taken. Each begin
 * has a serial of its own, so a late message of one try never counts for the next.
 *
 * How a host gets through where others want the same objects:
 *   1. It keeps the timestamp. A record that is idle with the outcome SENNA_ABORTED has it (senna_coordinator_timestamp): begin the same work again with it,
 *      until it is committed. New work takes a new one, such as from a clock: what comes later is younger.
 *   2. It asks node 0 first. While SENNA_VOTING it sends the ask to node 0 alone, as long as one is due to it; once node 0's yes has come nothing is due to
 *      it, and the others are asked. Node 0 votes on every transaction, so of two that meet one is voted down there, and holds nothing elsewhere that
 *      the other needs. Two hosts that ask all at once can send each other back in every try, each by what it holds, with new timestamps or kept ones.
 *   3. It tries again soon, but not in step with others. After an abort it sends what is due to the last done, waits for a short time that is another at each
 *      node, such as one turn and as many as its number, and begins again. While it waits it is listed nowhere, so others may be booked before it.
 * All three are advice: whatever hosts do, no booking is lost or done twice.
 *
 * What an old transaction may count on. Let votes have been asked for it, and let it be, at every participant, older than each other that is listed there;
 * let nobody hold one of its objects there, and no copy of one there have a higher version than was found; let the participants and its own node be on and
 * stay so, and its host not give up; and from then on let no message but its own reach a participant or its own node. Then every vote is yes. With p
 * participants it is committed after 2 x p deliveries, each ask and each vote once, and finished after 4 x p, each outcome and each done once, in whatever
 * order they come and whatever happens elsewhere. It is so of every station that began blank.
 */

/*
 * Begins a transaction of the host's own with the next serial, in packing hours; answers the chosen read quorum, the nearest for node me. The settings then
 * have the kind SENNA_KIND_OWN and the tenths that wait; their tables stay.
 *
 * settings         the node's settings, changed in place
 * settings_length  the bytes at settings; another number than SENNA_SETTINGS is SENNA_LENGTH
 * live             the nodes that may be chosen, at most SENNA_ALL
 * distances        SENNA_DISTANCES bytes, as for senna_nearest_read; only read
 * size             the bytes at distances; another number than SENNA_DISTANCES is SENNA_LENGTH
 * timestamp        after an abort the last one or any above it, else one above the last; never 0
 * day, minute      now, as the settings' comment says
 *
 * Numbers, in this order: SENNA_LENGTH, SENNA_DAMAGED (the record or the settings), SENNA_GARBLED (minute above 10,079, also where no table is
 * loaded), SENNA_STRANGER (me above 12, or live above SENNA_ALL), SENNA_BUSY (the phase is not SENNA_IDLE), SENNA_OUT_OF_TURN (timestamp below the
 * last, or the last one where the last transaction was not aborted), SENNA_NO_QUORUM, SENNA_USED_UP (the last serial is 4294967295), SENNA_CLOSED (a table is
 * loaded, and the day is a closed date or no window has the minute). After SENNA_CLOSED the host tries again at its next open minute, with the same
 * timestamp if it likes: nothing was used up.
 */
senna_called senna_coordinator_begin(uint8_t *record, size_t length, uint8_t *settings, size_t settings_length, uint8_t me, uint16_t live,
                                     const uint8_t *distances, size_t size, uint32_t timestamp, uint32_t day, uint16_t minute);

/*
 * Begins a batch with the next serial, in packing hours; answers the chosen read quorum, the nearest for node me. Every class's object is open to write, in
 * the table's order, with its grams as its new value for now, and the present read quorum is contacted. The settings then have the kind SENNA_KIND_BATCH, the
 * tenths that wait and those that this batch leaves over. A batch without weights is one too; it adds 0 grams to each object. Next the host sends what is
 * due, until every object is ready, and then calls senna_coordinator_request_commit; it opens nothing and gives no value. After an abort it begins the same
 * batch again, with the same timestamp if it likes.
 *
 * settings            the node's settings, changed in place
 * settings_length     the bytes at settings; another number than SENNA_SETTINGS is SENNA_LENGTH
 * live, distances, distances_length, timestamp, day, minute  as for senna_coordinator_begin
 * list                the weights; only read
 * size                the bytes at list
 *
 * Numbers, in this order: SENNA_LENGTH (also where size is another than 2 and twice the count), SENNA_DAMAGED (the record or the settings), SENNA_GARBLED (a
 * weight above 1,999, more than SENNA_WEIGHTS_MAX weights, or a minute above 10,079), SENNA_STRANGER (me above 12, or live above SENNA_ALL), SENNA_BUSY (the
 * phase is not SENNA_IDLE), SENNA_OUT_OF_TURN (no table of classes is loaded, or timestamp as for senna_coordinator_begin), SENNA_NO_QUORUM, SENNA_USED_UP
 * (the last serial is 4294967295), SENNA_CLOSED (as for senna_coordinator_begin).
 */
senna_called senna_coordinator_batch(uint8_t *record, size_t length, uint8_t *settings, size_t settings_length, uint8_t me, uint16_t live,
                                     const uint8_t *distances, size_t distances_length, uint32_t timestamp, uint32_t day, uint16_t minute,
                                     const uint8_t *list, size_t size);

/*
 * Takes a fresh live mask and distances while open; answers the newly chosen read quorum, the nearest for node me, which is contacted if an object is open.
 * live, distances and size are as for senna_coordinator_begin.
 * Numbers: SENNA_STRANGER (also live above SENNA_ALL), SENNA_OUT_OF_TURN (not SENNA_OPEN), SENNA_NO_QUORUM.
 */
senna_called senna_coordinator_reselect(uint8_t *record, size_t length, uint8_t me, uint16_t live, const uint8_t *distances, size_t size);

/*
 * Opens an object, to read it or to write it; the present read quorum is contacted. The settings are only read. Answers 0.
 * Numbers: SENNA_OUT_OF_TURN (not SENNA_OPEN, or the transaction is a batch, which has its objects), SENNA_NO_SUCH_OBJECT (above 127, or opened
 * already), SENNA_EIGHT_OPEN.
 */
senna_called senna_coordinator_open_read(uint8_t *record, size_t length, const uint8_t *settings, size_t settings_length, uint8_t me, uint8_t object);
senna_called senna_coordinator_open_write(uint8_t *record, size_t length, const uint8_t *settings, size_t settings_length, uint8_t me, uint8_t object);

/*
 * Gives an object that was opened to write its new value; the last one given counts. The settings are only read. Answers 0.
 * Numbers: SENNA_OUT_OF_TURN (not SENNA_OPEN, or the transaction is a batch, which has its amounts), SENNA_NO_SUCH_OBJECT (not opened, or opened to
 * read).
 */
senna_called senna_coordinator_set_value(uint8_t *record, size_t length, const uint8_t *settings, size_t settings_length, uint8_t me, uint8_t object,
                                         int64_t value);

/*
 * The value found for an opened object, in every phase but SENNA_IDLE. The record is lent as non-const and comes back as it was.
 * Numbers: SENNA_OUT_OF_TURN (SENNA_IDLE), SENNA_NO_SUCH_OBJECT (not opened), SENNA_NOT_READY.
 */
senna_value senna_coordinator_found(uint8_t *record, size_t length, uint8_t me, uint8_t object);

/*
 * Asks for votes; answers the participants, who are the nearest write quorum for node me and every contacted node. On a batch each object's new value is then
 * the one found plus its grams. The settings are only read.
 * Numbers, in this order: SENNA_OUT_OF_TURN (not SENNA_OPEN), SENNA_NOT_READY (no object, one not ready, or one to write without its
 * new value), SENNA_NO_QUORUM, SENNA_USED_UP (a written version is 4294967295).
 *
 * On a batch SENNA_USED_UP has two reasons, and the answer says which. Answer 0: a written version is 4294967295; nothing has changed, and the batch is
 * still open. Answer SENNA_ABORTED, where no version is used up: a new value would be above 9223372036854775807 or below -9223372036854775808. The batch
 * is then given up as by senna_coordinator_abort: only the record has changed, to SENNA_FINISHING with the outcome SENNA_ABORTED; what waits stays. The
 * host keeps the record's bytes, sends the aborts that are due, and books the weights by a table with another object for that class.
 */
senna_called senna_coordinator_request_commit(uint8_t *record, size_t length, const uint8_t *settings, size_t settings_length, uint8_t me);

/*
 * Gives the transaction up: the phase is SENNA_FINISHING with the outcome SENNA_ABORTED, or SENNA_IDLE where nobody was contacted. Answers 0.
 * Number: SENNA_OUT_OF_TURN (neither SENNA_OPEN nor SENNA_VOTING).
 */
senna_called senna_coordinator_abort(uint8_t *record, size_t length, uint8_t me);

/*
 * Delivers a copy, a vote, a done or a yield; answers what it brought about, SENNA_NOTHING to SENNA_FINISHED. The transaction is committed
 * from the delivery on that answers SENNA_COMMITTED, and never before. A no of a participant, or a yield that names this transaction, aborts it
 * while SENNA_VOTING, a yield also while SENNA_OPEN. A message that does not fit the transaction, such as one that comes late or again, changes
 * nothing and is no refusal.
 *
 * message  the message; only read
 * size     the bytes at message
 *
 * Numbers, the lowest that fits: SENNA_LENGTH (of the record, or size is not SENNA_MESSAGE_MIN to SENNA_MESSAGE_MAX), SENNA_DAMAGED,
 * SENNA_GARBLED, SENNA_STRANGER (me above 12, or for another node), SENNA_OUT_OF_TURN (a fetch, an ask or an outcome).
 */
senna_called senna_coordinator_receive(uint8_t *record, size_t length, uint8_t me, const uint8_t *message, size_t size);

/*
 * Writes the message that is due to a node, and while SENNA_OPEN for an object; in other phases object does not matter. It stays due, and
 * may be sent again, until its answer is delivered. The record is only read. Nothing due: SENNA_OK with length 0, and nothing is written.
 *
 *   SENNA_OPEN       a fetch to each node of the present read quorum, while the object is not ready
 *   SENNA_VOTING     an ask to each participant that has not voted yes
 *   SENNA_FINISHING  the outcome to each participant that has not said done (where votes were never asked for, to each contacted node); to any
 *                    other node, after a commit, a yield where it owns a rival that was named
 *
 * node    the node that the message is for
 * object  an opened object, while SENNA_OPEN
 * out     where the message goes; the bytes behind it are left alone
 * size    the bytes at out, at least SENNA_MESSAGE_MAX
 *
 * Numbers: SENNA_LENGTH (of either), SENNA_DAMAGED, SENNA_STRANGER (me or node above 12), SENNA_NO_SUCH_OBJECT (while SENNA_OPEN: above
 * 127, or not opened), SENNA_GARBLED (a record that no run from blank has: its message would not be well formed).
 */
senna_written senna_coordinator_due(const uint8_t *record, size_t length, uint8_t me, uint8_t node, uint8_t object, uint8_t *out,
                                    size_t size);

/*
 * What a record says, for a host that resumes from kept bytes; 0 where the bytes are no record, so check them first. None of these refuses.
 * They only read the bytes at record; no heap; re-entrant.
 *
 *   phase         SENNA_IDLE to SENNA_FINISHING
 *   serial        of the present or last transaction; 0 before the first
 *   timestamp     of the present or last transaction; 0 before the first. Idle with the outcome SENNA_ABORTED, the host may begin with it again
 *   outcome       SENNA_COMMITTED or SENNA_ABORTED, of the last transaction that was decided; 0 before the first. While SENNA_OPEN or
 *                 SENNA_VOTING this is still the one before, so look at the phase too
 *   participants  the mask of the nodes whose votes are asked for; 0 before they are, and when idle
 *   count         how many objects are open, 0 to SENNA_ENTRIES; 0 when idle
 *   object, mode  of the i-th object, counted from 0 in the order of opening; 0 past the count. A mode is SENNA_READ or SENNA_WRITE
 *   is_ready      1 where the i-th object's value is found, else 0
 */
uint8_t senna_coordinator_phase(const uint8_t *record, size_t length);
uint32_t senna_coordinator_serial(const uint8_t *record, size_t length);
uint32_t senna_coordinator_timestamp(const uint8_t *record, size_t length);
uint8_t senna_coordinator_outcome(const uint8_t *record, size_t length);
uint16_t senna_coordinator_participants(const uint8_t *record, size_t length);
size_t senna_coordinator_count(const uint8_t *record, size_t length);
uint8_t senna_coordinator_object(const uint8_t *record, size_t length, uint8_t i);
uint8_t senna_coordinator_mode(const uint8_t *record, size_t length, uint8_t i);
uint8_t senna_coordinator_is_ready(const uint8_t *record, size_t length, uint8_t i);

/*
 * The station: thirteen replicas and thirteen coordinators, the messages that wait, which nodes are on, and their settings. It is kept in five lent
 * buffers:
 *   images    SENNA_IMAGES bytes: each node's image
 *   records   SENNA_RECORDS bytes: each node's record
 *   pool      SENNA_POOL bytes: how many messages wait 1, then SENNA_WAITING places of a length 1 and SENNA_MESSAGE_MAX bytes; the messages
 *             that wait are in the first places, in sending order. What stands behind a message in its place, and in the places past the
 *             count, does not matter
 *   own       SENNA_OWN bytes: the mask of the nodes that are on, low byte first, at most SENNA_ALL
 *   settings  SENNA_STATION_SETTINGS bytes: each node's settings; lent to those steps alone that need them
 *
 * A station begins as senna_station_blank makes it, and each step below changes it in place. The buffers of one call must not overlap. A
 * step reads and writes only the buffers that it is lent, and of images, records and settings only its node's part.
 *
 * Numbers of every step: SENNA_LENGTH (a lent buffer has another length than it must) and SENNA_DAMAGED (a pool with a count above
 * SENNA_WAITING, a mask above SENNA_ALL, or a record or settings of the node that break a rule) come first, then SENNA_STRANGER for a node
 * above 12, then what its comment says, in the order that it says. On a refusal answer is 0 and every lent byte is as it was, but where
 * senna_station_request_commit gives a batch up. Otherwise every byte that the comment does not name is as it was. No heap; re-entrant.
 */

/*
 * Makes a blank station: blank images, records and settings, a pool of zeros, and the nodes of a mask on. Whatever stood there before is lost.
 * Numbers, the lowest that fits: SENNA_LENGTH (of any of the five), SENNA_STRANGER (on is above SENNA_ALL).
 */
uint8_t senna_station_blank(uint8_t *images, size_t images_length, uint8_t *records, size_t records_length, uint8_t *pool,
                            size_t pool_length, uint8_t *own, size_t own_length, uint8_t *settings, size_t settings_length, uint16_t on);

/*
 * Takes a station's thirteen images of an older length in, all at once: each becomes what senna_take_in makes of it. A program calls it once after an
 * update, on the kept images of a station, before any other call on them. Records, pool, own and settings stay as they are, and messages that wait are still
 * delivered. With the station at rest, that is with every record idle, what was booked before and what is booked after count as one running; the call
 * does not ask for it.
 *
 * old            the older images, node 0 first; only read
 * old_length     the bytes at old: thirteen times SENNA_IMAGE_1207 or thirteen times SENNA_IMAGE_1527
 * images         where the images go; whatever stood there before is lost
 * images_length  the bytes at images, SENNA_IMAGES
 *
 * Numbers, the lowest that fits: SENNA_LENGTH (old_length is neither of the two, or images_length is not SENNA_IMAGES), SENNA_DAMAGED (any of the
 * thirteen breaks a rule of its own format). On a refusal nothing is written. Only reads the bytes at old, only writes to images, which must not overlap
 * old; no heap; re-entrant. On the stack it has two scratches of SENNA_IMAGE bytes.
 */
uint8_t senna_station_take_in(const uint8_t *old, size_t old_length, uint8_t *images, size_t images_length);

/*
 * The host's calls at a node: each is the call of the same name on that node's record and settings (senna_coordinator_begin and so on), with its answer
 * and its numbers. Only the node's record changes, and at a begin or a batch its settings. Those that are lent the settings go by them.
 *
 * SENNA_OUT_OF_TURN also where the node is off, before every later number; SENNA_STRANGER, at begin SENNA_GARBLED and SENNA_BUSY, and at batch
 * SENNA_LENGTH of the list, SENNA_GARBLED and SENNA_BUSY, still precede it. Off, a batch is not given up: SENNA_OUT_OF_TURN, and nothing has changed.
 */
senna_called senna_station_begin(uint8_t *records, size_t records_length, const uint8_t *own, size_t own_length, uint8_t *settings,
                                 size_t settings_length, uint8_t node, uint16_t live, const uint8_t *distances, size_t size,
                                 uint32_t timestamp, uint32_t day, uint16_t minute);
senna_called senna_station_batch(uint8_t *records, size_t records_length, const uint8_t *own, size_t own_length, uint8_t *settings,
                                 size_t settings_length, uint8_t node, uint16_t live, const uint8_t *distances, size_t distances_length,
                                 uint32_t timestamp, uint32_t day, uint16_t minute, const uint8_t *list, size_t size);
senna_called senna_station_reselect(uint8_t *records, size_t records_length, const uint8_t *own, size_t own_length, uint8_t node,
                                    uint16_t live, const uint8_t *distances, size_t size);
senna_called senna_station_open_read(uint8_t *records, size_t records_length, const uint8_t *own, size_t own_length, const uint8_t *settings,
                                     size_t settings_length, uint8_t node, uint8_t object);
senna_called senna_station_open_write(uint8_t *records, size_t records_length, const uint8_t *own, size_t own_length, const uint8_t *settings,
                                      size_t settings_length, uint8_t node, uint8_t object);
senna_called senna_station_set_value(uint8_t *records, size_t records_length, const uint8_t *own, size_t own_length, const uint8_t *settings,
                                     size_t settings_length, uint8_t node, uint8_t object, int64_t value);
senna_value senna_station_found(uint8_t *records, size_t records_length, const uint8_t *own, size_t own_length, uint8_t node,
                                uint8_t object);
senna_called senna_station_request_commit(uint8_t *records, size_t records_length, const uint8_t *own, size_t own_length, const uint8_t *settings,
                                          size_t settings_length, uint8_t node);
senna_called senna_station_abort(uint8_t *records, size_t records_length, const uint8_t *own, size_t own_length, uint8_t node);

/*
 * Loads a table of packing hours for a node, in place of the one before, as senna_load_hours does. Only the node's settings change. Answers 0.
 *
 * Numbers: SENNA_LENGTH and SENNA_DAMAGED also of the table; SENNA_STRANGER (node above 12), SENNA_OUT_OF_TURN (the node is off).
 */
senna_called senna_station_load_hours(const uint8_t *own, size_t own_length, uint8_t *settings, size_t settings_length, uint8_t node,
                                      const uint8_t *list, size_t size);

/*
 * Loads a table of weight classes for a node, in place of the one before, as senna_load_classes does. Only the node's settings change. Answers 0. What
 * waits in a class of a node is told by senna_coordinator_waiting on its record, at records + node * SENNA_RECORD, and its settings, at settings + node *
 * SENNA_SETTINGS.
 *
 * Numbers, in this order: SENNA_LENGTH (also of the table), SENNA_DAMAGED, SENNA_STRANGER (node above 12), SENNA_OUT_OF_TURN (the node is off),
 * SENNA_NO_SUCH_OBJECT, SENNA_BUSY, SENNA_BOUNDS, SENNA_TALLY_TWICE.
 */
senna_called senna_station_load_classes(const uint8_t *records, size_t records_length, const uint8_t *own, size_t own_length, uint8_t *settings,
                                        size_t settings_length, uint8_t node, const uint8_t *list, size_t size);

/*
 * Sends what is due from a node to a node, and while SENNA_OPEN for an object: what senna_coordinator_due would write goes to the pool's end.
 * Nothing due: SENNA_OK, and nothing is sent. Only the pool changes. Answers 0.
 *
 * Numbers: SENNA_STRANGER (node or to above 12), SENNA_OUT_OF_TURN (the node is off), SENNA_NO_SUCH_OBJECT (while SENNA_OPEN: above 127, or not
 * opened), SENNA_GARBLED (a record that no step leaves, whose message would not be well formed), SENNA_POOL_FULL (SENNA_WAITING messages wait
 * already, also where nothing is due).
 */
senna_called senna_station_send(const uint8_t *records, size_t records_length, uint8_t *pool, size_t pool_length, const uint8_t *own,
                                size_t own_length, uint8_t node, uint8_t to, uint8_t object);

/*
 * Delivers the k-th waiting message, counted from 0 in sending order, to the node that it names. kept: 0 takes it out of the pool, any other
 * number leaves it waiting. A fetch, an ask or an outcome goes to the node's replica: its image changes, and its answer goes to the pool's end.
 * The others go to the node's coordinator: its record changes. Answers what a coordinator's message brought about, SENNA_NOTHING to
 * SENNA_FINISHED, and 0 for a replica's. At a node that is off nothing happens but that the message is taken out,
 * unless kept.
 *
 * Numbers, in this order: SENNA_LENGTH and SENNA_DAMAGED of the buffers; SENNA_OUT_OF_TURN (no such message waits); SENNA_LENGTH or
 * SENNA_GARBLED (what waits is no message); then, where the node is on, those of senna_replica_receive or of senna_coordinator_receive on its
 * image or record, among them SENNA_DAMAGED, and last SENNA_POOL_FULL (a kept message that has an answer, with SENNA_WAITING waiting).
 */
senna_called senna_station_deliver(uint8_t *images, size_t images_length, uint8_t *records, size_t records_length, uint8_t *pool,
                                   size_t pool_length, const uint8_t *own, size_t own_length, uint8_t k, uint8_t kept);

/*
 * Takes the k-th waiting message out of the pool, undelivered. Only the pool changes. Answers 0.
 * Number: SENNA_OUT_OF_TURN (no such message waits).
 */
senna_called senna_station_drop(uint8_t *pool, size_t pool_length, uint8_t k);

/*
 * Switches a node: up 0 off, any other number on. A repeated switch changes nothing. Only own changes. Answers 0.
 * Number: SENNA_STRANGER (node above 12).
 */
senna_called senna_station_switch(uint8_t *own, size_t own_length, uint8_t node, uint8_t up);

/* How many messages wait; 0 where the bytes are no pool. Never refuses. Only reads the bytes at pool; no heap; re-entrant. */
size_t senna_station_waiting(const uint8_t *pool, size_t pool_length);

/* A waiting message: its bytes are the length bytes at pool + place. On a refusal both are 0. */
typedef struct senna_waiting {
    uint8_t number; /* SENNA_OK, or why the call refuses */
    size_t place;   /* of the message's first byte in the pool */
    size_t length;  /* of the message */
} senna_waiting;

/*
 * Where the k-th waiting message stands, and how long it is. Numbers, the lowest that fits: SENNA_LENGTH, SENNA_DAMAGED, SENNA_OUT_OF_TURN (no
 * such message waits). Only reads the bytes at pool; no heap; re-entrant.
 */
senna_waiting senna_station_message(const uint8_t *pool, size_t pool_length, uint8_t k);

#ifdef __cplusplus
}
#endif

#endif
