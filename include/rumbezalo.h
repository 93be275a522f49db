/*
 * rumbezalo.h: the name service's eleven calls, for C (C99) and C++ on x86-64 Linux.
 *
 * Link target/staticlib/libservice.a, which `.ci/library` writes. It needs nothing but
 * memcpy, memmove and memset.
 *
 * One to eight nodes share one tree. Each node lends a table of 13,344 bytes, which is all that it
 * remembers. A node changes its own table (create, unlink, rename, remove, spread), writes what it has
 * to tell another node to a message (push), takes in what another has written (receive), which yields
 * an acknowledgement for the sender, and takes in acknowledgements (acknowledged).
 *
 * What is the caller's part. Carrying the bytes from node to node: messages may be lost, repeated and
 * delayed, but must arrive as they were written; they carry no checksum and no signature. Keeping the
 * table: save what each call leaves before anything that it wrote is sent, and bring a node back with
 * the bytes that its last call left, never with earlier ones. A node that goes back to an earlier
 * table, or is started a second time, may leave all nodes with nothing pending and different trees.
 * So kept, when pending is 0 on every one of the nodes 1 to N, every live file has one name, the same
 * on every node that holds it, and a path from the root: that is proved. The silence of one node, or
 * of some, says nothing.
 *
 * Buffers. All memory is the caller's, and lent for the time of one call: the library keeps no
 * pointer, allocates nothing and has no global state. So calls on different tables may run in
 * different threads at the same time; two calls on one table may not, unless both only read it
 * (list, push, pending). The table, the message or name and the output of one call must not overlap,
 * and each must be as long as its size says. Where a size is 0 nothing is read or written through
 * the pointer, and it may be null. Keep 64 KiB of stack free: as compiled now, a call takes about 27;
 * no proof bounds that.
 *
 * Answers. A call answers number * 2^32 + value; rumbezalo_number and rumbezalo_value take that
 * apart. Number 0 is done, and the value is the new id, the bytes written, the entries written or
 * the count, as each call says; else 0. Numbers 1 to 17 are refusals: the value is 0 and no byte
 * lent has changed, of the table or of the output. Where several hold, the lowest is given. Bytes of
 * the output past those written keep their value.
 *
 * Every call takes any bytes and any numbers, and answers as document 01 of the project says: that
 * is proved. What a caller must see to is said under "Buffers".
 */
#ifndef RUMBEZALO_H
#define RUMBEZALO_H

#include <stddef.h>
#include <stdint.h>

#ifdef __cplusplus
extern "C" {
#endif

/* ---- sizes, in bytes */

#define RUMBEZALO_TABLE_SIZE 13344         /* a table, exactly */
#define RUMBEZALO_PUSH_MOST 1640           /* the longest push */
#define RUMBEZALO_ACKNOWLEDGEMENT_SIZE 16  /* an acknowledgement, exactly */
#define RUMBEZALO_ENTRY_SIZE 32            /* one record that list writes */
#define RUMBEZALO_LIST_MOST 1024           /* the longest list: 32 records */
#define RUMBEZALO_NAME_MOST 15             /* the longest name; the shortest has 1 */

/* ---- numbers */

#define RUMBEZALO_NODES_MOST 8                     /* nodes are 1 to N, N is 1 to 8 */
#define RUMBEZALO_REPLICAS_MOST 64                 /* replicas in a table, the root included */
#define RUMBEZALO_ENTRIES_MOST 256                 /* entries in a table, dead ones included */
#define RUMBEZALO_DIRECTORY_MOST 32                /* entries in a directory, dead ones included */
#define RUMBEZALO_DEPTH_MOST 16                    /* the root is at depth 0 */
#define RUMBEZALO_NOW_MOST UINT64_C(1099511627775) /* 2^40-1 */

#define RUMBEZALO_ROOT 0      /* the root's id */
#define RUMBEZALO_FILE 1      /* kinds */
#define RUMBEZALO_DIRECTORY 2

/* The set with one node, 1 to 8. Sets are joined with |; the set of the nodes 1 to N is 2^N-1. */
#define RUMBEZALO_NODE(node) (UINT64_C(1) << ((node)-1))

/* ---- answers */

enum rumbezalo_refusal {
    RUMBEZALO_DONE = 0,
    RUMBEZALO_UNSOUND = 1,         /* the table is not sound (start: it has not 13,344 bytes) */
    RUMBEZALO_OUT_OF_RANGE = 2,    /* a node, N, set, kind or name is outside its range; now is above
                                      2^40-1; a push is to oneself */
    RUMBEZALO_SHORT_OUTPUT = 3,    /* the output is too short for what is to be written */
    RUMBEZALO_MALFORMED = 4,       /* the message is malformed */
    RUMBEZALO_NOT_ADDRESSED = 5,   /* the message is not addressed to this node */
    RUMBEZALO_NOT_HELD = 6,        /* an id named is not held */
    RUMBEZALO_DEAD = 7,            /* what an id names is dead: unlinked or removed */
    RUMBEZALO_WRONG_KIND = 8,      /* a directory where a file is asked for, or the other way round; or
                                      the root is to be removed */
    RUMBEZALO_NAME_TAKEN = 9,      /* a live entry there has that name */
    RUMBEZALO_NOT_EMPTY = 10,      /* the directory has a live entry, or a live child is held */
    RUMBEZALO_TOO_DEEP = 11,       /* the directory is 16 deep: nothing can stand in it */
    RUMBEZALO_PLACE_NOT_HELD = 12, /* the place directory is not held; no sound table yields this */
    RUMBEZALO_AT_ODDS = 13,        /* message and table contradict each other: kinds differ, or a
                                      directory's places or depths, or equal stamps with different
                                      state; or it tells of an id of our making that we don't hold */
    RUMBEZALO_NOT_PENDING = 14,    /* nothing is pending there for that node: no push is due */
    RUMBEZALO_NOT_CURRENT = 15,    /* the acknowledgement is of another version, or its sender is not
                                      pending: it comes too late, or twice */
    RUMBEZALO_FULL = 16,           /* more than 64 replicas, 256 entries, or 32 in a directory would be
                                      needed */
    RUMBEZALO_AT_END = 17          /* a clock past 2^40-1, a version past 2^32-1 or a count past
                                      16,777,215 would be needed */
};

/* The number in an answer: 0 is done, 1 to 17 are refusals. */
static inline unsigned rumbezalo_number(uint64_t answer) {
    return (unsigned)(answer >> 32);
}

/* The value in an answer. */
static inline uint32_t rumbezalo_value(uint64_t answer) {
    return (uint32_t)(answer & UINT64_C(0xFFFFFFFF));
}

/* A number in words. */
static inline const char *rumbezalo_words(unsigned number) {
    switch (number) {
    case 0: return "done";
    case 1: return "the table is not sound";
    case 2: return "a node, number of nodes, set, kind, name or time is outside its range, or a push is to oneself";
    case 3: return "the output is too short";
    case 4: return "the message is malformed";
    case 5: return "the message is not addressed to this node";
    case 6: return "an id named is not held";
    case 7: return "what an id names is dead";
    case 8: return "it is of the wrong kind, or the root is to be removed";
    case 9: return "a live entry there has that name";
    case 10: return "the directory has a live entry or a live child";
    case 11: return "the directory is 16 deep";
    case 12: return "the place directory is not held";
    case 13: return "message and table contradict each other";
    case 14: return "nothing is pending for that node";
    case 15: return "the acknowledgement is of another version, or its sender is not pending";
    case 16: return "more than 64 replicas, 256 entries or 32 entries in a directory would be needed";
    case 17: return "a clock, version or count past its end would be needed";
    default: return "no number of an answer";
    }
}

/*
 * ---- the calls
 *
 * Every call but start gives 1 if the table is not sound. node is 1 to N; set is a node set, bit i-1
 * for node i and no bit above N; now is the time of the call, 0 to 2^40-1, in a unit that the nodes
 * share. Seconds since 1970 fit, milliseconds do not. Their clocks need not agree: a new stamp is above
 * every stamp that the node has seen, and of two changes that did not know of each other the one with
 * the greater clock wins, of equal clocks that of the greater node. A clock never goes back, and nodes
 * learn it from each other: one call with a time near 2^40-1 leaves no clock for later changes (17), on
 * every node that hears of it. An id may be any number; one that is none is one that is not held (6).
 * A name is name_size bytes, 1 to 15, no byte 00 or 2F ('/'), not "." and not ".."; no zero ends it.
 */

/*
 * Starts the table of a node, of N nodes: the root alone, which all nodes hold. What the bytes were
 * before does not matter. Value 0.
 *
 *  1  table_size is not 13,344
 *  2  N is not 1 to 8, or node not 1 to N
 */
uint64_t rumbezalo_start(uint8_t *table, size_t table_size, uint64_t node, uint64_t n);

/*
 * Creates a file (kind 1) or a directory (kind 2) with this name in a directory, held by the nodes
 * of set and this one; the set may be empty. The value is the new id.
 *
 *  1  the table is not sound
 *  2  now, kind, name or set is outside its range
 *  6  the directory is not held
 *  7  it is dead
 *  8  it is a file
 *  9  a live entry in it has that name
 * 11  it is 16 deep
 * 16  more than 64 replicas, 256 entries, or 32 in the directory would be needed
 * 17  a clock, version or count past its end would be needed
 */
uint64_t rumbezalo_create(uint8_t *table, size_t table_size, uint64_t now, uint64_t directory,
                          uint64_t kind, const uint8_t *name, size_t name_size, uint64_t set);

/*
 * Unlinks a file. Value 0.
 *
 *  1  the table is not sound
 *  2  now is outside its range
 *  6  the file is not held
 *  7  it is dead
 *  8  it is a directory
 * 17  a clock or version past its end would be needed
 */
uint64_t rumbezalo_unlink(uint8_t *table, size_t table_size, uint64_t now, uint64_t id);

/*
 * Moves a file into a directory, under a name. Value 0.
 *
 *  1  the table is not sound
 *  2  now or name is outside its range
 *  6  the file or the directory is not held
 *  7  one of them is dead
 *  8  the id is a directory's, or the directory is a file
 *  9  a live entry in the directory has that name, the file's own place included
 * 11  the directory is 16 deep
 * 16  more than 256 entries, or 32 in the directory would be needed
 * 17  a clock or version past its end would be needed
 */
uint64_t rumbezalo_rename(uint8_t *table, size_t table_size, uint64_t now, uint64_t id,
                          uint64_t directory, const uint8_t *name, size_t name_size);

/*
 * Removes a directory in which nothing is live. Value 0.
 *
 *  1  the table is not sound
 *  2  now is outside its range
 *  6  the directory is not held
 *  7  it is dead
 *  8  it is a file, or the root
 * 10  it has a live entry, or a live child of it is held
 * 17  a clock or version past its end would be needed
 */
uint64_t rumbezalo_remove(uint8_t *table, size_t table_size, uint64_t now, uint64_t id);

/*
 * Has more nodes hold a file or directory, the root too: the set is joined to its holders. If it
 * brings none that is new, this is done and nothing changes. Value 0.
 *
 *  1  the table is not sound
 *  2  the set is outside its range
 *  6  the id is not held
 * 17  a version past its end would be needed
 */
uint64_t rumbezalo_spread(uint8_t *table, size_t table_size, uint64_t id, uint64_t set);

/*
 * Writes the live entries of a directory as records of 32 bytes, at most 32 of them. The value is how
 * many records were written. rumbezalo_entry_child and the functions below it read a record.
 *
 *  1  the table is not sound
 *  3  the output is shorter than the live entries are (1,024 bytes are always enough)
 *  6  the directory is not held
 *  7  it is dead
 *  8  it is a file
 */
uint64_t rumbezalo_list(const uint8_t *table, size_t table_size, uint64_t id, uint8_t *out,
                        size_t out_size);

/*
 * Writes the push of a file or directory to a node: what that node is to receive. The value is how
 * many bytes were written, 56 to 1,640. It stays pending until its acknowledgement comes back.
 * rumbezalo_slot_id and rumbezalo_slot_pending tell which pushes are due.
 *
 *  1  the table is not sound
 *  2  node is not 1 to N, or is this node
 *  3  the output is shorter than the push is (1,640 bytes are always enough)
 *  6  the id is not held
 * 14  nothing is pending there for that node
 */
uint64_t rumbezalo_push(const uint8_t *table, size_t table_size, uint64_t id, uint64_t node,
                        uint8_t *out, size_t out_size);

/*
 * Receives a push and writes the acknowledgement that its sender is to get. The value is 16, the
 * bytes written.
 *
 *  1  the table is not sound
 *  2  now is outside its range
 *  3  the output is shorter than 16 bytes
 *  4  the message is no push
 *  5  it is not addressed to this node
 * 13  message and table contradict each other
 * 16  more than 64 replicas, 256 entries, or 32 in a directory would be needed
 * 17  a clock or version past its end would be needed
 */
uint64_t rumbezalo_receive(uint8_t *table, size_t table_size, uint64_t now, const uint8_t *message,
                           size_t message_size, uint8_t *out, size_t out_size);

/*
 * Receives an acknowledgement: what was pushed is no longer pending for its sender. Value 0.
 *
 *  1  the table is not sound
 *  4  the message is no acknowledgement
 *  5  it is not addressed to this node
 *  6  the id in it is not held
 * 15  it is of another version than the current one (there was a change since the push, which is to be
 *     pushed still), or its sender is not pending (it came before)
 */
uint64_t rumbezalo_acknowledged(uint8_t *table, size_t table_size, const uint8_t *message,
                                size_t message_size);

/*
 * The value is how many pushes are due: over all replicas, the nodes that are pending. Also the way to
 * ask whether bytes are a sound table.
 *
 *  1  the table is not sound
 */
uint64_t rumbezalo_pending(const uint8_t *table, size_t table_size);

/* ---- reading records and tables: little-endian, at the places that document 01 gives */

/* A number of four bytes. */
static inline uint32_t rumbezalo_u32(const uint8_t *bytes) {
    return (uint32_t)bytes[0] | (uint32_t)bytes[1] << 8 | (uint32_t)bytes[2] << 16 |
           (uint32_t)bytes[3] << 24;
}

/* The id that a record of list is for. */
static inline uint32_t rumbezalo_entry_child(const uint8_t *entry) {
    return rumbezalo_u32(entry + 4);
}

/* Its stamp: clock * 256 + issuing node. Of two stamps the greater number wins. */
static inline uint64_t rumbezalo_entry_stamp(const uint8_t *entry) {
    return (uint64_t)rumbezalo_u32(entry + 8) | (uint64_t)rumbezalo_u32(entry + 12) << 32;
}

/* How many bytes its name has, 1 to 15. */
static inline size_t rumbezalo_entry_name_size(const uint8_t *entry) {
    return entry[16];
}

/* Its name, which ends in no zero: one of 15 bytes goes to the end of the record. */
static inline const uint8_t *rumbezalo_entry_name(const uint8_t *entry) {
    return entry + 17;
}

/* The id of the replica in a slot, 0 to 63, of a sound table; 0 for the root and for a free slot. */
static inline uint32_t rumbezalo_slot_id(const uint8_t *table, size_t slot) {
    return rumbezalo_u32(table + 32 + 48 * slot + 4);
}

/* The set of nodes to which a push of that replica is due; 0 for a free slot. */
static inline uint8_t rumbezalo_slot_pending(const uint8_t *table, size_t slot) {
    return table[32 + 48 * slot + 44];
}

#ifdef __cplusplus
}
#endif

#endif
