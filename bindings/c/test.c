/*
 * The calls from C, or C++: the first run of document 01 on two nodes, and every refusal that can be
 * met. What is not as it must be is said in words, and then the exit code is 1.
 */
#include <rumbezalo.h>
#include <stdio.h>
#include <string.h>

/* The tables of the two nodes, and what goes between them. */
static uint8_t one[RUMBEZALO_TABLE_SIZE], two[RUMBEZALO_TABLE_SIZE];
static uint8_t message[RUMBEZALO_PUSH_MOST], back[RUMBEZALO_ACKNOWLEDGEMENT_SIZE];
static uint8_t out[RUMBEZALO_LIST_MOST];
static size_t message_size;

/* ---- what is held to what */

static int made, failed;

static void holds(const char *what, int so) {
    made++;
    if (!so) {
        failed++;
        printf("FAILED: %s\n", what);
    }
}

/* An answer must have this number and this value. */
static void expect(const char *what, uint64_t answer, unsigned number, uint64_t value) {
    unsigned given = rumbezalo_number(answer);
    made++;
    if (given != number || rumbezalo_value(answer) != value) {
        failed++;
        printf("FAILED: %s\n  answered: %u, %s, value %lu\n  must be:  %u, %s, value %lu\n", what, given,
               rumbezalo_words(given), (unsigned long)rumbezalo_value(answer), number,
               rumbezalo_words(number), (unsigned long)value);
    }
}

static void done(const char *what, uint64_t answer, uint64_t value) {
    expect(what, answer, RUMBEZALO_DONE, value);
}

/* What there is before a call that must be refused: both tables, and both outputs, filled. */
static uint8_t kept_one[sizeof one], kept_two[sizeof two], kept_out[sizeof out], kept_back[sizeof back];

static void keep(void) {
    memset(out, 0xA5, sizeof out);
    memset(back, 0xA5, sizeof back);
    memcpy(kept_one, one, sizeof one);
    memcpy(kept_two, two, sizeof two);
    memcpy(kept_out, out, sizeof out);
    memcpy(kept_back, back, sizeof back);
}

/* A call must be refused for this, and have changed no byte since keep. */
static void refused(const char *what, unsigned number, uint64_t answer) {
    expect(what, answer, number, 0);
    holds(what, memcmp(kept_one, one, sizeof one) == 0 && memcmp(kept_two, two, sizeof two) == 0 &&
                    memcmp(kept_out, out, sizeof out) == 0 && memcmp(kept_back, back, sizeof back) == 0);
}

/* ---- the calls, for names that end in a zero and for the buffers above */

static uint64_t create(uint8_t *table, uint64_t now, uint64_t directory, uint64_t kind, const char *name,
                       uint64_t set) {
    return rumbezalo_create(table, RUMBEZALO_TABLE_SIZE, now, directory, kind, (const uint8_t *)name,
                            strlen(name), set);
}

static uint64_t rename_to(uint8_t *table, uint64_t now, uint64_t id, uint64_t directory, const char *name) {
    return rumbezalo_rename(table, RUMBEZALO_TABLE_SIZE, now, id, directory, (const uint8_t *)name,
                            strlen(name));
}

static uint64_t unlink_file(uint8_t *table, uint64_t now, uint64_t id) {
    return rumbezalo_unlink(table, RUMBEZALO_TABLE_SIZE, now, id);
}

static uint64_t remove_directory(uint8_t *table, uint64_t now, uint64_t id) {
    return rumbezalo_remove(table, RUMBEZALO_TABLE_SIZE, now, id);
}

static uint64_t spread(uint8_t *table, uint64_t id, uint64_t set) {
    return rumbezalo_spread(table, RUMBEZALO_TABLE_SIZE, id, set);
}

static uint64_t list(const uint8_t *table, uint64_t id, size_t out_size) {
    return rumbezalo_list(table, RUMBEZALO_TABLE_SIZE, id, out, out_size);
}

static uint64_t push(const uint8_t *table, uint64_t id, uint64_t node, size_t out_size) {
    return rumbezalo_push(table, RUMBEZALO_TABLE_SIZE, id, node, out, out_size);
}

static uint64_t receive(uint8_t *table, uint64_t now, size_t size, size_t out_size) {
    return rumbezalo_receive(table, RUMBEZALO_TABLE_SIZE, now, message, size, back, out_size);
}

static uint64_t acknowledged(uint8_t *table, const uint8_t *from, size_t size) {
    return rumbezalo_acknowledged(table, RUMBEZALO_TABLE_SIZE, from, size);
}

static uint64_t pending(const uint8_t *table) {
    return rumbezalo_pending(table, RUMBEZALO_TABLE_SIZE);
}

/* ---- messages between the nodes */

/* Writes a push to message. */
static void write_push(const uint8_t *from, uint64_t id, uint64_t to) {
    uint64_t answer = rumbezalo_push(from, RUMBEZALO_TABLE_SIZE, id, to, message, sizeof message);
    holds("push", rumbezalo_number(answer) == RUMBEZALO_DONE);
    message_size = rumbezalo_value(answer);
}

/* Delivers one push and its acknowledgement. */
static void deliver(uint8_t *from, uint8_t *to, uint64_t node, uint64_t id, uint64_t now) {
    write_push(from, id, node);
    done("receive", receive(to, now, message_size, sizeof back), RUMBEZALO_ACKNOWLEDGEMENT_SIZE);
    done("acknowledged", acknowledged(from, back, sizeof back), 0);
}

/* Delivers all that a node has to tell another. */
static void tell(uint8_t *from, uint8_t *to, uint64_t node, uint64_t now) {
    size_t slot;
    for (slot = 0; slot < RUMBEZALO_REPLICAS_MOST; slot++) {
        if (rumbezalo_slot_pending(from, slot) & RUMBEZALO_NODE(node)) {
            deliver(from, to, node, rumbezalo_slot_id(from, slot), now);
        }
    }
}

/* Delivers both ways until nothing is pending. */
static void quiet(uint64_t now) {
    while (failed == 0 && rumbezalo_value(pending(one)) + rumbezalo_value(pending(two)) > 0) {
        tell(one, two, 2, now);
        tell(two, one, 1, now);
    }
}

/* ---- the tests */

/* A directory must have one live entry, and that must be this. */
static void shows(const char *what, const uint8_t *table, uint64_t directory, uint64_t child, uint64_t stamp,
                  const char *name) {
    done(what, list(table, directory, sizeof out), 1);
    holds(what, rumbezalo_entry_child(out) == child && rumbezalo_entry_stamp(out) == stamp);
    holds(what, rumbezalo_entry_name_size(out) == strlen(name) &&
                    memcmp(rumbezalo_entry_name(out), name, strlen(name)) == 0);
}

/* The first run of document 01: two nodes move one file while neither hears the other. */
static void first_run(void) {
    const uint64_t alice = 16777217, foo = 16777218, own = 16777219, bob = 33554433;
    done("start node 1", rumbezalo_start(one, sizeof one, 1, 2), 0);
    done("start node 2", rumbezalo_start(two, sizeof two, 2, 2), 0);
    done("nothing is pending", pending(one), 0);
    done("create /alice", create(one, 1, RUMBEZALO_ROOT, RUMBEZALO_DIRECTORY, "alice", 3), alice);
    done("create /foo", create(one, 2, RUMBEZALO_ROOT, RUMBEZALO_FILE, "foo", 3), foo);
    done("the root, /alice and /foo are pending", pending(one), 3);
    quiet(2);
    done("create /bob", create(two, 3, RUMBEZALO_ROOT, RUMBEZALO_DIRECTORY, "bob", 3), bob);
    quiet(3);
    done("node 1 moves foo", rename_to(one, 12, foo, alice, "foo1"), 0);
    done("node 2 moves foo", rename_to(two, 12, foo, bob, "foo2"), 0);
    shows("foo at node 1, before quiet", one, alice, foo, 3073, "foo1");
    shows("foo at node 2, before quiet", two, bob, foo, 3074, "foo2");
    quiet(13);
    done("node 1 is quiet", pending(one), 0);
    done("node 2 is quiet", pending(two), 0);
    shows("foo at node 1, at quiet", one, bob, foo, 3074, "foo2");
    shows("foo at node 2, at quiet", two, bob, foo, 3074, "foo2");
    done("alice is empty", list(one, alice, sizeof out), 0);

    /* The calls that it does without. */
    done("node 2 unlinks foo", unlink_file(two, 14, foo), 0);
    done("node 2 removes bob", remove_directory(two, 14, bob), 0);
    quiet(15);
    expect("bob is gone at node 1", list(one, bob, sizeof out), RUMBEZALO_DEAD, 0);
    done("a file for node 1 alone", create(one, 20, RUMBEZALO_ROOT, RUMBEZALO_FILE, "own", 0), own);
    done("spread to node 2", spread(one, own, RUMBEZALO_NODE(2)), 0);
    quiet(21);
    done("node 2 holds it", unlink_file(two, 22, own), 0);
}

/* Every refusal but 12, which no sound table yields. */
static void refusals(void) {
    const uint64_t d = 16777217, f = 16777218;
    uint8_t again[RUMBEZALO_ACKNOWLEDGEMENT_SIZE];
    uint64_t deepest, count;
    char name[RUMBEZALO_NAME_MOST + 1];
    done("start node 1", rumbezalo_start(one, sizeof one, 1, 2), 0);
    done("start node 2", rumbezalo_start(two, sizeof two, 2, 2), 0);
    done("create /d", create(one, 1, RUMBEZALO_ROOT, RUMBEZALO_DIRECTORY, "d", 3), d);
    done("create /d/f", create(one, 2, d, RUMBEZALO_FILE, "f", 3), f);
    write_push(one, f, 2);
    holds("a push of two heads", message_size == 16 + 2 * 40);

    keep();
    refused("start: too few bytes", RUMBEZALO_UNSOUND, rumbezalo_start(one, sizeof one - 1, 1, 2));
    refused("start: node 3 of 2", RUMBEZALO_OUT_OF_RANGE, rumbezalo_start(one, sizeof one, 3, 2));
    refused("create: a slash", RUMBEZALO_OUT_OF_RANGE, create(one, 3, d, RUMBEZALO_FILE, "a/b", 3));
    refused("create: kind 3", RUMBEZALO_OUT_OF_RANGE, create(one, 3, d, 3, "g", 3));
    refused("create: for node 3", RUMBEZALO_OUT_OF_RANGE, create(one, 3, d, RUMBEZALO_FILE, "g", 4));
    refused("unlink: at 2^40", RUMBEZALO_OUT_OF_RANGE, unlink_file(one, RUMBEZALO_NOW_MOST + 1, f));
    refused("push: to oneself", RUMBEZALO_OUT_OF_RANGE, push(one, f, 1, sizeof out));
    refused("list: into 31 bytes", RUMBEZALO_SHORT_OUTPUT, list(one, d, 31));
    refused("push: into 95 bytes", RUMBEZALO_SHORT_OUTPUT, push(one, f, 2, 95));
    refused("receive: into 15 bytes", RUMBEZALO_SHORT_OUTPUT, receive(two, 3, message_size, 15));
    refused("receive: cut short", RUMBEZALO_MALFORMED, receive(two, 3, message_size - 1, sizeof back));
    refused("acknowledged: a push", RUMBEZALO_MALFORMED, acknowledged(one, message, message_size));
    refused("receive: by its sender", RUMBEZALO_NOT_ADDRESSED, receive(one, 3, message_size, sizeof back));
    refused("create: no such id", RUMBEZALO_NOT_HELD, create(one, 3, 99, RUMBEZALO_FILE, "g", 3));
    refused("list: not held yet", RUMBEZALO_NOT_HELD, list(two, d, sizeof out));
    refused("spread: not held yet", RUMBEZALO_NOT_HELD, spread(two, f, 3));
    refused("unlink: a directory", RUMBEZALO_WRONG_KIND, unlink_file(one, 3, d));
    refused("rename: a directory", RUMBEZALO_WRONG_KIND, rename_to(one, 3, d, RUMBEZALO_ROOT, "e"));
    refused("remove: a file", RUMBEZALO_WRONG_KIND, remove_directory(one, 3, f));
    refused("remove: the root", RUMBEZALO_WRONG_KIND, remove_directory(one, 3, RUMBEZALO_ROOT));
    refused("create: name taken", RUMBEZALO_NAME_TAKEN, create(one, 3, d, RUMBEZALO_FILE, "f", 3));
    refused("rename: to its own place", RUMBEZALO_NAME_TAKEN, rename_to(one, 3, f, d, "f"));
    refused("remove: a file in it", RUMBEZALO_NOT_EMPTY, remove_directory(one, 3, d));

    /* A null pointer of size 0 is an empty byte string. */
    refused("start: no table", RUMBEZALO_UNSOUND, rumbezalo_start(NULL, 0, 1, 2));
    refused("pending: no table", RUMBEZALO_UNSOUND, rumbezalo_pending(NULL, 0));
    refused("push: no table", RUMBEZALO_UNSOUND, rumbezalo_push(NULL, 0, 0, 2, NULL, 0));
    refused("create: no name", RUMBEZALO_OUT_OF_RANGE,
            rumbezalo_create(one, sizeof one, 3, d, RUMBEZALO_FILE, NULL, 0, 3));
    refused("rename: no name", RUMBEZALO_OUT_OF_RANGE, rumbezalo_rename(one, sizeof one, 3, f, d, NULL, 0));
    refused("list: no output", RUMBEZALO_SHORT_OUTPUT, rumbezalo_list(one, sizeof one, d, NULL, 0));
    refused("push: no output", RUMBEZALO_SHORT_OUTPUT, rumbezalo_push(one, sizeof one, f, 2, NULL, 0));
    refused("receive: no output", RUMBEZALO_SHORT_OUTPUT,
            rumbezalo_receive(two, sizeof two, 3, message, message_size, NULL, 0));
    refused("receive: no message", RUMBEZALO_MALFORMED,
            rumbezalo_receive(two, sizeof two, 3, NULL, 0, back, sizeof back));
    refused("acknowledged: no message", RUMBEZALO_MALFORMED, acknowledged(one, NULL, 0));
    done("an empty list needs no output", rumbezalo_list(two, sizeof two, RUMBEZALO_ROOT, NULL, 0), 0);

    /* /d/f is live at node 2; the push is forged to say that it is dead, with the same stamp. */
    deliver(one, two, 2, f, 3);
    message[16 + 3] = 0;
    keep();
    refused("receive: equal stamps", RUMBEZALO_AT_ODDS, receive(two, 3, message_size, sizeof back));
    refused("push: told already", RUMBEZALO_NOT_PENDING, push(one, f, 2, sizeof out));

    deliver(one, two, 2, d, 3);
    memcpy(again, back, sizeof back);
    keep();
    refused("acknowledged: twice", RUMBEZALO_NOT_CURRENT, acknowledged(one, again, sizeof again));

    done("unlink /d/f", unlink_file(one, 4, f), 0);
    keep();
    refused("unlink: twice", RUMBEZALO_DEAD, unlink_file(one, 4, f));

    /* Directories down to depth 16. Node 1 has made two so far. */
    deepest = d;
    for (count = 3; count < 3 + 15; count++) {
        done("create, deeper", create(one, 5, deepest, RUMBEZALO_DIRECTORY, "deeper", 3), 16777216 + count);
        deepest = 16777216 + count;
    }
    keep();
    refused("create: at depth 17", RUMBEZALO_TOO_DEEP, create(one, 5, deepest, RUMBEZALO_FILE, "g", 3));

    /* The root has one entry, and takes 31 more. */
    for (; count < 3 + 15 + 31; count++) {
        sprintf(name, "f%u", (unsigned)count % 100);
        done("create, one more", create(one, 6, RUMBEZALO_ROOT, RUMBEZALO_FILE, name, 3), 16777216 + count);
    }
    done("32 entries", list(one, RUMBEZALO_ROOT, sizeof out), RUMBEZALO_DIRECTORY_MOST);
    keep();
    refused("create: a 33rd entry", RUMBEZALO_FULL, create(one, 6, RUMBEZALO_ROOT, RUMBEZALO_FILE, "g", 3));

    done("the last clock", create(one, RUMBEZALO_NOW_MOST, d, RUMBEZALO_FILE, "g", 3), 16777216 + count);
    keep();
    refused("create: no clock is left", RUMBEZALO_AT_END, create(one, 7, d, RUMBEZALO_FILE, "h", 3));

    one[0] ^= 1;
    keep();
    refused("pending: a damaged table", RUMBEZALO_UNSOUND, pending(one));
    refused("create: a damaged table", RUMBEZALO_UNSOUND, create(one, 8, d, RUMBEZALO_FILE, "h", 3));
}

/* What the constants are by document 01's layout. */
static void sizes(void) {
    unsigned number;
    holds("the size of a table",
          RUMBEZALO_TABLE_SIZE == 32 + 48 * RUMBEZALO_REPLICAS_MOST + 40 * RUMBEZALO_ENTRIES_MOST);
    holds("the longest list", RUMBEZALO_LIST_MOST == RUMBEZALO_ENTRY_SIZE * RUMBEZALO_DIRECTORY_MOST);
    holds("the longest push",
          RUMBEZALO_PUSH_MOST == 16 + 40 * (RUMBEZALO_DEPTH_MOST - 1) + RUMBEZALO_LIST_MOST);
    holds("the last time", RUMBEZALO_NOW_MOST == (UINT64_C(1) << 40) - 1);
    for (number = 0; number <= 17; number++) {
        holds("each number has words", strcmp(rumbezalo_words(number), rumbezalo_words(18)) != 0);
    }
}

int main(void) {
    sizes();
    first_run();
    refusals();
    printf("%d checks, %d failed\n", made, failed);
    return failed == 0 ? 0 : 1;
}
