/* The Icespruce library for C: the s_group name service over one lent table of 64-bit words.
 *
 * Link with libsgroup_c.a (`tools/native-lib sgroup_c` builds it into target/native/).
 *
 * A run of words is a pointer and a length in words. A pointer points to that many words, is aligned for uint64_t and not null, even where the length is
 * 0; the runs of one call don't overlap; during the call nobody else writes to a `const` run of it, and nobody else reads or writes the others. Nothing else
 * is asked of a caller: each function is proved to end with the answer of its definition for every table, number and length, and to write what the
 * definition says and no other word.
 *
 * Threads: the library keeps nothing but what is in the runs, and a function writes nothing to a run that it takes as `const`. So any number of threads may
 * call functions with a `const` table on one table at the same time, as long as nobody writes to it meanwhile, and likewise on one index. Every run that
 * is not `const`, `answer` and `out` among them, a call needs to itself.
 *
 * Stack: on x86-64 no function takes more than 1,536 bytes below the frame of its caller, its arguments and what it calls among them. There is no heap.
 *
 * In a set of nodes the bit i is node i. A pid's host is the whole part of pid / 67108864.
 *
 * The answer is four words, which each function that takes `answer` writes there: kind, first number, second number, reason; numbers that a kind doesn't
 * have are 0. It returns the reason. Where `answer` has fewer than four words nothing is called, nothing is written, and SGROUP_NO_ROOM is returned. The
 * words of a list go to a run of their own, the list run `out`.
 *
 * Success is SGROUP_DONE (0). The four functions that look a name up (sgroup_whereis_name, sgroup_whereis_name_at, sgroup_send_name, sgroup_send_at), with an
 * index or without, have SGROUP_HOST_OUTSIDE (21) as well, in place of 0 where the host of the pid that they find is not a member of the s_group: the kind is
 * SGROUP_PID, the pid may be used, and all is done as with 0. So test a lookup by its kind, or for both reasons. Every other reason is a refusal, also the
 * 12 that sgroup_unregister_name gives with TRUE: there was nothing to take out.
 *
 * The index tells who goes by a pid. It is a run of SGROUP_INDEX_WORDS words that a caller may lend beside the table: a row of two words for each registered
 * name, pid * 2^32 + s_group and then the name, ascending by the first word, and zeros behind the rows (docs/INDEX.md). Opening and each command have a
 * second form that takes the index right after the table and keeps it. The forms without an index know nothing of it: where one has changed the names of
 * the table, the next call with the index gives SGROUP_INDEX_WRONG (22), and sgroup_index writes the index anew. */
#ifndef SGROUP_H
#define SGROUP_H

#include <stdbool.h>
#include <stddef.h>
#include <stdint.h>

#ifdef __cplusplus
extern "C" {
#endif

/* how much there can be: nodes on a roster, s_groups in a table, names in an s_group */
#define SGROUP_NODE_LIMIT 64
#define SGROUP_GROUP_LIMIT 32
#define SGROUP_NAMES_PER_GROUP 32

/* how many words a table has: four, two for each s_group and each node, one for each name; how many an index: two for each name */
#define SGROUP_TABLE_WORDS (4 + 2 * SGROUP_GROUP_LIMIT + 2 * SGROUP_NODE_LIMIT + SGROUP_GROUP_LIMIT * SGROUP_NAMES_PER_GROUP)
#define SGROUP_INDEX_WORDS (2 * SGROUP_GROUP_LIMIT * SGROUP_NAMES_PER_GROUP)

/* how many words an answer has, and the longest list: the names of an s_group, or two words for each s_group */
#define SGROUP_ANSWER_WORDS 4
#define SGROUP_LIST_WORDS (2 * SGROUP_GROUP_LIMIT < SGROUP_NAMES_PER_GROUP ? SGROUP_NAMES_PER_GROUP : 2 * SGROUP_GROUP_LIMIT)

/* returned where `answer` is too short; no reason has this number */
#define SGROUP_NO_ROOM UINT32_MAX

/* the kinds of values: the first word of an answer */
enum sgroup_kind {
    SGROUP_OK = 1,            /* an opening or a launch went through, or an index is written */
    SGROUP_TRUE = 2,          /* true */
    SGROUP_FALSE = 3,         /* false */
    SGROUP_ERROR = 4,         /* error; first, of a refused launch: the place */
    SGROUP_UNDEFINED = 5,     /* undefined */
    SGROUP_PID = 6,           /* first: the pid */
    SGROUP_GROUP = 7,         /* first: the s_group's name; second: the set that was given */
    SGROUP_NODES = 8,         /* first: a set of nodes; second: how many they are */
    SGROUP_LIST = 9           /* first: how many words the list has in the list run */
};

/* the reasons: the fourth word of an answer */
enum sgroup_reason {
    SGROUP_DONE = 0,              /* the rule's main case */
    SGROUP_TABLE_LENGTH = 1,      /* the table run isn't SGROUP_TABLE_WORDS long */
    SGROUP_ROSTER_SIZE = 2,       /* opening: n isn't 1 to SGROUP_NODE_LIMIT */
    SGROUP_UNSOUND = 3,           /* the table is unsound (not for opening) */
    SGROUP_CALLER_UNKNOWN = 4,    /* the caller isn't on the roster */
    SGROUP_GROUP_NAME_RANGE = 5,  /* s_group name out of range */
    SGROUP_NAME_ZERO = 6,         /* process name zero */
    SGROUP_NODE_UNKNOWN = 7,      /* a node or a pid's host isn't on the roster */
    SGROUP_GROUP_UNKNOWN = 8,     /* no s_group of that name */
    SGROUP_NOT_MEMBER = 9,        /* the asking node is not a member */
    SGROUP_NAME_TAKEN = 10,       /* name already registered there */
    SGROUP_PID_TAKEN = 11,        /* pid already registered there */
    SGROUP_NOT_REGISTERED = 12,   /* name not registered there */
    SGROUP_NAMESPACE_FULL = 13,   /* the namespace holds SGROUP_NAMES_PER_GROUP names and would grow */
    SGROUP_CALLER_OUTSIDE = 14,   /* new_s_group: the caller isn't in the set */
    SGROUP_GROUP_TAKEN = 15,      /* new_s_group: name in use */
    SGROUP_GROUPS_FULL = 16,      /* new_s_group: SGROUP_GROUP_LIMIT s_groups exist; launching: more are to be made */
    SGROUP_LIST_SHORT = 17,       /* the list run is shorter than the list */
    SGROUP_NO_LAUNCH_FILE = 18,   /* launching: the book is no book, or the file is no launch file */
    SGROUP_GROUPS_DIFFER = 19,    /* launching: groups of one name with other nodes, one of them with the starting node */
    SGROUP_ATOM_UNKNOWN = 20,     /* launching: an atom of a group that is made is not in its part of the book */
    SGROUP_HOST_OUTSIDE = 21,     /* no refusal: the pid that was found has its host outside the s_group */
    SGROUP_INDEX_WRONG = 22       /* the index run isn't SGROUP_INDEX_WORDS long, or isn't the index of the table */
};

/* Whether the run is a sound table. Writes nothing. */
bool sgroup_is_sound(const uint64_t *table, size_t table_len);

/* Opens the table for n nodes, 1 to SGROUP_NODE_LIMIT, some of them hidden: nobody is grouped or connected, and every normal node is a free group by
 * itself. OK; the table may hold anything before. Reasons 1, 2 and 7: ERROR, nothing is written to the table. */
uint32_t sgroup_open(uint64_t *table, size_t table_len, uint32_t n, uint64_t hidden, uint64_t *answer, size_t answer_len);

/* Opens the table for n nodes, some of them hidden, and makes the s_groups of a launch file, each by its lowest member, in the order of the file. The book
 * has an atom a line, those of the nodes first, then those of the s_groups, which are numbered from 1; `start` is the node that is started. Book and file are
 * texts of any length, with pointers that are not null. OK; the table may hold anything before. Reasons 1, 2, 7, 18, 19, 20 and 16, tested in this order:
 * ERROR, nothing is written to the table. Where the file is refused (18), the first number is the place: how many leading bytes of it some launch file
 * shares; it is 0 where the book is refused and under every other reason. docs/LAUNCH.md has the form of book and file. */
uint32_t sgroup_launch(uint64_t *table, size_t table_len, uint32_t n, uint64_t hidden, uint32_t start, const uint8_t *book, size_t book_len,
                       const uint8_t *file, size_t file_len, uint64_t *answer, size_t answer_len);

/* Registers the pid p under the name n in the s_group s. TRUE. Reasons 8 to 11 and 13: FALSE. */
uint32_t sgroup_register_name(uint64_t *table, size_t table_len, uint32_t caller, uint32_t s, uint32_t n, uint32_t p, uint64_t *answer,
                              size_t answer_len);

/* Registers p under n in s, in place of the pid that n had. TRUE. Reasons 8, 9, 11 and 13: FALSE. */
uint32_t sgroup_re_register_name(uint64_t *table, size_t table_len, uint32_t caller, uint32_t s, uint32_t n, uint32_t p, uint64_t *answer,
                                 size_t answer_len);

/* Takes n out of s. TRUE, with reason 12 where it is not there. Reasons 8 and 9: FALSE. */
uint32_t sgroup_unregister_name(uint64_t *table, size_t table_len, uint32_t caller, uint32_t s, uint32_t n, uint64_t *answer,
                                size_t answer_len);

/* The names in s, ascending, to the list run, each as s * 2^32 + name. LIST; only the list's words are written. Reasons 8 and 9: the empty list.
 * Reason 17: ERROR, nothing is written to the list run. */
uint32_t sgroup_registered_names(const uint64_t *table, size_t table_len, uint32_t caller, uint32_t s, uint64_t *out, size_t out_len,
                                 uint64_t *answer, size_t answer_len);

/* What the caller finds under n in s. PID, with reason 21 where its host is not a member of s. Reasons 8, 9 and 12: UNDEFINED. */
uint32_t sgroup_whereis_name(const uint64_t *table, size_t table_len, uint32_t caller, uint32_t s, uint32_t n, uint64_t *answer,
                             size_t answer_len);

/* What `node` finds under n in s; 0 is taken for s and finds nothing. The caller connects with `node`, found or not. PID, with reason 21 where its
 * host is not a member of s. Reasons 8, 9 and 12: UNDEFINED. */
uint32_t sgroup_whereis_name_at(uint64_t *table, size_t table_len, uint32_t caller, uint32_t node, uint32_t s, uint32_t n, uint64_t *answer,
                                size_t answer_len);

/* The caller sends to the pid p, and connects with its host. PID; never with reason 21, since no s_group is named. */
uint32_t sgroup_send(uint64_t *table, size_t table_len, uint32_t caller, uint32_t p, uint64_t *answer, size_t answer_len);

/* The caller sends to the pid that it finds under n in s, and connects with its host. PID, with reason 21 where that host is not a member of s.
 * Reasons 8, 9 and 12: UNDEFINED. */
uint32_t sgroup_send_name(uint64_t *table, size_t table_len, uint32_t caller, uint32_t s, uint32_t n, uint64_t *answer, size_t answer_len);

/* The caller sends to the pid that `node` finds under n in s, as sgroup_whereis_name_at, and connects with its host. PID, with reason 21 where that
 * host is not a member of s. Reasons 8, 9 and 12: UNDEFINED. */
uint32_t sgroup_send_at(uint64_t *table, size_t table_len, uint32_t caller, uint32_t node, uint32_t s, uint32_t n, uint64_t *answer,
                        size_t answer_len);

/* A new s_group s of the nodes in `set`, the caller among them. GROUP. Reasons 14 to 16: ERROR. */
uint32_t sgroup_new_s_group(uint64_t *table, size_t table_len, uint32_t caller, uint32_t s, uint64_t set, uint64_t *answer,
                            size_t answer_len);

/* The nodes of `set` join s. GROUP. Reasons 8 and 9: ERROR. */
uint32_t sgroup_add_nodes(uint64_t *table, size_t table_len, uint32_t caller, uint32_t s, uint64_t set, uint64_t *answer, size_t answer_len);

/* The members of s that are in `set` leave it, and the names of s whose pids they host are dropped; every other name of s and all names of other s_groups
 * stay. An s_group left empty is deleted with its names. TRUE. Reasons 8 and 9: ERROR. */
uint32_t sgroup_remove_nodes(uint64_t *table, size_t table_len, uint32_t caller, uint32_t s, uint64_t set, uint64_t *answer,
                             size_t answer_len);

/* The s_group s goes, with its names. TRUE. Reasons 8 and 9: ERROR. */
uint32_t sgroup_delete_s_group(uint64_t *table, size_t table_len, uint32_t caller, uint32_t s, uint64_t *answer, size_t answer_len);

/* The nodes of the caller's groups and how many they are. NODES. */
uint32_t sgroup_own_nodes(const uint64_t *table, size_t table_len, uint32_t caller, uint64_t *answer, size_t answer_len);

/* The caller's s_groups by name to the list run, two words each: name, members. LIST; only the list's words are written. Reason 17: ERROR,
 * nothing is written to the list run. */
uint32_t sgroup_own_s_groups(const uint64_t *table, size_t table_len, uint32_t caller, uint64_t *out, size_t out_len, uint64_t *answer,
                             size_t answer_len);

/* ---- with an index */

/* Writes the index of the table into the index run: for a table that was launched or stored, or whose index is behind. OK; the index run may hold anything
 * before. Reasons 1, 3, and 22 for a wrong length, tested in this order: ERROR, nothing is written to the index run. */
uint32_t sgroup_index(const uint64_t *table, size_t table_len, uint64_t *index, size_t index_len, uint64_t *answer, size_t answer_len);

/* Who goes by the pid p: the s_groups in which it has a name, ascending, to the list run, two words each: s_group, name. LIST, the empty one where nobody
 * does; only the list's words are written. Reasons 1, 3, 22, 7 and 17, tested in this order: ERROR, nothing is written to the list run. */
uint32_t sgroup_names_of(const uint64_t *table, size_t table_len, const uint64_t *index, size_t index_len, uint32_t p, uint64_t *out, size_t out_len,
                         uint64_t *answer, size_t answer_len);

/* Opens the table as sgroup_open does; every word of the index becomes zero. OK; both may hold anything before. Reasons 1, 2, 22 for a wrong length of the
 * index run, and 7, tested in this order: ERROR, nothing is written to either. */
uint32_t sgroup_open_indexed(uint64_t *table, size_t table_len, uint64_t *index, size_t index_len, uint32_t n, uint64_t hidden, uint64_t *answer,
                             size_t answer_len);

/* The commands with an index. Reasons 1, 3 and 22, tested in this order: ERROR, nothing is written to table, index and list run. Otherwise each does and
 * answers what its form without an index does, and what it leaves in the index run is the index of the table that it leaves, also where it refuses. */
uint32_t sgroup_register_name_indexed(uint64_t *table, size_t table_len, uint64_t *index, size_t index_len, uint32_t caller, uint32_t s, uint32_t n,
                                      uint32_t p, uint64_t *answer, size_t answer_len);
uint32_t sgroup_re_register_name_indexed(uint64_t *table, size_t table_len, uint64_t *index, size_t index_len, uint32_t caller, uint32_t s,
                                         uint32_t n, uint32_t p, uint64_t *answer, size_t answer_len);
uint32_t sgroup_unregister_name_indexed(uint64_t *table, size_t table_len, uint64_t *index, size_t index_len, uint32_t caller, uint32_t s, uint32_t n,
                                        uint64_t *answer, size_t answer_len);
uint32_t sgroup_registered_names_indexed(const uint64_t *table, size_t table_len, const uint64_t *index, size_t index_len, uint32_t caller,
                                         uint32_t s, uint64_t *out, size_t out_len, uint64_t *answer, size_t answer_len);
uint32_t sgroup_whereis_name_indexed(const uint64_t *table, size_t table_len, const uint64_t *index, size_t index_len, uint32_t caller, uint32_t s,
                                     uint32_t n, uint64_t *answer, size_t answer_len);
uint32_t sgroup_whereis_name_at_indexed(uint64_t *table, size_t table_len, uint64_t *index, size_t index_len, uint32_t caller, uint32_t node,
                                        uint32_t s, uint32_t n, uint64_t *answer, size_t answer_len);
uint32_t sgroup_send_indexed(uint64_t *table, size_t table_len, uint64_t *index, size_t index_len, uint32_t caller, uint32_t p, uint64_t *answer,
                             size_t answer_len);
uint32_t sgroup_send_name_indexed(uint64_t *table, size_t table_len, uint64_t *index, size_t index_len, uint32_t caller, uint32_t s, uint32_t n,
                                  uint64_t *answer, size_t answer_len);
uint32_t sgroup_send_at_indexed(uint64_t *table, size_t table_len, uint64_t *index, size_t index_len, uint32_t caller, uint32_t node, uint32_t s,
                                uint32_t n, uint64_t *answer, size_t answer_len);
uint32_t sgroup_new_s_group_indexed(uint64_t *table, size_t table_len, uint64_t *index, size_t index_len, uint32_t caller, uint32_t s, uint64_t set,
                                    uint64_t *answer, size_t answer_len);
uint32_t sgroup_add_nodes_indexed(uint64_t *table, size_t table_len, uint64_t *index, size_t index_len, uint32_t caller, uint32_t s, uint64_t set,
                                  uint64_t *answer, size_t answer_len);
uint32_t sgroup_remove_nodes_indexed(uint64_t *table, size_t table_len, uint64_t *index, size_t index_len, uint32_t caller, uint32_t s, uint64_t set,
                                     uint64_t *answer, size_t answer_len);
uint32_t sgroup_delete_s_group_indexed(uint64_t *table, size_t table_len, uint64_t *index, size_t index_len, uint32_t caller, uint32_t s,
                                       uint64_t *answer, size_t answer_len);
uint32_t sgroup_own_nodes_indexed(const uint64_t *table, size_t table_len, const uint64_t *index, size_t index_len, uint32_t caller, uint64_t *answer,
                                  size_t answer_len);
uint32_t sgroup_own_s_groups_indexed(const uint64_t *table, size_t table_len, const uint64_t *index, size_t index_len, uint32_t caller, uint64_t *out,
                                     size_t out_len, uint64_t *answer, size_t answer_len);

#ifdef __cplusplus
}
#endif

#endif
