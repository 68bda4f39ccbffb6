/* A server that goes by a name in two stores is swapped. The technician has its pid; the index beside the table tells the names. */
#include "sgroup.h"

#include <inttypes.h>
#include <stdio.h>
#include <string.h>

enum { HARBOUR = 5, HILL = 6, GLYPH_SERVER = 70, LABEL_SERVER = 71, FONT_SERVER = 72, PIDS_PER_HOST = 67108864 };
enum { OLD = 1 * PIDS_PER_HOST + 1, NEW = 1 * PIDS_PER_HOST + 2, FONTS = 2 * PIDS_PER_HOST + 1, NOWHERE = 3 * PIDS_PER_HOST };

static uint64_t table[SGROUP_TABLE_WORDS];
static uint64_t by_pid[SGROUP_INDEX_WORDS];
static uint64_t list[SGROUP_LIST_WORDS];
static uint64_t answer[SGROUP_ANSWER_WORDS];

/* each run with its length */
#define TABLE table, SGROUP_TABLE_WORDS
#define INDEX by_pid, SGROUP_INDEX_WORDS
#define LIST list, SGROUP_LIST_WORDS
#define ANSWER answer, SGROUP_ANSWER_WORDS

/* One line: what was done, the value, the reason. */
static void say(const char *what) {
    static const char *const words[] = {"?", "ok", "true", "false", "error", "undefined", "pid", "group", "nodes", "list"};
    printf("%s: %s", what, words[answer[0]]);
    if (answer[0] == SGROUP_LIST)
        printf(" %" PRIu64, answer[1]);
    printf(", reason %" PRIu64 "\n", answer[3]);
}

/* Who goes by the pid: a line for the answer, and one for each name. */
static void who(const char *whose, uint32_t pid) {
    sgroup_names_of(TABLE, INDEX, pid, LIST, ANSWER);
    say(whose);
    for (uint64_t i = 0; answer[0] == SGROUP_LIST && i < answer[1]; i += 2)
        printf("    s_group %" PRIu64 ", name %" PRIu64 "\n", list[i], list[i + 1]);
}

int main(void) {
    sgroup_open_indexed(TABLE, INDEX, 3, 0, ANSWER);
    say("three nodes");
    sgroup_new_s_group_indexed(TABLE, INDEX, 0, HARBOUR, 3, ANSWER);
    say("the harbour store, nodes 0 and 1");
    sgroup_new_s_group_indexed(TABLE, INDEX, 2, HILL, 6, ANSWER);
    say("the hill store, nodes 1 and 2");
    sgroup_register_name_indexed(TABLE, INDEX, 1, HILL, LABEL_SERVER, OLD, ANSWER);
    say("a process on node 1 is the hill store's label server");
    sgroup_register_name_indexed(TABLE, INDEX, 1, HARBOUR, GLYPH_SERVER, OLD, ANSWER);
    say("and the harbour store's glyph server");
    sgroup_register_name_indexed(TABLE, INDEX, 2, HILL, FONT_SERVER, FONTS, ANSWER);
    say("another, on node 2, is the hill store's font server");

    /* the swap: what the old server goes by, the new one takes over */
    who("the old server goes by", OLD);
    uint64_t words = answer[1];
    for (uint64_t i = 0; i < words; i += 2) {
        sgroup_re_register_name_indexed(TABLE, INDEX, 1, (uint32_t)list[i], (uint32_t)list[i + 1], NEW, ANSWER);
        say("the new one takes a name over");
    }
    who("now the old one goes by", OLD);
    who("and the new one by", NEW);
    who("a process of a node that is not there", NOWHERE);

    /* a call without the index leaves it behind */
    sgroup_register_name(TABLE, 0, HARBOUR, FONT_SERVER, FONTS, ANSWER);
    say("the font server gets a name in the harbour store");
    who("the index is behind", FONTS);
    sgroup_index(TABLE, INDEX, ANSWER);
    say("the index is written anew");
    who("the font server goes by", FONTS);

    /* a table that was stored comes back without its index; what the run for it holds does not matter */
    memset(by_pid, 0xff, sizeof by_pid);
    sgroup_index(TABLE, INDEX, ANSWER);
    say("an index for a table that has none");
    who("the new server goes by", NEW);
    return 0;
}
