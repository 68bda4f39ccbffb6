/* Two museum stores have a glyph server of the same name. Printers find the one of their own s_group; a visitor has to ask a member. One store has a font
 * server too, which runs outside its s_group. */
#include "sgroup.h"

#include <inttypes.h>
#include <stdio.h>

enum { HARBOUR = 5, HILL = 6, GLYPH_SERVER = 70, FONT_SERVER = 71, PIDS_PER_HOST = 67108864 };

static uint64_t table[SGROUP_TABLE_WORDS];
static uint64_t answer[SGROUP_ANSWER_WORDS];
static uint64_t list[SGROUP_LIST_WORDS];

/* One line: what was asked, the value, the reason. */
static void say(const char *asked) {
    static const char *const words[] = {"?", "ok", "true", "false", "error", "undefined", "pid", "group", "nodes", "list"};
    uint64_t kind = answer[0];
    printf("%s: %s", asked, words[kind]);
    if (kind >= SGROUP_PID)
        printf(" %" PRIu64, answer[1]);
    if (kind == SGROUP_GROUP || kind == SGROUP_NODES)
        printf(" %" PRIu64, answer[2]);
    if (kind == SGROUP_LIST)
        for (uint64_t i = 0; i < answer[1]; i++)
            printf(" %" PRIu64, list[i]);
    printf(", reason %" PRIu64 "\n", answer[3]);
}

int main(void) {
    sgroup_open(table, SGROUP_TABLE_WORDS, 5, 0, answer, SGROUP_ANSWER_WORDS);
    say("five nodes");
    sgroup_new_s_group(table, SGROUP_TABLE_WORDS, 0, HARBOUR, 3, answer, SGROUP_ANSWER_WORDS);
    say("the harbour store, nodes 0 and 1");
    sgroup_new_s_group(table, SGROUP_TABLE_WORDS, 2, HILL, 12, answer, SGROUP_ANSWER_WORDS);
    say("the hill store, nodes 2 and 3");
    sgroup_register_name(table, SGROUP_TABLE_WORDS, 1, HARBOUR, GLYPH_SERVER, 1 * PIDS_PER_HOST + 1, answer, SGROUP_ANSWER_WORDS);
    say("its glyph server on node 1");
    sgroup_register_name(table, SGROUP_TABLE_WORDS, 3, HILL, GLYPH_SERVER, 3u * PIDS_PER_HOST + 1, answer, SGROUP_ANSWER_WORDS);
    say("and one on node 3");
    sgroup_whereis_name(table, SGROUP_TABLE_WORDS, 0, HARBOUR, GLYPH_SERVER, answer, SGROUP_ANSWER_WORDS);
    say("printer 0 looks in the harbour store");
    sgroup_whereis_name(table, SGROUP_TABLE_WORDS, 2, HILL, GLYPH_SERVER, answer, SGROUP_ANSWER_WORDS);
    say("printer 2 looks in the hill store");
    sgroup_whereis_name(table, SGROUP_TABLE_WORDS, 2, HARBOUR, GLYPH_SERVER, answer, SGROUP_ANSWER_WORDS);
    say("printer 2 looks in the harbour store");
    sgroup_whereis_name_at(table, SGROUP_TABLE_WORDS, 4, 0, HARBOUR, GLYPH_SERVER, answer, SGROUP_ANSWER_WORDS);
    say("visitor 4 asks node 0 for the harbour store's");
    sgroup_register_name(table, SGROUP_TABLE_WORDS, 1, HARBOUR, FONT_SERVER, 4u * PIDS_PER_HOST + 1, answer, SGROUP_ANSWER_WORDS);
    say("the harbour store's font server on node 4");
    uint32_t reason = sgroup_send_name(table, SGROUP_TABLE_WORDS, 0, HARBOUR, FONT_SERVER, answer, SGROUP_ANSWER_WORDS);
    say("printer 0 sends to the font server");
    if (reason == SGROUP_HOST_OUTSIDE)
        printf("it runs on node %" PRIu64 ", outside the store\n", answer[1] / PIDS_PER_HOST);
    sgroup_registered_names(table, SGROUP_TABLE_WORDS, 0, HARBOUR, list, SGROUP_LIST_WORDS, answer, SGROUP_ANSWER_WORDS);
    say("names in the harbour store");
    sgroup_registered_names(table, SGROUP_TABLE_WORDS, 0, HARBOUR, list, 0, answer, SGROUP_ANSWER_WORDS);
    say("the same without room");
    sgroup_own_nodes(table, SGROUP_TABLE_WORDS, 3, answer, SGROUP_ANSWER_WORDS);
    say("node 3's nodes");
    sgroup_own_s_groups(table, SGROUP_TABLE_WORDS, 3, list, SGROUP_LIST_WORDS, answer, SGROUP_ANSWER_WORDS);
    say("node 3's s_groups");
    if (sgroup_own_nodes(table, SGROUP_TABLE_WORDS, 3, answer, SGROUP_ANSWER_WORDS - 1) == SGROUP_NO_ROOM)
        puts("a run of three words takes no answer");
    table[3] = 1;
    sgroup_own_nodes(table, SGROUP_TABLE_WORDS, 3, answer, SGROUP_ANSWER_WORDS);
    say("a spoiled table");
    puts(sgroup_is_sound(table, SGROUP_TABLE_WORDS) ? "sound" : "unsound");
    return 0;
}
