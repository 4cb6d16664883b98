/* A host in C: loads a circuit file and prints its blocks, then calls every function of include/sawhekonu.h on cases whose answers follow from
 * document 01, K1, K2 and K6 by hand, and measures the stack that each call takes. It writes a line a call, which examples/host.stdout has, and ends in
 * status 1 at the first answer that is another. From the root:
 *   (cd crates/host && rt lib)
 *   cc -std=c11 -Iinclude examples/host.c crates/host/out/libhost.a -pthread -o crates/host/out/host
 *   crates/host/out/host examples/case2.circuit */
#define _GNU_SOURCE
#include "sawhekonu.h"
#include <pthread.h>
#include <stdio.h>
#include <stdlib.h>
#include <string.h>
#include <sys/mman.h>

/* ---- the layout that the library was compiled for */

#define FIELD(type, field, offset, length) \
    _Static_assert(offsetof(type, field) == (offset) && sizeof(((type *)0)->field) == (length), #type "." #field)
#define SIZE(type, length) _Static_assert(sizeof(type) == (length), #type)

_Static_assert(sizeof(size_t) == 8 && sizeof(bool) == 1, "a 64-bit machine");
FIELD(sawhekonu_nodes, count, 0, 8);
FIELD(sawhekonu_nodes, kind, 8, 512);
FIELD(sawhekonu_nodes, form, 520, 512);
FIELD(sawhekonu_nodes, label, 1032, 1024);
FIELD(sawhekonu_nodes, place, 2056, 1024);
SIZE(sawhekonu_nodes, 3080);
FIELD(sawhekonu_edges, count, 0, 8);
FIELD(sawhekonu_edges, from, 8, 4096);
FIELD(sawhekonu_edges, to, 4104, 4096);
SIZE(sawhekonu_edges, 8200);
FIELD(sawhekonu_end, node, 0, 128);
FIELD(sawhekonu_end, all, 128, 2);
FIELD(sawhekonu_end, block, 130, 512);
SIZE(sawhekonu_end, 642);
FIELD(sawhekonu_registers, count, 0, 8);
FIELD(sawhekonu_registers, name, 8, 256);
FIELD(sawhekonu_registers, index, 264, 512);
FIELD(sawhekonu_registers, node, 776, 512);
SIZE(sawhekonu_registers, 1288);
FIELD(sawhekonu_commuting, count, 0, 8);
FIELD(sawhekonu_commuting, list, 8, 1024);
SIZE(sawhekonu_commuting, 1032);
FIELD(sawhekonu_dag, nodes, 0, 3080);
FIELD(sawhekonu_dag, backs, 3080, 8);
FIELD(sawhekonu_dag, edges, 3088, 8200);
FIELD(sawhekonu_dag, fronts, 11288, 8);
FIELD(sawhekonu_dag, first, 11296, 642);
FIELD(sawhekonu_dag, last, 11938, 642);
FIELD(sawhekonu_dag, first_registers, 12584, 1288);
FIELD(sawhekonu_dag, last_registers, 13872, 1288);
FIELD(sawhekonu_dag, commuting, 15160, 1032);
SIZE(sawhekonu_dag, 16192);
FIELD(sawhekonu_walk, current, 0, 512);
FIELD(sawhekonu_walk, executed, 512, 512);
SIZE(sawhekonu_walk, 1024);
FIELD(sawhekonu_answer, refusal, 0, 8);
FIELD(sawhekonu_answer, value, 8, 8);
SIZE(sawhekonu_answer, 16);
FIELD(sawhekonu_graph_answer, answer, 0, 16);
FIELD(sawhekonu_graph_answer, graph, 16, 16192);
SIZE(sawhekonu_graph_answer, 16208);
FIELD(sawhekonu_step_answer, answer, 0, 16);
FIELD(sawhekonu_step_answer, walk, 16, 1024);
SIZE(sawhekonu_step_answer, 1040);
FIELD(sawhekonu_place_answer, answer, 0, 16);
FIELD(sawhekonu_place_answer, offset, 16, 8);
FIELD(sawhekonu_place_answer, length, 24, 8);
SIZE(sawhekonu_place_answer, 32);
FIELD(sawhekonu_kept_node, kind, 0, 1);
FIELD(sawhekonu_kept_node, form, 1, 1);
FIELD(sawhekonu_kept_node, label, 2, 2);
FIELD(sawhekonu_kept_node, place, 4, 2);
SIZE(sawhekonu_kept_node, 6);
FIELD(sawhekonu_node_answer, answer, 0, 16);
FIELD(sawhekonu_node_answer, node, 16, 6);
SIZE(sawhekonu_node_answer, 24);

/* ---- what is expected */

enum { ROOM = 1024, OLD = 43981 };

static uint16_t buffer[ROOM];

static void fail(const char *what) {
    fflush(stdout);
    fprintf(stderr, "host: %s: another answer than the documents'\n", what);
    exit(1);
}

static void holds(const char *what, bool fact) {
    if (!fact) fail(what);
}

static void clear(void) {
    for (size_t i = 0; i < ROOM; i++) buffer[i] = OLD;
}

static void answered(const char *what, sawhekonu_answer x, size_t refusal, size_t value) {
    printf("%s: refusal %zu, value %zu\n", what, x.refusal, x.value);
    holds(what, x.refusal == refusal && x.value == value);
}

/* refused: the buffer is as it was */
static void refused(const char *what, sawhekonu_answer x, size_t refusal) {
    answered(what, x, refusal, SAWHEKONU_NONE);
    for (size_t i = 0; i < ROOM; i++) holds(what, buffer[i] == OLD);
    clear();
}

/* the buffer has these n entries, and after them what it had */
static void wrote(const char *what, size_t n, const uint16_t *entries) {
    printf("%s, entries:", what);
    for (size_t i = 0; i < n; i++) printf(" %u", buffer[i]);
    printf("\n");
    for (size_t i = 0; i < ROOM; i++) holds(what, buffer[i] == (i < n ? entries[i] : OLD));
    clear();
}

static void listed(const char *what, sawhekonu_answer x, size_t n, const uint16_t *entries) {
    answered(what, x, SAWHEKONU_ACCEPTED, n);
    wrote(what, n, entries);
}

#define LIST(...) sizeof((const uint16_t[]){__VA_ARGS__}) / sizeof(uint16_t), (const uint16_t[]){__VA_ARGS__}

static bool same(const void *x, const void *y, size_t length) {
    return memcmp(x, y, length) == 0;
}

/* every field; the 4 bytes between last and first_registers are no field */
static bool same_dag(const sawhekonu_dag *x, const sawhekonu_dag *y) {
    return same(x, y, 12580) && same(&x->first_registers, &y->first_registers, sizeof *x - 12584);
}

static bool holds_set(const uint8_t *set, size_t n, const uint16_t *nodes) {
    uint8_t marks[512] = {0};
    for (size_t i = 0; i < n; i++) marks[nodes[i]] = 1;
    return same(set, marks, sizeof marks);
}

/* ---- records and files */

enum { FRONT = 1 };

static void put(uint8_t *at, size_t x) {
    at[0] = (uint8_t)x;
    at[1] = (uint8_t)(x >> 8);
}

/* an ordinary record on a set of qubits */
static void gate(uint8_t record[14], uint8_t end, uint64_t qubits, uint16_t label) {
    memset(record, 0, 14);
    record[0] = end;
    record[2] = 2;
    for (size_t i = 0; i < 8; i++) record[3 + i] = (uint8_t)(qubits >> (8 * i));
    put(record + 12, label);
}

/* the definition of a Bit register */
static void bit(uint8_t record[17], uint8_t name, uint16_t length) {
    memset(record, 0, 17);
    record[1] = 1;
    record[11] = 4;
    record[14] = name;
    put(record + 15, length);
}

/* a file of these records; its length */
static size_t file_of(uint8_t *file, size_t n, const uint8_t *const records[], const size_t lengths[]) {
    size_t end = 2 + 4 * n;
    put(file, n);
    for (size_t i = 0; i < n; i++) {
        put(file + 2 + 4 * i, end);
        put(file + 4 + 4 * i, lengths[i]);
        memcpy(file + end, records[i], lengths[i]);
        end += lengths[i];
    }
    return end;
}

/* ---- case 2 of document 01: B{0} B{1} B{0,1} */

static sawhekonu_dag case2;
static uint8_t case2_file[4096];
static size_t case2_length;
static const uint16_t none[1]; /* as a list of length 0 no node, of length 1 node 0 */

static void print_blocks(sawhekonu_dag dag) {
    sawhekonu_answer x = sawhekonu_whole_walk(dag, buffer, ROOM);
    holds("blocks", x.refusal == SAWHEKONU_ACCEPTED);
    printf("blocks %zu\n", x.value);
    for (size_t b = 0; b < x.value; b++) {
        printf("%zu:", b);
        for (size_t v = 0; v < dag.nodes.count; v++)
            if (buffer[v] == b) printf(" %zu", v);
        printf("\n");
    }
    clear();
}

static void case_2(void) {
    sawhekonu_graph_answer g = sawhekonu_load(case2_file, case2_length);
    answered("load", g.answer, 0, 0);
    case2 = g.graph;
    holds("nodes", case2.nodes.count == 3 && case2.nodes.kind[2] == 0 && case2.nodes.form[2] == 2 && case2.nodes.place[2] == 2);
    holds("edges", case2.edges.count == 2 && case2.edges.from[0] == 0 && case2.edges.to[0] == 2 && case2.edges.from[1] == 1);
    holds("first", case2.first.node[0] == 0 && case2.first.node[1] == 1 && case2.first.node[2] == SAWHEKONU_NONE);
    holds("last", case2.last.node[0] == 2 && case2.last.node[1] == 2 && case2.last.all == SAWHEKONU_NONE);
    holds("first block", holds_set(case2.first.block, LIST(0, 1)));
    holds("last block", holds_set(case2.last.block, LIST(2)));
    holds("counts", case2.backs == 3 && case2.fronts == 0 && case2.commuting.count == 0);
    print_blocks(case2);
    sawhekonu_place_answer p = sawhekonu_locate_record(case2_file, case2_length, 1);
    answered("locate_record", p.answer, 0, 0);
    holds("locate_record", p.offset == 28 && p.length == 14);
    p = sawhekonu_locate_record(case2_file, case2_length, 3);
    answered("locate_record absent", p.answer, SAWHEKONU_ABSENT, SAWHEKONU_NONE);
    holds("locate_record absent", p.offset == 0 && p.length == 0);
    bool sound = sawhekonu_is_sound(case2);
    printf("is_sound: %d\n", sound);
    holds("is_sound", sound);
    answered("whole_walk", sawhekonu_whole_walk(case2, buffer, 3), 0, 2);
    wrote("whole_walk", LIST(0, 0, 1));
    listed("to_circuit", sawhekonu_to_circuit(case2, buffer, 3), LIST(0, 1, 2));
    listed("chain", sawhekonu_chain(case2, buffer, 2), LIST(2, 0));
    listed("successors", sawhekonu_successors(case2, 0, buffer, ROOM), LIST(2));
    listed("execution_blocked", sawhekonu_execution_blocked(case2, none, 0, 2, buffer, ROOM), LIST(0, 1));
    listed("execution_blocked, 0 executed", sawhekonu_execution_blocked(case2, none, 1, 2, buffer, ROOM), LIST(1));
    listed("blocking_predecessors, 0 executed", sawhekonu_blocking_predecessors(case2, none, 1, 2, buffer, ROOM), LIST(1));
    /* cases 8 and 9 */
    const uint16_t layer[] = {0, 1};
    listed("new_front_layer stays", sawhekonu_new_front_layer(case2, none, 0, layer, 2, 0, buffer, 512), LIST(0, 1));
    listed("new_front_layer", sawhekonu_new_front_layer(case2, none, 1, layer, 2, 1, buffer, 512), LIST(0, 2));
}

/* two blocks, then None, and None again */
static void walk_case_2(void) {
    sawhekonu_walk start;
    memset(&start, 0, sizeof start);
    sawhekonu_step_answer x = sawhekonu_next(case2, start, buffer, 512);
    listed("next", x.answer, LIST(0, 1));
    holds("next", holds_set(x.walk.current, LIST(0, 1)) && holds_set(x.walk.executed, 0, none));
    x = sawhekonu_next(case2, x.walk, buffer, 512);
    listed("next", x.answer, LIST(2));
    holds("next", holds_set(x.walk.current, LIST(2)) && holds_set(x.walk.executed, LIST(0, 1)));
    for (size_t k = 0; k < 2; k++) {
        x = sawhekonu_next(case2, x.walk, buffer, 0);
        answered("next None", x.answer, 0, SAWHEKONU_NONE);
        holds("next None", holds_set(x.walk.current, 0, none) && holds_set(x.walk.executed, LIST(0, 1, 2)));
    }
    sawhekonu_walk far = start;
    far.current[3] = 1;
    x = sawhekonu_next(case2, far, buffer, ROOM);
    refused("next of an absent node", x.answer, SAWHEKONU_ABSENT);
    holds("next of an absent node", same(&x.walk, &far, sizeof far));
    x = sawhekonu_next(case2, start, buffer, 1);
    refused("next, short buffer", x.answer, SAWHEKONU_SHORT_BUFFER);
    holds("next, short buffer", same(&x.walk, &start, sizeof start));
}

/* ---- from a file to its schedule in one call */

static void schedules(void) {
    answered("schedule", sawhekonu_schedule(case2_file, case2_length, buffer, 3), 0, 2);
    wrote("schedule", LIST(0, 0, 1));
    refused("schedule, short buffer", sawhekonu_schedule(case2_file, case2_length, buffer, 2), SAWHEKONU_SHORT_BUFFER);
    refused("schedule, no buffer", sawhekonu_schedule(case2_file, case2_length, NULL, 0), SAWHEKONU_SHORT_BUFFER);
    refused("schedule of a byte", sawhekonu_schedule(case2_file, 1, buffer, ROOM), SAWHEKONU_FILE_TOO_SHORT);
    refused("schedule of no file", sawhekonu_schedule(NULL, 0, buffer, ROOM), SAWHEKONU_FILE_TOO_SHORT);
    answered("schedule of a cut file", sawhekonu_schedule(case2_file, case2_length - 1, buffer, ROOM), SAWHEKONU_BAD_PAIR, 2);
    wrote("schedule of a cut file", 0, none);
    /* B{5} label 9, Bit name 1 length 2, F{5,6}: the front pulse fires first, the definition in no block */
    uint8_t back[14], one[17], front[14], file[128];
    gate(back, 0, 1 << 5, 9);
    bit(one, 1, 2);
    gate(front, FRONT, 3 << 5, 4);
    const uint8_t *records[] = {back, one, front};
    const size_t lengths[] = {14, 17, 14};
    size_t length = file_of(file, 3, records, lengths);
    answered("schedule at both ends", sawhekonu_schedule(file, length, buffer, ROOM), 0, 2);
    wrote("schedule at both ends", LIST(1, SAWHEKONU_NONE, 0));
    back[2] = 3;
    file_of(file, 3, records, lengths);
    answered("schedule of a bad record", sawhekonu_schedule(file, length, buffer, ROOM), SAWHEKONU_BAD_RECORD, 0);
    wrote("schedule of a bad record", 0, none);
}

/* ---- graphs whose parts all differ */

/* B{0} B{0} B{0}: what reaches a node is more than what precedes it */
static void three_in_a_row(void) {
    sawhekonu_graph_answer g = {.graph = sawhekonu_new()};
    holds("new", g.graph.nodes.count == 0 && g.graph.first.node[63] == SAWHEKONU_NONE && g.graph.last.all == SAWHEKONU_NONE);
    answered("whole_walk of new", sawhekonu_whole_walk(g.graph, NULL, 0), 0, 0);
    uint8_t record[14];
    for (uint16_t v = 0; v < 3; v++) {
        gate(record, 0, 1, (uint16_t)(4660 + v));
        g = sawhekonu_insert(g.graph, record, 14);
        answered("insert", g.answer, 0, v);
    }
    holds("insert", g.graph.nodes.label[2] == 4662 && g.graph.nodes.place[2] == 2 && g.graph.edges.to[1] == 2);
    listed("execution_blocked", sawhekonu_execution_blocked(g.graph, none, 0, 2, buffer, 2), LIST(0, 1));
    listed("blocking_predecessors", sawhekonu_blocking_predecessors(g.graph, none, 0, 2, buffer, 1), LIST(1));
    listed("successors", sawhekonu_successors(g.graph, 1, buffer, 1), LIST(2));
    listed("chain", sawhekonu_chain(g.graph, buffer, 3), LIST(2, 1, 0));
}

/* case 7: F{0} F{0}: places -1, -2; edge 1-0; circuit 1, 0 */
static void two_at_the_front(void) {
    uint8_t record[14], file[64];
    gate(record, FRONT, 1, 0);
    const uint8_t *records[] = {record, record};
    const size_t lengths[] = {14, 14};
    size_t length = file_of(file, 2, records, lengths);
    sawhekonu_graph_answer g = sawhekonu_load(file, length);
    answered("load at the front", g.answer, 0, 0);
    holds("load at the front", g.graph.nodes.place[0] == -1 && g.graph.nodes.place[1] == -2 && g.graph.backs == 0 && g.graph.fronts == 2);
    holds("load at the front", g.graph.edges.from[0] == 1 && g.graph.edges.to[0] == 0 && holds_set(g.graph.first.block, LIST(1)));
    listed("to_circuit from the front", sawhekonu_to_circuit(g.graph, buffer, 2), LIST(1, 0));
    g = sawhekonu_from_circuit(file, length);
    answered("from_circuit, front record", g.answer, SAWHEKONU_BAD_RECORD, 0);
    sawhekonu_dag empty = sawhekonu_new();
    holds("from_circuit, front record", same_dag(&g.graph, &empty));
}

/* case 10's first three records behind a gate: kinds, forms, labels, register maps and the commuting list */
static void registers(void) {
    uint8_t first[14], one[17], two[17], all[15], file[256];
    gate(first, 0, 1, 7);
    bit(one, 1, 2);
    bit(two, 2, 1);
    memset(all, 0, sizeof all);
    all[11] = 1;
    all[14] = 2;
    const uint8_t *records[] = {first, one, two, all};
    const size_t lengths[] = {14, 17, 17, 15};
    size_t length = file_of(file, 4, records, lengths);
    sawhekonu_graph_answer g = sawhekonu_load(file, length);
    answered("load with registers", g.answer, 0, 0);
    const sawhekonu_dag *d = &g.graph;
    holds("nodes", d->nodes.kind[0] == 0 && d->nodes.form[0] == 2 && d->nodes.label[0] == 7 && d->nodes.kind[1] == 1 && d->nodes.form[1] == 0);
    holds("commuting", d->commuting.count == 2 && d->commuting.list[0] == 1 && d->commuting.list[1] == 2);
    const sawhekonu_registers *r = &d->first_registers;
    holds("first registers", r->count == 3 && r->name[1] == 1 && r->index[1] == 1 && r->node[1] == 1 && r->name[2] == 2 && r->node[2] == 2);
    r = &d->last_registers;
    holds("last registers", r->count == 1 && r->name[0] == 2 && r->index[0] == 0 && r->node[0] == 3);
    g = sawhekonu_from_circuit(file, length);
    answered("from_circuit", g.answer, 0, 0);
    holds("from_circuit", g.graph.nodes.kind[0] == 1 && g.graph.nodes.kind[2] == 0 && g.graph.nodes.label[2] == 7);
    listed("to_circuit with registers", sawhekonu_to_circuit(g.graph, buffer, 4), LIST(0, 1, 2, 3));
}

/* B{5} label 9, Bit name 1 length 2, F{5,6}, B None/All name 1: what each accessor answers, first and last apart */
static void accessors(void) {
    uint8_t back[14], one[17], front[14], all[15], file[128];
    gate(back, 0, 1 << 5, 9);
    bit(one, 1, 2);
    gate(front, FRONT, 3 << 5, 4);
    memset(all, 0, sizeof all);
    all[11] = 1;
    all[14] = 1;
    const uint8_t *records[] = {back, one, front, all};
    const size_t lengths[] = {14, 17, 14, 15};
    sawhekonu_graph_answer g = sawhekonu_load(file, file_of(file, 4, records, lengths));
    answered("load", g.answer, 0, 0);
    sawhekonu_node_answer n = sawhekonu_get(g.graph, 2);
    answered("get", n.answer, 0, 0);
    holds("get", n.node.kind == 0 && n.node.form == 2 && n.node.label == 4 && n.node.place == -1);
    n = sawhekonu_get(g.graph, 1);
    answered("get of a definition", n.answer, 0, 0);
    holds("get of a definition", n.node.kind == 1 && n.node.form == 0 && n.node.label == 0 && n.node.place == 1);
    const size_t absent[] = {4, 65535, 65536, 65536 + 2, SIZE_MAX};
    for (size_t i = 0; i < sizeof absent / sizeof absent[0]; i++) {
        n = sawhekonu_get(g.graph, absent[i]);
        refused("get of an absent node", n.answer, SAWHEKONU_ABSENT);
        holds("get of an absent node", n.node.kind == 0 && n.node.form == 0 && n.node.label == 0 && n.node.place == 0);
    }
    listed("commuting_operations", sawhekonu_commuting_operations(g.graph, buffer, 1), LIST(1));
    listed("first_parallel_block", sawhekonu_first_parallel_block(g.graph, buffer, 1), LIST(2));
    listed("last_parallel_block", sawhekonu_last_parallel_block(g.graph, buffer, 1), LIST(0));
    refused("commuting_operations, short buffer", sawhekonu_commuting_operations(g.graph, buffer, 0), SAWHEKONU_SHORT_BUFFER);
    refused("first_parallel_block, short buffer", sawhekonu_first_parallel_block(g.graph, buffer, 0), SAWHEKONU_SHORT_BUFFER);
    refused("last_parallel_block, short buffer", sawhekonu_last_parallel_block(g.graph, buffer, 0), SAWHEKONU_SHORT_BUFFER);
    answered("first operation of qubit 5", sawhekonu_first_operation_involving_qubit(g.graph, 5), 0, 2);
    answered("last operation of qubit 5", sawhekonu_last_operation_involving_qubit(g.graph, 5), 0, 0);
    answered("last operation of qubit 6", sawhekonu_last_operation_involving_qubit(g.graph, 6), 0, 2);
    answered("first operation of key (1,0)", sawhekonu_first_operation_involving_classical(g.graph, 1, 0), 0, 1);
    answered("last operation of key (1,1)", sawhekonu_last_operation_involving_classical(g.graph, 1, 1), 0, 3);
    const size_t no_qubit[] = {0, 64, 256 + 5, SIZE_MAX};
    for (size_t i = 0; i < sizeof no_qubit / sizeof no_qubit[0]; i++) {
        answered("first operation of no qubit", sawhekonu_first_operation_involving_qubit(g.graph, no_qubit[i]), 0, SAWHEKONU_NONE);
        answered("last operation of no qubit", sawhekonu_last_operation_involving_qubit(g.graph, no_qubit[i]), 0, SAWHEKONU_NONE);
    }
    const size_t no_key[][2] = {{1, 2}, {2, 0}, {256 + 1, 0}, {1, 65536}, {SIZE_MAX, SIZE_MAX}};
    for (size_t i = 0; i < sizeof no_key / sizeof no_key[0]; i++) {
        size_t name = no_key[i][0], index = no_key[i][1];
        answered("first operation of no key", sawhekonu_first_operation_involving_classical(g.graph, name, index), 0, SAWHEKONU_NONE);
        answered("last operation of no key", sawhekonu_last_operation_involving_classical(g.graph, name, index), 0, SAWHEKONU_NONE);
    }
}

/* ---- files with slack */

/* case 2 with five bytes before each record and behind the last: graph, conversion and schedule are those of the file without them */
static void slack_between_records(void) {
    uint8_t file[76];
    memset(file, 255, sizeof file);
    put(file, 3);
    for (size_t i = 0; i < 3; i++) {
        put(file + 2 + 4 * i, 19 + 19 * i);
        put(file + 4 + 4 * i, 14);
        memcpy(file + 19 + 19 * i, case2_file + 14 + 14 * i, 14);
    }
    sawhekonu_graph_answer g = sawhekonu_load(file, sizeof file);
    answered("load with slack", g.answer, 0, 0);
    holds("load with slack", same_dag(&g.graph, &case2));
    sawhekonu_dag converted = sawhekonu_from_circuit(case2_file, case2_length).graph;
    g = sawhekonu_from_circuit(file, sizeof file);
    answered("from_circuit with slack", g.answer, 0, 0);
    holds("from_circuit with slack", same_dag(&g.graph, &converted));
    answered("schedule with slack", sawhekonu_schedule(file, sizeof file, buffer, 3), 0, 2);
    wrote("schedule with slack", LIST(0, 0, 1));
    sawhekonu_place_answer p = sawhekonu_locate_record(file, sizeof file, 2);
    answered("locate_record with slack", p.answer, 0, 0);
    holds("locate_record with slack", p.offset == 57 && p.length == 14);
    answered("load, cut behind the last record", sawhekonu_load(file, 71).answer, 0, 0);
    answered("load, cut in the last record", sawhekonu_load(file, 70).answer, SAWHEKONU_BAD_PAIR, 2);
    put(file, 0);
    sawhekonu_dag empty = sawhekonu_new();
    g = sawhekonu_load(file, sizeof file);
    answered("load of no record and bytes behind", g.answer, 0, 0);
    holds("load of no record and bytes behind", same_dag(&g.graph, &empty));
}

/* ---- refusals */

static void torn_files(void) {
    uint8_t file[64];
    sawhekonu_dag empty = sawhekonu_new();
    memcpy(file, case2_file, 56);
    sawhekonu_graph_answer g = sawhekonu_load(file, 1);
    answered("load of a byte", g.answer, SAWHEKONU_FILE_TOO_SHORT, SAWHEKONU_NONE);
    holds("load of a byte", same_dag(&g.graph, &empty));
    answered("locate_record in a byte", sawhekonu_locate_record(file, 1, 0).answer, SAWHEKONU_FILE_TOO_SHORT, SAWHEKONU_NONE);
    answered("load of nothing", sawhekonu_load(NULL, 0).answer, SAWHEKONU_FILE_TOO_SHORT, SAWHEKONU_NONE);
    answered("load of cut pairs", sawhekonu_load(file, 13).answer, SAWHEKONU_FILE_TOO_SHORT, SAWHEKONU_NONE);
    answered("load of a cut record", sawhekonu_load(file, 55).answer, SAWHEKONU_BAD_PAIR, 2);
    answered("from_circuit of a cut record", sawhekonu_from_circuit(file, 55).answer, SAWHEKONU_BAD_PAIR, 2);
    answered("locate_record in a cut file", sawhekonu_locate_record(file, 55, 0).answer, SAWHEKONU_BAD_PAIR, 2);
    file[6]--;
    answered("load of a bad pair", sawhekonu_load(file, 56).answer, SAWHEKONU_BAD_PAIR, 1);
    file[6]++;
    file[30] = 3;
    answered("load of a bad record", sawhekonu_load(file, 56).answer, SAWHEKONU_BAD_RECORD, 1);
    file[0] = 1;
    file[1] = 2;
    answered("load of 513 records", sawhekonu_load(file, 56).answer, SAWHEKONU_TOO_MANY_RECORDS, SAWHEKONU_NONE);
    answered("locate_record of 513 records", sawhekonu_locate_record(file, 56, 0).answer, SAWHEKONU_TOO_MANY_RECORDS, SAWHEKONU_NONE);
    sawhekonu_graph_answer x = sawhekonu_insert(case2, case2_file + 14, 13);
    answered("insert of a cut record", x.answer, SAWHEKONU_BAD_RECORD, 0);
    holds("insert of a cut record", same_dag(&x.graph, &case2));
}

/* B{0}, a Bit register, B{}: 12 with the record's number, 0 on insertion; the conversion inserts the definition first and still names record 2 */
static void gates_on_nothing(void) {
    uint8_t first[14], one[17], nothing[14], file[64];
    gate(first, 0, 1, 0);
    bit(one, 1, 2);
    gate(nothing, 0, 0, 0);
    const uint8_t *records[] = {first, one, nothing};
    const size_t lengths[] = {14, 17, 14};
    size_t length = file_of(file, 3, records, lengths);
    sawhekonu_dag empty = sawhekonu_new();
    sawhekonu_graph_answer g = sawhekonu_load(file, length);
    answered("load of an empty set", g.answer, SAWHEKONU_EMPTY_SET, 2);
    holds("load of an empty set", same_dag(&g.graph, &empty));
    g = sawhekonu_from_circuit(file, length);
    answered("from_circuit of an empty set", g.answer, SAWHEKONU_EMPTY_SET, 2);
    holds("from_circuit of an empty set", same_dag(&g.graph, &empty));
    answered("schedule of an empty set", sawhekonu_schedule(file, length, buffer, ROOM), SAWHEKONU_EMPTY_SET, 2);
    wrote("schedule of an empty set", 0, none);
    g = sawhekonu_insert(case2, nothing, 14);
    answered("insert of an empty set", g.answer, SAWHEKONU_EMPTY_SET, 0);
    holds("insert of an empty set", same_dag(&g.graph, &case2));
    nothing[1] = 6;
    answered("insert of an empty set of kind 6", sawhekonu_insert(case2, nothing, 14).answer, SAWHEKONU_BAD_RECORD, 0);
}

/* case 5: B{0} B All B All F{3} B{3}. In K6's way the last gate waits for the second all-qubit pulse, in document 01's it fires with it */
static void both_ways(void) {
    uint8_t gates[5][14], file[128];
    gate(gates[0], 0, 1, 0);
    for (size_t i = 1; i < 3; i++) {
        gate(gates[i], 0, 0, 0);
        gates[i][2] = 1;
    }
    gate(gates[3], FRONT, 1 << 3, 0);
    gate(gates[4], 0, 1 << 3, 0);
    const uint8_t *records[] = {gates[0], gates[1], gates[2], gates[3], gates[4]};
    const size_t lengths[] = {14, 14, 14, 14, 14};
    size_t length = file_of(file, 5, records, lengths);
    sawhekonu_graph_answer old = sawhekonu_load(file, length), g = sawhekonu_load_both_ends(file, length);
    answered("load_both_ends", g.answer, 0, 0);
    holds("load", old.graph.edges.count == 4 && old.graph.edges.from[3] == 1 && old.graph.edges.to[3] == 4);
    holds("load_both_ends", g.graph.edges.count == 4 && g.graph.edges.from[3] == 2 && g.graph.edges.to[3] == 4);
    print_blocks(g.graph);
    answered("schedule of case 5", sawhekonu_schedule(file, length, buffer, ROOM), 0, 3);
    wrote("schedule of case 5", LIST(0, 1, 2, 0, 2));
    answered("schedule_both_ends of case 5", sawhekonu_schedule_both_ends(file, length, buffer, 5), 0, 4);
    wrote("schedule_both_ends of case 5", LIST(0, 1, 2, 0, 3));
    refused("schedule_both_ends, short buffer", sawhekonu_schedule_both_ends(file, length, buffer, 4), SAWHEKONU_SHORT_BUFFER);
    refused("schedule_both_ends of no file", sawhekonu_schedule_both_ends(NULL, 0, buffer, ROOM), SAWHEKONU_FILE_TOO_SHORT);
    sawhekonu_graph_answer x = {.graph = sawhekonu_new()};
    for (size_t i = 0; i < 5; i++) {
        x = sawhekonu_insert_both_ends(x.graph, gates[i], 14);
        answered("insert_both_ends", x.answer, 0, i);
    }
    holds("insert_both_ends", same_dag(&x.graph, &g.graph));
    x = sawhekonu_insert_both_ends(g.graph, gates[0], 13);
    answered("insert_both_ends of a cut record", x.answer, SAWHEKONU_BAD_RECORD, 0);
    holds("insert_both_ends of a cut record", same_dag(&x.graph, &g.graph));
    x = sawhekonu_load_both_ends(file, length - 1);
    sawhekonu_dag empty = sawhekonu_new();
    answered("load_both_ends of a cut file", x.answer, SAWHEKONU_BAD_PAIR, 4);
    holds("load_both_ends of a cut file", same_dag(&x.graph, &empty));
}

static void refused_queries(void) {
    const uint16_t layer[] = {1, 2};
    const size_t absent[] = {3, 65535, 65536, 65536 + 2, SIZE_MAX};
    for (size_t i = 0; i < sizeof absent / sizeof absent[0]; i++) {
        size_t v = absent[i];
        refused("execution_blocked of an absent node", sawhekonu_execution_blocked(case2, none, 0, v, buffer, ROOM), SAWHEKONU_ABSENT);
        refused("blocking_predecessors of an absent node", sawhekonu_blocking_predecessors(case2, none, 0, v, buffer, ROOM), SAWHEKONU_ABSENT);
        refused("successors of an absent node", sawhekonu_successors(case2, v, buffer, ROOM), SAWHEKONU_ABSENT);
        refused("new_front_layer of an absent node", sawhekonu_new_front_layer(case2, none, 0, layer, 2, v, buffer, ROOM), SAWHEKONU_ABSENT);
    }
    refused("new_front_layer, node not in it", sawhekonu_new_front_layer(case2, none, 0, layer, 2, 0, buffer, ROOM), SAWHEKONU_NOT_IN_LAYER);
    refused("new_front_layer, short buffer", sawhekonu_new_front_layer(case2, none, 0, layer, 2, 2, buffer, 0), SAWHEKONU_SHORT_BUFFER);
    refused("execution_blocked, short buffer", sawhekonu_execution_blocked(case2, none, 0, 2, buffer, 1), SAWHEKONU_SHORT_BUFFER);
    refused("execution_blocked, no lists", sawhekonu_execution_blocked(case2, NULL, 0, 2, NULL, 0), SAWHEKONU_SHORT_BUFFER);
    refused("blocking_predecessors, short buffer", sawhekonu_blocking_predecessors(case2, none, 0, 2, buffer, 1), SAWHEKONU_SHORT_BUFFER);
    refused("successors, short buffer", sawhekonu_successors(case2, 0, buffer, 0), SAWHEKONU_SHORT_BUFFER);
    refused("to_circuit, short buffer", sawhekonu_to_circuit(case2, buffer, 2), SAWHEKONU_SHORT_BUFFER);
    refused("whole_walk, short buffer", sawhekonu_whole_walk(case2, buffer, 2), SAWHEKONU_SHORT_BUFFER);
    refused("chain, short buffer", sawhekonu_chain(case2, buffer, 1), SAWHEKONU_SHORT_BUFFER);
}

/* every call on a graph is refused 11, and the graph that came comes back, whatever else is wrong */
static void unsound(const char *what, sawhekonu_dag dag) {
    sawhekonu_walk walk;
    memset(&walk, 2, sizeof walk);
    bool sound = sawhekonu_is_sound(dag);
    printf("%s: is_sound %d\n", what, sound);
    holds(what, !sound);
    sawhekonu_graph_answer g = sawhekonu_insert(dag, case2_file, 1);
    refused(what, g.answer, SAWHEKONU_UNSOUND);
    holds(what, same_dag(&g.graph, &dag));
    g = sawhekonu_insert_both_ends(dag, case2_file, 1);
    refused(what, g.answer, SAWHEKONU_UNSOUND);
    holds(what, same_dag(&g.graph, &dag));
    sawhekonu_step_answer x = sawhekonu_next(dag, walk, buffer, 0);
    refused(what, x.answer, SAWHEKONU_UNSOUND);
    holds(what, same(&x.walk, &walk, sizeof walk));
    memset(&walk, 0, sizeof walk);
    x = sawhekonu_next(dag, walk, buffer, ROOM);
    refused(what, x.answer, SAWHEKONU_UNSOUND);
    holds(what, same(&x.walk, &walk, sizeof walk));
    refused(what, sawhekonu_whole_walk(dag, buffer, ROOM), SAWHEKONU_UNSOUND);
    refused(what, sawhekonu_chain(dag, buffer, ROOM), SAWHEKONU_UNSOUND);
    refused(what, sawhekonu_to_circuit(dag, buffer, ROOM), SAWHEKONU_UNSOUND);
    refused(what, sawhekonu_execution_blocked(dag, none, 0, 0, buffer, ROOM), SAWHEKONU_UNSOUND);
    refused(what, sawhekonu_blocking_predecessors(dag, none, 0, 65536, buffer, ROOM), SAWHEKONU_UNSOUND);
    refused(what, sawhekonu_successors(dag, 65536, buffer, ROOM), SAWHEKONU_UNSOUND);
    refused(what, sawhekonu_new_front_layer(dag, none, 0, none, 0, 0, buffer, 0), SAWHEKONU_UNSOUND);
    refused(what, sawhekonu_get(dag, 65536).answer, SAWHEKONU_UNSOUND);
    refused(what, sawhekonu_commuting_operations(dag, buffer, 0), SAWHEKONU_UNSOUND);
    refused(what, sawhekonu_first_parallel_block(dag, buffer, 0), SAWHEKONU_UNSOUND);
    refused(what, sawhekonu_last_parallel_block(dag, buffer, 0), SAWHEKONU_UNSOUND);
    refused(what, sawhekonu_first_operation_involving_qubit(dag, 64), SAWHEKONU_UNSOUND);
    refused(what, sawhekonu_last_operation_involving_qubit(dag, 0), SAWHEKONU_UNSOUND);
    refused(what, sawhekonu_first_operation_involving_classical(dag, 256, 0), SAWHEKONU_UNSOUND);
    refused(what, sawhekonu_last_operation_involving_classical(dag, 0, 0), SAWHEKONU_UNSOUND);
}

static void unsound_graphs(void) {
    sawhekonu_dag dag = case2;
    dag.first.block[0] = 2;
    unsound("a mark of 2 in the first block", dag);
    dag = case2;
    dag.last.block[511] = 255;
    unsound("a mark of 255 in the last block", dag);
    dag = case2;
    dag.backs = 2;
    unsound("counts that do not add up", dag);
}

/* a walk with a byte over 1 is refused 8 and comes back */
static void walks_of_no_marks(void) {
    for (size_t i = 0; i < 2; i++) {
        sawhekonu_walk walk;
        memset(&walk, 0, sizeof walk);
        walk.current[0] = 1;
        (i == 0 ? walk.current : walk.executed)[511] = 2;
        sawhekonu_step_answer x = sawhekonu_next(case2, walk, buffer, ROOM);
        refused("next, a byte of 2", x.answer, SAWHEKONU_ABSENT);
        holds("next, a byte of 2", same(&x.walk, &walk, sizeof walk));
    }
}

/* ---- the stack that a call takes: each runs in a thread whose stack was painted before */

enum { STACK = 1 << 20, STACK_BOUND = 256 << 10, PAINT = 0xA5 };

/* 511 gates on one qubit: 511 blocks, the chain's recursion at its deepest but one, and room for an insertion */
enum { DEEP = 511 };
static uint8_t deep_file[2 + (4 + 14) * DEEP];
static sawhekonu_dag deep;

static void make_deep(void) {
    uint8_t record[14];
    const uint8_t *records[DEEP];
    size_t lengths[DEEP];
    gate(record, 0, 1, 0);
    for (size_t i = 0; i < DEEP; i++) {
        records[i] = record;
        lengths[i] = 14;
    }
    sawhekonu_graph_answer g = sawhekonu_load(deep_file, file_of(deep_file, DEEP, records, lengths));
    answered("load of 511 gates", g.answer, 0, 0);
    deep = g.graph;
    answered("chain of 511 gates", sawhekonu_chain(deep, buffer, DEEP), 0, DEEP);
    holds("chain of 511 gates", buffer[0] == DEEP - 1 && buffer[DEEP - 1] == 0);
    clear();
}

static sawhekonu_graph_answer made;
static sawhekonu_step_answer stepped;
static size_t sink;

static void call_nothing(void) {}
static void call_locate(void) { sink += sawhekonu_locate_record(deep_file, sizeof deep_file, 1).offset; }
static void call_schedule(void) { sink += sawhekonu_schedule(deep_file, sizeof deep_file, buffer, ROOM).value; }
static void call_schedule_both_ends(void) { sink += sawhekonu_schedule_both_ends(deep_file, sizeof deep_file, buffer, ROOM).value; }
static void call_new(void) { made.graph = sawhekonu_new(); }
static void call_load(void) { made = sawhekonu_load(deep_file, sizeof deep_file); }
static void call_load_both_ends(void) { made = sawhekonu_load_both_ends(deep_file, sizeof deep_file); }
static void call_insert(void) { made = sawhekonu_insert(deep, deep_file + sizeof deep_file - 14, 14); }
static void call_insert_both_ends(void) { made = sawhekonu_insert_both_ends(deep, deep_file + sizeof deep_file - 14, 14); }
static void call_is_sound(void) { sink += sawhekonu_is_sound(deep); }
static void call_from_circuit(void) { made = sawhekonu_from_circuit(deep_file, sizeof deep_file); }
static void call_to_circuit(void) { sink += sawhekonu_to_circuit(deep, buffer, ROOM).value; }
static void call_blocked(void) { sink += sawhekonu_execution_blocked(deep, none, 0, DEEP - 1, buffer, ROOM).value; }
static void call_predecessors(void) { sink += sawhekonu_blocking_predecessors(deep, none, 0, DEEP - 1, buffer, ROOM).value; }
static void call_successors(void) { sink += sawhekonu_successors(deep, 0, buffer, ROOM).value; }
static void call_layer(void) { sink += sawhekonu_new_front_layer(deep, none, 1, none, 1, 0, buffer, ROOM).value; }
static void call_next(void) { stepped = sawhekonu_next(deep, stepped.walk, buffer, ROOM); }
static void call_whole_walk(void) { sink += sawhekonu_whole_walk(deep, buffer, ROOM).value; }
static void call_chain(void) { sink += sawhekonu_chain(deep, buffer, ROOM).value; }
static void call_get(void) { sink += sawhekonu_get(deep, 0).answer.value; }
static void call_commuting(void) { sink += sawhekonu_commuting_operations(deep, buffer, ROOM).value; }
static void call_first_block(void) { sink += sawhekonu_first_parallel_block(deep, buffer, ROOM).value; }
static void call_last_block(void) { sink += sawhekonu_last_parallel_block(deep, buffer, ROOM).value; }
static void call_first_qubit(void) { sink += sawhekonu_first_operation_involving_qubit(deep, 0).value; }
static void call_last_qubit(void) { sink += sawhekonu_last_operation_involving_qubit(deep, 0).value; }
static void call_first_key(void) { sink += sawhekonu_first_operation_involving_classical(deep, 0, 0).value; }
static void call_last_key(void) { sink += sawhekonu_last_operation_involving_classical(deep, 0, 0).value; }

static void *in_thread(void *call) {
    (*(void (**)(void))call)();
    return NULL;
}

/* how many bytes of a painted stack the call wrote over */
static size_t stack_of(void (*call)(void)) {
    pthread_attr_t attributes;
    pthread_t thread;
    uint8_t *stack = mmap(NULL, STACK, PROT_READ | PROT_WRITE, MAP_PRIVATE | MAP_ANONYMOUS, -1, 0);
    holds("a stack", stack != MAP_FAILED);
    memset(stack, PAINT, STACK);
    holds("a thread", pthread_attr_init(&attributes) == 0 && pthread_attr_setstack(&attributes, stack, STACK) == 0);
    holds("a thread", pthread_create(&thread, &attributes, in_thread, &call) == 0 && pthread_join(thread, NULL) == 0);
    pthread_attr_destroy(&attributes);
    size_t low = 0;
    while (low < STACK && stack[low] == PAINT) low++;
    munmap(stack, STACK);
    return STACK - low;
}

static void stacks(void) {
    static const struct {
        const char *name;
        void (*call)(void);
    } calls[] = {
        {"locate_record", call_locate},
        {"schedule", call_schedule},
        {"schedule_both_ends", call_schedule_both_ends},
        {"new", call_new},
        {"load", call_load},
        {"load_both_ends", call_load_both_ends},
        {"insert", call_insert},
        {"insert_both_ends", call_insert_both_ends},
        {"is_sound", call_is_sound},
        {"from_circuit", call_from_circuit},
        {"to_circuit", call_to_circuit},
        {"execution_blocked", call_blocked},
        {"blocking_predecessors", call_predecessors},
        {"successors", call_successors},
        {"new_front_layer", call_layer},
        {"next", call_next},
        {"whole_walk", call_whole_walk},
        {"chain", call_chain},
        {"get", call_get},
        {"commuting_operations", call_commuting},
        {"first_parallel_block", call_first_block},
        {"last_parallel_block", call_last_block},
        {"first_operation_involving_qubit", call_first_qubit},
        {"last_operation_involving_qubit", call_last_qubit},
        {"first_operation_involving_classical", call_first_key},
        {"last_operation_involving_classical", call_last_key},
    };
    make_deep();
    size_t thread = stack_of(call_nothing), most = 0;
    for (size_t i = 0; i < sizeof calls / sizeof calls[0]; i++) {
        size_t n = stack_of(calls[i].call) - thread;
        if (most < n) most = n;
        fprintf(stderr, "stack of %s: %zu bytes\n", calls[i].name, n);
        holds(calls[i].name, n <= STACK_BOUND);
        printf("stack of %s: within %d KB\n", calls[i].name, STACK_BOUND >> 10);
    }
    fprintf(stderr, "largest stack: %zu bytes\n", most);
    clear();
}

int main(int count, char **words) {
    FILE *file = count == 2 ? fopen(words[1], "rb") : NULL;
    if (file == NULL) {
        fprintf(stderr, "usage: host examples/case2.circuit\n");
        return 2;
    }
    case2_length = fread(case2_file, 1, sizeof case2_file, file);
    fclose(file);
    clear();
    case_2();
    walk_case_2();
    schedules();
    three_in_a_row();
    two_at_the_front();
    registers();
    accessors();
    torn_files();
    gates_on_nothing();
    slack_between_records();
    both_ways();
    refused_queries();
    unsound_graphs();
    walks_of_no_marks();
    stacks();
    return 0;
}
