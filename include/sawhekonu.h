/* Sawhekonu for C and C++: the functions of crates/host/out/libhost.a (rt lib, in crates/host), with what each promises. The words are document 01's;
 * the promises are proved in crates/host, and examples/host.c calls each function and asserts the sizes and offsets below.
 *
 * In and out. A graph is the caller's own struct and goes in and out by value, some 16 KB; a file, a record, a list of nodes is a pointer and then
 * its length in elements. Nothing is kept between two calls, nothing is allocated, and no call touches anything but what it is lent. A call needs at
 * most 256 KB of stack.
 *
 * Any value may be handed in: every struct, byte and number is tested, and what is wrong is refused. The caller sees to two things only: each
 * pointer has as many elements as its length says (it may be NULL where the length is 0), and a lent buffer overlaps nothing else that is lent.
 *
 * A refused call answers a number of sawhekonu_refusal and leaves graph, walk and buffer as they were, byte for byte. Where several causes hold,
 * the first in the order that the call names is answered. An accepted call answers SAWHEKONU_ACCEPTED; entries of a buffer after the answer keep
 * their old contents. */
#ifndef SAWHEKONU_H
#define SAWHEKONU_H

#include <stdbool.h>
#include <stddef.h>
#include <stdint.h>

#ifdef __cplusplus
extern "C" {
#endif

enum {
    SAWHEKONU_NODES = 512,     /* limits: nodes, and the length of any list of nodes that a call writes but for a new front layer */
    SAWHEKONU_EDGES = 2048,    /* distinct edges */
    SAWHEKONU_REGISTERS = 256, /* entries of a register map */
    SAWHEKONU_QUBITS = 64,
    SAWHEKONU_RECORDS = 512,   /* records of a file */
    SAWHEKONU_NONE = 65535     /* no node, no block, no value; None of a step */
};

enum sawhekonu_refusal {
    SAWHEKONU_ACCEPTED = 0,
    SAWHEKONU_FILE_TOO_SHORT = 1,    /* under 2 bytes, or under 2 + 4n */
    SAWHEKONU_TOO_MANY_RECORDS = 2,  /* n over 512 */
    SAWHEKONU_BAD_PAIR = 3,          /* value: the first pair that breaks its rule, the last pair if the end is wrong */
    SAWHEKONU_BAD_RECORD = 4,        /* value: the record; 0 on insertion */
    SAWHEKONU_TOO_MANY_NODES = 5,    /* a 513th node; value: 0 */
    SAWHEKONU_TOO_MANY_EDGES = 6,    /* over 2,048; value: the record, 0 on insertion */
    SAWHEKONU_TOO_MANY_ENTRIES = 7,  /* a register map over 256; value: the record, 0 on insertion */
    SAWHEKONU_ABSENT = 8,            /* node absent, also in a walk's current set; a walk's byte over 1; record to be read absent */
    SAWHEKONU_NOT_IN_LAYER = 9,      /* node not in the given layer */
    SAWHEKONU_SHORT_BUFFER = 10,     /* buffer shorter than the answer */
    SAWHEKONU_UNSOUND = 11,          /* graph isn't sound; a block's byte over 1 */
    SAWHEKONU_EMPTY_SET = 12         /* a Set with mask zero, a gate on no qubit; value: the record, 0 on insertion */
};

/* What each node keeps, at its number; count of them count. */
typedef struct sawhekonu_nodes {
    size_t count;
    uint8_t kind[512];   /* 0 ordinary; 1 to 4 the definitions Bit, Float, Usize, Complex; 5 InputSymbolic or GateDefinition */
    uint8_t form[512];   /* qubit form: 0 None, 1 All, 2 Set */
    uint16_t label[512]; /* the record's label */
    int16_t place[512];  /* back insertions from 0 up, front insertions from -1 down */
} sawhekonu_nodes;

/* Edge i runs from node from[i] to node to[i]; count of them count. */
typedef struct sawhekonu_edges {
    size_t count;
    uint16_t from[2048];
    uint16_t to[2048];
} sawhekonu_edges;

/* One end of the circuit. */
typedef struct sawhekonu_end {
    uint16_t node[64];  /* the first or last node of each qubit, SAWHEKONU_NONE where absent */
    uint16_t all;       /* firstAll or lastAll, SAWHEKONU_NONE where absent */
    uint8_t block[512]; /* the first or last block: 1 at its nodes, 0 elsewhere; any other byte makes the graph unsound */
} sawhekonu_end;

/* A register map: entry i has the key (name[i], index[i]) and the node node[i]; count of them count. */
typedef struct sawhekonu_registers {
    size_t count;
    uint8_t name[256];
    uint16_t index[256];
    uint16_t node[256];
} sawhekonu_registers;

/* The commuting list; count of its numbers count. */
typedef struct sawhekonu_commuting {
    size_t count;
    uint16_t list[512];
} sawhekonu_commuting;

/* The graph. sawhekonu_new and sawhekonu_load make one; its fields are the caller's to read. A caller may write them too: a graph that is not sound
 * is refused. */
typedef struct sawhekonu_dag {
    sawhekonu_nodes nodes;
    size_t backs; /* back insertions */
    sawhekonu_edges edges;
    size_t fronts; /* front insertions */
    sawhekonu_end first;
    sawhekonu_end last;
    sawhekonu_registers first_registers;
    sawhekonu_registers last_registers;
    sawhekonu_commuting commuting;
} sawhekonu_dag;

/* The state of a walk, two sets of nodes: 1 at a set's nodes, 0 elsewhere. A walk starts with all bytes 0. */
typedef struct sawhekonu_walk {
    uint8_t current[512];
    uint8_t executed[512];
} sawhekonu_walk;

/* refusal: a number of sawhekonu_refusal. value: refused, the pair or record, SAWHEKONU_NONE where the refusal has none; accepted, what the call
 * found. */
typedef struct sawhekonu_answer {
    size_t refusal;
    size_t value;
} sawhekonu_answer;

typedef struct sawhekonu_graph_answer {
    sawhekonu_answer answer;
    sawhekonu_dag graph;
} sawhekonu_graph_answer;

typedef struct sawhekonu_step_answer {
    sawhekonu_answer answer;
    sawhekonu_walk walk;
} sawhekonu_step_answer;

typedef struct sawhekonu_place_answer {
    sawhekonu_answer answer;
    size_t offset;
    size_t length;
} sawhekonu_place_answer;

/* What a node keeps. */
typedef struct sawhekonu_kept_node {
    uint8_t kind;
    uint8_t form;
    uint16_t label;
    int16_t place;
} sawhekonu_kept_node;

typedef struct sawhekonu_node_answer {
    sawhekonu_answer answer;
    sawhekonu_kept_node node;
} sawhekonu_node_answer;

/* ---- the circuit file: docs/FORMAT.md. Before, between and behind its records may stand bytes that no call reads */

/* Where record i (from 0) stands in the file: its bytes are file[offset] to file[offset + length - 1]. Refused 2, 1, 3, then 8 if the file has no
 * record i, with offset and length 0. Value: 0. */
sawhekonu_place_answer sawhekonu_locate_record(const uint8_t *file, size_t file_length, size_t i);

/* ---- from a file to its schedule in one call */

/* The block number of each of the file's records, by its number in the file, SAWHEKONU_NONE for one that takes no qubit. Refused as sawhekonu_load is,
 * then 10. Value: how many blocks there are; one entry a record is written, so that SAWHEKONU_RECORDS entries always suffice. It is the load and then
 * the whole walk of its graph.
 *
 * The promise, for files of which at most one pulse takes all qubits where there are pulses at both ends. A pulse is a record of qubit form All or Set;
 * two clash if they share a qubit or one takes all. Each pulse has a number below the value. Of two clashing pulses the earlier in the circuit has the
 * smaller number. Every other numbering from 0 that does so gives no pulse a smaller number, and uses no fewer different numbers. The value is how many
 * different ones were written. */
sawhekonu_answer sawhekonu_schedule(const uint8_t *file, size_t file_length, uint16_t *buffer, size_t buffer_length);

/* The same of the graph that sawhekonu_load_both_ends makes, and with the same promise for every file: any number of pulses on all qubits, at either
 * end. Where sawhekonu_schedule promises it too, both write the same numbers. */
sawhekonu_answer sawhekonu_schedule_both_ends(const uint8_t *file, size_t file_length, uint16_t *buffer, size_t buffer_length);

/* ---- making a graph */

/* The empty graph. */
sawhekonu_dag sawhekonu_new(void);

/* The graph of all records of a file, inserted in file order, each at the end that its byte 0 names. Refused 2, 1, 3, then per record 4, 12, 6, 7,
 * with the empty graph. Value: 0. */
sawhekonu_graph_answer sawhekonu_load(const uint8_t *file, size_t file_length);

/* The graph after one insertion of the record's bytes. Refused 11, 4, 12, 5, 6, 7, with the graph that came. Value: the new node's number. */
sawhekonu_graph_answer sawhekonu_insert(sawhekonu_dag dag, const uint8_t *part, size_t part_length);

/* The second way to load and insert, for circuits with several pulses on all qubits and records at both ends (docs/FORMAT.md, "Two ways to load").
 * A qubit that is new at the back gets the first pulse on all qubits as its first operation, where sawhekonu_load and sawhekonu_insert give it the
 * last; one that is new at the front gets the last as its last operation, where they give it the first; where there is none, the new record itself.
 * The causes of refusal and their order are theirs; with other edges a file may be refused 6 in one way alone. A graph may be built by calls of both
 * ways; what sawhekonu_schedule_both_ends promises of a file holds of sawhekonu_whole_walk on every graph that these two alone have built. */
sawhekonu_graph_answer sawhekonu_load_both_ends(const uint8_t *file, size_t file_length);
sawhekonu_graph_answer sawhekonu_insert_both_ends(sawhekonu_dag dag, const uint8_t *part, size_t part_length);

/* Whether the graph is sound: every clause of document 01, and every byte of both blocks 0 or 1. Refuses nothing. */
bool sawhekonu_is_sound(sawhekonu_dag dag);

/* From a circuit: kinds 1 to 5 in file order, then kind 0, all at the back; a front record is refused 4. Refused as sawhekonu_load is, but 4 is
 * tested for all records before the first insertion; 12, 6 and 7 come in the order of insertion, with the record's number in the file. Value: 0. */
sawhekonu_graph_answer sawhekonu_from_circuit(const uint8_t *file, size_t file_length);

/* To a circuit: kinds 1 to 5 by place, then kind 0 by place, as node numbers. Refused 11, 10. Value: how many entries were written. 512 entries
 * always suffice. */
sawhekonu_answer sawhekonu_to_circuit(sawhekonu_dag dag, uint16_t *buffer, size_t buffer_length);

/* ---- queries: node is a node number; numbers of executed and layer may be any, and repeat */

/* All nodes other than the given one from which it is reached, minus those in the executed list, ascending. Refused 11, 8, 10. Value: how many
 * entries were written. 512 entries always suffice. */
sawhekonu_answer sawhekonu_execution_blocked(sawhekonu_dag dag, const uint16_t *executed, size_t executed_length, size_t node, uint16_t *buffer,
                                             size_t buffer_length);

/* The direct predecessors, minus those in the executed list, ascending. Refused 11, 8, 10. Value: how many entries were written. 512 entries always
 * suffice. */
sawhekonu_answer sawhekonu_blocking_predecessors(sawhekonu_dag dag, const uint16_t *executed, size_t executed_length, size_t node, uint16_t *buffer,
                                                 size_t buffer_length);

/* The direct successors, ascending. Refused 11, 8, 10. Value: how many entries were written. 512 entries always suffice. */
sawhekonu_answer sawhekonu_successors(sawhekonu_dag dag, size_t node, uint16_t *buffer, size_t buffer_length);

/* The new front layer: each successor that is not blocked, with the node itself counted as executed, is appended ascending; if one was appended or
 * there are no successors, the node's first occurrence is removed, otherwise the layer stays. Refused 11, 8, 9, 10. Value: how many entries were
 * written, the whole new layer. layer_length + 510 entries always suffice: the node goes, and at most 511 others come. */
sawhekonu_answer sawhekonu_new_front_layer(sawhekonu_dag dag, const uint16_t *executed, size_t executed_length, const uint16_t *layer,
                                           size_t layer_length, size_t node, uint16_t *buffer, size_t buffer_length);

/* ---- what a graph holds: the same as its fields, of a graph that is sound */

/* What a node keeps. Refused 11, 8, with zeros. Value: 0. */
sawhekonu_node_answer sawhekonu_get(sawhekonu_dag dag, size_t node);

/* The commuting list, ascending. Refused 11, 10. Value: how many entries were written. 512 entries always suffice. */
sawhekonu_answer sawhekonu_commuting_operations(sawhekonu_dag dag, uint16_t *buffer, size_t buffer_length);

/* The nodes of the first block, ascending. Refused 11, 10. Value: how many entries were written. 512 entries always suffice. */
sawhekonu_answer sawhekonu_first_parallel_block(sawhekonu_dag dag, uint16_t *buffer, size_t buffer_length);

/* The nodes of the last block, likewise. */
sawhekonu_answer sawhekonu_last_parallel_block(sawhekonu_dag dag, uint16_t *buffer, size_t buffer_length);

/* The first operation that involves a qubit. Refused 11. Value: its node, SAWHEKONU_NONE where there is none, as for a qubit over 63. */
sawhekonu_answer sawhekonu_first_operation_involving_qubit(sawhekonu_dag dag, size_t qubit);

/* The last one, likewise. */
sawhekonu_answer sawhekonu_last_operation_involving_qubit(sawhekonu_dag dag, size_t qubit);

/* The first operation that involves the entry (name, index) of a register. Refused 11. Value: its node, SAWHEKONU_NONE where there is none, as for a
 * name over 255 or an index over 65535. */
sawhekonu_answer sawhekonu_first_operation_involving_classical(sawhekonu_dag dag, size_t name, size_t index);

/* The last one, likewise. */
sawhekonu_answer sawhekonu_last_operation_involving_classical(sawhekonu_dag dag, size_t name, size_t index);

/* ---- walk and chain */

/* One step. If both sets are empty, the block is the first block, even if empty; otherwise current joins executed, and the block is every successor
 * of the old current that is blocked by none. The block becomes current, and is written ascending. Refused 11, 8, 10, with the walk that came; 8
 * where current holds a number that is no node's, and where a byte of the walk is over 1. Value: how many nodes the block has, or SAWHEKONU_NONE
 * where there is no further block. 512 entries always suffice. */
sawhekonu_step_answer sawhekonu_next(sawhekonu_dag dag, sawhekonu_walk state, uint16_t *buffer, size_t buffer_length);

/* The whole walk: each node's block number, SAWHEKONU_NONE where no block holds it. Refused 11, 10. Value: how many blocks there are; one entry a
 * node is written, so that dag.nodes.count entries suffice. */
sawhekonu_answer sawhekonu_whole_walk(sawhekonu_dag dag, uint16_t *buffer, size_t buffer_length);

/* The chain: from the smallest node of the last block to the smallest direct predecessor one block lower, until block 0; empty if there are no
 * blocks. Refused 11, 10. Value: how many entries were written. 512 entries always suffice. */
sawhekonu_answer sawhekonu_chain(sawhekonu_dag dag, uint16_t *buffer, size_t buffer_length);

#ifdef __cplusplus
}
#endif

#endif
