/* The sizes and offsets of the header's structs, in the order of layout.rs. */
#include "sawhekonu.h"

const size_t sawhekonu_layout[] = {
    sizeof(sawhekonu_nodes), offsetof(sawhekonu_nodes, count), offsetof(sawhekonu_nodes, kind), offsetof(sawhekonu_nodes, form),
    offsetof(sawhekonu_nodes, label), offsetof(sawhekonu_nodes, place),
    sizeof(sawhekonu_edges), offsetof(sawhekonu_edges, count), offsetof(sawhekonu_edges, from), offsetof(sawhekonu_edges, to),
    sizeof(sawhekonu_end), offsetof(sawhekonu_end, node), offsetof(sawhekonu_end, all), offsetof(sawhekonu_end, block),
    sizeof(sawhekonu_registers), offsetof(sawhekonu_registers, count), offsetof(sawhekonu_registers, name),
    offsetof(sawhekonu_registers, index), offsetof(sawhekonu_registers, node),
    sizeof(sawhekonu_commuting), offsetof(sawhekonu_commuting, count), offsetof(sawhekonu_commuting, list),
    sizeof(sawhekonu_dag), offsetof(sawhekonu_dag, nodes), offsetof(sawhekonu_dag, backs), offsetof(sawhekonu_dag, edges),
    offsetof(sawhekonu_dag, fronts), offsetof(sawhekonu_dag, first), offsetof(sawhekonu_dag, last), offsetof(sawhekonu_dag, first_registers),
    offsetof(sawhekonu_dag, last_registers), offsetof(sawhekonu_dag, commuting),
    sizeof(sawhekonu_walk), offsetof(sawhekonu_walk, current), offsetof(sawhekonu_walk, executed),
    sizeof(sawhekonu_answer), offsetof(sawhekonu_answer, refusal), offsetof(sawhekonu_answer, value),
    sizeof(sawhekonu_graph_answer), offsetof(sawhekonu_graph_answer, answer), offsetof(sawhekonu_graph_answer, graph),
    sizeof(sawhekonu_step_answer), offsetof(sawhekonu_step_answer, answer), offsetof(sawhekonu_step_answer, walk),
    sizeof(sawhekonu_place_answer), offsetof(sawhekonu_place_answer, answer), offsetof(sawhekonu_place_answer, offset),
    offsetof(sawhekonu_place_answer, length),
    sizeof(sawhekonu_kept_node), offsetof(sawhekonu_kept_node, kind), offsetof(sawhekonu_kept_node, form), offsetof(sawhekonu_kept_node, label),
    offsetof(sawhekonu_kept_node, place),
    sizeof(sawhekonu_node_answer), offsetof(sawhekonu_node_answer, answer), offsetof(sawhekonu_node_answer, node),
    0,
};

_Static_assert(sizeof sawhekonu_layout == 57 * sizeof(size_t), "layout.rs has as many");
