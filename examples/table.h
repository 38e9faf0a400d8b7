/*
 * For the programs that use tables: a table with its room, and the table of a rule file built in it.
 */
#ifndef EXAMPLES_TABLE_H
#define EXAMPLES_TABLE_H

#include "common.h"

#define CELLS (1 << 20)
#define POOL (1 << 20)

typedef struct {
    alderskein_built built;
    uint32_t cells[CELLS];
    uint32_t rows[ALDERSKEIN_ROW_TABLE];
    uint32_t pool[POOL];
} built_table;

static uint32_t build_scratch[ALDERSKEIN_BUILD_SCRATCH];

/* Builds the rule's table; says how many rows it has. */
static void build(const char *name, built_table *table)
{
    alderskein_head head = read_rule(name);
    alderskein_building building = alderskein_build_table(
        head, edges, ALDERSKEIN_EDGE_TABLE, build_scratch, ALDERSKEIN_BUILD_SCRATCH, table->cells, CELLS,
        table->rows, ALDERSKEIN_ROW_TABLE, table->pool, POOL);
    if (building.number != 0)
        refuse(name, building.number, building.place);
    fprintf(stderr, "%s: %u rows\n", name, (unsigned)building.built.rows);
    table->built = building.built;
}

#endif
