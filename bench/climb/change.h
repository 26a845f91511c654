/* Random changes to a table that is accepted, which keep it so. */
#ifndef CHANGE_H
#define CHANGE_H

#include "../inputs/table.h"

struct table dense_table(void);
void change(struct table *table);

#endif
