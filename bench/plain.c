/* The plain rendering is one translation unit, as the library's archive is one object: the compiler sees all of it. */
#include "plain.h"

#include <stdbool.h>
#include <string.h>

#include "plain/image.c"
#include "plain/sets.c"
#include "plain/table.c"
#include "plain/map.c"
#include "plain/reason.c"
#include "plain/ceiling.c"
#include "plain/search.c"
#include "plain/stack.c"
#include "plain/within.c"
#include "plain/through.c"
#include "plain/patch.c"
#include "plain/reverse.c"
