/* Writes a C file that says how the structs which cross between C and the proved calls are laid out in
 * these, and that is compiled only where dconfdb_calls.h has them so. capi/build runs it. */
#include "layouts.h"

#include <stdio.h>

int main(void)
{
    puts("#include \"dconfdb_calls.h\"\n\n"
         "#define LIES(type, field, offset, width) \\\n"
         "    _Static_assert(offsetof(type, field) == (offset) && sizeof(((type *)0)->field) == (width), \\\n"
         "                   #type \".\" #field \" lies elsewhere in the proved calls\")\n"
         "#define TAKES(type, size) _Static_assert(sizeof(type) == (size), #type \" has another size in the proved calls\")\n");
    finds_database();
    finds_turns();
    finds_waits();
    finds_next();
    finds_faults();
    finds_others();
    finds_places();
    finds_lines();
    tries_inotify();
    finds_changesets();
    return 0;
}
