/* Put before a program by -include, so that its blocks have guard pages. */
#include <stdlib.h>
#include "guard.h"

#define malloc guarded_malloc
#define free guarded_free
