/* The part of <stdlib.h> that the library uses: its heap's. */
#include "../heap.h"
