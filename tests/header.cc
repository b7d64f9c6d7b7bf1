// The header alone, as C++ sees it.
#include "spokeshaver.h"
