/* The functions of include/jakumshe.h as ones that a shared library exports, for who can't use a header. */
#define JAKUMSHE_CALL
#include "jakumshe.h"
