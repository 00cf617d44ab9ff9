/* The header by itself, and a second time. */
#include "vvc_pps.h"
#include "vvc_pps.h"

int main(void) {
    return 0;
}
