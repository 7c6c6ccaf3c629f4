/* SPDX-License-Identifier: Apache-2.0 OR MIT */
/* Returns the version of the library, which is the version of the header with which it was built. The bindings look for
 * the text in the library's file before they link it. */
#include <cadence.h>

static const char text[] = "cadence_c " CADENCE_VERSION;

const char *cadence_version(void) {
    return text + sizeof "cadence_c " - 1;
}
