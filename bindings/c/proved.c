/* What the library tells of itself where it stands on the proved archive. STO_SOURCES is the sum of that archive's sources. */
#include "sto.h"

#ifndef STO_SOURCES
#define STO_SOURCES "unknown"
#endif

const char *sto_build(void) { return "proved"; }
const char *sto_sources(void) { return STO_SOURCES; }
uint32_t sto_version(void) { return STO_VERSION_NUMBER; }
const char *sto_version_text(void) { return STO_VERSION; }
