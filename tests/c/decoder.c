/* A user of the decoder alone (tests/constants): what is linked with it is what the decoder needs. */
#include "ostelumiv.h"

struct ostelumiv_command decode(const uint8_t *frame, size_t length)
{
    return ostelumiv_command_read(frame, length);
}
