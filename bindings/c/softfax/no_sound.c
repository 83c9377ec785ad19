#include "sound_call.h"

int sound_call_run(call *it)
{
    call_fails(it, "sound", "this softfax was built without libspandsp, and has modems alone: --tty");
    return 0;
}
