/* Plain C behind the border of include/tms5220.h: each function is that of its name there. */
#include "host.h"

__typeof__(tms_power_up) c_power_up;
__typeof__(tms_write) c_write;
__typeof__(tms_read) c_read;
__typeof__(tms_step) c_step;
__typeof__(tms_run) c_run;
__typeof__(tms_walk) c_walk;
__typeof__(tms_walk_5220c) c_walk_5220c;
__typeof__(tms_voice_check) c_voice_check;
