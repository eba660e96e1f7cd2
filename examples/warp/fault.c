#include "fault.h"

const char *fault_text(fault f)
{
    switch (f) {
    case FAULT_NONE: return "no fault";
    case FAULT_OPTION: return "a bad option";
    case FAULT_MEMORY: return "no memory";
    case FAULT_QUOTA: return "a process's state exceeds its quota (--quota)";
    case FAULT_LOG: return "a log or a chunk was refused";
    case FAULT_MESSAGE: return "a message that is no message";
    case FAULT_MODEL: return "the model got an event that is none of its own, or sent one to no process or to no later time";
    case FAULT_MOVE: return "a moved process that is no process";
    case FAULT_FILE: return "the trace can't be written (--trace)";
    case FAULT_ENDED: return "ended from outside, as where another rank is lost";
    }
    return "an unknown fault";
}
