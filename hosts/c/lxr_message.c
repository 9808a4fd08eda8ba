/* lxr_message.c: what codes say in words. It stands beside the proved object in the archive, since none of that hands out a text.
 * SPDX: MIT OR Apache-2.0 */
#include "lxr.h"

const char *lxr_message(lxr_code code) {
    switch (code) {
    case LXR_OK: return "done";
    case LXR_E_NO_HEAP: return "the handle has no heap";
    case LXR_E_IN_USE: return "the handle has a heap already";
    case LXR_E_REGISTER: return "no such register, or one that may not stand here";
    case LXR_E_SIZE: return "a size out of its range";
    case LXR_E_NIL: return "the register is nil";
    case LXR_E_INDEX: return "the object has no such field";
    case LXR_E_FULL: return "the heap is full";
    case LXR_E_MEMORY: return "out of memory";
    case LXR_E_WHAT: return "no such number";
    case LXR_E_NUMBER: return "no place for a further mutator, or no such pass";
    case LXR_E_RESTS: return "the mutator rests";
    case LXR_E_AWAKE: return "the mutator doesn't rest";
    case LXR_E_USED_UP: return "names are to be renewed first";
    case LXR_E_LOST: return "the heap is lost for want of memory";
    case LXR_E_WAITS: return "taken up, and waits for a pause";
    case LXR_E_HELD: return "not taken up: a pause is wanted first";
    case LXR_E_BUSY: return "something is still under way";
    case LXR_E_AWAY: return "a pass is away";
    case LXR_E_HOME: return "the pass is at home";
    case LXR_E_KIND: return "a pass of the other kind";
    case LXR_E_EPOCH: return "not while an epoch is open, or only then";
    case LXR_E_NOT_WANTED: return "no pause is wanted";
    case LXR_E_NOTHING: return "nothing was ordered yet";
    case LXR_E_ENDED: return "all mutators have ended";
    default: return "no such code";
    }
}
