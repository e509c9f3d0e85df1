/* SMPTE time code: a division whose high byte holds the frames a second, as a number below
 * 0, and whose low byte holds the ticks a frame. */
#include "parts.h"

static int frames_of(uint32_t division) {
    return 0x100 - (int)(division >> 8);
}

static int ticks_of(uint32_t division) {
    return (int)(division & 0xFF);
}

static int is_rate(int frames) {
    return frames == 24 || frames == 25 || frames == 29 || frames == 30;
}

int is_time_code(uint32_t division) {
    return is_rate(frames_of(division)) && ticks_of(division) > 0;
}

int say_time_code(uint32_t division, struct words *words) {
    int frames = frames_of(division);
    if (is_time_code(division)) {
        return 0;
    }
    say(words, "SMPTE time code of %d frame%s a second", frames, plural((size_t)frames));
    return is_rate(frames) ? say(words, " with 0 ticks a frame, not 1..255")
                           : say(words, ", not 24, 25, 29 or 30");
}
