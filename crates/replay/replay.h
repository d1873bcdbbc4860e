/* A script of calls run on one order book. docs/REPLAY.md describes the settings, the script and the replies.
 *
 * settings: dialect, depth and product name, one blank between, as `M2 100 BTC-VND`; any that are bad open a shut book.
 * out: the replies are laid into it; its bytes are lent to the calls as their buffers.
 *      A reply is seven words and the call's buffer: the answer, then six values; to a taken message the first value is
 *      how many levels it moved.
 * Answers how many calls were made. No pointer may be null, also where its length is 0; `out` overlaps nothing else.
 */
#ifndef HUURQAN_REPLAY_H
#define HUURQAN_REPLAY_H

#include <stddef.h>
#include <stdint.h>

#ifdef __cplusplus
extern "C" {
#endif

size_t huurqan_replay(const uint8_t *settings, size_t settings_length,
                      const uint8_t *script, size_t script_length,
                      uint8_t *out, size_t out_length);

#ifdef __cplusplus
}
#endif

#endif
