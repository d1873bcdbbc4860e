/* Where the first text of a message lies that breaks a rule of decimals, quotes included. docs/REPLAY.md has an example.
 *
 * settings: dialect, depth and product name, one blank between, as `M2 100 BTC-VND`.
 * out[0] is the text's first position, counted from 0, and out[1] the position past it; both are 0 where the settings are
 * bad, one of checks 2 to 7 refuses the message, or nothing is broken.
 * Answers how many words were laid: 2, or 0 where out_length is less. No pointer may be null, also where its length is 0;
 * `out` overlaps nothing else.
 */
#ifndef HUURQAN_BAD_TEXT_H
#define HUURQAN_BAD_TEXT_H

#include <stddef.h>
#include <stdint.h>

#ifdef __cplusplus
extern "C" {
#endif

size_t huurqan_bad_decimal(const uint8_t *settings, size_t settings_length,
                           const uint8_t *text, size_t text_length,
                           size_t *out, size_t out_length);

#ifdef __cplusplus
}
#endif

#endif
