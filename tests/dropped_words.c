/* Drops the word of each call, of the macro and of the library's function, and the length of a file that is written:
 * thirteen times a compiler has to warn. */

#include "zuvaropy_parts.h"

void dropped_words(const uint8_t *in, uint8_t *out);

void dropped_words(const uint8_t *in, uint8_t *out)
{
    struct zuvaropy_writer writer = zuvaropy_write_to(out, 0);

    zuvaropy_validate(in, 0);
    zuvaropy_normalize(in, 0, in, 0, out, 0);
    zuvaropy_subsumes(in, 0, in, 0, in, 0, out, 0, out, 0);
    zuvaropy_lcs(in, 0, in, 0, in, 0, out, 0, out, 0);
    zuvaropy_verify(in, 0, in, 0, in, 0, in, 0, out, 0);
    zuvaropy_most_specific(in, 0, in, 0, in, 0, out, 0);

    (zuvaropy_validate)(in, 0);
    (zuvaropy_normalize)(in, 0, in, 0, out, 0);
    (zuvaropy_subsumes)(in, 0, in, 0, in, 0, out, 0, out, 0);
    (zuvaropy_lcs)(in, 0, in, 0, in, 0, out, 0, out, 0);
    (zuvaropy_verify)(in, 0, in, 0, in, 0, in, 0, out, 0);
    (zuvaropy_most_specific)(in, 0, in, 0, in, 0, out, 0);

    zuvaropy_write_end(&writer);
}
