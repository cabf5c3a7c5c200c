/* The run of a funding book over a file of records, and its printout, in libfunding.a.
   docs/FORMAT.md lays down the records, what they do and what is printed. */
#ifndef FUNDING_H
#define FUNDING_H

#include <stddef.h>
#include <stdint.h>

/* Accounts are 0 to 1,023, and both lists have an entry for each. */
#define FUNDING_ACCOUNTS 1024

/* The bytes of an input, size byte included, that count for a printout. */
#define FUNDING_PRINTOUT_INPUT 65536

#ifdef __cplusplus
extern "C" {
#endif

/* Plays the records in `file`, without a size byte before them, on a fresh book of contract
   size `size`. Lengths are in elements; a file may have any length.

   If `size` is neither 1 nor 10, or either list isn't FUNDING_ACCOUNTS long, it returns 0 and
   leaves both lists untouched.

   Otherwise it returns the number of accepted records, which is 0 too if none was accepted, and
   fills both lists: entry j is account j's position, of the open day too, and its total cash in
   hundredths of a cent, where the run ended. A record that is cut off ends the run. Once the
   contract has ended, by the close of its final date, every position is 0 and every later call
   is refused.

   The file is only read, and must not overlap a list; nor may the lists overlap each other.
   A pointer may be NULL where its length is 0. Nothing is kept from call to call, so that
   threads may call it at once on lists of their own. */
uint64_t funding_run(uint8_t size,
                     const uint8_t *file, size_t file_len,
                     int64_t *positions, size_t positions_len,
                     int64_t *cash, size_t cash_len);

/* Plays `input`, a size byte and then records, on a fresh book, and writes into `out` what
   funding-bench prints for it: from byte `from` of the printout on, as much as `out` takes.
   Only the first FUNDING_PRINTOUT_INPUT bytes count, as if the input ended there.

   It returns the length of the whole printout, whatever `from` and `out_len` are. The rest of
   `out` stays as it was; a `from` at or past that length writes nothing. No zero byte is added.

   There is no failure: an empty input and a refused size have a printout too, and the last line
   is always "end". A host may ask for the length first, with an `out_len` of 0, or take part
   after part through one buffer. Each call plays the whole input, so that fewer and longer parts
   are quicker:

       uint8_t part[65536];
       size_t from = 0, length = 1;
       while (from < length) {
           length = funding_printout(input, input_len, from, part, sizeof part);
           size_t filled = length - from < sizeof part ? length - from : sizeof part;
           fwrite(part, 1, filled, stdout);
           from += filled;
       }

   The input is only read, and must not overlap `out`. A pointer may be NULL where its length
   is 0. Nothing is kept from call to call, so that threads may call it at once on buffers of
   their own. */
size_t funding_printout(const uint8_t *input, size_t input_len,
                        size_t from,
                        uint8_t *out, size_t out_len);

#ifdef __cplusplus
}
#endif

#endif
