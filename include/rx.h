/* The calls of the proved RX library. Every call takes every input: a pointer must point to as many bytes as the length
   beside it says (any pointer where the length is 0, a null pointer too), and a result pointer to a word that may be
   written. What a call may write overlaps nothing else that it is given. No call writes to a program; rx_run alone writes
   to a policy and to a memory, and only where the run finishes.

   Threads: no call keeps anything between calls, so any number of threads may call at once, also on the same policy and
   program; a policy and a memory that rx_run is given are for that call alone. Stack: a thread that calls rx_policy or
   rx_meaning needs 32 KiB, one that calls rx_program, rx_place or rx_transaction 128 KiB, one that calls rx_run 192 KiB
   (measured on the deepest programs: 95 KB, and 146 KB for rx_run); where programs may nest more than 20 queries in second
   branches, 192 KiB, and 256 KiB for rx_run (160 KB, and 213 KB, where 30 are nested so). */
#ifndef RX_H
#define RX_H

#include <stddef.h>
#include <stdint.h>

#ifdef __cplusplus
extern "C" {
#endif

/* The number 0 to 6 of any bytes as a policy. */
uint32_t rx_policy(const uint8_t *policy, size_t policy_len);

/* The number 0 to 7 of asking for a role's meaning; *bits is the meaning, bit i for principal i, and 0 at any refusal. */
uint32_t rx_meaning(const uint8_t *policy, size_t policy_len, uint32_t role, uint32_t *bits);

/* The number of a program under a policy: 1 to 6 of the policy, else 10 to 18 of the program, else 0. */
uint32_t rx_program(const uint8_t *policy, size_t policy_len, const uint8_t *program, size_t program_len);

/* The same number; where transaction k (from 0 in reading order) exists in an accepted program, where its body starts in
   program and how long it is, else 0 and 0. */
uint32_t rx_transaction(const uint8_t *policy, size_t policy_len, const uint8_t *program, size_t program_len, uint32_t k,
                        size_t *start, size_t *length);

/* The same number, and where it shows: for 10 to 14 the offset of the first byte in reading order that shows it, for 15
   to 18 the offset of the statement's code byte, else 0. For 10 it is the program's length where it ends early, 4,096
   where it is too long, and the first of them where bytes are left over. For 14 it is where the statement or expression
   that is too deep stands or would stand: the program's length where no byte is left for it. */
uint32_t rx_place(const uint8_t *policy, size_t policy_len, const uint8_t *program, size_t program_len, size_t *place);

/* Runs a program under a policy on a memory, which holds 4 bytes for each variable in their order, a signed number. The
   number: 1 to 6 of the policy, else 10 to 18 of the program, else 20 where the memory is not 4 bytes for each variable,
   else 21 where the fuel is 0 or over 1,000,000, else 22 where a unit was wanted with no fuel left, else 0: finished.
   Only a finished run writes policy and memory, which then are as the run leaves them; with any other number every byte
   is as it was. *units is what a finished run spent, with 22 the fuel, with any other number 0. Policy, program, memory
   and *units must not overlap. */
uint32_t rx_run(uint8_t *policy, size_t policy_len, const uint8_t *program, size_t program_len, uint8_t *memory,
                size_t memory_len, uint32_t fuel, uint32_t *units);

#ifdef __cplusplus
}
#endif

#endif
