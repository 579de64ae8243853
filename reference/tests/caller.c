/* Calls the proved library as a C program does, through include/rx.h, and fails where an answer is not document 01's.
   Compiled as C and as C++. */
#include "rx.h"

#include <stdio.h>
#include <string.h>

/* Policy E of the worked cases: role 0 means principal 0. */
static const uint8_t policy[29] = {0x52, 0x58, 0x54, 0x01, 0x00, 0x02, 0x01, 0x00, 0x01, 0x03,
                                   0x00, 0x00, 0x00, 0x03, 0x00, 0x00, 0x00, 0x01};

/* v0 is open, v1 has role 0 on both sides. Accepted is v1 := v0 + 5, a leak is v0 := v1. */
static const uint8_t accepted[20] = {0x52, 0x58, 0x50, 0x01, 0x00, 0x02, 0xFF, 0xFF, 0x00, 0x00,
                                     0x01, 0x01, 0x02, 0x01, 0x00, 0x00, 0x05, 0x00, 0x00, 0x00};
static const uint8_t leak[14] = {0x52, 0x58, 0x50, 0x01, 0x00, 0x02, 0xFF,
                                 0xFF, 0x00, 0x00, 0x01, 0x00, 0x01, 0x01};

/* No variable; a transaction with an empty list, whose body is a skip. */
static const uint8_t transaction[9] = {0x52, 0x58, 0x50, 0x01, 0x00, 0x00, 0x07, 0x00, 0x00};

static int failures = 0;

static void expect(const char *what, size_t answer, size_t wanted) {
    if (answer != wanted) {
        printf("%s: %lu, not %lu\n", what, (unsigned long)answer, (unsigned long)wanted);
        failures++;
    }
}

/* Files of no bytes, at this pointer: too short for a policy, and a program that ends early at 0. */
static void expect_of_empty(const uint8_t *empty) {
    uint32_t bits = 99;
    size_t place = 99, start = 99, length = 99;

    expect("empty policy", rx_policy(empty, 0), 1);
    expect("empty policy's meaning", rx_meaning(empty, 0, 0, &bits), 1);
    expect("empty policy's bits", bits, 0);

    expect("program under empty policy", rx_program(empty, 0, accepted, sizeof accepted), 1);
    expect("empty program", rx_program(policy, sizeof policy, empty, 0), 10);
    expect("both empty", rx_program(empty, 0, empty, 0), 1);

    expect("place under empty policy", rx_place(empty, 0, leak, sizeof leak, &place), 1);
    expect("its place", place, 0);
    place = 99;
    expect("place of empty program", rx_place(policy, sizeof policy, empty, 0, &place), 10);
    expect("its place", place, 0);
    place = 99;
    expect("place of both empty", rx_place(empty, 0, empty, 0, &place), 1);
    expect("its place", place, 0);

    expect("body under empty policy",
           rx_transaction(empty, 0, transaction, sizeof transaction, 0, &start, &length), 1);
    expect("its start", start, 0);
    expect("its length", length, 0);
    start = length = 99;
    expect("body of empty program", rx_transaction(policy, sizeof policy, empty, 0, 0, &start, &length), 10);
    expect("its start", start, 0);
    expect("its length", length, 0);
    start = length = 99;
    expect("body of both empty", rx_transaction(empty, 0, empty, 0, 0, &start, &length), 1);
    expect("its start", start, 0);
    expect("its length", length, 0);
}

/* A run on a copy of the policy and of this memory: its number and units, and what it leaves. The policy stays in each,
   since none of these programs updates it. */
static void expect_of_run(const char *what, const uint8_t *program, size_t program_len, const uint8_t *memory,
                          size_t memory_len, uint32_t fuel, uint32_t number, uint32_t units, const uint8_t *left) {
    uint8_t policy_after[sizeof policy], memory_after[16];
    uint32_t spent = 99;

    memcpy(policy_after, policy, sizeof policy);
    memcpy(memory_after, memory, memory_len);
    expect(what, rx_run(policy_after, sizeof policy, program, program_len, memory_after, memory_len, fuel, &spent), number);
    expect("its units", spent, units);
    expect("its policy", memcmp(policy_after, policy, sizeof policy) != 0, 0);
    expect("its memory", memcmp(memory_after, left, memory_len) != 0, 0);
}

static void expect_of_runs(void) {
    static const uint8_t memory[8] = {7}, sum[8] = {7, 0, 0, 0, 12};
    uint8_t policy_after[sizeof policy];
    uint32_t units = 99;

    expect_of_run("run", accepted, sizeof accepted, memory, 8, 1000000, 0, 1, sum);
    expect_of_run("run of a leak", leak, sizeof leak, memory, 8, 1000000, 17, 0, memory);
    expect_of_run("run on seven bytes", accepted, sizeof accepted, memory, 7, 1000000, 20, 0, memory);
    expect_of_run("run without fuel", accepted, sizeof accepted, memory, 8, 0, 21, 0, memory);
    expect_of_run("run with too much fuel", accepted, sizeof accepted, memory, 8, 1000001, 21, 0, memory);
    expect_of_run("run that is spent", transaction, sizeof transaction, memory, 0, 1, 22, 1, memory);
    expect_of_run("run that is not", transaction, sizeof transaction, memory, 0, 2, 0, 2, memory);

    /* Files of no bytes at null pointers: a policy, a program, and the memory of a program without variables. */
    memcpy(policy_after, policy, sizeof policy);
    expect("run under empty policy", rx_run(NULL, 0, accepted, sizeof accepted, NULL, 0, 1, &units), 1);
    expect("its units", units, 0);
    units = 99;
    expect("run of empty program", rx_run(policy_after, sizeof policy, NULL, 0, NULL, 0, 1, &units), 10);
    expect("its units", units, 0);
    units = 99;
    expect("run on empty memory",
           rx_run(policy_after, sizeof policy, transaction, sizeof transaction, NULL, 0, 2, &units), 0);
    expect("its units", units, 2);
}

int main(void) {
    uint32_t bits = 99;
    size_t place = 99, start = 99, length = 99;

    /* No bytes at a null pointer, as a C program has them of an empty file; behind other bytes; and before them. */
    expect_of_empty(NULL);
    expect_of_empty(policy + sizeof policy);
    expect_of_empty(accepted);

    expect("policy", rx_policy(policy, sizeof policy), 0);
    expect("policy without its last byte", rx_policy(policy, sizeof policy - 1), 1);

    expect("meaning", rx_meaning(policy, sizeof policy, 0, &bits), 0);
    expect("meaning's bits", bits, 1);
    expect("meaning of no role", rx_meaning(policy, sizeof policy, 1, &bits), 7);
    expect("no role's bits", bits, 0);

    expect("program", rx_program(policy, sizeof policy, accepted, sizeof accepted), 0);
    expect("leak", rx_program(policy, sizeof policy, leak, sizeof leak), 17);

    expect("leak's number", rx_place(policy, sizeof policy, leak, sizeof leak, &place), 17);
    expect("leak's place", place, 10);

    expect("transaction", rx_transaction(policy, sizeof policy, transaction, sizeof transaction, 0, &start, &length), 0);
    expect("body's start", start, 8);
    expect("body's length", length, 1);
    expect("no transaction", rx_transaction(policy, sizeof policy, transaction, sizeof transaction, 1, &start, &length), 0);
    expect("no body's start", start, 0);
    expect("no body's length", length, 0);

    expect_of_runs();

    return failures;
}
