// Runs inputs of the fuzzer without libFuzzer, to see which branches they reach. The arguments are files with one input each. For
// each counter of the program it prints a line: where the counter's block begins, counted from the start of the program, and 1 if
// some input reached the block, else 0. `tools/fuzz.py branches` builds and runs it.

#include <stdint.h>
#include <stdio.h>
#include <stdlib.h>

int LLVMFuzzerTestOneInput(const uint8_t *data, size_t size);

extern const char __executable_start;

enum { MOST_BYTES = 4096 };

static const uint8_t *counters, *counters_end;
static const uintptr_t *blocks;

// The constructors of the compiled code hand over the counters, and a pair for each of them, which begins with the place of its block.
// All of them are in one section, so each constructor hands over the same.
void __sanitizer_cov_8bit_counters_init(uint8_t *start, uint8_t *end) { counters = start, counters_end = end; }
void __sanitizer_cov_pcs_init(const uintptr_t *start, const uintptr_t *end) { blocks = start, (void)end; }

// The compiled code reports comparisons and indirect calls too. They are not needed here.
void __sanitizer_cov_trace_cmp1(uint8_t a, uint8_t b) { (void)a, (void)b; }
void __sanitizer_cov_trace_cmp2(uint16_t a, uint16_t b) { (void)a, (void)b; }
void __sanitizer_cov_trace_cmp4(uint32_t a, uint32_t b) { (void)a, (void)b; }
void __sanitizer_cov_trace_cmp8(uint64_t a, uint64_t b) { (void)a, (void)b; }
void __sanitizer_cov_trace_const_cmp1(uint8_t a, uint8_t b) { (void)a, (void)b; }
void __sanitizer_cov_trace_const_cmp2(uint16_t a, uint16_t b) { (void)a, (void)b; }
void __sanitizer_cov_trace_const_cmp4(uint32_t a, uint32_t b) { (void)a, (void)b; }
void __sanitizer_cov_trace_const_cmp8(uint64_t a, uint64_t b) { (void)a, (void)b; }
void __sanitizer_cov_trace_switch(uint64_t value, uint64_t *cases) { (void)value, (void)cases; }
void __sanitizer_cov_trace_pc_indir(uintptr_t callee) { (void)callee; }

int main(int count, char **paths) {
    size_t all = (size_t)(counters_end - counters);
    // A counter has eight bits: after 256 visits it is 0 again. So the counters are read after each input, and not once at the end.
    uint8_t *reached = calloc(all + 1, 1);
    uint8_t *own = (uint8_t *)counters;
    for (int path = 1; path < count; path++) {
        FILE *file = fopen(paths[path], "rb");
        if (file == NULL || reached == NULL) return 2;
        uint8_t data[MOST_BYTES];
        size_t size = fread(data, 1, sizeof data, file);
        fclose(file);
        for (size_t i = 0; i < all; i++) own[i] = 0;
        LLVMFuzzerTestOneInput(data, size);
        for (size_t i = 0; i < all; i++) reached[i] |= own[i] != 0;
    }
    for (size_t i = 0; i < all; i++) {
        printf("%zx %d\n", (size_t)(blocks[2 * i] - (uintptr_t)&__executable_start), reached[i]);
    }
    return 0;
}
