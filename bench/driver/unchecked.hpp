// The mark of a diagram in plain unchecked Rust (bench/mark/unchecked.rs).
#pragma once

#include <cstddef>
#include <cstdint>

struct UncheckedRow {
    uint32_t option, low, high;
};

extern "C" bool unchecked_mark(const UncheckedRow *rows, size_t row_count, uint32_t root, const uint8_t *values, uint8_t *marks,
                               size_t width);
