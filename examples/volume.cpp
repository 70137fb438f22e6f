// Codes a volume of 3,700 bytes, loses a fifth of its pages, repairs it, reads it back, checks a sample, and recodes it.
#include "cedunmi.h"

#include <iostream>
#include <stdexcept>
#include <vector>

using Bytes = std::vector<std::uint8_t>;

// The result of a call that must not stop.
static std::uint64_t done(std::uint64_t result)
{
    if (cmt_number(result) != CMT_DONE) {
        throw std::runtime_error(cmt_explain(cmt_number(result)));
    }
    return result;
}

// A block of bytes that differ from page to page.
static Bytes block_of(std::size_t length)
{
    Bytes block(length);
    for (std::size_t i = 0; i < block.size(); i++) {
        block[i] = static_cast<std::uint8_t>(i + i / 256);
    }
    return block;
}

int main()
{
    const std::uint64_t depth = 3, number = 50;
    const Bytes block = block_of(3700);
    Bytes table(CMT_HOUSE_TABLE_BYTES(depth)), record(CMT_RECORD_BYTES), back(CMT_BLOCK_BYTES(depth));
    Bytes tree(CMT_TREE_BYTES(depth)), marks(CMT_MARKS_BYTES(depth));
    Bytes output(CMT_OUTPUT_BYTES(depth)), sample(CMT_SAMPLE_BYTES(depth));

    done(cmt_house_table(depth, table.data(), table.size()));
    done(cmt_tree_write(depth, CMT_KIND_PLACED, table.data(), table.size(), block.data(), block.size(),
                        tree.data(), tree.size(), marks.data(), marks.size(), record.data(), record.size()));

    for (std::size_t place = 0; place < marks.size(); place += 5) {
        marks[place] = 0;
    }
    const std::uint64_t repaired = done(cmt_repair(
        depth, record.data(), record.size(), table.data(), table.size(), tree.data(), tree.size(),
        marks.data(), marks.size(), output.data(), output.size()));
    std::cout << "end " << cmt_repair_end(repaired) << ", stored " << cmt_repair_stored(repaired) << "\n";

    done(cmt_block_read(depth, record.data(), record.size(), tree.data(), tree.size(), marks.data(),
                        marks.size(), back.data(), back.size()));
    back.resize(cmt_record_length(record.data()));
    std::cout << "the block is " << (back == block ? "as it was" : "another") << "\n";

    done(cmt_sample_take(depth, number, tree.data(), tree.size(), marks.data(), marks.size(),
                         sample.data(), sample.size()));
    const auto check = [&] {
        return cmt_sample_check(depth, number, record.data(), record.size(), sample.data(), sample.size());
    };
    std::cout << "sample: " << check();
    sample[0] ^= 1;
    const std::uint64_t damaged = check();
    std::cout << ", damaged: " << cmt_number(damaged) << " at layer " << cmt_value(damaged) << "\n";

    Bytes plain_tree(tree.size()), plain_marks(marks.size()), plain_record(record.size());
    done(cmt_recode(depth, record.data(), record.size(), table.data(), table.size(), tree.data(), tree.size(),
                    marks.data(), marks.size(), plain_tree.data(), plain_tree.size(), plain_marks.data(),
                    plain_marks.size(), plain_record.data(), plain_record.size()));
    std::cout << "recoded: from kind " << cmt_record_kind(record.data()) << " to "
              << cmt_record_kind(plain_record.data()) << "\n";
}
