// Lists the pieces of a format string, the first command-line argument, in C++: a run of text, or a
// placeholder with its argument and its specification. After a fault it lists the rest too.
#include "dephungo.h"
#include <cstdint>
#include <iostream>
#include <string>
#include <vector>

namespace {

/// The records that a call of dephungo_read wrote.
struct Reading {
    std::vector<dephungo_step> steps;
    std::vector<dephungo_spec> specs;
    std::vector<dephungo_fault> faults;
    std::string texts;
    dephungo_answer answer{};
    std::uint32_t code = DEPHUNGO_SHORT;
};

/// Reads an input that comes from no literal. The first call says how much room the second one needs.
Reading read(const std::string &input) {
    Reading it;
    const auto text = reinterpret_cast<const std::uint8_t *>(input.data());
    dephungo_options options{};
    options.mode = DEPHUNGO_MODE_FORMAT;
    for (int call = 0; call < 2 && it.code == DEPHUNGO_SHORT; call++) {
        it.steps.resize(it.answer.steps);
        it.specs.resize(it.answer.specs);
        it.faults.resize(it.answer.faults);
        it.texts.resize(it.answer.texts);
        dephungo_buffers buffers{};
        buffers.steps = it.steps.data();
        buffers.step_room = it.steps.size();
        buffers.specs = it.specs.data();
        buffers.spec_room = it.specs.size();
        buffers.faults = it.faults.data();
        buffers.fault_room = it.faults.size();
        buffers.texts = reinterpret_cast<std::uint8_t *>(&it.texts[0]);
        buffers.text_room = it.texts.size();
        it.code = dephungo_read(text, input.size(), nullptr, 0, &options, &buffers, &it.answer);
    }
    return it;
}

} // namespace

int main(int argc, char **argv) {
    const std::string input = argc > 1 ? argv[1] : "hi {name:>8}{}{";
    const Reading found = read(input);
    if (found.code != DEPHUNGO_DONE) {
        std::cerr << "code " << found.code << '\n';
        return 2;
    }
    const auto cut = [&](const dephungo_range &range) { return input.substr(range.start, range.end - range.start); };
    for (std::size_t at = 0; at < found.answer.steps; at++) {
        const dephungo_step &step = found.steps[at];
        if (step.kind == DEPHUNGO_PIECE_TEXT) {
            std::cout << "text \"" << cut(step.text) << "\"\n";
        } else if (step.kind == DEPHUNGO_PIECE_ARGUMENT) {
            std::cout << "argument ";
            if (step.position == DEPHUNGO_POSITION_NAMED) {
                std::cout << cut(step.text);
            } else {
                std::cout << step.number;
            }
            if (step.spec && found.specs[step.spec - 1].width_kind == DEPHUNGO_COUNT_IS) {
                std::cout << " width " << found.specs[step.spec - 1].width_number;
            }
            std::cout << " at " << step.position_span.start << ".." << step.position_span.end << '\n';
        }
    }
    for (std::size_t at = 0; at < found.answer.faults; at++) {
        const dephungo_fault &fault = found.faults[at];
        const dephungo_range &text = fault.description;
        std::cout << "fault at " << fault.span.start << ".." << fault.span.end << ": "
                  << found.texts.substr(text.start, text.end - text.start) << '\n';
    }
    return found.answer.faults != 0;
}
