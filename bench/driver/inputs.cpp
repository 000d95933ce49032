#include "inputs.hpp"

#include <algorithm>
#include <filesystem>
#include <fstream>
#include <sstream>

static std::string read_file(const std::filesystem::path &path) {
    std::ifstream file(path, std::ios::binary);
    std::ostringstream text;
    text << file.rdbuf();
    return text.str();
}

std::string Input::family() const { return name.substr(0, name.find('-')); }

std::vector<Input> read_inputs(const std::string &folder, const std::string &word) {
    std::vector<Input> inputs;
    for (const auto &entry : std::filesystem::directory_iterator(folder)) {
        std::filesystem::path rules = entry.path();
        std::string name = rules.stem();
        if (rules.extension() == ".rules" && name.rfind(word, 0) == 0) {
            std::filesystem::path picks = rules;
            picks.replace_extension(".picks");
            inputs.push_back({name, read_file(rules), read_file(picks)});
        }
    }
    std::sort(inputs.begin(), inputs.end(), [](const Input &a, const Input &b) { return a.name < b.name; });
    return inputs;
}
