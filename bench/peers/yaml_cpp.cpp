// yaml-cpp beside the others: yaml_cpp COMMAND FILE, where COMMAND is events, format or load.
#include <fstream>
#include <iostream>
#include <iterator>
#include <sstream>
#include <string>
#include <yaml-cpp/eventhandler.h>
#include <yaml-cpp/yaml.h>

struct Counter : YAML::EventHandler {
    long count = 0;
    void OnDocumentStart(const YAML::Mark &) override { count++; }
    void OnDocumentEnd() override { count++; }
    void OnNull(const YAML::Mark &, YAML::anchor_t) override { count++; }
    void OnAlias(const YAML::Mark &, YAML::anchor_t) override { count++; }
    void OnScalar(const YAML::Mark &, const std::string &, YAML::anchor_t, const std::string &) override { count++; }
    void OnSequenceStart(const YAML::Mark &, const std::string &, YAML::anchor_t, YAML::EmitterStyle::value) override { count++; }
    void OnSequenceEnd() override { count++; }
    void OnMapStart(const YAML::Mark &, const std::string &, YAML::anchor_t, YAML::EmitterStyle::value) override { count++; }
    void OnMapEnd() override { count++; }
};

int main(int, char **words) {
    std::ifstream file(words[2]);
    std::string text((std::istreambuf_iterator<char>(file)), std::istreambuf_iterator<char>());
    std::string command = words[1];
    if (command == "events") {
        std::istringstream stream(text);
        YAML::Parser parser(stream);
        Counter counter;
        while (parser.HandleNextDocument(counter)) {}
        std::cout << counter.count << "\n";
        return 0;
    }
    for (const YAML::Node &node : YAML::LoadAll(text)) {
        if (command == "format") std::cout << node << "\n";
    }
    return 0;
}
