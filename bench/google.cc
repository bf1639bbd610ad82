// Times this library and Google's parser (https://github.com/google/robotstxt) on the files of a folder, and prints for each file what
// bench/rust prints. Build Google's parser in GOOGLE/build as its README says, with Abseil, whose headers are then in ABSEIL; install this
// library, as docs/GUIDE.md says; then:
//
//     g++ -O2 -std=c++17 -iquote GOOGLE -I ABSEIL -Iinstalled/include bench/google.cc installed/lib/librobots_c.a GOOGLE/build/librobots.so -o google
//     LD_LIBRARY_PATH=GOOGLE/build python3 bench/compare.py --google ./google
//
// Google's parser has no call that parses a file once, so its time for a later result is the one for the first.
#include <chrono>
#include <fstream>
#include <iostream>
#include <iterator>
#include <string>
#include <vector>

#include <robots.h>   // this library
#include "./robots.h" // Google's

static std::string contents(const std::string &path) {
    std::ifstream file(path, std::ios::binary);
    return {std::istreambuf_iterator<char>(file), {}};
}

// The least time of one call, in nanoseconds, over seven rounds of at least five milliseconds.
template <typename Call> static double least(Call call) {
    using clock = std::chrono::steady_clock;
    auto taken = [&](long repeats) {
        auto begun = clock::now();
        for (long repeat = 0; repeat < repeats; repeat++) call();
        return std::chrono::duration<double, std::nano>(clock::now() - begun).count();
    };
    long repeats = 1;
    while (taken(repeats) < 5e6) repeats *= 2;
    double best = taken(repeats);
    for (int round = 0; round < 6; round++) best = std::min(best, taken(repeats));
    return best / repeats;
}

static robots_robot *opened(const std::string &agent, const std::string &file) {
    robots_robot *robot = nullptr;
    size_t line;
    if (robots_open(agent.data(), agent.size(), file.data(), file.size(), &robot, &line) != ROBOTS_OK) exit(2);
    return robot;
}

static bool ours(const robots_robot *robot, const std::string &url) {
    int64_t verdict;
    if (robots_verdict(robot, url.data(), url.size(), &verdict) != ROBOTS_OK) exit(2);
    return robots_may_fetch(verdict);
}

static bool theirs(const std::string &agent, const std::string &file, const std::string &url) {
    return googlebot::RobotsMatcher().OneAgentAllowedByRobots(file, agent, url);
}

int main(int, char **arguments) {
    std::string folder = arguments[1], number, agent, name, url;
    std::ifstream index(folder + "/index.tsv");
    while (std::getline(index, number, '\t') && std::getline(index, agent, '\t') && std::getline(index, name)) {
        std::string file = contents(folder + "/" + number + ".robots.txt"), our, their;
        std::ifstream lines(folder + "/" + number + ".urls.txt");
        std::vector<std::string> same;
        robots_robot *robot = opened(agent, file);
        while (std::getline(lines, url)) {
            our += ours(robot, url) ? '1' : '0';
            their += theirs(agent, file, url) ? '1' : '0';
            if (our.back() == their.back()) same.push_back(url);
        }
        if (same.empty()) exit(2);
        double their_time = least([&] { theirs(agent, file, same[0]); });
        double our_first = least([&] { robots_robot *one = opened(agent, file); ours(one, same[0]); robots_close(one); });
        double our_later = least([&] { for (auto &it : same) ours(robot, it); }) / same.size();
        std::cout << number << '\t' << our << '\t' << their << '\t' << our_first << '\t' << their_time << '\t' << our_later << '\t'
                  << their_time << '\n';
        robots_close(robot);
    }
}
