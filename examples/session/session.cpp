// Judges drawings by one program that stays: a class Session, and a thousand drawings of a house.
//
//   g++ -O2 -o session session.cpp && ./session PROGRAM [NUMBER]
#include <sys/wait.h>
#include <unistd.h>

#include <algorithm>
#include <csignal>
#include <cstdint>
#include <cstdio>
#include <cstdlib>
#include <exception>
#include <map>
#include <stdexcept>
#include <string>
#include <utility>
#include <vector>

using Point = std::pair<long, long>;
using Edge = std::pair<int, int>;  // two vertices, from 0

class Session {
    std::string program;
    pid_t child = 0;
    FILE *given = nullptr, *told = nullptr;
    size_t left = 0;  // bytes that the program still reads

    void start() {
        int in[2], out[2];
        if (pipe(in) || pipe(out) || (child = fork()) < 0) throw std::runtime_error("no process can be started");
        if (child == 0) {
            dup2(in[0], 0), dup2(out[1], 1);
            for (int end : {in[0], in[1], out[0], out[1]}) close(end);
            execl(program.c_str(), "pigale", "verify", nullptr);
            _exit(127);
        }
        close(in[0]), close(out[1]);
        given = fdopen(in[1], "w"), told = fdopen(out[0], "r");
        left = 1 << 24;
    }

    void end() {
        if (!child) return;
        fclose(given), fclose(told), waitpid(child, nullptr, 0);
        child = 0, left = 0;
    }

  public:
    explicit Session(std::string path) : program(std::move(path)) { signal(SIGPIPE, SIG_IGN); }
    Session(const Session &) = delete;
    ~Session() { end(); }

    // the verdict on a figure, whose lines are closed: what stands behind the figure's number
    std::string verify(const std::string &figure) {
        if (figure.size() > left) end();
        if (!child) start();
        left -= std::min(left, figure.size());
        fwrite(figure.data(), 1, figure.size(), given), fflush(given);
        char word[16], rest[128];
        if (fscanf(told, "%15s %127[^\n]", word, rest) != 2 || std::string(word) == "stop") {
            end();
            throw std::runtime_error("the program has no verdict");
        }
        std::string line = rest;
        return line.substr(line.find(' ') + 1);
    }
};

// the half of the directions, clockwise from west, in which one lies; no direction comes last
static int half(Point d) {
    return d.first == 0 && d.second == 0 ? 2 : d.second > 0 || (d.second == 0 && d.first < 0) ? 0 : 1;
}

// a drawing as a figure of `shift`, with vertices of degree zero above it, so that nobody asks for the outer face
static std::string figure_of(std::vector<Point> points, const std::vector<Edge> &edges) {
    Point least = points.at(0);
    for (Point p : points) least = {std::min(least.first, p.first), std::min(least.second, p.second)};
    long width = 0, height = 0;
    for (Point &p : points) {
        p = {p.first - least.first, p.second - least.second};
        width = std::max(width, p.first), height = std::max(height, p.second);
    }
    std::vector<std::vector<int>> lists(points.size());
    for (Edge e : edges) lists.at(e.first).push_back(e.second), lists.at(e.second).push_back(e.first);
    long count = std::max({long(points.size()) + 1, (width + 5) / 2, height + 3});
    std::string text = "figure 1 shift " + std::to_string(count) + "\n";
    for (long v = 0; v < count; v++) {
        bool is_own = v < long(points.size());
        Point at = is_own ? points[v] : Point{v - long(points.size()), count - 2};
        text += std::to_string(v + 1) + " at " + std::to_string(at.first) + " " + std::to_string(at.second) + ":";
        if (is_own) {
            std::sort(lists[v].begin(), lists[v].end(), [&](int a, int b) {
                Point s{points[a].first - at.first, points[a].second - at.second};
                Point t{points[b].first - at.first, points[b].second - at.second};
                return half(s) != half(t) ? half(s) < half(t) : s.first * t.second < s.second * t.first;
            });
            for (int u : lists[v]) text += " " + std::to_string(u + 1);
        }
        text += "\n";
    }
    return text;
}

int main(int count, char **words) try {
    Session session(count > 1 ? words[1] : "pigale");
    const std::vector<Edge> house = {{0, 1}, {1, 2}, {2, 3}, {3, 0}, {3, 4}, {4, 2}};
    std::map<std::string, int> found;
    uint32_t z = 1;
    auto next = [&z] { return long((z = z * 1103515245 + 12345) >> 16) % 12; };
    for (int k = 0; k < (count > 2 ? std::atoi(words[2]) : 1000); k++) {
        std::vector<Point> points;
        for (int v = 0; v < 5; v++) {
            long x = next(), y = next();
            points.push_back({x, y});
        }
        std::string verdict = session.verify(figure_of(points, house));
        found[verdict.substr(0, verdict.find(' '))]++;
    }
    for (const auto &[name, number] : found) std::printf("%s %d\n", name.c_str(), number);
} catch (const std::exception &fault) {
    std::fprintf(stderr, "%s\n", fault.what());
    return 1;
}
