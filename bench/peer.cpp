// The peer of the benchmark: the same jobs by Gecode, with restarts by a geometric cutoff (10, then half as much again each time), nogoods from restarts, the
// smallest domain first and its least value first. Reads a job on standard input; prints the verdict, and then how much was searched.
#include <gecode/int.hh>
#include <gecode/search.hh>
#include <cstdint>
#include <cstdio>
#include <iterator>
#include <iostream>
#include <map>
#include <vector>

using namespace Gecode;

struct Rule {
    int first, second, gap;
    std::vector<uint64_t> rows;  // of a table; else empty
};

struct Job {
    std::vector<uint64_t> lists;
    std::vector<Rule> rules;
};

static uint64_t number(const std::vector<unsigned char>& b, size_t at, int n) {
    uint64_t x = 0;
    for (int i = 0; i < n; i++) x = x << 8 | b.at(at + i);
    return x;
}

static Job read(const std::vector<unsigned char>& b) {
    Job job;
    for (size_t at = 0; b.at(at) != 0;) {
        switch (b[at]) {
        case 1:
            job.lists.push_back(number(b, at + 1, 8));
            at += 9;
            break;
        case 2:
            job.rules.push_back({int(number(b, at + 1, 2)), int(number(b, at + 3, 2)), b.at(at + 5), {}});
            at += 6;
            break;
        default: {
            Rule r{int(number(b, at + 1, 2)), int(number(b, at + 3, 2)), 0, {}};
            for (int k = 0; k < 64; k++) r.rows.push_back(number(b, at + 5 + 8 * k, 8));
            job.rules.push_back(r);
            at += 517;
        }
        }
    }
    return job;
}

// The pairs that differ by at least d, among channels up to 63.
static TupleSet apart(int d) {
    TupleSet t(2);
    for (int a = 0; a < 64; a++)
        for (int b = 0; b < 64; b++)
            if (abs(a - b) >= d) t.add({a, b});
    t.finalize();
    return t;
}

static TupleSet permitted(const std::vector<uint64_t>& rows) {
    TupleSet t(2);
    for (int a = 0; a < 64; a++)
        for (int b = 0; b < 64; b++)
            if (rows[a] >> b & 1) t.add({a, b});
    t.finalize();
    return t;
}

class Planned : public Space {
public:
    IntVarArray channels;

    explicit Planned(const Job& job) : channels(*this, job.lists.size()) {
        for (size_t g = 0; g < job.lists.size(); g++) {
            std::vector<int> values;
            for (int c = 0; c < 64; c++)
                if (job.lists[g] >> c & 1) values.push_back(c);
            channels[g] = IntVar(*this, IntSet(values.data(), values.size()));
        }
        std::map<int, TupleSet> gaps;
        for (const Rule& r : job.rules) {
            IntVarArgs ends;
            ends << channels[r.first] << channels[r.second];
            if (!r.rows.empty()) {
                extensional(*this, ends, permitted(r.rows));
            } else if (r.gap == 1) {
                rel(*this, channels[r.first], IRT_NQ, channels[r.second]);
            } else if (r.gap > 1) {
                if (!gaps.count(r.gap)) gaps[r.gap] = apart(r.gap);
                extensional(*this, ends, gaps[r.gap]);
            }
        }
        branch(*this, channels, INT_VAR_SIZE_MIN(), INT_VAL_MIN());
    }

    Planned(Planned& s) : Space(s) { channels.update(*this, s.channels); }
    Space* copy() override { return new Planned(*this); }
};

int main() {
    std::vector<unsigned char> bytes(std::istreambuf_iterator<char>(std::cin), {});
    Job job = read(bytes);
    Planned* root = new Planned(job);
    Search::Options options;
    options.threads = 1;
    options.cutoff = Search::Cutoff::geometric(10, 1.5);
    options.nogoods_limit = 128;
    RBS<Planned, DFS> engine(root, options);
    delete root;
    Planned* plan = engine.next();
    puts(plan ? "plan" : "none");
    delete plan;
    Search::Statistics s = engine.statistics();
    printf("nodes %llu failures %llu restarts %llu\n", (unsigned long long)s.node, (unsigned long long)s.fail, (unsigned long long)s.restart);
}
