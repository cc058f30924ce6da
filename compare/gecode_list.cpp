// The k cheapest states of a plant by Gecode, as one branch and bound.
//
//   gecode_list TABLES K [REPEATS]        K 0: all states
//
// TABLES is what compare.py writes. Parts are branched on in their order, values
// from 0, so states come by code, and of equal costs the first k by code stay:
// the bound is the k-th least cost found so far, and only less is looked for.
// A state fits if a search over the hidden variables alone finds values.
// Prints the list, cost and code a line; with REPEATS the median nanoseconds of
// processor time of building the model and searching, in this process, instead.
#include <gecode/int.hh>
#include <gecode/minimodel.hh>
#include <gecode/search.hh>

#include <algorithm>
#include <cstdio>
#include <cstdlib>
#include <ctime>
#include <fstream>
#include <set>
#include <string>
#include <utility>
#include <vector>

using namespace Gecode;

struct Table {
    std::vector<int> scope;
    std::vector<std::vector<int>> allowed;
};

struct Plant {
    int parts = 0, variables = 0;
    std::vector<int> sizes;
    std::vector<std::vector<int>> costs;
    std::vector<Table> tables;
};

static bool read(const char *path, Plant &p)
{
    std::ifstream in(path);
    int tables = 0;
    in >> p.parts >> p.variables >> tables;
    p.sizes.resize(p.variables);
    for (int &size : p.sizes)
        in >> size;
    p.costs.resize(p.parts);
    for (int i = 0; i < p.parts; i++) {
        p.costs[i].resize(p.sizes[i]);
        for (int &cost : p.costs[i])
            in >> cost;
    }
    p.tables.resize(tables);
    for (Table &t : p.tables) {
        int arity = 0, rows = 0;
        in >> arity >> rows;
        t.scope.resize(arity);
        for (int &v : t.scope)
            in >> v;
        t.allowed.assign(rows, std::vector<int>(arity));
        for (auto &row : t.allowed)
            for (int &value : row)
                in >> value;
    }
    return bool(in);
}

// A full list's last cost: only cheaper states are looked for.
static int bound;

class Model : public Space {
public:
    IntVarArray x;
    IntVar cost;
    int parts;

    Model(const Plant &p) : x(*this, p.variables), parts(p.parts)
    {
        for (int i = 0; i < p.variables; i++)
            x[i] = IntVar(*this, 0, p.sizes[i] - 1);
        for (const Table &t : p.tables) {
            if (t.scope.empty()) {
                fail();
                return;
            }
            TupleSet rows(int(t.scope.size()));
            for (const auto &row : t.allowed)
                rows.add(IntArgs(row));
            rows.finalize();
            IntVarArgs scope;
            for (int v : t.scope)
                scope << x[v];
            extensional(*this, scope, rows);
        }
        int most = 0;
        IntVarArgs shares;
        for (int i = 0; i < p.parts; i++) {
            int dearest = *std::max_element(p.costs[i].begin(), p.costs[i].end());
            IntVar share(*this, 0, dearest);
            element(*this, IntArgs(p.costs[i]), x[i], share);
            shares << share;
            most += dearest;
        }
        cost = IntVar(*this, 0, most);
        linear(*this, shares, IRT_EQ, cost);
        IntVarArgs own;
        for (int i = 0; i < p.parts; i++)
            own << x[i];
        branch(*this, own, INT_VAR_NONE(), INT_VAL_MIN());
    }
    Model(Model &other) : Space(other), parts(other.parts)
    {
        x.update(*this, other.x);
        cost.update(*this, other.cost);
    }
    Space *copy() override { return new Model(*this); }
    void constrain(const Space &) override { rel(*this, cost, IRT_LE, bound); }

    bool fits() const
    {
        if (x.assigned())
            return true;
        Model *inner = static_cast<Model *>(clone());
        branch(*inner, inner->x, INT_VAR_SIZE_MIN(), INT_VAL_MIN());
        DFS<Model> search(inner);
        delete inner;
        Model *found = search.next();
        delete found;
        return found != nullptr;
    }
    // A digit a part; 16 digits at least.
    std::string code() const
    {
        std::string digits(std::max(parts, 16), '0');
        for (int i = 0; i < parts; i++)
            digits[i] = "0123456789abcdef"[x[i].val()];
        return digits;
    }
};

typedef std::set<std::pair<int, std::string>> List;

template <class Engine> static List search(const Plant &p, size_t k)
{
    List list;
    bound = Int::Limits::max;
    Model *root = new Model(p);
    Engine engine(root);
    delete root;
    while (Model *found = engine.next()) {
        if (found->fits()) {
            list.insert({found->cost.val(), found->code()});
            if (k != 0 && list.size() > k)
                list.erase(std::prev(list.end()));
            if (k != 0 && list.size() == k)
                bound = list.rbegin()->first;
        }
        delete found;
    }
    return list;
}

static List listed(const Plant &p, size_t k)
{
    return k == 0 ? search<DFS<Model>>(p, k) : search<BAB<Model>>(p, k);
}

static double now()
{
    timespec t;
    clock_gettime(CLOCK_PROCESS_CPUTIME_ID, &t);
    return 1e9 * double(t.tv_sec) + double(t.tv_nsec);
}

int main(int argc, char **argv)
{
    Plant p;
    if (argc < 3 || !read(argv[1], p))
        return 2;
    size_t k = strtoul(argv[2], nullptr, 10);
    if (argc == 3) {
        for (const auto &[cost, code] : listed(p, k))
            printf("%d %s\n", cost, code.c_str());
        return 0;
    }
    std::vector<double> times(std::max(1, atoi(argv[3])));
    for (double &time : times) {
        double start = now();
        listed(p, k);
        time = now() - start;
    }
    std::nth_element(times.begin(), times.begin() + times.size() / 2, times.end());
    printf("%.0f\n", times[times.size() / 2]);
    return 0;
}
