// The work of `compress_cli solve ROSTER TRADES MODE` by LEMON's network simplex: reads the same files and writes
// a proposal of the same form, of a network of the same gross.  It trusts its files.
#include <lemon/network_simplex.h>
#include <lemon/smart_graph.h>

#include <charconv>
#include <cstdint>
#include <cstdio>
#include <cstdlib>
#include <fstream>
#include <iterator>
#include <string>
#include <string_view>
#include <unordered_map>
#include <vector>

using i64 = std::int64_t;
using Simplex = lemon::NetworkSimplex<lemon::SmartDigraph, i64, i64>;

struct Market {
    std::vector<std::string> members, products;
    std::vector<bool> is_dealer;
    std::vector<std::vector<i64>> sold;  // by product: what member s sold to member b, at s * members + b
};

struct Row { int seller, buyer; i64 amount; };
struct Pair { int seller, buyer; i64 now; bool grows; };
struct Answer { std::vector<Row> rows; std::vector<i64> potentials; i64 bound = 0; };

static std::string text_of(const char* path) {
    std::ifstream file(path, std::ios::binary);
    return {std::istreambuf_iterator<char>(file), {}};
}

// The next field, up to a comma or the end of its line.
static std::string_view field(std::string_view& text) {
    const size_t end = text.find_first_of(",\n");
    const std::string_view found = text.substr(0, end);
    text.remove_prefix(end + 1);
    return found;
}

static Market read(const char* roster_path, const char* trades_path) {
    Market market;
    const std::string roster = text_of(roster_path), trades = text_of(trades_path);
    std::unordered_map<std::string_view, int> member, product;
    std::string_view rest = roster;
    rest.remove_prefix(rest.find('\n') + 1);
    while (!rest.empty()) {
        const std::string_view name = field(rest), role = field(rest);
        field(rest);
        if (role == "product") {
            product.emplace(name, int(market.products.size()));
            market.products.emplace_back(name);
        } else if (role != "operator") {
            member.emplace(name, int(market.members.size()));
            market.members.emplace_back(name);
            market.is_dealer.push_back(role == "dealer");
        }
    }
    const size_t n = market.members.size();
    market.sold.assign(market.products.size(), std::vector<i64>(n * n));
    rest = trades;
    rest.remove_prefix(rest.find('\n') + 1);
    while (!rest.empty()) {
        const size_t seller = member.find(field(rest))->second, buyer = member.find(field(rest))->second;
        std::vector<i64>& sold = market.sold[product.find(field(rest))->second];
        const std::string_view amount = field(rest);
        i64 value = 0;
        std::from_chars(amount.data(), amount.data() + amount.size(), value);
        sold[seller * n + buyer] += value;
    }
    return market;
}

// The pairs that may have an amount, in order: those that have one, and those that may grow, in hybrid mode those of two
// dealers, and in free mode all.
static std::vector<Pair> pairs_of(const Market& market, const std::vector<i64>& sold, std::string_view mode) {
    std::vector<Pair> pairs;
    const int n = int(market.members.size());
    for (int s = 0; s < n; ++s)
        for (int b = 0; b < n; ++b) {
            const i64 now = sold[size_t(s) * n + b];
            const bool is_open = mode == "free" || (mode == "hybrid" && market.is_dealer[s] && market.is_dealer[b]);
            const bool grows = s != b && is_open;
            if (now > 0 || grows) pairs.push_back({s, b, now, grows});
        }
    return pairs;
}

// The network of least gross within these pairs, with potentials.  This is what is counted as solving.
__attribute__((noinline)) static Answer solve_pairs(int members, const std::vector<Pair>& pairs) {
    lemon::SmartDigraph graph;
    graph.reserveNode(members);
    graph.reserveArc(int(pairs.size()));
    for (int v = 0; v < members; ++v) graph.addNode();
    std::vector<i64> net(members);
    i64 gross = 0;
    for (const Pair& pair : pairs) {
        graph.addArc(graph.nodeFromId(pair.seller), graph.nodeFromId(pair.buyer));
        net[pair.seller] += pair.now;
        net[pair.buyer] -= pair.now;
        gross += pair.now;
    }
    lemon::SmartDigraph::ArcMap<i64> upper(graph), cost(graph, 1);
    lemon::SmartDigraph::NodeMap<i64> supply(graph);
    for (size_t k = 0; k < pairs.size(); ++k) upper[graph.arcFromId(int(k))] = pairs[k].grows ? gross : pairs[k].now;
    for (int v = 0; v < members; ++v) supply[graph.nodeFromId(v)] = net[v];
    Simplex simplex(graph);
    simplex.upperMap(upper).costMap(cost).supplyMap(supply);
    if (simplex.run() != Simplex::OPTIMAL) std::abort();
    Answer answer;
    answer.potentials.resize(members);
    for (int v = 0; v < members; ++v) answer.potentials[v] = -simplex.potential(graph.nodeFromId(v));
    for (int v = 0; v < members; ++v) answer.bound += answer.potentials[v] * net[v];
    for (size_t k = 0; k < pairs.size(); ++k) {
        const Pair& pair = pairs[k];
        const i64 amount = simplex.flow(graph.arcFromId(int(k)));
        if (amount > 0) answer.rows.push_back({pair.seller, pair.buyer, amount});
        const i64 reduced = 1 - answer.potentials[pair.seller] + answer.potentials[pair.buyer];
        if (reduced < 0) answer.bound += reduced * pair.now;
    }
    return answer;
}

static void put(std::string& out, i64 number) {
    char digits[24];
    const auto end = std::to_chars(digits, digits + sizeof digits, number).ptr;
    out.append(digits, end);
}

static void put_product(std::string& out, const Market& market, size_t product, const Answer& answer) {
    const std::vector<i64>& sold = market.sold[product];
    const size_t n = market.members.size();
    i64 gross = 0, least = 0, floor = 0, bilateral = 0;
    for (size_t s = 0; s < n; ++s) {
        i64 net = 0;
        for (size_t b = 0; b < n; ++b) {
            gross += sold[s * n + b];
            net += sold[s * n + b] - sold[b * n + s];
            if (s < b) bilateral += std::abs(sold[s * n + b] - sold[b * n + s]);
        }
        if (net > 0) floor += net;
    }
    for (const Row& row : answer.rows) least += row.amount;
    out += "product " + market.products[product];
    for (const i64 figure : {gross, least, floor, bilateral}) { out += ' '; put(out, figure); }
    out += '\n';
    for (const Row& row : answer.rows) {
        out += "row ";
        out += market.members[row.seller];
        out += ' ';
        out += market.members[row.buyer];
        out += ' ';
        put(out, row.amount);
        out += '\n';
    }
    for (size_t v = 0; v < n; ++v) {
        out += "pot ";
        out += market.members[v];
        out += ' ';
        put(out, answer.potentials[v]);
        out += '\n';
    }
    out += "bound ";
    put(out, answer.bound);
    out += '\n';
}

int main(int words, char** word) {
    if (words != 4) return 2;
    const Market market = read(word[1], word[2]);
    std::string out;
    for (size_t p = 0; p < market.products.size(); ++p)
        put_product(out, market, p, solve_pairs(int(market.members.size()), pairs_of(market, market.sold[p], word[3])));
    out += "end ";
    put(out, i64(market.products.size()));
    out += '\n';
    std::fwrite(out.data(), 1, out.size(), stdout);
}
