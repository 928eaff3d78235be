// Files, names, roles, and formulas: one clause's text, and the closure of normal forms that clauses make.
#pragma once
#include <array>
#include <cstdint>
#include <cstdio>
#include <cstdlib>
#include <cstring>
#include <filesystem>
#include <memory>
#include <string>
#include <string_view>
#include <unordered_map>
#include <unordered_set>
#include <vector>

namespace pairs {

using Text = std::string_view;
using u8 = std::uint8_t;
using u16 = std::uint16_t;
using u32 = std::uint32_t;
using u64 = std::uint64_t;

// The program's last act: its text and its status.
[[noreturn]] inline void finish(int status, Text text) {
    std::fwrite(text.data(), 1, text.size(), stdout);
    std::fflush(stdout);
    std::_Exit(status);
}

// A text is refused at a line, counted from 1.
struct Refused {
    std::size_t line;
    const char* cause;
};

[[noreturn]] inline void refuse(const char* file, Refused why) {
    finish(2, "refused " + std::string(file) + " " + std::to_string(why.line) + " " + why.cause + "\n");
}

// The bytes of a file. The memory is not cleared first.
struct File {
    std::unique_ptr<char[]> bytes;
    std::size_t size = 0;
    operator Text() const { return {bytes.get(), size}; }
};

inline File read_file(const char* path, const char* name, std::size_t limit) {
    std::FILE* in = std::fopen(path, "rb");
    std::error_code none;
    std::size_t room = std::filesystem::file_size(path, none);
    if (none) room = 0;
    room = std::min(room, limit) + 1;
    File file{std::unique_ptr<char[]>(new char[room])};
    while (in) {
        file.size += std::fread(file.bytes.get() + file.size, 1, room - file.size, in);
        if (file.size < room || room > limit) break;
        std::size_t more = std::min(2 * room, limit + 1);
        std::unique_ptr<char[]> grown(new char[more]);
        std::memcpy(grown.get(), file.bytes.get(), file.size);
        file.bytes = std::move(grown);
        room = more;
    }
    if (!in || std::ferror(in)) finish(5, "read fault " + std::string(name) + "\n");
    std::fclose(in);
    if (file.size > limit) refuse(name, {0, "TooLong"});
    return file;
}

inline bool is_letter(char c) { return (c >= 'a' && c <= 'z') || (c >= 'A' && c <= 'Z'); }
inline bool is_digit(char c) { return c >= '0' && c <= '9'; }

inline bool is_name(Text word) {
    if (word.empty() || word.size() > 16 || !is_letter(word[0])) return false;
    for (char c : word)
        if (!is_letter(c) && !is_digit(c) && c != '_') return false;
    return true;
}

inline int find(const std::vector<std::string>& names, Text name) {
    for (std::size_t i = 0; i < names.size(); i++)
        if (names[i] == name) return int(i);
    return -1;
}

// ---- formulas -------------------------------------------------------------------------------------------------------------------------

enum class Op : u8 { True, False, At, Not, And, Or, Implies, Next, Always, Sometime, Until };
constexpr u8 BOTH_SIDES = 2;

// A formula as it is spelled, or a member of a closure in normal form (True, False, At, And, Or, Next of one side, Until). `is`: an atom
// that is not negated. f and g are numbers of other nodes.
struct Node {
    Op op;
    bool all = false, weak = false, is = true;
    u8 side = 0, local = 0;
    u32 f = 0, g = 0;
};

// The members of a closure, parts before what they are parts of; 0 to 3 are true, false, EXa true, EXb true.
struct Closure {
    std::vector<Node> members;
    std::vector<u32> roots;
    std::unordered_map<u64, u32> numbers;
    std::unordered_set<u32> rooted;

    Closure() {
        add({Op::True}), add({Op::False});
        for (u8 side : {0, 1}) add({.op = Op::Next, .side = side});
    }
    u32 add(Node n) {
        u64 flags = u64(n.all) | u64(n.weak) << 1 | u64(n.is) << 2 | u64(n.side) << 3 | u64(n.local) << 5;
        u64 key = u64(n.op) | flags << 4 | u64(n.f) << 16 | u64(n.g) << 40;
        auto [place, fresh] = numbers.try_emplace(key, u32(members.size()));
        if (fresh) members.push_back(n);
        return place->second;
    }
    // An until brings its next-times, which are its two successors in number where they are new.
    u32 until(bool all, bool weak, u32 f, u32 g) {
        u32 u = add({.op = Op::Until, .all = all, .weak = weak, .f = f, .g = g});
        for (u8 side : {0, 1}) add({.op = Op::Next, .all = all, .side = side, .f = u});
        return u;
    }
    u32 after(u32 u, u8 side) {
        return add({.op = Op::Next, .all = members[u].all, .side = side, .f = u});
    }
    void require(u32 root) {
        if (rooted.insert(root).second) roots.push_back(root);
    }
    // The normal form of tree t, or of its negation.
    u32 normal(const std::vector<Node>& trees, u32 t, bool no) {
        const Node& n = trees[t];
        bool all = n.all != no;
        switch (n.op) {
            case Op::True: return no;
            case Op::False: return !no;
            case Op::At: return add({.op = Op::At, .is = !no, .side = n.side, .local = n.local});
            case Op::Not: return normal(trees, n.f, !no);
            case Op::And:
            case Op::Or: {
                u32 f = normal(trees, n.f, no), g = normal(trees, n.g, no);
                return add({.op = (n.op == Op::And) != no ? Op::And : Op::Or, .f = f, .g = g});
            }
            case Op::Implies: {
                u32 f = normal(trees, n.f, !no), g = normal(trees, n.g, no);
                return add({.op = no ? Op::And : Op::Or, .f = f, .g = g});
            }
            case Op::Next: {
                u32 f = normal(trees, n.f, no);
                if (n.side != BOTH_SIDES) return add({.op = Op::Next, .all = all, .side = n.side, .f = f});
                u32 a = add({.op = Op::Next, .all = all, .side = 0, .f = f});
                u32 b = add({.op = Op::Next, .all = all, .side = 1, .f = f});
                return add({.op = all ? Op::And : Op::Or, .f = a, .g = b});
            }
            case Op::Always: {
                u32 f = normal(trees, n.f, no);
                return no ? until(all, false, 0, f) : until(all, true, f, 1);
            }
            case Op::Sometime: {
                u32 f = normal(trees, n.f, no);
                return no ? until(all, true, f, 1) : until(all, false, 0, f);
            }
            case Op::Until: {
                if (!no) {
                    u32 f = normal(trees, n.f, false), g = normal(trees, n.g, false);
                    return until(all, n.weak, f, g);
                }
                u32 g = normal(trees, n.g, true), f = normal(trees, n.f, true);
                return until(all, !n.weak, g, add({.op = Op::And, .f = f, .g = g}));
            }
        }
        return 0;
    }
};

// ---- roles ----------------------------------------------------------------------------------------------------------------------------

struct Arc {
    u8 from, to;
    bool free;
};
struct Role {
    std::string name;
    std::vector<std::string> locals;
    std::vector<u8> starts;
    std::vector<std::string> set_names;
    std::vector<std::vector<u8>> sets;
    std::vector<Arc> arcs;
    bool has_arc(int from, int to) const {
        for (const Arc& arc : arcs)
            if (arc.from == from && arc.to == to) return true;
        return false;
    }
};
// ---- one clause -----------------------------------------------------------------------------------------------------------------------

// A clause over two roles, by recursive descent. What is no formula throws Outside.
struct Clause {
    struct Outside {};
    std::array<const Role*, 2> roles;
    std::vector<Text> tokens;
    std::vector<Node> trees;
    std::size_t next = 0;
    bool unknown = false;

    void cut(Text text) {
        auto in_word = [](char c) { return is_letter(c) || is_digit(c) || c == '_' || c == '.'; };
        tokens.clear();
        for (std::size_t i = 0; i < text.size();) {
            std::size_t from = i++;
            if (text[from] == ' ' || text[from] == '\t') continue;
            if (in_word(text[from]))
                while (i < text.size() && in_word(text[i])) i++;
            else if (text.substr(from, 2) == "->")
                i++;
            tokens.push_back(text.substr(from, i - from));
        }
    }
    const std::vector<u8>* set_of(Text token) const {
        if (token.size() < 3 || token[1] != '.' || (token[0] != 'a' && token[0] != 'b')) return nullptr;
        const Role* role = roles[token[0] - 'a'];
        int set = role ? find(role->set_names, token.substr(2)) : -1;
        return set < 0 ? nullptr : &role->sets[set];
    }
    bool is_long() const {
        std::size_t weight = 0, open = 0, most = 0;
        for (Text token : tokens) {
            if (token == "(") most = std::max(most, ++open);
            else if (token == ")") open -= open > 0;
            else if (auto* set = set_of(token)) weight += 2 * set->size() - 1;
            else weight++;
        }
        return weight > 256 || most > 256;
    }
    u32 put(Node n) {
        trees.push_back(n);
        return u32(trees.size() - 1);
    }
    bool eat(Text token) {
        bool is = next < tokens.size() && tokens[next] == token;
        next += is;
        return is;
    }
    void must(Text token) {
        if (!eat(token)) throw Outside();
    }
    u32 parse() {
        next = 0, unknown = false;
        trees.clear();
        u32 root = formula();
        if (next != tokens.size()) throw Outside();
        return root;
    }
    u32 formula() {
        u32 f = either();
        return eat("->") ? put({.op = Op::Implies, .f = f, .g = formula()}) : f;
    }
    u32 either() {
        u32 f = both();
        while (eat("|")) f = put({.op = Op::Or, .f = f, .g = both()});
        return f;
    }
    u32 both() {
        u32 f = unary();
        while (eat("&")) f = put({.op = Op::And, .f = f, .g = unary()});
        return f;
    }
    u32 unary() {
        if (next == tokens.size()) throw Outside();
        Text token = tokens[next++];
        if (token == "!") return put({.op = Op::Not, .f = unary()});
        if (token == "(") {
            u32 f = formula();
            must(")");
            return f;
        }
        if (token == "true") return put({Op::True});
        if (token == "false") return put({Op::False});
        if (token[0] == 'A' || token[0] == 'E') return quantified(token[0] == 'A', token.substr(1));
        return atom(token);
    }
    u32 quantified(bool all, Text rest) {
        if (rest == "X") return put({.op = Op::Next, .all = all, .side = BOTH_SIDES, .f = unary()});
        if (rest == "Xa" || rest == "Xb") return put({.op = Op::Next, .all = all, .side = u8(rest[1] - 'a'), .f = unary()});
        if (rest == "G") return put({.op = Op::Always, .all = all, .f = unary()});
        if (rest == "F") return put({.op = Op::Sometime, .all = all, .f = unary()});
        if (!rest.empty()) throw Outside();
        must("[");
        u32 f = formula();
        bool weak = eat("W");
        if (!weak) must("U");
        u32 g = formula();
        must("]");
        return put({.op = Op::Until, .all = all, .weak = weak, .f = f, .g = g});
    }
    u32 atom(Text token) {
        if (token.size() < 3 || token[1] != '.' || (token[0] != 'a' && token[0] != 'b') || !is_name(token.substr(2))) throw Outside();
        u8 side = u8(token[0] - 'a');
        auto at = [&](int local) { return put({.op = Op::At, .side = side, .local = u8(local)}); };
        if (auto* set = set_of(token)) {
            u32 f = at((*set)[0]);
            for (std::size_t i = 1; i < set->size(); i++) f = put({.op = Op::Or, .f = f, .g = at((*set)[i])});
            return f;
        }
        int local = find(roles[side]->locals, token.substr(2));
        unknown |= local < 0;
        return at(std::max(local, 0));
    }
};

}  // namespace pairs
