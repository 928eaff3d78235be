// A specification, read strictly from its text. docs/FORMATS.md has its grammar and causes.
#pragma once
#include "formula.hpp"

namespace pairs {

struct Kind {
    std::string name;
    std::array<u8, 2> role;
    Closure closure;
};
struct Process {
    std::string name;
    u8 role, start;
};
struct Edge {
    std::array<u32, 2> ends;
    u8 kind;
};
struct Spec {
    std::vector<Role> roles;
    std::vector<Kind> kinds;
    std::vector<Process> processes;
    std::vector<Edge> edges;
    const Role& role(const Kind& kind, int side) const { return roles[kind.role[side]]; }
};

// A move is the state that it reaches, with its side in the highest bit: those of one state rise as numbers, a before b.
constexpr u32 SIDE_B = u32(1) << 31;
inline u32 end_of(u32 move) { return move & ~SIDE_B; }
inline int side_of(u32 move) { return int(move >> 31); }

class SpecReader {
  public:
    Spec spec;

    Spec read(Text text) {
        while (!text.empty()) {
            std::size_t end = text.find('\n');
            line++;
            take(text.substr(0, end));
            text.remove_prefix(end == Text::npos ? text.size() : end + 1);
        }
        line++;
        if (group == Head) refuse("BadHead");
        if (group != Done) refuse("BadLine");
        return std::move(spec);
    }

  private:
    enum Group { Head, Roles, InRole, Kinds, InKind, Processes, Edges, Done };
    Group group = Head;
    int format = 1;
    std::size_t line = 0;
    std::vector<Text> words;
    std::unordered_map<Text, u32> process_of;
    std::unordered_set<u64> joined;
    std::vector<u8> degree;
    Clause clause{};

    [[noreturn]] void refuse(const char* cause) { throw Refused{line, cause}; }
    void check(bool fine, const char* cause) {
        if (!fine) refuse(cause);
    }
    int known(int number) {
        check(number >= 0, "UnknownName");
        return number;
    }
    template <class T> static int find_in(const std::vector<T>& named, Text name) {
        for (std::size_t i = 0; i < named.size(); i++)
            if (named[i].name == name) return int(i);
        return -1;
    }
    // The line has so many words behind the first, the names among them well spelt.
    void form(bool may_stand, std::size_t least, std::size_t most) {
        check(may_stand && words.size() > least && words.size() <= most + 1, "BadLine");
        for (std::size_t i = 1; i < words.size(); i++) check(is_name(words[i]), "BadLine");
    }
    void take(Text text) {
        for (char c : text) check((c >= 32 && c <= 126) || c == 9, "NotText");
        words.clear();
        for (std::size_t i = 0; i < text.size();) {
            if (text[i] == ' ' || text[i] == '\t') { i++; continue; }
            std::size_t end = std::min(text.find_first_of(" \t", i), text.size());
            words.push_back(text.substr(i, end - i));
            i = end;
        }
        if (words.empty() || words[0][0] == '#') return;
        Text what = words[0];
        if (group == Head) return head();
        if (what == "require") return require(text);
        if (what == "role") return role();
        if (what == "local") return local();
        if (what == "start") return start();
        if (what == "set") return set();
        if (what == "arc") return arc();
        if (what == "kind") return kind();
        if (what == "process") return process();
        if (what == "edge") return edge();
        if (what == "end") return end();
        check(what == "done" && words.size() == 1, "BadLine");
        check(group != InRole && group != InKind && group != Done, "BadLine");
        group = Done;
    }
    void head() {
        check(words.size() == 2 && words[0] == "pairs" && (words[1] == "1" || words[1] == "2"), "BadHead");
        format = words[1][0] - '0';
        group = Roles;
    }
    void role() {
        form(group == Roles, 1, 1);
        check(find_in(spec.roles, words[1]) < 0, "Twice");
        check(spec.roles.size() < 16, "TooMany");
        spec.roles.emplace_back().name = words[1];
        group = InRole;
    }
    void local() {
        form(group == InRole && spec.roles.back().starts.empty(), 1, 1);
        Role& r = spec.roles.back();
        check(find(r.locals, words[1]) < 0, "Twice");
        check(r.locals.size() < 32, "TooMany");
        r.locals.emplace_back(words[1]);
    }
    void start() {
        form(group == InRole, 1, 1);
        Role& r = spec.roles.back();
        check(!r.locals.empty() && r.sets.empty() && r.arcs.empty(), "BadLine");
        int n = known(find(r.locals, words[1]));
        for (u8 other : r.starts) check(other != n, "Twice");
        r.starts.push_back(u8(n));
    }
    void set() {
        form(group == InRole && format == 2, 2, words.size());
        Role& r = spec.roles.back();
        check(!r.starts.empty() && r.arcs.empty(), "BadLine");
        std::vector<u8> members;
        for (std::size_t i = 2; i < words.size(); i++) members.push_back(u8(known(find(r.locals, words[i]))));
        check(find(r.locals, words[1]) < 0 && find(r.set_names, words[1]) < 0, "Twice");
        u32 seen = 0;
        for (u8 m : members) {
            check(!(seen >> m & 1), "Twice");
            seen |= 1u << m;
        }
        check(r.sets.size() < 16, "TooMany");
        r.set_names.emplace_back(words[1]);
        r.sets.push_back(std::move(members));
    }
    void arc() {
        bool free = words.size() == 4 && words[3] == "free";
        form(group == InRole && (free || words.size() == 3), 2, 3);
        Role& r = spec.roles.back();
        check(!r.starts.empty(), "BadLine");
        int from = known(find(r.locals, words[1])), to = known(find(r.locals, words[2]));
        check(!r.has_arc(from, to), "Twice");
        check(from != to, "SelfArc");
        check(r.arcs.size() < 128, "TooMany");
        r.arcs.push_back({u8(from), u8(to), free});
    }
    void kind() {
        form(group == Roles || group == Kinds, 3, 3);
        int a = known(find_in(spec.roles, words[2])), b = known(find_in(spec.roles, words[3]));
        check(find_in(spec.kinds, words[1]) < 0, "Twice");
        check(spec.kinds.size() < 16, "TooMany");
        spec.kinds.push_back({std::string(words[1]), {u8(a), u8(b)}, {}});
        group = InKind;
    }
    void require(Text text) {
        clause.roles = {};
        if (group == InKind)
            for (int side : {0, 1}) clause.roles[side] = &spec.role(spec.kinds.back(), side);
        clause.cut(text.substr(words[0].data() + words[0].size() - text.data()));
        check(!clause.is_long(), "Long");
        check(group == InKind, "BadLine");
        try {
            u32 root = clause.parse();
            check(!clause.unknown, "UnknownName");
            Closure& closure = spec.kinds.back().closure;
            closure.require(closure.normal(clause.trees, root, false));
        } catch (Clause::Outside) {
            refuse("BadLine");
        }
    }
    void end() {
        check(words.size() == 1, "BadLine");
        if (group == InRole) {
            Role& r = spec.roles.back();
            check(!r.starts.empty(), "BadLine");
            u32 left = 0;
            for (const Arc& arc : r.arcs) left |= 1u << arc.from;
            for (std::size_t n = 0; n < r.locals.size(); n++) check(left >> n & 1, "NoArc");
            group = Roles;
        } else {
            check(group == InKind, "BadLine");
            Kind& k = spec.kinds.back();
            for (u8 side : {0, 1})
                for (const Arc& arc : spec.role(k, side).arcs)
                    if (arc.free) require_free(k.closure, side, arc);
            check(k.closure.members.size() <= 512, "ClosureOver");
            group = Kinds;
        }
    }
    static void require_free(Closure& c, u8 side, const Arc& arc) {
        u32 away = c.add({.op = Op::At, .is = false, .side = side, .local = arc.from});
        u32 moved = c.add({.op = Op::Next, .side = side, .f = c.add({.op = Op::At, .side = side, .local = arc.to})});
        c.require(c.until(true, true, c.add({.op = Op::Or, .f = away, .g = moved}), 1));
    }
    void process() {
        form(group == Roles || group == Kinds || group == Processes, 2, 3);
        int r = known(find_in(spec.roles, words[2]));
        const Role& role = spec.roles[r];
        int start = words.size() == 4 ? known(find(role.locals, words[3])) : role.starts[0];
        check(!process_of.count(words[1]), "Twice");
        check(spec.processes.size() < (format == 1 ? 1024u : 4096u), "TooMany");
        check(memchr(role.starts.data(), start, role.starts.size()), "NotAStart");
        process_of[words[1]] = u32(spec.processes.size());
        spec.processes.push_back({std::string(words[1]), u8(r), u8(start)});
        degree.push_back(0);
        group = Processes;
    }
    void edge() {
        form(group == Roles || group == Kinds || group == Processes || group == Edges, 3, 3);
        auto p = process_of.find(words[1]), q = process_of.find(words[2]);
        check(p != process_of.end() && q != process_of.end(), "UnknownName");
        int kind = known(find_in(spec.kinds, words[3]));
        u32 a = p->second, b = q->second;
        check(a != b, "SelfEdge");
        check(joined.insert(u64(std::min(a, b)) << 32 | std::max(a, b)).second, "EdgeTwice");
        u8 most = format == 1 ? 32 : 64;
        check(degree[a] < most && degree[b] < most, "DegreeOver");
        const auto& roles = spec.kinds[kind].role;
        check(spec.processes[a].role == roles[0] && spec.processes[b].role == roles[1], "RoleMismatch");
        degree[a]++, degree[b]++;
        spec.edges.push_back({{a, b}, u8(kind)});
        group = Edges;
    }
};

// The specification of a file; a text that is refused ends the program.
inline Spec read_spec(const char* path) {
    File file = read_file(path, "spec", 1'048'576);
    try {
        return SpecReader().read(file);
    } catch (Refused why) {
        refuse("spec", why);
    }
}

}  // namespace pairs
