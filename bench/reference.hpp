// What the plain checkers share: bytes, tokens and faults, the formula (docs/FORMATS.md), clauses as sets, the report and the
// command line (docs/REPORT.md). It shares no code with the checkers that they are compared with.

#pragma once

#include <algorithm>
#include <cstdint>
#include <cstdio>
#include <cstring>
#include <fcntl.h>
#include <memory>
#include <new>
#include <string>
#include <unistd.h>
#include <vector>

namespace reference {

using u64 = uint64_t;
using u32 = uint32_t;

const u64 MOST_VARIABLE = 268435455;
const u64 MOST_CLAUSES = 4294967295;
const u64 MOST = UINT64_MAX;

enum Status { VERIFIED = 0, NOT_VERIFIED = 1, MALFORMED = 2, READ_FAILED = 3, OUT_OF_MEMORY = 4, WRITE_FAILED = 5, USAGE = 6 };

// ---- Bytes in

struct Place {
    u64 line = 1, col = 1;
};

inline u64 one_more(u64 n) { return n == MOST ? MOST : n + 1; }

struct Source {
    enum { BYTE, END, FAILED };

    int file;
    std::unique_ptr<unsigned char[]> piece{new unsigned char[65536]};
    size_t at = 0, end = 0;
    bool has_ended = false, has_failed = false;
    Place place;

    explicit Source(int file) : file(file), has_failed(file < 0) {}

    // What comes next.
    int peek(unsigned char &byte) {
        if (at == end && !has_ended && !has_failed) {
            ssize_t n = read(file, piece.get(), 65536);
            if (n < 0) has_failed = true;
            else if (n == 0) has_ended = true;
            else at = 0, end = size_t(n);
        }
        if (at < end) {
            byte = piece[at];
            return BYTE;
        }
        return has_failed ? FAILED : END;
    }

    // Takes it.
    void bump() {
        if (piece[at++] == '\n') {
            place.line = one_more(place.line);
            place.col = 1;
        } else {
            place.col = one_more(place.col);
        }
    }
};

// ---- Tokens

struct Token {
    enum { NUMBER, P, CNF, D, OTHER, LINE_END, END, FAILED } kind;
    Place place;
    bool is_negative = false;
    u64 size = 0; // up to the greatest of 64 bits

    bool is_word() const { return kind <= OTHER; }
};

inline bool is_separator(unsigned char b) { return b == ' ' || b == '\t' || b == '\r' || b == '\n'; }

struct Scanner {
    Source source;

    explicit Scanner(int file) : source(file) {}

    Token next() {
        unsigned char b;
        for (;;) {
            Token t;
            t.place = source.place;
            int what = source.peek(b);
            if (what == Source::FAILED) return t.kind = Token::FAILED, t;
            if (what == Source::END) return t.kind = Token::END, t;
            if (b == 'c' && source.place.col == 1) {
                do source.bump();
                while ((what = source.peek(b)) == Source::BYTE && b != '\n');
                // a comment has no line end of its own
                if (what == Source::BYTE) source.bump();
                continue;
            }
            if (!is_separator(b)) return word(t);
            source.bump();
            if (b == '\n') return t.kind = Token::LINE_END, t;
        }
    }

    Token word(Token t) {
        char first[4];
        size_t length = 0, digits = 0;
        bool is_number = true, starts_with_zero = false;
        unsigned char b;
        int what;
        while ((what = source.peek(b)) == Source::BYTE && !is_separator(b)) {
            source.bump();
            if (length < sizeof first) first[length] = char(b);
            if (length == 0 && b == '-') {
                t.is_negative = true;
            } else if (b < '0' || b > '9') {
                is_number = false;
            } else {
                if (digits == 0) starts_with_zero = b == '0';
                u64 d = b - '0';
                t.size = t.size > (MOST - d) / 10 ? MOST : t.size * 10 + d;
                ++digits;
            }
            if (length < sizeof first) ++length;
        }
        if (what == Source::FAILED) return t.kind = Token::FAILED, t;
        is_number = is_number && digits > 0 && (!starts_with_zero || (digits == 1 && !t.is_negative));
        auto is = [&](const char *name) { return length == strlen(name) && !memcmp(first, name, length); };
        t.kind = is_number ? Token::NUMBER : is("p") ? Token::P : is("cnf") ? Token::CNF : is("d") ? Token::D : Token::OTHER;
        return t;
    }
};

// The literal that a token writes.
inline int literal_of(const Token &t) { return t.is_negative ? -int(t.size) : int(t.size); }

// ---- Faults

struct Fault {
    const char *kind = nullptr; // none: a failed read
    std::string place;
};

inline Fault at(const char *kind, Place place) { return Fault{kind, std::to_string(place.line) + ":" + std::to_string(place.col)}; }

// ---- A formula

// What reading gives: a clause or a step, the end, or a fault.
enum Read { ITEM, DONE, WRONG };

struct Formula {
    Scanner scanner;
    u64 vars = 0, clauses = 0, complete = 0;
    Fault fault;

    explicit Formula(int file) : scanner(file) {}

    bool stop(Fault f) { return fault = f, false; }

    // Takes a token of the header that has to be a word of a kind, or gives the fault.
    bool header_word(const Token &t, bool is_right) {
        if (t.kind == Token::FAILED) return stop(Fault{});
        return is_right || stop(at("bad header", t.place));
    }

    bool count(u64 limit, u64 &n) {
        Token t = scanner.next();
        if (!header_word(t, t.kind == Token::NUMBER && !t.is_negative)) return false;
        if (t.size > limit) return stop(at("number too large", t.place));
        n = t.size;
        return true;
    }

    bool header() {
        Token t;
        do t = scanner.next();
        while (t.kind == Token::LINE_END);
        if (!header_word(t, t.kind == Token::P)) return false;
        t = scanner.next();
        if (!header_word(t, t.kind == Token::CNF)) return false;
        if (!count(MOST_VARIABLE, vars) || !count(MOST_CLAUSES, clauses)) return false;
        t = scanner.next();
        return header_word(t, !t.is_word());
    }

    int next(std::vector<int> &clause) {
        clause.clear();
        for (;;) {
            Token t = scanner.next();
            if (t.kind == Token::LINE_END) continue;
            if (t.kind == Token::FAILED) return stop(Fault{}), WRONG;
            if (t.kind == Token::END) {
                if (!clause.empty()) return stop(at("unterminated clause", t.place)), WRONG;
                if (complete < clauses) return stop(at("too few clauses", t.place)), WRONG;
                return DONE;
            }
            if (t.kind != Token::NUMBER) return stop(at("bad token", t.place)), WRONG;
            if (t.size > MOST_VARIABLE) return stop(at("number too large", t.place)), WRONG;
            if (complete == clauses) return stop(at("too many clauses", t.place)), WRONG;
            if (t.size > vars) return stop(at("literal out of range", t.place)), WRONG;
            if (t.size == 0) {
                ++complete;
                return ITEM;
            }
            clause.push_back(literal_of(t));
        }
    }
};

// ---- Literals and clauses

// Where a literal stands in a table by literal.
inline size_t index_of(int l) { return l > 0 ? 2 * size_t(l) : 2 * size_t(-l) + 1; }

// A clause, whose literals are different ones.
struct Clause {
    std::unique_ptr<int[]> literals;
    u32 size = 0;

    Clause() = default;
    explicit Clause(const std::vector<int> &different) : literals(new int[different.size()]), size(u32(different.size())) {
        std::copy(different.begin(), different.end(), literals.get());
    }

    int *begin() const { return literals.get(); }
    int *end() const { return literals.get() + size; }
    bool has(int l) const { return std::find(begin(), end(), l) != end(); }
};

// The different ones of some literals, by means of a table by literal that has no mark but for the call.
inline std::vector<int> different(const std::vector<int> &written, std::vector<unsigned char> &marks) {
    std::vector<int> found;
    for (int l : written) {
        if (marks[index_of(l)]) continue;
        marks[index_of(l)] = 1;
        found.push_back(l);
    }
    for (int l : found) marks[index_of(l)] = 0;
    return found;
}

// The sum of the sizes of the live clauses, and the greatest that it was.
struct Sum {
    unsigned __int128 now = 0, peak = 0;

    void add(u32 size) { peak = std::max(peak, now += size); }
    void take(u32 size) { now -= size; }
};

// ---- The report

struct WriteError {};

inline void line(const std::string &text) {
    if (fwrite(text.data(), 1, text.size(), stdout) != text.size() || putchar('\n') == EOF) throw WriteError();
}

inline Status conclude(const std::string &text, Status status) {
    line(text);
    line(status == VERIFIED ? "s VERIFIED" : "s NOT VERIFIED");
    if (fflush(stdout)) throw WriteError();
    return status;
}

inline Status conclude_fault(const char *name, const Fault &f) {
    if (!f.kind) return conclude(std::string("c cannot read ") + name, READ_FAILED);
    return conclude(std::string("c ") + name + " " + f.place + ": " + f.kind, MALFORMED);
}

inline Status verified(u64 steps, unsigned __int128 peak) {
    u64 shown = peak > MOST ? MOST : u64(peak);
    return conclude("c steps " + std::to_string(steps) + " peak " + std::to_string(shown), VERIFIED);
}

// A whole check. A session has `input` for the clauses of the formula, `has_empty`, `take`, which gives the word of an
// accepted step or none and then its `cause`, and `sum`.
template <class Session, class Proof, class Step>
Status check(bool trace, Formula &formula, Proof &proof, Session &session, Step step) {
    if (!formula.header()) return conclude_fault("formula", formula.fault);
    std::vector<int> clause;
    int what;
    while ((what = formula.next(clause)) == ITEM) session.input(clause);
    if (what == WRONG) return conclude_fault("formula", formula.fault);
    line("c formula " + std::to_string(formula.vars) + " variables " + std::to_string(formula.clauses) + " clauses");
    if (session.has_empty) return verified(0, session.sum.peak);
    for (u64 n = 1; (what = proof.next(step)) == ITEM; ++n) {
        const char *word = session.take(step);
        if (!word) return conclude("c step " + std::to_string(n) + ": " + session.cause, NOT_VERIFIED);
        if (trace) line("c " + std::to_string(n) + " " + word);
        if (step.adds && step.literals.empty()) return verified(n, session.sum.peak);
    }
    if (what == WRONG) return conclude_fault("proof", proof.fault);
    return conclude("c end: no empty clause", NOT_VERIFIED);
}

// ---- The command line

// A flag, and whether it was given.
struct Flag {
    const char *name;
    bool is_given = false;
};

inline bool take_flag(std::vector<Flag> &flags, const char *word) {
    for (Flag &f : flags)
        if (!strcmp(f.name, word)) return !f.is_given && (f.is_given = true);
    return false;
}

// Whether the words are right: flags, each at most once, and one name or two.
inline bool read_words(char **words, std::vector<Flag> &flags, std::vector<const char *> &names) {
    for (; *words; ++words) {
        if (**words != '-') names.push_back(*words);
        else if (!take_flag(flags, *words)) return false;
        if (!**words) return false;
    }
    return names.size() == 1 || names.size() == 2;
}

// Runs a check, which is given the files of the formula and of the proof.
template <class Check> int run(const char *name, const char *usage, char **words, std::vector<Flag> &flags, Check check) {
    std::vector<const char *> names;
    if (!read_words(words, flags, names)) {
        fprintf(stderr, "usage: %s %s\n", name, usage);
        return USAGE;
    }
    int formula = open(names[0], O_RDONLY);
    int proof = names.size() > 1 ? open(names[1], O_RDONLY) : 0;
    try {
        return check(formula, proof);
    } catch (const std::bad_alloc &) {
        fflush(stdout);
        fprintf(stderr, "%s: out of memory\n", name);
        return OUT_OF_MEMORY;
    } catch (const WriteError &) {
        fprintf(stderr, "%s: write failed\n", name);
        return WRITE_FAILED;
    }
}

} // namespace reference
