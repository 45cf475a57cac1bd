// A table of columns through the library wreport: it decodes each message, goes over the variables of each subset, and prints what
// bufr-select prints for the same columns, of those that bench/peers asks for. A measure for bench/peers, no tool.
// Use: peer_select COLUMNS EACH FILE, where EACH is a descriptor or - . Build: g++ -O2 -o peer_select peer_select.cc -lwreport
#include "peer_frames.h"
#include <cstdlib>
#include <wreport/bulletin.h>
#include <wreport/subset.h>
#include <wreport/var.h>

using wreport::Var;

enum Kind { MESSAGE, PLACE, SUBSET, FIELD };
struct Column { Kind kind; const Var *before, *here; };

static std::vector<Column> columns;
static std::vector<short> column_of(65536, -1);
static std::string out;

static int code_of(const char *text) {
    int number = atoi(text);
    return number / 100000 << 14 | number / 1000 % 100 << 8 | number % 1000;
}

static void put_number(long number, int scale) {
    char digits[32];
    size_t size = snprintf(digits, sizeof digits, "%ld", labs(number));
    if (number < 0) out += '-';
    if (scale <= 0) {
        out.append(digits, size);
        if (number) out.append(-scale, '0');
        return;
    }
    if (size <= (size_t)scale) {
        out += "0.";
        out.append(scale - size, '0');
        out.append(digits, size);
    } else {
        out.append(digits, size - scale);
        out += '.';
        out.append(digits + size - scale, scale);
    }
}

static void put_text(const char *text) {
    size_t size = strlen(text);
    while (size && text[size - 1] == ' ') size--;
    const bool is_quoted = memchr(text, ',', size) || memchr(text, '"', size);
    if (is_quoted) out += '"';
    for (size_t at = 0; at < size; at++) {
        unsigned char octet = text[at];
        char escaped[4];
        if (octet < 32 || octet > 126 || octet == '\\') {
            snprintf(escaped, sizeof escaped, "\\%02x", octet);
            out.append(escaped, 3);
        } else {
            if (octet == '"') out += '"';
            out += octet;
        }
    }
    if (is_quoted) out += '"';
}

static void put_row(size_t message, size_t place, size_t subset) {
    const size_t begin = out.size();
    for (auto &column : columns) {
        if (&column != &columns[0]) out += ',';
        if (column.kind != FIELD) {
            put_number(column.kind == MESSAGE ? message : column.kind == PLACE ? place : subset, 0);
            continue;
        }
        const Var *var = column.here ? column.here : column.before;
        if (!var || !var->isset()) continue;
        if (var->info()->type == wreport::Vartype::String) put_text(var->enqc());
        else put_number(var->enqi(), var->info()->scale);
    }
    if (columns.size() == 1 && out.size() == begin) out += "\"\"";
    out += '\n';
    if (out.size() > 65536) {
        fwrite(out.data(), 1, out.size(), stdout);
        out.clear();
    }
}

static void put_subset(const wreport::Subset &vars, int each, size_t message, size_t place, size_t subset) {
    bool in_span = each < 0;
    for (auto &column : columns) column.before = column.here = nullptr;
    for (auto &var : vars) {
        const int code = var.code();
        if (code == each) {
            if (in_span) {
                put_row(message, place, subset);
                for (auto &column : columns) column.here = nullptr;
            }
            in_span = true;
        }
        if (column_of[code] < 0) continue;
        auto &column = columns[column_of[code]];
        if (!in_span) column.before = &var;
        else if (!column.here) column.here = &var;
    }
    if (in_span) put_row(message, place, subset);
}

int main(int count, char **words) {
    if (count != 4) return 2;
    const int each = strcmp(words[2], "-") ? code_of(words[2]) : -1;
    printf("%s\n", words[1]);
    for (char *word = strtok(words[1], ","); word; word = strtok(nullptr, ",")) {
        Kind kind = !strcmp(word, "message") ? MESSAGE : !strcmp(word, "place") ? PLACE : !strcmp(word, "subset") ? SUBSET : FIELD;
        if (kind == FIELD) column_of[code_of(word)] = columns.size();
        columns.push_back({kind, nullptr, nullptr});
    }
    const int status = for_each_frame(words[3], [each](const std::string &message, size_t number, size_t place) {
        auto bulletin = wreport::BufrBulletin::decode(message);
        for (size_t subset = 0; subset < bulletin->subsets.size(); subset++)
            put_subset(bulletin->subsets[subset], each, number, place, subset + 1);
    });
    fwrite(out.data(), 1, out.size(), stdout);
    return status;
}
