// Answering by loops, by plan and by plan in portions against SQLite in memory and against loops
// written out by hand, on the same tables in one run; both ways over the tables by column (kind 23)
// beside the same ones by row; both ways over tables of 256, 512 and 1,024 rows; then the bars.
// Times are processor time of the fastest of several runs; nothing is asserted of them. All answers
// to a query must be equal, or the exit code is 1.
//
// Arguments: the file that bench/inputs.py writes; behind it, for a profiler, the name of a line
// and "loops", "plan" or "portions": the engine then answers it once, and nothing else is done.
// With "columns" behind these the tables are by column.

#include <sqlite3.h>
#include <time.h>

#include <algorithm>
#include <cstdio>
#include <cstdlib>
#include <cstring>
#include <fstream>
#include <functional>
#include <iterator>
#include <map>
#include <optional>
#include <sstream>
#include <string>
#include <utility>
#include <vector>

#include "dislogha.h"
#include "loops.h"

namespace {

using Bytes = std::vector<std::uint8_t>;

[[noreturn]] void stop(const std::string &what) {
    std::fprintf(stderr, "%s\n", what.c_str());
    std::exit(2);
}

// ---- queries

// What SQLite's rows are: the answer; its elements; or each the key and one value of an element
// that is a key and the collection of its values, none where the value is NULL.
enum class Shape { answer, elements, keyed_values };

// A query for SQLite and by hand. As asked SQLite runs some as a loop in a loop, and joined by an
// index of its own.
struct Query {
    const char *name;
    Shape shape;
    const char *sql;
    Words (*by_hand)(const Tables &);
    const char *joined_sql = nullptr;
};

const Query queries[] = {
    {"correlated sum", Shape::elements,
     "SELECT a.k, (SELECT coalesce(sum(b.v), 0) FROM t1 b WHERE b.k = a.k) FROM t0 a ORDER BY 1, 2",
     over<correlated_sum>,
     "SELECT a.k, coalesce(b.s, 0) FROM t0 a "
     "LEFT JOIN (SELECT k, sum(v) AS s FROM t1 GROUP BY k) b ON b.k = a.k ORDER BY 1, 2"},
    {"equi-join list", Shape::elements,
     "SELECT a.v, b.v FROM t0 a, t1 b WHERE a.k = b.k ORDER BY a.rowid, b.rowid", over<equi_join>},
    {"theta count", Shape::answer, "SELECT count(*) FROM t0 a, t1 b WHERE a.k < b.k",
     over<theta_count>},
    {"exists", Shape::answer,
     "SELECT count(*) FROM t0 a WHERE EXISTS (SELECT 1 FROM t1 b WHERE b.k = a.k)", over<exists>,
     "SELECT count(*) FROM t0 a WHERE a.k IN (SELECT k FROM t1)"},
    {"cross sum", Shape::answer, "SELECT sum(a.k + b.k) FROM t0 a, t1 b", over<cross_sum>},
    {"three tables", Shape::elements,
     "SELECT a.v, b.v, c.v FROM t0 a, t1 b, t2 c WHERE a.k = b.k AND b.v = c.k "
     "ORDER BY a.rowid, b.rowid, c.rowid",
     over<three_tables>},
    {"bags inside", Shape::keyed_values,
     "SELECT a.k, b.v FROM t0 a LEFT JOIN t1 b ON b.k = a.k ORDER BY 1, 2", over<bags_inside>},
    {"choice in sum", Shape::answer,
     "SELECT sum(a.v * CASE WHEN a.k < b.k THEN b.v ELSE 1000 - b.v END) FROM t0 a, t1 b",
     over<choice_in_sum>},
    {"max per group", Shape::elements,
     "SELECT DISTINCT a.k, (SELECT coalesce(max(b.v), 0) FROM t1 b WHERE b.k = a.k) "
     "FROM t0 a ORDER BY 1, 2",
     over<max_per_group>,
     "SELECT DISTINCT a.k, coalesce(b.m, 0) FROM t0 a "
     "LEFT JOIN (SELECT k, max(v) AS m FROM t1 GROUP BY k) b ON b.k = a.k ORDER BY 1, 2"},
    {"open hours", Shape::answer,
     "SELECT count(*) FROM (SELECT a.k + b.v AS m FROM t0 a, t1 b) "
     "WHERE (m / 1440 + 5) % 7 < 5 AND (m % 1440 BETWEEN 360 AND 719 OR m % 1440 BETWEEN 780 AND "
     "1199) "
     "OR (m / 1440 + 5) % 7 = 5 AND m % 1440 BETWEEN 480 AND 719",
     over<open_hours>},
    {"choice in test", Shape::answer,
     "SELECT coalesce(sum(a.v), 0) FROM t0 a, t1 b "
     "WHERE CASE WHEN a.k < b.k THEN a.k * b.v ELSE b.k * a.v END < 100000",
     over<choice_in_test>},
    {"bag to order", Shape::elements, "SELECT a.k, a.v FROM t0 a ORDER BY 1, 2",
     over<bag_to_order>},
    {"record inside", Shape::elements, "SELECT a.k, a.v, a.k FROM t0 a ORDER BY 1, 2, 3",
     over<record_inside>},
    {"lists of one", Shape::elements, "SELECT 1, a.k FROM t0 a ORDER BY 2", over<lists_of_one>},
    {"long bag", Shape::elements, "SELECT a.k, b.v FROM t0 a, t1 b ORDER BY 1, 2", over<long_bag>},
    {"long record inside", Shape::elements, "SELECT a.k, b.v, a.v FROM t0 a, t1 b ORDER BY 1, 2, 3",
     over<long_record_inside>},
    {"long lists of one", Shape::elements, "SELECT 1, a.k + b.v FROM t0 a, t1 b ORDER BY 2",
     over<long_lists_of_one>},
    {"long numbers", Shape::elements, "SELECT a.k + b.k FROM t0 a, t1 b ORDER BY 1",
     over<long_numbers>},
};

// ---- inputs

enum Kind { by_row, by_column, kinds_count };

// What is lent for a query, the tables in both kinds.
struct Input {
    Bytes data[kinds_count];
    Bytes calendars;
    Bytes question;
    Tables tables;

    // Pairs of rows of the first two tables, or rows where there is one.
    double steps() const {
        const auto count = [&](std::size_t i) { return static_cast<double>(tables[i].count); };
        return tables.size() == 1 ? count(0) : count(0) * count(1);
    }
};

// Where a table's cells are in the data.
struct Placed {
    std::size_t record, columns, rows, cells;
};

// Of each table length and kind, then number, which is the table's place, collection, columns and
// rows, then the bounds and the cells.
std::vector<Placed> placed_in(const Bytes &data) {
    const auto two_bytes = [&](std::size_t at) {
        return data[at] + std::size_t{256} * data[at + 1];
    };
    std::vector<Placed> tables;
    for (std::size_t at = 0; at + 9 <= data.size(); at += 4 + two_bytes(at))
        tables.push_back(
            {at, data[at + 6], two_bytes(at + 7), at + 9 + 4 * std::size_t{data[at + 6]}});
    return tables;
}

// The tables by column: each cell as its folded difference from the one above.
Bytes columns_of(const Bytes &data) {
    Bytes columns = data;
    for (const Placed &table : placed_in(data)) {
        std::uint8_t *stored = columns.data() + table.cells;
        for (std::size_t column = 0; column < table.columns; column++) {
            std::uint32_t above = 0;
            for (std::size_t row = 0; row < table.rows; row++, stored += 4) {
                std::uint32_t cell;
                std::memcpy(&cell, &data[table.cells + 4 * (row * table.columns + column)], 4);
                const std::uint32_t difference = cell - above;
                const std::uint32_t folded = (difference << 1) ^ (difference >> 31 ? ~0u : 0u);
                std::memcpy(stored, &folded, 4);
                above = cell;
            }
        }
        columns[table.record + 2] = 23;
    }
    return columns;
}

Bytes bytes_of_hex(const std::string &text) {
    Bytes bytes;
    for (std::size_t i = 0; i + 1 < text.size(); i += 2)
        bytes.push_back(static_cast<std::uint8_t>(std::stoi(text.substr(i, 2), nullptr, 16)));
    return bytes;
}

Input input_of(std::istringstream &fields) {
    Input input;
    std::string field;
    for (Bytes *bytes : {&input.data[by_row], &input.calendars, &input.question}) {
        std::getline(fields, field, '\t');
        *bytes = bytes_of_hex(field);
    }
    input.data[by_column] = columns_of(input.data[by_row]);
    for (const Placed &table : placed_in(input.data[by_row]))
        input.tables.push_back({&input.data[by_row][table.cells], table.rows});
    return input;
}

// By the name that begins a line of the file.
using Inputs = std::map<std::string, Input>;

Inputs read(const std::string &path) {
    Inputs inputs;
    std::ifstream file(path);
    std::string line, name;
    while (std::getline(file, line)) {
        std::istringstream fields(line);
        std::getline(fields, name, '\t');
        inputs.emplace(name, input_of(fields));
    }
    return inputs;
}

const Input &input_named(const Inputs &inputs, const std::string &name) {
    const auto found = inputs.find(name);
    if (found == inputs.end())
        stop("no query " + name);
    return found->second;
}

// ---- ways of answering

// The longest answer has 65,537 words.
constexpr std::size_t answer_words = 65537;

// By plan in as few portions as there can be.
dislogha::Result answer_in_portions(dislogha::Bytes data, dislogha::Bytes calendars,
                                    dislogha::Bytes question, dislogha::Words scratch,
                                    dislogha::Answer answer) noexcept {
    const dislogha::Result begun = dislogha::begin(data, calendars, question, scratch);
    if (begun.outcome != dislogha::Outcome::answered)
        return begun;
    dislogha::Portion portion{};
    do
        portion = dislogha::portion(data, calendars, scratch, answer, dislogha::most_rows);
    while (portion.unfinished());
    return {portion.outcome, portion.refusal, portion.length};
}

// The engine, answering one way.
class Engine {
  public:
    using Call = decltype(&dislogha::answer_by_loops);

    explicit Engine(Call answer_by) : answer_by(answer_by) {}

    // The engine's words, and its number: buffers of one vector each never overlap.
    std::uint64_t run(const Input &input, Kind kind, Words &words) {
        const auto lent = [](const Bytes &bytes) {
            return dislogha::Bytes{bytes.data(), bytes.size()};
        };
        const dislogha::Result result =
            answer_by(lent(input.data[kind]), lent(input.calendars), lent(input.question),
                      {scratch.data(), scratch.size()}, {answer.data(), answer.size()});
        words.assign(answer.data(), answer.data() + result.length);
        return static_cast<std::uint64_t>(result.refusal);
    }

  private:
    Call answer_by;
    std::vector<std::uint64_t> scratch = std::vector<std::uint64_t>(dislogha::scratch_words);
    Words answer = Words(answer_words);
};

class Sqlite {
  public:
    Sqlite(Shape shape, const char *sql, const Input &input) : shape(shape) {
        if (sqlite3_open(":memory:", &database) != SQLITE_OK)
            stop("SQLite does not open");
        execute("BEGIN");
        for (std::size_t number = 0; number < input.tables.size(); number++)
            fill("t" + std::to_string(number), input.tables[number]);
        execute("COMMIT");
        statement = prepared(sql);
    }
    ~Sqlite() {
        sqlite3_finalize(statement);
        sqlite3_close(database);
    }
    Sqlite(const Sqlite &) = delete;
    Sqlite &operator=(const Sqlite &) = delete;

    // A collection's count stands before its elements.
    void run(Words &words) {
        words.assign(shape == Shape::answer ? 0 : 1, 0);
        while (sqlite3_step(statement) == SQLITE_ROW)
            if (shape == Shape::keyed_values)
                take_value(words);
            else
                take_columns(words);
        if (sqlite3_reset(statement) != SQLITE_OK)
            stop(sqlite3_errmsg(database));
    }

  private:
    void take_columns(Words &words) {
        if (shape == Shape::elements)
            words[0]++;
        for (int i = 0; i < sqlite3_column_count(statement); i++)
            words.push_back(sqlite3_column_int64(statement, i));
    }
    // Each key begins an element, which ends at the next one.
    void take_value(Words &words) {
        const std::int64_t key = sqlite3_column_int64(statement, 0);
        if (words[0] == 0 || words[element] != key) {
            words[0]++;
            element = words.size();
            words.insert(words.end(), {key, 0});
        }
        if (sqlite3_column_type(statement, 1) == SQLITE_NULL)
            return;
        words[element + 1]++;
        words.push_back(sqlite3_column_int64(statement, 1));
    }
    void fill(const std::string &name, const Rows &table) {
        execute("CREATE TABLE " + name + " (k INTEGER, v INTEGER)");
        sqlite3_stmt *insert = prepared("INSERT INTO " + name + " VALUES (?, ?)");
        for (std::size_t row = 0; row < table.count; row++) {
            sqlite3_bind_int(insert, 1, table.key(row));
            sqlite3_bind_int(insert, 2, table.value(row));
            sqlite3_step(insert);
            sqlite3_reset(insert);
        }
        sqlite3_finalize(insert);
    }
    void execute(const std::string &sql) {
        if (sqlite3_exec(database, sql.c_str(), nullptr, nullptr, nullptr) != SQLITE_OK)
            stop(sqlite3_errmsg(database));
    }
    sqlite3_stmt *prepared(const std::string &sql) {
        sqlite3_stmt *made = nullptr;
        if (sqlite3_prepare_v2(database, sql.c_str(), -1, &made, nullptr) != SQLITE_OK)
            stop(sqlite3_errmsg(database));
        return made;
    }

    Shape shape;
    // Where in the words the present element begins.
    std::size_t element = 0;
    sqlite3 *database = nullptr;
    sqlite3_stmt *statement = nullptr;
};

// ---- measuring

// Nanoseconds of processor time so far.
double now() {
    timespec time;
    clock_gettime(CLOCK_PROCESS_CPUTIME_ID, &time);
    return static_cast<double>(time.tv_sec) * 1e9 + static_cast<double>(time.tv_nsec);
}

using Run = std::function<void(Words &)>;

// Nanoseconds of the fastest run: at least five runs, and half a second of them if they are short.
// None where its words are not those wanted.
std::optional<double> fastest(const Run &run, const Words &wanted) {
    Words words;
    run(words);
    if (words != wanted)
        return std::nullopt;
    double least = 1e18, spent = 0;
    for (int runs = 0; runs < 5 || (spent < 5e8 && runs < 2000); runs++) {
        const double start = now();
        run(words);
        const double taken = now() - start;
        least = std::min(least, taken);
        spent += taken;
    }
    return least;
}

// Begins a line with the query's name.
void print_name(const std::string &name) { std::printf("%-22s", name.c_str()); }

bool another_answer(const std::string &name, const char *way) {
    print_name(name);
    std::printf(" no times: %s gives another answer than by hand\n", way);
    return false;
}

// A ratio that no query should exceed.
struct Bar {
    std::string what;
    double most;
    std::vector<std::pair<double, std::string>> ratios = {};

    void add(const std::string &query, double ratio) { ratios.push_back({ratio, query}); }

    // The ratios that exceed it, or the greatest.
    void print() const {
        std::printf("bar: %s at most %.1f on every query, ", what.c_str(), most);
        const auto &[greatest, name] = *std::max_element(ratios.begin(), ratios.end());
        if (greatest <= most) {
            std::printf("met: %.2f at most (%s)\n", greatest, name.c_str());
            return;
        }
        const char *before = "not met:";
        for (const auto &[ratio, of] : ratios)
            if (ratio > most) {
                std::printf("%s %s %.2f", before, of.c_str(), ratio);
                before = ",";
            }
        std::printf("\n");
    }
};

// ---- both ways and portions beside SQLite and by hand

enum Way { by_loops, by_plan, in_portions, by_sqlite, by_hand, ways_count };

constexpr const char *way_names[ways_count] = {"by loops", "by plan", "portions", "SQLite",
                                               "by hand"};

class Comparison {
  public:
    void print_heading() const {
        print_name("");
        std::printf(" %49s  %17s  %17s  %26s  %11s\n", "us for the whole answer",
                    "ns a pair or row", "by loops to", "by plan to", "portions to");
        print_name("");
        for (const char *name : way_names)
            std::printf(" %9s", name);
        std::printf("  %8s %8s  %8s %8s  %8s %8s %8s  %11s\n", "by loops", "by plan", "SQLite",
                    "by hand", "SQLite", "by hand", "by loops", "by plan");
    }

    // Measures one query and prints its line; false where the answers differ.
    bool measure(const Query &query, const Input &input) {
        Engine loops(dislogha::answer_by_loops), plan(dislogha::answer_by_plan),
            portions(answer_in_portions);
        Sqlite sqlite(query.shape, query.sql, input);
        const Run runs[ways_count] = {
            [&](Words &words) { loops.run(input, by_row, words); },
            [&](Words &words) { plan.run(input, by_row, words); },
            [&](Words &words) { portions.run(input, by_row, words); },
            [&](Words &words) { sqlite.run(words); },
            [&](Words &words) { words = query.by_hand(input.tables); },
        };
        const Words wanted = query.by_hand(input.tables);
        Times ns;
        for (std::size_t way = 0; way < ways_count; way++) {
            const std::optional<double> least = fastest(runs[way], wanted);
            if (!least)
                return another_answer(query.name, way_names[way]);
            ns[way] = *least;
        }
        plan_to_loops.add(query.name, ns[by_plan] / ns[by_loops]);
        report(query.name, ns, input.steps());
        return query.joined_sql == nullptr || measure_joined(query, input, wanted, ns);
    }

    void print_bars() const {
        loops_to_sqlite.print();
        plan_to_sqlite.print();
        plan_to_loops.print();
    }

  private:
    using Times = double[ways_count];

    // The same times beside those of the joined query.
    bool measure_joined(const Query &query, const Input &input, const Words &wanted, Times &ns) {
        const std::string name = std::string(query.name) + " joined";
        Sqlite sqlite(query.shape, query.joined_sql, input);
        const auto least = fastest([&](Words &words) { sqlite.run(words); }, wanted);
        if (!least)
            return another_answer(name, way_names[by_sqlite]);
        ns[by_sqlite] = *least;
        report(name, ns, input.steps());
        return true;
    }

    void report(const std::string &name, const Times &ns, double steps) {
        loops_to_sqlite.add(name, ns[by_loops] / ns[by_sqlite]);
        plan_to_sqlite.add(name, ns[by_plan] / ns[by_sqlite]);
        print_name(name);
        for (const double time : ns)
            std::printf(" %9.0f", time / 1e3);
        std::printf("  %8.2f %8.2f", ns[by_loops] / steps, ns[by_plan] / steps);
        std::printf("  %8.2f %8.2f", ns[by_loops] / ns[by_sqlite], ns[by_loops] / ns[by_hand]);
        std::printf("  %8.2f %8.2f %8.2f", ns[by_plan] / ns[by_sqlite], ns[by_plan] / ns[by_hand],
                    ns[by_plan] / ns[by_loops]);
        std::printf("  %11.2f\n", ns[in_portions] / ns[by_plan]);
        std::fflush(stdout);
    }

    Bar loops_to_sqlite{"by loops to SQLite", 1};
    Bar plan_to_sqlite{"by plan to SQLite", 1};
    Bar plan_to_loops{"by plan to by loops", 1.5};
};

// ---- both ways over variants of a query's tables

// The tables and kind, and how many nanoseconds are one of the unit that is printed.
struct Variant {
    const Input &input;
    Kind kind;
    double unit;
};

// Times over each variant, one behind the other, and their ratios to the first's; a bar is on the
// last one's.
class Variation {
  public:
    Variation(const char *unit, const std::vector<std::string> &labels, const std::string &ratio,
              double most)
        : unit(unit),
          labels(labels), bars{{ratio + " by loops", most}, {ratio + " by plan", most}} {}

    void print_heading() const {
        std::printf("\n");
        print_name("");
        const int width = static_cast<int>(10 * labels.size() + 7 * (labels.size() - 1));
        for (const Single &single : singles)
            std::printf("  %*s", width, (std::string(single.name) + ", " + unit).c_str());
        std::printf("\n");
        print_name("");
        for (std::size_t way = 0; way < std::size(singles); way++)
            print_labels();
        std::printf("\n");
    }

    // Measures one query and prints its line; false where the answers differ.
    bool measure(const Query &query, const std::vector<Variant> &variants) {
        std::vector<double> times[std::size(singles)];
        for (std::size_t way = 0; way < std::size(singles); way++)
            for (const Variant &variant : variants) {
                const std::optional<double> ns = time(singles[way].call, query, variant);
                if (!ns)
                    return another_answer(query.name, singles[way].name);
                times[way].push_back(*ns / variant.unit);
            }
        print_name(query.name);
        for (std::size_t way = 0; way < std::size(singles); way++) {
            print(times[way]);
            bars[way].add(query.name, times[way].back() / times[way].front());
        }
        std::printf("\n");
        std::fflush(stdout);
        return true;
    }

    void print_bars() const {
        for (const Bar &bar : bars)
            bar.print();
    }

  private:
    struct Single {
        Engine::Call call;
        const char *name;
    };
    static constexpr Single singles[] = {{dislogha::answer_by_loops, way_names[by_loops]},
                                         {dislogha::answer_by_plan, way_names[by_plan]}};

    static std::optional<double> time(Engine::Call call, const Query &query,
                                      const Variant &variant) {
        Engine engine(call);
        return fastest([&](Words &words) { engine.run(variant.input, variant.kind, words); },
                       query.by_hand(variant.input.tables));
    }

    void print_labels() const {
        std::printf("  ");
        for (const std::string &label : labels)
            std::printf("%10s", label.c_str());
        for (std::size_t i = 1; i < labels.size(); i++)
            std::printf("%7s", "ratio");
    }

    static void print(const std::vector<double> &times) {
        std::printf("  ");
        for (const double time : times)
            std::printf("%10.2f", time);
        for (std::size_t i = 1; i < times.size(); i++)
            std::printf("%7.2f", times[i] / times[0]);
    }

    const char *unit;
    std::vector<std::string> labels;
    Bar bars[std::size(singles)];
};

bool measure_kinds(const Inputs &inputs, Variation &kinds) {
    bool equal = true;
    kinds.print_heading();
    for (const Query &query : queries) {
        const Input &input = input_named(inputs, query.name);
        equal &= kinds.measure(query, {{input, by_row, 1e3}, {input, by_column, 1e3}});
    }
    return equal;
}

// The queries that the file has with fewer rows.
bool measure_growth(const Inputs &inputs, Variation &growth) {
    bool equal = true;
    growth.print_heading();
    for (const Query &query : queries) {
        const std::string name = query.name;
        if (inputs.count(name + " at 256") == 0)
            continue;
        std::vector<Variant> variants;
        for (const std::string &line : {name + " at 256", name + " at 512", name}) {
            const Input &input = input_named(inputs, line);
            variants.push_back({input, by_row, input.steps()});
        }
        equal &= growth.measure(query, variants);
    }
    return equal;
}

int measure_all(const Inputs &inputs) {
    Comparison comparison;
    Variation kinds("us", {"by row", "by column"}, "kind 23 to kind 20", 3);
    Variation growth("ns a pair", {"256", "512", "1,024"}, "a pair at 1,024 rows to one at 256",
                     1.2);
    bool equal = true;
    std::printf("SQLite %s\n", sqlite3_libversion());
    comparison.print_heading();
    for (const Query &query : queries)
        equal &= comparison.measure(query, input_named(inputs, query.name));
    equal &= measure_kinds(inputs, kinds);
    equal &= measure_growth(inputs, growth);
    if (!equal)
        return 1;
    std::printf("\n");
    comparison.print_bars();
    kinds.print_bars();
    growth.print_bars();
    return 0;
}

int once(const Input &input, const std::string &way, Kind kind) {
    Words words;
    Engine engine(way == "plan"       ? dislogha::answer_by_plan
                  : way == "portions" ? answer_in_portions
                                      : dislogha::answer_by_loops);
    const auto number = static_cast<unsigned long long>(engine.run(input, kind, words));
    std::printf("by %s: number %llu, %zu words\n", way.c_str(), number, words.size());
    return 0;
}

} // namespace

int main(int count, char **arguments) {
    const bool columns = count == 5 && std::string(arguments[4]) == "columns";
    if (count != 2 && count != 4 && !columns)
        stop("arguments: the file that bench/inputs.py writes; a query's name, \"loops\", "
             "\"plan\" or \"portions\"; \"columns\"");
    const Inputs inputs = read(arguments[1]);
    if (count == 2)
        return measure_all(inputs);
    return once(input_named(inputs, arguments[2]), arguments[3], columns ? by_column : by_row);
}
