#include "files/machine_file.h"

#include <cinttypes>

#include "base/text.h"
#include "files/toml.h"

namespace {

enum class Kind { Number, Power, PowerOrZero, Predictor, Policy, RamBase, RamSize };

struct Row {
    const char *section, *name;
    Kind kind;
    int64_t lowest, highest;
    uint32_t Parameters::*field;

    std::string full_name() const {
        return section[0] ? section + ("." + std::string(name)) : name;
    }
};

// The keys in the order of their tests. Definition: crates/machine_file/specs/Table.antt.
const Row rows[] = {
    {"", "version", Kind::Number, 1, 2, &Parameters::version},
    {"ram", "base", Kind::RamBase, 0x20000000, 0xFFFFF000, &Parameters::ram_base},
    {"ram", "size", Kind::RamSize, 4096, 67108864, &Parameters::ram_size},
    {"core", "fetch", Kind::Number, 1, 8, &Parameters::core_fetch},
    {"core", "commit", Kind::Number, 1, 8, &Parameters::core_commit},
    {"core", "front", Kind::Number, 1, 32, &Parameters::core_front},
    {"core", "window", Kind::Number, 1, 256, &Parameters::core_window},
    {"core", "stations", Kind::Number, 1, 256, &Parameters::core_stations},
    {"alu", "count", Kind::Number, 1, 8, &Parameters::alu_count},
    {"alu", "latency", Kind::Number, 1, 64, &Parameters::alu_latency},
    {"mul", "count", Kind::Number, 1, 8, &Parameters::mul_count},
    {"mul", "latency", Kind::Number, 1, 64, &Parameters::mul_latency},
    {"div", "count", Kind::Number, 1, 8, &Parameters::div_count},
    {"div", "latency", Kind::Number, 1, 64, &Parameters::div_latency},
    {"mem", "count", Kind::Number, 1, 8, &Parameters::mem_count},
    {"mem", "latency", Kind::Number, 1, 64, &Parameters::mem_latency},
    {"predictor", "kind", Kind::Predictor, 0, 0, &Parameters::predictor_kind},
    {"predictor", "counters", Kind::Power, 1, 65536, &Parameters::predictor_counters},
    {"predictor", "history", Kind::Number, 0, 16, &Parameters::predictor_history},
    {"predictor", "targets", Kind::PowerOrZero, 0, 65536, &Parameters::predictor_targets},
    {"icache", "line", Kind::Power, 4, 256, &Parameters::icache_line},
    {"dcache", "line", Kind::Power, 4, 256, &Parameters::dcache_line},
    {"icache", "sets", Kind::Power, 1, 4096, &Parameters::icache_sets},
    {"dcache", "sets", Kind::Power, 1, 4096, &Parameters::dcache_sets},
    {"icache", "ways", Kind::Number, 0, 16, &Parameters::icache_ways},
    {"dcache", "ways", Kind::Number, 0, 16, &Parameters::dcache_ways},
    {"icache", "miss", Kind::Number, 0, 1000, &Parameters::icache_miss},
    {"dcache", "miss", Kind::Number, 0, 1000, &Parameters::dcache_miss},
    // Keys of version 2 alone.
    {"dcache", "policy", Kind::Policy, 0, 0, &Parameters::dcache_policy},
    {"l2", "line", Kind::Power, 4, 256, &Parameters::l2_line},
    {"l2", "sets", Kind::Power, 1, 65536, &Parameters::l2_sets},
    {"l2", "ways", Kind::Number, 0, 16, &Parameters::l2_ways},
    {"l2", "hit", Kind::Number, 0, 1000, &Parameters::l2_hit},
    {"l2", "miss", Kind::Number, 0, 1000, &Parameters::l2_miss},
};
constexpr size_t rows_of_version_1 = 28;

// The rows that a file of its version has.
class Table {
public:
    explicit Table(const TomlValue& file) : file_(file) {
        auto version = file.entries.find("version");
        bool is_second = version != file.entries.end() &&
                         version->second.kind == TomlValue::Kind::Integer &&
                         version->second.integer == 2;
        count_ = is_second ? std::size(rows) : rows_of_version_1;
    }

    void test_names() const {
        for (const auto& [name, value] : file_.entries) {
            if (has_row("", name)) continue;
            if (!has_section(name)) throw MachineFault{"unknown " + name};
            for (const auto& entry : value.entries)
                if (!has_row(name, entry.first))
                    throw MachineFault{"unknown " + name + "." + entry.first};
        }
    }

    Parameters read() const {
        Parameters parameters;
        for (size_t k = 0; k < count_; k++)
            read_row(rows[k], parameters);
        return parameters;
    }

private:
    const TomlValue& file_;
    size_t count_;

    bool has_row(const std::string& section, const std::string& name) const {
        for (size_t k = 0; k < count_; k++)
            if (section == rows[k].section && name == rows[k].name) return true;
        return false;
    }

    bool has_section(const std::string& name) const {
        for (size_t k = 0; k < count_; k++)
            if (rows[k].section[0] && name == rows[k].section) return true;
        return false;
    }

    static const TomlValue* find(const TomlValue& table, const std::string& name) {
        auto entry = table.entries.find(name);
        return entry == table.entries.end() ? nullptr : &entry->second;
    }

    const TomlValue* value_of(const Row& row) const {
        if (!row.section[0]) return find(file_, row.name);
        const TomlValue* section = find(file_, row.section);
        if (!section) return nullptr;
        if (!section->is_table()) throw MachineFault{std::string("kind ") + row.section};
        return find(*section, row.name);
    }

    void read_row(const Row& row, Parameters& parameters) const {
        const TomlValue* value = value_of(row);
        if (row.kind == Kind::Predictor || row.kind == Kind::Policy) {
            if (value) parameters.*row.field = read_choice(row, *value);
            return;
        }
        int64_t number = parameters.*row.field;
        if (value) {
            if (value->kind != TomlValue::Kind::Integer)
                throw MachineFault{"kind " + row.full_name()};
            number = value->integer;
        }
        test_number(row, number, parameters);
        parameters.*row.field = (uint32_t)number;
    }

    static uint32_t read_choice(const Row& row, const TomlValue& value) {
        static const std::vector<std::string> predictors{"static", "bimodal", "gshare"},
            policies{"through", "back"};
        const auto& choices = row.kind == Kind::Predictor ? predictors : policies;
        if (value.kind == TomlValue::Kind::Text)
            for (uint32_t k = 0; k < choices.size(); k++)
                if (value.text == choices[k]) return k;
        throw MachineFault{"kind " + row.full_name()};
    }

    // The size of RAM is tested even where the file is silent, since it stands behind the base.
    static void test_number(const Row& row, int64_t number, const Parameters& parameters) {
        bool is_inside = number >= row.lowest && number <= row.highest;
        if (row.kind == Kind::RamBase || row.kind == Kind::RamSize)
            is_inside = is_inside && number % 4096 == 0;
        if (row.kind == Kind::RamSize)
            is_inside = is_inside && (uint64_t)parameters.ram_base + (uint64_t)number <= 1ull << 32;
        std::string text = row.full_name() + formatted(" %" PRId64, number);
        if (!is_inside) throw MachineFault{"range " + text};
        bool is_power = number > 0 && (number & (number - 1)) == 0;
        if ((row.kind == Kind::Power && !is_power) ||
            (row.kind == Kind::PowerOrZero && number != 0 && !is_power))
            throw MachineFault{"power " + text};
    }
};

}  // namespace

Parameters read_machine(const std::string& bytes) {
    TomlValue file;
    try {
        file = read_toml(bytes);
    } catch (NotToml&) {
        throw MachineFault{"not toml"};
    }
    Table table(file);
    table.test_names();
    return table.read();
}
